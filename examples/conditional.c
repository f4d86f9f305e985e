/* Plans of a venue are open to crew from level 3 on. A condition says so in the entry itself, and what is known of the one who
 * asks comes as a table of names and numbers. First the condition is evaluated by itself. Then three folders: one that only the
 * condition opens, one that is closed to crew who are away by a conditional deny, and one with a plain entry behind the
 * condition. Nothing known of the level or of being away is unknown: it grants nothing, and it denies. */
#include <inttypes.h>
#include <stdio.h>

#include "pipeteasel.h"

enum { READ = 1 };

#define CREW 1, 1, 0, 0, 0, 0, 0, 5, 80, 0, 0, 0        /* S-1-5-80 */
#define FREELANCERS 1, 1, 0, 0, 0, 0, 0, 5, 81, 0, 0, 0 /* S-1-5-81 */

/* Names have 16-bit units: 10 bytes and 8. */
#define LEVEL 'l', 0, 'e', 0, 'v', 0, 'e', 0, 'l', 0
#define AWAY 'a', 0, 'w', 0, 'a', 0, 'y', 0

#define EXPRESSION 'a', 'r', 't', 'x'
#define NAME(length) 0xF8, length, 0, 0, 0
#define NUMBER(n) 4, n, 0, 0, 0, 0, 0, 0, 0, 3, 2 /* without a sign, decimal */
#define NOT_EQUAL 0x81
#define AT_LEAST 0x85

/* 31 bytes and a zero; 29 bytes and three. */
#define FROM_LEVEL_3 EXPRESSION, NAME(10), LEVEL, NUMBER(3), AT_LEAST, 0
#define IS_AWAY EXPRESSION, NAME(8), AWAY, NUMBER(0), NOT_EQUAL, 0, 0, 0

static const uint8_t from_level_3[] = {FROM_LEVEL_3};

static const uint8_t by_level[] = {
    2, 0, 60, 0, 1, 0, 0, 0,                          /* one entry: */
    9, 0, 52, 0, READ, 0, 0, 0, CREW, FROM_LEVEL_3    /* allow the crew to read, from level 3 on */
};
static const uint8_t not_away[] = {
    2, 0, 80, 0, 2, 0, 0, 0,                          /* two entries: */
    10, 0, 52, 0, READ, 0, 0, 0, CREW, IS_AWAY,       /* deny the crew to read, where one is away */
    0, 0, 20, 0, READ, 0, 0, 0, CREW                  /* allow the crew to read */
};
static const uint8_t by_level_or_not[] = {
    2, 0, 80, 0, 2, 0, 0, 0,                          /* two entries: */
    9, 0, 52, 0, READ, 0, 0, 0, CREW, FROM_LEVEL_3,   /* allow the crew to read, from level 3 on */
    0, 0, 20, 0, READ, 0, 0, 0, FREELANCERS           /* allow freelancers to read */
};

static const uint8_t held[] = {CREW, FREELANCERS};
static const size_t crew_alone = 12; /* bytes */
static const uint8_t type[16] = {0};

#define IS(n) n, 0, 0, 0, 0, 0, 0, 0
#define MINUS_1 255, 255, 255, 255, 255, 255, 255, 255

static const uint8_t level_3[] = {10, 0, LEVEL, IS(3)}, level_2[] = {10, 0, LEVEL, IS(2)};
static const uint8_t below_zero[] = {10, 0, LEVEL, MINUS_1};
static const uint8_t twice[] = {10, 0, LEVEL, IS(3), 10, 0, LEVEL, IS(3)};
static const uint8_t here[] = {8, 0, AWAY, IS(0)}, away[] = {8, 0, AWAY, IS(1)};

static void evaluated(const char *what, size_t expression_len, const uint8_t *table, size_t table_len)
{
    static const char *const truths[] = {"false", "true", "unknown"};
    uint32_t answer[8];

    pt_evaluate(from_level_3, expression_len, table, table_len, answer);
    if (answer[0] == PT_DONE)
        printf("  %s: %s\n", what, truths[answer[3]]);
    else
        printf("  %s: refused: %" PRIu32 "\n", what, answer[0]);
}

static void show(const char *what, const uint32_t answer[8])
{
    if (answer[0] == PT_DONE)
        printf("  %s: %s\n", what, answer[3] ? "yes" : "no");
    else
        printf("  %s: refused: %" PRIu32 "\n", what, answer[0]);
}

static void asked(const char *what, const uint8_t *list, size_t list_len, size_t held_len, const uint8_t *table, size_t table_len)
{
    uint32_t answer[8];

    pt_may_open_with(1, list, list_len, type, held, held_len, READ, table, table_len, answer);
    show(what, answer);
}

int main(void)
{
    uint32_t answer[8];

    printf("the condition by itself\n");
    evaluated("level 3", sizeof from_level_3, level_3, sizeof level_3);
    evaluated("level 2", sizeof from_level_3, level_2, sizeof level_2);
    evaluated("level -1", sizeof from_level_3, below_zero, sizeof below_zero);
    evaluated("nothing known", sizeof from_level_3, NULL, 0);
    evaluated("level 3, the zero left out", sizeof from_level_3 - 1, level_3, sizeof level_3);
    evaluated("level 3, the comparison left out", sizeof from_level_3 - 2, level_3, sizeof level_3);
    evaluated("a level given twice", sizeof from_level_3, twice, sizeof twice);

    printf("crew from level 3 on\n");
    asked("level 3", by_level, sizeof by_level, crew_alone, level_3, sizeof level_3);
    asked("level 2", by_level, sizeof by_level, crew_alone, level_2, sizeof level_2);
    asked("nothing known", by_level, sizeof by_level, crew_alone, NULL, 0);
    asked("a level given twice", by_level, sizeof by_level, crew_alone, twice, sizeof twice);
    pt_may_open(1, by_level, sizeof by_level, type, held, crew_alone, READ, answer);
    show("asked without a table", answer);

    printf("crew who aren't away\n");
    asked("here", not_away, sizeof not_away, crew_alone, here, sizeof here);
    asked("away", not_away, sizeof not_away, crew_alone, away, sizeof away);
    asked("nothing known", not_away, sizeof not_away, crew_alone, NULL, 0);

    printf("crew from level 3 on, and freelancers\n");
    asked("level 2", by_level_or_not, sizeof by_level_or_not, crew_alone, level_2, sizeof level_2);
    asked("level 2, a freelancer too", by_level_or_not, sizeof by_level_or_not, sizeof held, level_2, sizeof level_2);
    asked("nothing known, a freelancer too", by_level_or_not, sizeof by_level_or_not, sizeof held, NULL, 0);
    return 0;
}

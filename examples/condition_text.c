/* An administrator types who may open the plans: crew from level 3 on, but not those of departments 2 and 7. The text is
 * translated to the stored form that a conditional entry carries, which is shown and evaluated for three people; what isn't known
 * of somebody is unknown. Then come texts that are refused, each with a mark under the byte where it goes wrong, or under its
 * end where it stops too early. */
#include <inttypes.h>
#include <stdio.h>
#include <string.h>

#include "pipeteasel.h"

/* As many bytes as any text can need. */
enum { ROOM = 1255 };

/* Names have 16-bit units: 10 bytes and 8. */
#define LEVEL 'l', 0, 'e', 0, 'v', 0, 'e', 0, 'l', 0
#define DEPT 'd', 0, 'e', 0, 'p', 0, 't', 0
#define IS(n) n, 0, 0, 0, 0, 0, 0, 0

static const uint8_t ann[] = {10, 0, LEVEL, IS(4), 8, 0, DEPT, IS(1)};
static const uint8_t ben[] = {10, 0, LEVEL, IS(5), 8, 0, DEPT, IS(7)};
static const uint8_t eve[] = {10, 0, LEVEL, IS(3)};

static void show_bytes(const uint8_t *bytes, size_t len)
{
    for (size_t i = 0; i < len; i++)
        printf("%s%02X", i % 24 ? " " : i ? "\n  " : "  ", bytes[i]);
    printf("\n");
}

static void show_for(const char *who, const uint8_t *form, size_t form_len, const uint8_t *table, size_t table_len)
{
    static const char *const truths[] = {"false", "true", "unknown"};
    uint32_t answer[8];

    pt_evaluate(form, form_len, table, table_len, answer);
    if (answer[0] == PT_DONE)
        printf("  %s: %s\n", who, truths[answer[3]]);
    else
        printf("  %s: refused: %" PRIu32 "\n", who, answer[0]);
}

/* Shows what comes of a text; gives the stored form's length, 0 where there is none. */
static size_t typed(const char *text, uint8_t *form, size_t room)
{
    uint32_t answer[8];

    printf("%s\n", text);
    pt_condition((const uint8_t *)text, strlen(text), form, room, answer);
    switch (answer[0]) {
    case PT_DONE:
        printf("  %" PRIu32 " bytes, %" PRIu32 " tokens\n", answer[3], answer[5]);
        return answer[3];
    case PT_TEXT:
        printf("%*s^ not a condition\n", (int)answer[2], "");
        return 0;
    case PT_LARGE:
        printf("  more than a stored condition may hold\n");
        return 0;
    default:
        printf("  refused: %" PRIu32 "\n", answer[0]);
        return 0;
    }
}

int main(void)
{
    static const char *const wrong[] = {
        "level>=3&dept!=2",              /* one & */
        "level >=3",                     /* a blank */
        "level=>3",
        "level>=3&&(dept!=2",            /* a parenthesis left open */
        "level>=3)",
        "level",                         /* nothing to compare with */
        "level<=9223372036854775808",    /* one more than 64 bits hold */
        "level<=+3",
        "",
    };
    static char many[400] = "a==1";
    uint8_t form[ROOM];
    size_t len = typed("level>=3&&!(dept==2||dept==7)", form, sizeof form);

    show_bytes(form, len);
    show_for("level 4, department 1", form, len, ann, sizeof ann);
    show_for("level 5, department 7", form, len, ben, sizeof ben);
    show_for("level 3, department not known", form, len, eve, sizeof eve);

    for (size_t i = 0; i < sizeof wrong / sizeof *wrong; i++)
        typed(wrong[i], form, sizeof form);

    /* 17 comparisons and 16 that join them: 67 tokens */
    for (unsigned i = 0; i < 16; i++)
        strcat(many, "||a==1");
    typed(many, form, sizeof form);
    typed("a==1", form, 22);
    return 0;
}

/* Hands every call of the library random, cut, changed and well-formed bytes between guard pages, and checks that it reads and writes
 * nothing but what was lent, gives no number that the documents don't give that call, changes nothing that was lent where it refuses, and
 * doesn't look at spare bytes behind a list's entries, but for pt_compare, which tells whether they differ.
 * Usage: hostile [CALLS [SEED]]. The same two numbers make the same calls. Ends with 1 at the first fault, and where a number that a
 * call can give, or a list with spare bytes, came less often than it must. `hostile touch` touches a guard page itself, which must be
 * seen as a fault. */
#include <stdio.h>
#include <stdlib.h>
#include <string.h>

#include "lend.h"
#include "make.h"
#include "cases.h"
#include "rooms.h"

enum { NUMBERS = 24 };

/* Which numbers a call can give: the documents' orders. */
enum {
    DONE = 1 << 0,
    LIST = 1 << 1 | 1 << 2 | 1 << 3 | 1 << 4 | 1 << 5 | 1 << 15,
    IDENTITY = 1 << 6,
    TYPES_7 = 1 << 7,
    NO_ROOM = 1 << 8,
    NO_OBJECT = 1 << 9,
    FULL = 1 << 10,
    NO_STEP = 1 << 11,
    RULE = 1 << 12,
    NO_TREE = 1 << 13,
    GENERIC = 1 << 14,
    EXPRESSION = 1 << 15,                     /* of pt_evaluate; elsewhere it is a list's */
    NOT_A_TEXT = 1 << 16,
    TOO_LARGE = 1 << 17,
    TOO_MANY_ENTRIES = 1 << 22,
    BAD_TABLE = 1 << 23,
    CREATOR_OWNER_OR_GROUP = 1 << 1 | 1 << 2, /* of pt_identity */
    SOME_BYTES = 1 << 1,                      /* of pt_room: any size but 0 */
    TOO_MANY_HELD = 1 << 7                    /* of pt_may_open and pt_may_open_with */
};

/* A call's weight is its share of 1,000. Cheap calls come often; calls on a tree cost more, as they look at the whole room.
 * How often each number must come in 1,000,000 calls is a quarter or a fifth of how often it does, whatever the seed. */
static struct {
    const char *name;
    uint32_t weight;
    Case *run;
    uint32_t can_give;
    uint32_t least[NUMBERS];
    uint32_t least_spare; /* done with a list that has spare bytes, handed in or given back; 0 where there is none to be had */
    uint64_t calls, spare, came[NUMBERS];
} calls[] = {
    {"pt_identity", 60, case_identity, DONE | CREATOR_OWNER_OR_GROUP | IDENTITY,
     {[0] = 9350, [1] = 780, [2] = 590, [6] = 4100}, 0, 0, 0, {0}},
    {"pt_read", 80, case_read, DONE | LIST | NO_ROOM,
     {[0] = 9700, [1] = 2050, [2] = 2250, [3] = 670, [4] = 840, [5] = 840, [8] = 2600, [15] = 500}, 2850, 0, 0, {0}},
    {"pt_step", 60, case_step, DONE | LIST,
     {[0] = 11000, [1] = 1050, [2] = 1100, [3] = 330, [4] = 430, [5] = 430, [15] = 250}, 3000, 0, 0, {0}},
    {"pt_compare", 40, case_compare, DONE | LIST | NO_ROOM | TOO_MANY_ENTRIES,
     {[0] = 5400, [1] = 380, [2] = 400, [3] = 310, [4] = 170, [5] = 170, [8] = 2300, [15] = 130, [22] = 420}, 2100, 0, 0, {0}},
    {"pt_may_open", 60, case_may_open, DONE | LIST | IDENTITY | TOO_MANY_HELD | GENERIC,
     {[0] = 9950, [1] = 300, [2] = 310, [3] = 100, [4] = 120, [5] = 110, [6] = 1500, [7] = 1000, [14] = 1300, [15] = 55}, 2150, 0, 0, {0}},
    {"pt_evaluate", 60, case_evaluate, DONE | EXPRESSION | BAD_TABLE,
     {[0] = 6500, [15] = 6750, [23] = 1700}, 0, 0, 0, {0}},
    {"pt_may_open_with", 60, case_may_open_with, DONE | LIST | IDENTITY | TOO_MANY_HELD | GENERIC | BAD_TABLE,
     {[0] = 7850, [1] = 310, [2] = 340, [3] = 75, [4] = 120, [5] = 120, [6] = 1500, [7] = 1050, [14] = 1250, [15] = 55, [23] = 2000}, 1700, 0, 0, {0}},
    {"pt_condition", 40, case_condition, DONE | NO_ROOM | NOT_A_TEXT | TOO_LARGE,
     {[0] = 3350, [8] = 2000, [16] = 3250, [17] = 560}, 0, 0, 0, {0}},
    {"pt_compute", 120, case_compute, DONE | LIST | IDENTITY | TYPES_7 | NO_ROOM | RULE,
     {[0] = 14500, [1] = 1200, [2] = 470, [3] = 150, [4] = 170, [5] = 160, [6] = 2400, [7] = 2750, [8] = 6500, [12] = 1200, [15] = 110}, 4200, 0, 0, {0}},
    {"pt_room", 30, case_room, DONE | SOME_BYTES,
     {[0] = 3200, [1] = 4200}, 0, 0, 0, {0}},
    {"pt_start", 35, case_start, DONE | LIST | NO_ROOM | RULE,
     {[0] = 5300, [1] = 100, [2] = 100, [3] = 26, [4] = 36, [5] = 30, [8] = 180, [12] = 2700, [15] = 18}, 590, 0, 0, {0}},
    {"pt_add", 60, case_add, DONE | LIST | IDENTITY | NO_ROOM | NO_OBJECT | FULL | NO_TREE,
     {[0] = 4250, [1] = 140, [2] = 150, [3] = 34, [4] = 48, [5] = 42, [6] = 370, [8] = 100, [9] = 3400, [10] = 4400, [13] = 1650, [15] = 24}, 490, 0, 0, {0}},
    {"pt_set_list", 35, case_set_list, DONE | LIST | NO_ROOM | NO_OBJECT | NO_TREE,
     {[0] = 5250, [1] = 150, [2] = 170, [3] = 46, [4] = 50, [5] = 48, [8] = 140, [9] = 1650, [13] = 980, [15] = 26}, 950, 0, 0, {0}},
    {"pt_set_mark", 35, case_set_mark, DONE | NO_ROOM | NO_OBJECT | NO_TREE,
     {[0] = 5900, [8] = 50, [9] = 1650, [13] = 990}, 0, 0, 0, {0}},
    {"pt_set_owner", 35, case_set_owner, DONE | IDENTITY | NO_ROOM | NO_OBJECT | NO_TREE,
     {[0] = 5400, [6] = 530, [8] = 48, [9] = 1650, [13] = 980}, 0, 0, 0, {0}},
    {"pt_undo", 40, case_undo, DONE | NO_ROOM | NO_STEP | NO_TREE,
     {[0] = 6450, [8] = 65, [11] = 2200, [13] = 1100}, 0, 0, 0, {0}},
    {"pt_list", 30, case_list, DONE | NO_ROOM | NO_OBJECT | NO_TREE,
     {[0] = 3550, [8] = 1600, [9] = 1400, [13] = 860}, 0, 0, 0, {0}},
    {"pt_own", 30, case_own, DONE | NO_ROOM | NO_OBJECT | NO_TREE,
     {[0] = 4000, [8] = 1150, [9] = 1400, [13] = 860}, 510, 0, 0, {0}},
    {"pt_data", 30, case_data, DONE | NO_ROOM | NO_OBJECT | NO_TREE,
     {[0] = 3200, [8] = 1900, [9] = 1400, [13] = 840}, 0, 0, 0, {0}},
    {"pt_counts", 30, case_counts, DONE | NO_TREE,
     {[0] = 6600, [13] = 830}, 0, 0, 0, {0}},
    {"pt_play", 30, case_play, DONE | NO_ROOM,
     {[0] = 4700, [8] = 2700}, 1400, 0, 0, {0}},
};

enum { CALLS = sizeof calls / sizeof *calls };

/* What is counted over all calls, and how often it must come in 1,000,000. */
static const struct {
    const char *what;
    const uint64_t *came;
    uint32_t least;
} totals[] = {
    {"ranges lent for a second parameter", &lent_twice, 25000},
    {"lists read of 65,533 to 65,535 bytes", &long_lists, 8},
    {"lists read whose spare bytes begin like an entry", &entry_lists, 1100},
    {"answers yes by a list's allows", &decisions[ALLOWED], 1700},
    {"answers no by a deny", &decisions[DENIED], 2700},
    {"answers no as no entry has a bit", &decisions[NOT_SAID], 9200},
    {"steps to an entry", &entry_steps, 5700},
    {"steps with no entry left", &last_steps, 5500},
    {"expressions that are false", &truths[0], 2250},
    {"expressions that are true", &truths[1], 1900},
    {"expressions that are unknown", &truths[2], 2250},
    {"conditional entries passed over as false", &conditions[PASSED_FALSE], 680},
    {"conditional allows passed over as unknown", &conditions[PASSED_UNKNOWN], 340},
    {"conditional allows that are true", &conditions[ALLOW_TRUE], 170},
    {"conditional denies that are true", &conditions[DENY_TRUE], 160},
    {"conditional denies that are unknown", &conditions[DENY_UNKNOWN], 360},
    {"texts of 64 tokens", &texts[TEXT_OF_64], 42},
    {"texts nested 12 deep", &texts[TEXT_NESTED], 100},
    {"texts of 512 bytes that are taken", &texts[TEXT_LONGEST], 82},
    {"texts of over 512 bytes", &texts[TEXT_TOO_LONG], 580},
    {"texts that stop too early", &texts[TEXT_CUT], 460},
    {"lists side by side that are the same", &sides[SIDES_SAME], 1200},
    {"lists side by side whose headers alone differ", &sides[SIDES_HEADERS], 42},
    {"lists side by side whose spare bytes alone differ", &sides[SIDES_SPARE], 85},
    {"lists side by side with no entry in common", &sides[SIDES_APART], 200},
    {"lists side by side of which one has 128 entries", &sides[SIDES_FULL], 120},
    {"lists side by side where another way is as short", &sides[SIDES_CHOSEN], 2300},
};

enum { TOTALS = sizeof totals / sizeof *totals };

/* Runs of fewer calls are too short to ask how often each number came. */
enum { MILLION = 1000000, FEWEST_ASKED = 100000 };

static int choose_call(void)
{
    uint32_t share = pick(1000);
    int i = 0;

    while (share >= calls[i].weight)
        share -= calls[i++].weight;
    return i;
}

static int can_give(int i, int number)
{
    return calls[i].can_give >> number & 1;
}

static void run_one(void)
{
    int i = choose_call();
    uint32_t number;

    fault_call = calls[i].name;
    spare_lists = 0;
    number = calls[i].run();
    if (number >= NUMBERS || !can_give(i, (int)number))
        fault("number %u isn't one of this call's", number);
    take_back();
    calls[i].calls++;
    calls[i].came[number]++;
    calls[i].spare += number == 0 && spare_lists > 0;
}

/* Each number that a call can give is asked for, and no other. */
static void check_table(void)
{
    int i, number;

    for (i = 0; i < CALLS; i++)
        for (number = 0; number < NUMBERS; number++)
            if (can_give(i, number) != (calls[i].least[number] > 0))
                fault("the table asks for number %d of %s, or doesn't, against the documents", number, calls[i].name);
}

/* Numbers that a call can give and didn't are shown with a 0. */
static void print_tally(void)
{
    int i, number;

    printf("how often each number came (pt_room: 0, or 1 for a size), and 0 with spare bytes in a list\n");
    for (i = 0; i < CALLS; i++) {
        printf("%-16s %7llu calls:", calls[i].name, (unsigned long long)calls[i].calls);
        for (number = 0; number < NUMBERS; number++)
            if (can_give(i, number))
                printf("  %d: %llu", number, (unsigned long long)calls[i].came[number]);
        if (calls[i].least_spare)
            printf("  spare: %llu", (unsigned long long)calls[i].spare);
        printf("\n");
    }
    for (i = 0; i < TOTALS; i++)
        printf("%llu %s\n", (unsigned long long)*totals[i].came, totals[i].what);
}

/* How often something must come in this many calls: at least once. */
static uint64_t least_in(uint64_t made, uint64_t in_a_million)
{
    uint64_t least = in_a_million * made / MILLION;

    return least ? least : 1;
}

static int is_seldom(int i, int number, uint64_t made)
{
    uint64_t came = calls[i].came[number], least = least_in(made, calls[i].least[number]);

    if (can_give(i, number) && came < least) {
        printf("too seldom: %s gave %d %llu times, and must %llu times\n", calls[i].name, number, (unsigned long long)came, (unsigned long long)least);
        return 1;
    }
    return 0;
}

static int is_spare_seldom(int i, uint64_t made)
{
    uint64_t came = calls[i].spare, least = least_in(made, calls[i].least_spare);

    if (calls[i].least_spare && came < least) {
        printf("too seldom: %s had spare bytes %llu times, and must %llu times\n", calls[i].name, (unsigned long long)came, (unsigned long long)least);
        return 1;
    }
    return 0;
}

/* How much came less often than it must; each is named. */
static int count_seldom(uint64_t made)
{
    int i, number, seldom = 0;

    if (made < FEWEST_ASKED) {
        printf("fewer than %d calls: how often each number came is not asked\n", FEWEST_ASKED);
        return 0;
    }
    for (i = 0; i < TOTALS; i++)
        if (*totals[i].came < least_in(made, totals[i].least)) {
            printf("too seldom: %s\n", totals[i].what);
            seldom++;
        }
    for (i = 0; i < CALLS; i++) {
        for (number = 0; number < NUMBERS; number++)
            seldom += is_seldom(i, number, made);
        seldom += is_spare_seldom(i, made);
    }
    return seldom;
}

static int touch_a_guard(void)
{
    const volatile uint8_t *behind;

    lend(FIRST, PAGE);
    behind = lent[FIRST].at + PAGE;
    printf("a touched guard page wasn't seen, and held %u\n", (unsigned)*behind);
    return 0;
}

int main(int argc, char **argv)
{
    uint64_t wanted = argc > 1 ? strtoull(argv[1], NULL, 10) : 1000000;

    fault_seed = argc > 2 ? strtoull(argv[2], NULL, 10) : 1;
    make_seed(fault_seed);
    check_table();
    lend_prepare();
    if (argc > 1 && !strcmp(argv[1], "touch"))
        return touch_a_guard();
    rooms_prepare();
    for (fault_case = 1; fault_case <= wanted; fault_case++)
        run_one();
    print_tally();
    if (count_seldom(wanted))
        return 1;
    printf("%llu calls, 0 faults\n", (unsigned long long)wanted);
    return 0;
}

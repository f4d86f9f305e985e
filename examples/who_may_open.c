/* A support lead asks who may open a folder and a plan. Ada holds three SIDs: her own, the crew's and the freelancers'. The
 * folder is closed to freelancers by an entry that stands before the crew's; then the same two entries stand the other way round.
 * The plan is open to Ada where it is a lighting plan. At the end the viewer steps through the plan's list, whose four spare
 * bytes it doesn't show. */
#include <inttypes.h>
#include <stdio.h>

#include "pipeteasel.h"

enum { READ = 1, WRITE = 2 };

#define ADA 1, 2, 0, 0, 0, 0, 0, 5, 21, 0, 0, 0, 7, 0, 0, 0 /* S-1-5-21-7 */
#define CREW 1, 1, 0, 0, 0, 0, 0, 5, 80, 0, 0, 0            /* S-1-5-80 */
#define FREELANCERS 1, 1, 0, 0, 0, 0, 0, 5, 81, 0, 0, 0     /* S-1-5-81 */
#define LIGHTING 0x4C, 1, 2, 3, 4, 5, 6, 7, 8, 9, 10, 11, 12, 13, 14, 15
#define SOUND 0x53, 1, 2, 3, 4, 5, 6, 7, 8, 9, 10, 11, 12, 13, 14, 15

static const uint8_t all_three[] = {ADA, CREW, FREELANCERS};
static const size_t first_two = 28; /* bytes: without the freelancers' SID */
static const uint8_t lighting[16] = {LIGHTING}, sound[16] = {SOUND};

static const uint8_t closed[] = {
    2, 0, 48, 0, 2, 0, 0, 0,                  /* two entries: */
    1, 0, 20, 0, READ, 0, 0, 0, FREELANCERS,  /* deny freelancers to read */
    0, 0, 20, 0, READ | WRITE, 0, 0, 0, CREW  /* allow the crew to read and to write */
};
static const uint8_t turned[] = {
    2, 0, 48, 0, 2, 0, 0, 0,
    0, 0, 20, 0, READ | WRITE, 0, 0, 0, CREW,
    1, 0, 20, 0, READ, 0, 0, 0, FREELANCERS
};
static const uint8_t plan[] = {
    4, 0, 76, 0, 2, 0, 0, 0,                                /* two entries: */
    5, 0, 44, 0, READ, 0, 0, 0, 1, 0, 0, 0, LIGHTING, ADA,  /* allow Ada to read, where the object is a lighting plan */
    0, 0x0B, 20, 0, READ | WRITE, 0, 0, 0, CREW,            /* allow the crew both, but only in what is below: inherit only */
    0xAA, 0xBB, 0xCC, 0xDD                                  /* spare bytes */
};

static void show(const char *what, const uint32_t answer[8])
{
    if (answer[0] == PT_DONE)
        printf("  %s: %s\n", what, answer[3] ? "yes" : "no");
    else
        printf("  %s: refused: %" PRIu32 "\n", what, answer[0]);
}

static void show_folder(const char *which, const uint8_t *list, size_t list_len)
{
    uint32_t answer[8];

    printf("%s\n", which);
    pt_may_open(1, list, list_len, sound, all_three, sizeof all_three, READ, answer);
    show("Ada reads", answer);
    pt_may_open(1, list, list_len, sound, all_three, first_two, READ, answer);
    show("Ada reads, were she no freelancer", answer);
    pt_may_open(1, list, list_len, sound, all_three, sizeof all_three, WRITE, answer);
    show("Ada writes", answer);
    pt_may_open(1, list, list_len, sound, all_three, sizeof all_three, READ | WRITE, answer);
    show("Ada reads and writes", answer);
}

static void show_plan(void)
{
    uint32_t answer[8];

    printf("plan\n");
    pt_may_open(1, plan, sizeof plan, lighting, all_three, sizeof all_three, READ, answer);
    show("Ada reads, for lighting", answer);
    pt_may_open(1, plan, sizeof plan, sound, all_three, sizeof all_three, READ, answer);
    show("Ada reads, for sound", answer);
    pt_may_open(1, plan, sizeof plan, lighting, all_three, sizeof all_three, WRITE, answer);
    show("Ada writes, for lighting", answer);
    pt_may_open(0, NULL, 0, sound, all_three, sizeof all_three, WRITE, answer);
    show("Ada writes, were there no list", answer);
    pt_may_open(1, plan, sizeof plan, lighting, all_three, sizeof all_three, 0x80000000, answer);
    show("generic read is wanted", answer);
    pt_may_open(1, plan, sizeof plan, lighting, all_three, sizeof all_three - 1, READ, answer);
    show("the last SID is cut", answer);
}

/* The list is tested at every step, so a viewer needs no other call before. */
static void walk(const uint8_t *list, size_t list_len)
{
    uint32_t entry[8], answer[8];

    printf("the plan's list, %zu bytes\n", list_len);
    pt_step(list, list_len, 0, entry, answer);
    while (answer[4]) {
        printf("  at %" PRIu32 ": type %02" PRIX32 ", flags %02" PRIX32 ", %" PRIu32 " bytes, mask %08" PRIX32,
               answer[3], entry[0], entry[1], entry[2], entry[3]);
        printf(", object word %" PRIu32 ", SID of %" PRIu32 " bytes at %" PRIu32 ", next %" PRIu32 "\n", entry[4], entry[6],
               answer[3] + entry[5], entry[7]);
        pt_step(list, list_len, entry[7], entry, answer);
    }
    printf("  no more: number %" PRIu32 "\n", answer[0]);
}

int main(void)
{
    show_folder("folder, the deny first", closed, sizeof closed);
    show_folder("folder, the allow first", turned, sizeof turned);
    show_plan();
    walk(plan, sizeof plan);
    return 0;
}

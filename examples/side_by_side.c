/* Support is asked what somebody has changed in a folder's list. The list before the change and the one after it are laid side by side:
 * - stands before an entry that was removed, + before one that was added, and nothing before one that was kept. Then come the list
 * and a copy with another spare byte; an entry that stood twice and stands once, where the earlier one is told as kept; and two calls
 * that are refused, as the second list is damaged, and as the row is short by one element. */
#include <inttypes.h>
#include <stdio.h>
#include <string.h>

#include "pipeteasel.h"

/* As many elements as any two lists can need. */
enum { ROW = 256 };

#define ADA 1, 2, 0, 0, 0, 0, 0, 5, 21, 0, 0, 0, 7, 0, 0, 0 /* S-1-5-21-7 */
#define OWNER 1, 1, 0, 0, 0, 0, 0, 3, 0, 0, 0, 0            /* S-1-3-0, creator owner */
#define SYSTEM 1, 1, 0, 0, 0, 0, 0, 5, 18, 0, 0, 0          /* S-1-5-18 */
#define CREW 1, 1, 0, 0, 0, 0, 0, 5, 80, 0, 0, 0            /* S-1-5-80 */
#define FREELANCERS 1, 1, 0, 0, 0, 0, 0, 5, 81, 0, 0, 0     /* S-1-5-81 */
#define GUESTS 1, 1, 0, 0, 0, 0, 0, 5, 82, 0, 0, 0          /* S-1-5-82 */

#define READ 0x89, 0, 0x12, 0       /* 00120089 */
#define WRITE 0x16, 1, 0, 0         /* 00000116 */
#define READ_WRITE 0x9F, 1, 0x12, 0 /* 0012019F */
#define ALL 0xFF, 1, 0x1F, 0        /* 001F01FF */
#define GENERIC_ALL 0, 0, 0, 0x10   /* 10000000 */

/* Flags: 03 for all below, 0B only for what is below, 13 inherited and for all below. */
static const uint8_t before[] = {
    2, 0, 132, 0, 6, 0, 0, 0,              /* six entries: */
    1, 0, 20, 0, WRITE, FREELANCERS,       /* 0  removed: to keep it as 3, Ada's and the owner's would have to go */
    0, 3, 24, 0, ALL, ADA,                 /* 1  kept as 0 */
    0, 0x0B, 20, 0, GENERIC_ALL, OWNER,    /* 2  kept as 1 */
    0, 3, 20, 0, READ, CREW,               /* 3  removed: the crew's entry has another mask now */
    0, 3, 20, 0, READ, GUESTS,             /* 4  removed: nothing is left for guests */
    0, 0x13, 20, 0, ALL, SYSTEM            /* 5  kept as 4 */
};
static const uint8_t after[] = {
    2, 0, 116, 0, 5, 0, 0, 0,              /* five entries: */
    0, 3, 24, 0, ALL, ADA,
    0, 0x0B, 20, 0, GENERIC_ALL, OWNER,
    0, 3, 20, 0, READ_WRITE, CREW,         /* 2  added */
    1, 0, 20, 0, WRITE, FREELANCERS,       /* 3  added: it denies what the crew's entry has allowed already */
    0, 0x13, 20, 0, ALL, SYSTEM,
    0, 0, 0, 0                             /* spare bytes, which the list before hasn't */
};
static const uint8_t twice[] = {
    2, 0, 48, 0, 2, 0, 0, 0,
    0, 3, 20, 0, READ, CREW,               /* 0  kept, as it is the earlier one */
    0, 3, 20, 0, READ, CREW                /* 1  removed */
};
static const uint8_t once[] = {
    2, 0, 28, 0, 1, 0, 0, 0,
    0, 3, 20, 0, READ, CREW
};

/* A walk over a list, and the entry that it has come to. */
typedef struct {
    const uint8_t *list;
    size_t list_len;
    uint32_t number, entry[8], answer[8];
} Walk;

static Walk begin(const uint8_t *list, size_t list_len)
{
    Walk walk = {list, list_len, 0, {0}, {0}};

    pt_step(list, list_len, 0, walk.entry, walk.answer);
    return walk;
}

static void go_on(Walk *walk)
{
    walk->number++;
    pt_step(walk->list, walk->list_len, walk->entry[7], walk->entry, walk->answer);
}

/* The authority has its highest byte first, the numbers behind it their lowest. */
static void show_sid(const uint8_t *sid)
{
    uint64_t authority = 0;

    for (int i = 2; i < 8; i++)
        authority = authority << 8 | sid[i];
    printf("S-1-%" PRIu64, authority);
    for (int i = 0; i < sid[1]; i++) {
        const uint8_t *part = sid + 8 + 4 * i;
        printf("-%" PRIu32, part[0] | (uint32_t)part[1] << 8 | (uint32_t)part[2] << 16 | (uint32_t)part[3] << 24);
    }
}

/* Types 00, 05 and 09 allow; 01, 06 and 0A deny. */
static void show_entry(char sign, const Walk *walk)
{
    uint32_t type = walk->entry[0];

    printf("%c %-5s flags %02" PRIX32 " mask %08" PRIX32 " ", sign, type == 0 || type == 5 || type == 9 ? "allow" : "deny",
           walk->entry[1], walk->entry[3]);
    show_sid(walk->list + walk->answer[3] + walk->entry[5]);
    printf("\n");
}

/* Removed ones come first where others take their place. */
static void show_entries(Walk first, Walk second, const uint32_t *removed, const uint32_t *added, const uint32_t *end)
{
    const uint32_t *removed_end = added;

    while (first.answer[4] || second.answer[4]) {
        if (removed < removed_end && *removed == first.number) {
            show_entry('-', &first);
            go_on(&first);
            removed++;
        } else if (added < end && *added == second.number) {
            show_entry('+', &second);
            go_on(&second);
            added++;
        } else {
            show_entry(' ', &second);
            go_on(&first);
            go_on(&second);
        }
    }
}

/* row_len counts elements, not bytes. */
static void show(const char *what, const uint8_t *first, size_t first_len, const uint8_t *second, size_t second_len, size_t row_len)
{
    uint32_t row[ROW], answer[8];

    printf("%s: ", what);
    pt_compare(first, first_len, second, second_len, row, row_len, answer);
    if (answer[0] != PT_DONE) {
        printf("refused: %" PRIu32 ", list %" PRIu32 ", offset %" PRIu32 "\n", answer[0], answer[1], answer[2]);
        return;
    }
    printf("%" PRIu32 " removed, %" PRIu32 " added\n", answer[3], answer[4]);
    show_entries(begin(first, first_len), begin(second, second_len), row, row + answer[3], row + answer[3] + answer[4]);
    printf("headers: %s, spare bytes: %s\n", answer[5] & PT_HEADERS_DIFFER ? "different" : "the same",
           answer[5] & PT_SPARE_DIFFERS ? "different" : "the same");
}

int main(void)
{
    uint8_t changed[sizeof after];

    show("before and after", before, sizeof before, after, sizeof after, ROW);

    memcpy(changed, after, sizeof after);
    changed[sizeof changed - 1] = 1;
    show("after, and a copy", after, sizeof after, changed, sizeof changed, ROW);

    show("twice and once", twice, sizeof twice, once, sizeof once, ROW);

    changed[8] = 5; /* an object entry, which revision 2 doesn't know */
    show("before, and a damaged list", before, sizeof before, changed, sizeof changed, ROW);
    show("before and after, in a row of 4", before, sizeof before, after, sizeof after, 4);
    return 0;
}

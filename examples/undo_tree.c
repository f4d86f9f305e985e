/* A folder and a container below it. The folder is closed, everything below follows, and undo brings every list back. */
#include <stdio.h>
#include <stdlib.h>

#include "pipeteasel.h"

static const uint32_t mapping[4] = {0x00120089, 0x00120116, 0x001200A0, 0x001F01FF};
static const uint8_t type[16] = {0};
static const uint8_t owner[] = {1, 1, 0, 0, 0, 0, 0, 5, 18, 0, 0, 0}; /* S-1-5-18 */
static const uint8_t open_list[] = {2, 0, 28, 0, 1, 0, 0, 0,            /* one entry: */
                                    0, 3, 20, 0, 0, 0, 0, 0x80,         /* allow, for all below, generic read */
                                    1, 1, 0, 0, 0, 0, 0, 3, 0, 0, 0, 0}; /* to S-1-3-0, creator owner */
static const uint8_t closed_list[] = {2, 0, 8, 0, 0, 0, 0, 0};          /* present, with no entry */

static uint8_t *room;
static size_t room_len;

static void show(const char *when) {
    uint32_t counts[8], answer[8];
    uint8_t list[1024];
    pt_counts(room, room_len, counts);
    printf("%s: %u objects, %u kept steps\n", when, counts[3], counts[5]);
    for (uint32_t i = 0; i < counts[3]; i++) {
        pt_list(room, room_len, i, list, sizeof list, answer);
        if (answer[4])
            printf("  %u: %u bytes, %u entries\n", i, answer[3], answer[5]);
        else
            printf("  %u: none\n", i);
    }
}

int main(void) {
    uint32_t answer[8];
    room_len = pt_room(16, 16);
    room = malloc(room_len);
    if (!room)
        return 1;
    pt_start(room, room_len, 16, 16, 2, mapping, 0, NULL, 0, answer);
    pt_add(room, room_len, PT_NO_PARENT, PT_IS_CONTAINER | PT_HAS_LIST, type, owner, sizeof owner, owner, sizeof owner,
           open_list, sizeof open_list, answer);
    pt_add(room, room_len, 0, PT_IS_CONTAINER, type, owner, sizeof owner, owner, sizeof owner, NULL, 0, answer);
    show("open");
    pt_set_list(room, room_len, 0, 1, closed_list, sizeof closed_list, answer);
    show("closed");
    pt_undo(room, room_len, answer);
    show("undone");
    for (int i = 0; i < 3; i++) {
        pt_undo(room, room_len, answer);
        printf("undo: %u\n", answer[0]);
    }
    show("empty");
    free(room);
    return 0;
}

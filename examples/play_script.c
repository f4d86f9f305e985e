/* Document 01's script, held in memory: with 23 bytes for the text there is no room; with 24 the listing is written. */
#include <inttypes.h>
#include <stdio.h>

#include "pipeteasel.h"

/* AXS, version 1. A folder whose list grants its creator owner to read, for everything below; and a folder below it. */
static const uint8_t script[] = {
    'A', 'X', 'S', 1, 0,
    1, 0xFF, 1, 0, 0, 0, 0, 0, 0, 0, 0, 0, 0, 0, 0, 0, 0, 0, 0, 0,
    12, 1, 1, 0, 0, 0, 0, 0, 5, 18, 0, 0, 0,
    12, 1, 1, 0, 0, 0, 0, 0, 5, 18, 0, 0, 0,
    28, 0, 2, 0, 28, 0, 1, 0, 0, 0, 0, 3, 20, 0, 0, 0, 0, 0x80, 1, 1, 0, 0, 0, 0, 0, 3, 0, 0, 0, 0,
    1, 0, 1, 0, 0, 0, 0, 0, 0, 0, 0, 0, 0, 0, 0, 0, 0, 0, 0, 0,
    12, 1, 1, 0, 0, 0, 0, 0, 5, 18, 0, 0, 0,
    12, 1, 1, 0, 0, 0, 0, 0, 5, 18, 0, 0, 0,
    0, 0
};

int main(void)
{
    uint8_t text[24];
    uint32_t answer[8];
    size_t room;

    for (room = 23; room <= 24; room++) {
        pt_play(script, sizeof script, text, room, answer);
        printf("room %zu: number %" PRIu32 ", %" PRIu32 " bytes, %" PRIu32 " objects\n", room, answer[0], answer[3], answer[5]);
    }
    fwrite(text, 1, answer[3], stdout);
    pt_play(script, sizeof script - 1, text, sizeof text, answer);
    fwrite(text, 1, answer[3], stdout);
    return 0;
}

/* Document 01's K1 under rule 2: what a container below a folder inherits whose one entry grants its creator owner to read. The
 * generic bit that was granted has joined its mapping and is gone: the masks are 00120089. */
#include <inttypes.h>
#include <stdio.h>

#include "pipeteasel.h"

int main(void)
{
    const uint8_t parent[28] = {
        0x02, 0x00, 0x1C, 0x00, 0x01, 0x00, 0x00, 0x00,
        0x00, 0x03, 0x14, 0x00, 0x00, 0x00, 0x00, 0x80,
        0x01, 0x01, 0x00, 0x00, 0x00, 0x00, 0x00, 0x03, 0x00, 0x00, 0x00, 0x00
    };
    const uint8_t system[12] = {1, 1, 0, 0, 0, 0, 0, 5, 18, 0, 0, 0};
    const uint32_t mapping[4] = {0x00120089, 0x00120116, 0x001200A0, 0x001F01FF};
    uint8_t out[50] = {0};
    uint32_t answer[8];
    size_t room, i;

    for (room = 47; room <= 48; room++) {
        pt_compute(2, PT_PARENT | PT_CONTAINER | PT_AUTO_INHERIT, mapping, parent, sizeof parent, NULL, 0, NULL, 0,
                   NULL, 0, system, sizeof system, system, sizeof system, out, room, answer);
        printf("room %zu: number %" PRIu32 ", %" PRIu32 " bytes, %" PRIu32 " entries\n", room, answer[0], answer[3], answer[5]);
    }
    for (i = 0; i < answer[3]; i++)
        printf("%02X%c", out[i], i == 7 || i == 27 || i + 1 == answer[3] ? '\n' : ' ');
    return 0;
}

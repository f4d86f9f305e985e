/* Reads document 01's parent list, the same list with four spare bytes behind its entry, and then with the entry's type spoilt;
 * and tells what two identities are. */
#include <inttypes.h>
#include <stdio.h>

#include "pipeteasel.h"

/* row_len counts elements, not bytes: a list of one entry needs a row of 1. */
static void show(const uint8_t *list, size_t list_len, size_t row_len)
{
    uint16_t row[2] = {0, 7};
    uint32_t answer[8];

    pt_read(list, list_len, row, row_len, answer);
    printf("row of %zu: ", row_len);
    if (answer[0] == PT_DONE)
        printf("%" PRIu32 " bytes, %" PRIu32 " entry, at offset %u, the entries end at %" PRIu32 "; the row goes on with %u\n",
               answer[3], answer[5], row[0], answer[7], row[1]);
    else
        printf("refused: %" PRIu32 " at offset %" PRIu32 "\n", answer[0], answer[2]);
}

int main(void)
{
    uint8_t list[32] = {
        0x02, 0x00, 0x1C, 0x00, 0x01, 0x00, 0x00, 0x00,
        0x00, 0x03, 0x14, 0x00, 0x00, 0x00, 0x00, 0x80,
        0x01, 0x01, 0x00, 0x00, 0x00, 0x00, 0x00, 0x03, 0x00, 0x00, 0x00, 0x00,
        0xAA, 0xBB, 0xCC, 0xDD
    };
    const uint8_t system[12] = {1, 1, 0, 0, 0, 0, 0, 5, 18, 0, 0, 0};

    show(list, 28, 2);
    printf("its identity: %" PRIu32 ", S-1-5-18: %" PRIu32 ", no bytes: %" PRIu32 "\n", pt_identity(list + 16, 12), pt_identity(system, sizeof system), pt_identity(NULL, 0));
    list[2] = 32; /* the size now takes in the last four bytes */
    show(list, sizeof list, 1);
    show(list, sizeof list, 0);
    list[8] = 5;
    show(list, sizeof list, 2);
    return 0;
}

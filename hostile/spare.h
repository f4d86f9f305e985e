/* Spare bytes: those between a list's last entry and its end. No call may look at them but pt_compare, which tells whether they differ. */
#ifndef SPARE_H
#define SPARE_H

#include <stddef.h>
#include <stdint.h>

/* Where the entries end by the count and their own sizes; 0 where the size isn't the length, or an entry can't be whole. */
size_t entries_end(const uint8_t *list, size_t len);
int has_spare(const uint8_t *list, size_t len);

typedef struct {
    const uint8_t *at;
    size_t len;
} Bytes;

Bytes lent_bytes(int which);
Bytes without_spare(int list); /* the lent list; where it has spare bytes, a copy without them, its size field fitted */

/* Puts a script without its lists' spare bytes and gives its length; 0 where the program says `bad at N`. Lists over 1,024 bytes, which
 * a tree refuses, stay as they are. */
size_t cut_script(const uint8_t *script, size_t len, uint8_t *to);

#endif

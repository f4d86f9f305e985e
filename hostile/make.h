/* Inputs, all from one generator: well formed, spoilt and random. Each maker writes to `to` and gives the length. */
#ifndef MAKE_H
#define MAKE_H

#include <stddef.h>
#include <stdint.h>

#include "conditions.h"

enum { SID_MOST = 68, ENTRY_MOST = 112 + EXPRESSION_MOST, LIST_MOST = 70000, SCRIPT_MOST = 200000 };

void make_seed(uint64_t seed);
uint64_t next(void);
uint32_t pick(uint32_t n);  /* 0 to n - 1 */
int chance(uint32_t n);     /* once in n */

uint16_t get16(const uint8_t *from);
uint32_t get32(const uint8_t *from);
void put16(uint8_t *to, size_t value);
void put32(uint8_t *to, uint32_t value);

void make_bytes(uint8_t *to, size_t len);
void make_guid(uint8_t to[16]);
void make_mapping(uint8_t to[16]);
size_t make_types(uint8_t *to);
size_t make_sid(uint8_t *to);                                      /* exactly one, at times a placeholder */
size_t make_identity(uint8_t *to, uint32_t spoilt);                /* once in `spoilt` anything but a good owner */
/* Of an entry that reads as done: its kind, where its SID begins, and how long it is. */
int is_object(const uint8_t *entry);
int is_conditional(const uint8_t *entry);
size_t sid_at(const uint8_t *entry);
size_t sid_len(const uint8_t *entry);

size_t make_entry(uint8_t *to, unsigned revision);                 /* a good one */
size_t make_good_list(uint8_t *to, size_t most, unsigned entries);
size_t spoil_list(uint8_t *list, size_t len);                      /* of good entries; it may stay good */
size_t pad_list(uint8_t *list, size_t len, size_t padded);         /* a list with spare bytes up to the length `padded` */
size_t add_spare(uint8_t *list, size_t len);                       /* any spare bytes; at times some of its entries become such */
size_t make_list(uint8_t *to, size_t most, uint32_t spoilt);       /* once in `spoilt` a spoilt one; often spare bytes; seldom a very long one */
size_t make_script(uint8_t *to);

#endif

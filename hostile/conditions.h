/* Expressions of conditional entries and tables of names: well formed, spoilt and random. Each maker writes to `to` and gives the length. */
#ifndef CONDITIONS_H
#define CONDITIONS_H

#include <stddef.h>
#include <stdint.h>

enum { TOKENS_MOST = 64, NAMES_MOST = 32, EXPRESSION_MOST = TOKENS_MOST * 32, TABLE_MOST = 4000 };

size_t padded(size_t len);                                   /* up to a multiple of four */
size_t make_expression(uint8_t *to, unsigned tokens);        /* a good one of at most so many tokens, without zeros */
size_t spoil_expression(uint8_t *expression, size_t len);    /* it may stay good */
size_t make_table(uint8_t *to);                              /* a well made one */
size_t spoil_table(uint8_t *table, size_t len);              /* it may stay well made */

/* Of an acceptable expression: where its tokens end, and how many they are. */
size_t tokens_end(const uint8_t *expression, size_t len);
unsigned count_tokens(const uint8_t *expression, size_t end);
int is_table(const uint8_t *table, size_t len);              /* whether it is well made */

#endif

/* Texts of conditions, as they are typed: in the grammar, spoilt and random. Each maker writes to `to` and gives the length. */
#ifndef TEXTS_H
#define TEXTS_H

#include <stddef.h>
#include <stdint.h>

enum { TEXT_MOST = 512, OPEN_MOST = 12 };

size_t make_text(uint8_t *to, unsigned comparisons);   /* in the grammar, of so many comparisons; it may be too long or too large */
size_t fill_text(uint8_t *text, size_t len, size_t filled); /* with one more comparison, up to the length `filled` if that is longer */
size_t spoil_text(uint8_t *text, size_t len);          /* it may stay in the grammar */
size_t make_any_text(uint8_t *to);                     /* any bytes that texts are made of, or any at all; seldom very many */

/* Of a text in the grammar: how many parentheses are open at most at once. */
unsigned nested(const uint8_t *text, size_t len);

#endif

#include <string.h>

#include "make.h"
#include "texts.h"

/* What texts are made of, and bytes beside those. */
static const char telling[] = "aZ09=!<>&|()-==!<&&||(())@[`{/:+ ";

static size_t put(uint8_t *to, const char *text)
{
    size_t len = strlen(text);

    memcpy(to, text, len);
    return len;
}

static size_t put_name(uint8_t *to)
{
    static const char *const few[] = {"a", "ab", "abc", "level", "Z9"};
    size_t len;

    if (!chance(8))
        return put(to, few[pick(5)]);
    for (len = 0; len < 1 + pick(20); len++)
        to[len] = (uint8_t)"kKzZaA09"[pick(len ? 8 : 6)];
    return len;
}

/* Within 64 bits: at either end, or of at most 18 digits; at times with zeros in front. */
static size_t put_integer(uint8_t *to)
{
    size_t at = 0, zeros = chance(8) ? pick(20) : 0, digits = 1 + pick(chance(4) ? 18 : 2);
    int is_negative = chance(3);

    if (is_negative)
        to[at++] = '-';
    memset(to + at, '0', zeros);
    at += zeros;
    if (chance(12))
        return at + put(to + at, is_negative ? "9223372036854775808" : "9223372036854775807");
    while (digits--)
        to[at++] = (uint8_t)('0' + pick(10));
    return at;
}

static size_t put_operand(uint8_t *to)
{
    return chance(2) ? put_name(to) : put_integer(to);
}

static size_t put_comparison(uint8_t *to)
{
    static const char *const signs[] = {"==", "!=", "<", "<=", ">", ">="};
    size_t at = put_operand(to);

    at += put(to + at, signs[pick(6)]);
    return at + put_operand(to + at);
}

/* Some nots, and parentheses with nots between: as many as asked for, as far as more may be open. */
static size_t put_openings(uint8_t *to, unsigned *open, unsigned more)
{
    size_t at = 0;

    for (; more && *open < OPEN_MOST; more--, ++*open) {
        while (chance(8))
            to[at++] = '!';
        to[at++] = '(';
    }
    while (chance(8))
        to[at++] = '!';
    return at;
}

/* One comparison behind the other, with parentheses opened and closed on the way; or none closed before the end, where each opens behind
 * an and that stands behind an or: so that what is joined waits. */
size_t make_text(uint8_t *to, unsigned comparisons)
{
    unsigned waits = chance(4), more = !waits && chance(12) ? 10 + pick(3) : 0, open = 0, i;
    size_t at = 0;

    for (i = 0; i < comparisons; i++) {
        int is_and = waits ? i % 2 == 0 : chance(2);
        if (i) {
            at += put(to + at, is_and ? "&&" : "||");
            more = waits ? (unsigned)is_and : chance(6) ? 1 + pick(3) : 0;
        }
        at += put_openings(to + at, &open, more);
        at += put_comparison(to + at);
        for (; open && !waits && chance(4); open--)
            to[at++] = ')';
    }
    for (; open; open--)
        to[at++] = ')';
    return at;
}

size_t fill_text(uint8_t *text, size_t len, size_t filled)
{
    size_t name, zeros;

    if (filled < len + 6)
        return len;
    len += put(text + len, chance(2) ? "&&" : "||");
    name = 1 + pick((uint32_t)(filled - len - 2));
    memset(text + len, 'n', name);
    text[len + name] = '<';
    zeros = filled - len - name - 1;
    memset(text + len + name + 1, '0', zeros);
    return filled;
}

static uint8_t any_byte(void)
{
    return (uint8_t)(chance(6) ? next() >> 56 : (uint8_t)telling[pick(sizeof telling)]);
}

size_t spoil_text(uint8_t *text, size_t len)
{
    size_t at = pick((uint32_t)len + 1), more;

    switch (pick(6)) {
    case 0: return at;
    case 1: text[len] = any_byte(); return len + 1;
    case 2: memmove(text + at + 1, text + at, len - at); text[at] = any_byte(); return len + 1;
    case 3:
        if (at == len)
            return len;
        memmove(text + at, text + at + 1, len - at - 1);
        return len - 1;
    case 4:
        more = 1 + pick(13);
        memmove(text + at + more, text + at, len - at);
        memset(text + at, "(!9)"[pick(4)], more);
        return len + more;
    default: text[at] = any_byte(); return at == len ? len + 1 : len;
    }
}

size_t make_any_text(uint8_t *to)
{
    size_t len = chance(20) ? 60000 + pick(10000) : chance(4) ? pick(1200) : pick(40), i;

    if (chance(3))
        make_bytes(to, len);
    else
        for (i = 0; i < len; i++)
            to[i] = any_byte();
    return len;
}

unsigned nested(const uint8_t *text, size_t len)
{
    unsigned open = 0, most = 0;
    size_t i;

    for (i = 0; i < len; i++) {
        open += text[i] == '(';
        open -= text[i] == ')';
        if (open > most)
            most = open;
    }
    return most;
}

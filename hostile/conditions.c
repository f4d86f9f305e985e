#include <string.h>

#include "make.h"
#include "conditions.h"

enum { LITERAL = 0x04, EQUAL = 0x80, EXISTS = 0x87, AND = 0xA0, OR = 0xA1, NOT = 0xA2, NAME = 0xF8 };
enum { STACK_MOST = 16, NAMES = 40, NAME_MOST = 10 };

size_t padded(size_t len)
{
    return (len + 3) & ~(size_t)3;
}

/* A few that begin each other, and others: each number is another name. */
static size_t put_name(uint8_t *to, unsigned number)
{
    static const char *const few[] = {"a", "ab", "abc", "level"};
    size_t len, i;

    if (number >= 4) {
        put16(to, 0x0100 + number);
        return 2;
    }
    len = strlen(few[number]);
    for (i = 0; i < len; i++)
        put16(to + 2 * i, (uint8_t)few[number][i]);
    return 2 * len;
}

/* Small ones, so that they are often equal; and the ends of 64 bits. */
static void put_number(uint8_t *to)
{
    uint64_t number = chance(8) ? next() : chance(4) ? (uint64_t)1 << 63 : pick(4);

    if (chance(3))
        number -= 1 + pick(2);
    put32(to, (uint32_t)number);
    put32(to + 4, (uint32_t)(number >> 32));
}

static size_t put_name_token(uint8_t *to)
{
    size_t len = put_name(to + 5, chance(4) ? pick(NAMES) : pick(4));

    to[0] = NAME;
    put32(to + 1, (uint32_t)len);
    return 5 + len;
}

static size_t put_operand(uint8_t *to)
{
    if (chance(2))
        return put_name_token(to);
    to[0] = LITERAL;
    put_number(to + 1);
    to[9] = (uint8_t)(1 + pick(3));
    to[10] = (uint8_t)(1 + pick(3));
    return 11;
}

static size_t put_exists(uint8_t *to)
{
    size_t at = put_name_token(to);

    to[at] = EXISTS;
    return at + 1;
}

static size_t put_comparison(uint8_t *to)
{
    size_t at = put_operand(to);

    at += put_operand(to + at);
    to[at] = (uint8_t)(EQUAL + pick(6));
    return at + 1;
}

/* Conditions one on the other, joined and turned at times; what stands at the end is joined to one. Each but the first asks for a token
 * that joins it. */
size_t make_expression(uint8_t *to, unsigned tokens)
{
    unsigned used = 0, standing = 0;
    size_t at = 4;

    memcpy(to, "artx", 4);
    while (!standing || (standing > 1 || !chance(4))) {
        int few = used + 3 + standing > tokens, deep = standing + 2 > STACK_MOST;
        uint32_t choice = pick(5);

        if (!standing || (choice < 2 && !few && !deep)) {
            int compares = tokens >= 3 && !chance(4);
            at += compares ? put_comparison(to + at) : put_exists(to + at);
            used += compares ? 3 : 2;
            standing++;
        } else if (choice == 2 && used + standing <= tokens) {
            to[at++] = NOT;
            used++;
        } else if (standing > 1 && (choice > 2 || few || deep)) {
            to[at++] = (uint8_t)(chance(2) ? AND : OR);
            used++;
            standing--;
        } else if (few) {
            break;
        }
    }
    return at;
}

static size_t put_in(uint8_t *bytes, size_t len, size_t at, uint8_t byte)
{
    memmove(bytes + at + 1, bytes + at, len - at);
    bytes[at] = byte;
    return len + 1;
}

static size_t change_some_byte(uint8_t *bytes, size_t len, uint8_t byte)
{
    if (len)
        bytes[pick((uint32_t)len)] = byte;
    return len;
}

size_t spoil_expression(uint8_t *expression, size_t len)
{
    static const uint8_t telling[] = {0, 1, 2, 3, 4, EQUAL, 0x85, 0x86, EXISTS, AND, OR, NOT, 0xA3, NAME, 0xF9, 0xFF};
    uint8_t byte = chance(3) ? (uint8_t)(next() >> 56) : telling[pick(sizeof telling)];
    size_t more = 1 + pick(8);

    switch (pick(6)) {
    case 0: return pick((uint32_t)len + 1);
    case 1: memset(expression + len, 0, more); return len + more;
    case 2: expression[len] = byte; return len + 1;
    case 3: return put_in(expression, len, pick((uint32_t)len + 1), byte);
    case 4: len = 4 + pick(60); memcpy(expression, "artx", 4); make_bytes(expression + 4, len - 4); return len;
    default: return change_some_byte(expression, len, byte);
    }
}

static size_t put_record(uint8_t *to, unsigned name)
{
    size_t len = put_name(to + 2, name);

    put16(to, len);
    put_number(to + 2 + len);
    return 10 + len;
}

/* From any name on, so many in a row. */
size_t make_table(uint8_t *to)
{
    unsigned names = chance(8) ? NAMES_MOST - pick(2) : pick(6), from = chance(3) ? pick(NAMES) : 0, i;
    size_t at = 0;

    for (i = 0; i < names; i++)
        at += put_record(to + at, (from + i) % NAMES);
    return at;
}

size_t spoil_table(uint8_t *table, size_t len)
{
    size_t at, first = len < 2 ? 0 : 10u + get16(table);
    unsigned i;

    switch (pick(7)) {
    case 0: return pick((uint32_t)len + 1);
    case 1: return put_in(table, len, pick((uint32_t)len + 1), (uint8_t)pick(4));
    case 2: memcpy(table + len, table, first); return len + first;
    case 3: put16(table + len, 2 * pick(2)); make_bytes(table + len + 2, 16); return len + 10 + pick(3);
    case 4:
        for (at = len, i = 0; i < NAMES_MOST; i++)
            at += put_record(table + at, 4 + i);
        return at;
    case 5: len = pick(80); make_bytes(table, len); return len;
    default: return change_some_byte(table, len, (uint8_t)(chance(2) ? pick(4) : next() >> 56));
    }
}

size_t tokens_end(const uint8_t *expression, size_t len)
{
    while (len && !expression[len - 1])
        len--;
    return len;
}

unsigned count_tokens(const uint8_t *expression, size_t end)
{
    unsigned count = 0;
    size_t at = 4;

    while (at < end) {
        at += expression[at] == LITERAL ? 11 : expression[at] == NAME ? 5u + get32(expression + at + 1) : 1;
        count++;
    }
    return count;
}

/* Where this record's name stands once more before it. */
static int came_before(const uint8_t *table, size_t at)
{
    size_t len = get16(table + at), other;

    for (other = 0; other < at; other += 10u + get16(table + other))
        if (get16(table + other) == len && !memcmp(table + other + 2, table + at + 2, len))
            return 1;
    return 0;
}

int is_table(const uint8_t *table, size_t len)
{
    size_t at = 0;
    unsigned names = 0;

    while (at < len) {
        size_t name = len - at < 2 ? 1 : get16(table + at);
        if (!name || name % 2 || len - at < 10 + name || came_before(table, at))
            return 0;
        at += 10 + name;
        names++;
    }
    return names <= NAMES_MOST;
}

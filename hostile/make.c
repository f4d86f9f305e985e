#include <string.h>

#include "make.h"
#include "conditions.h"

static uint64_t state;

void make_seed(uint64_t seed)
{
    state = seed * 0x9E3779B97F4A7C15u + 0x1234567; /* nearby seeds begin far from each other */
    if (!state)
        state = 1;
}

/* xorshift64* */
uint64_t next(void)
{
    state ^= state >> 12;
    state ^= state << 25;
    state ^= state >> 27;
    return state * 0x2545F4914F6CDD1Du;
}

uint32_t pick(uint32_t n)
{
    return (uint32_t)((next() >> 32) % n);
}

int chance(uint32_t n)
{
    return pick(n) == 0;
}

uint16_t get16(const uint8_t *from)
{
    return (uint16_t)(from[0] | from[1] << 8);
}

uint32_t get32(const uint8_t *from)
{
    return get16(from) | (uint32_t)get16(from + 2) << 16;
}

void put16(uint8_t *to, size_t value)
{
    to[0] = (uint8_t)value;
    to[1] = (uint8_t)(value >> 8);
}

void put32(uint8_t *to, uint32_t value)
{
    put16(to, value & 0xFFFF);
    put16(to + 2, value >> 16);
}

void make_bytes(uint8_t *to, size_t len)
{
    while (len >= 8) {
        uint64_t eight = next();
        memcpy(to, &eight, 8);
        to += 8;
        len -= 8;
    }
    while (len--)
        *to++ = (uint8_t)(next() >> 56);
}

/* Few different ones, so that entries' types are often among an object's. */
void make_guid(uint8_t to[16])
{
    memset(to, (int)pick(4), 16);
    if (chance(16))
        make_bytes(to, 16);
}

void make_mapping(uint8_t to[16])
{
    static const uint32_t usual[4] = {0x00120089, 0x00120116, 0x001200A0, 0x001F01FF};
    int i;

    for (i = 0; i < 4; i++)
        put32(to + 4 * i, usual[i]);
    if (chance(4))
        make_bytes(to, 16);
}

size_t make_types(uint8_t *to)
{
    size_t i;

    for (i = 0; i < 5; i++)
        make_guid(to + 16 * i);
    return chance(8) ? pick(81) : 16 * pick(5);
}

size_t make_sid(uint8_t *to)
{
    static const uint8_t creator_owner[12] = {1, 1, 0, 0, 0, 0, 0, 3, 0, 0, 0, 0};
    unsigned n;

    memcpy(to, creator_owner, 12);
    if (chance(4))
        return 12;
    to[8] = 1; /* creator group */
    if (chance(4))
        return 12;
    n = chance(4) ? pick(16) : 1;
    to[1] = (uint8_t)n;
    to[7] = (uint8_t)(chance(8) ? 3 : 5);
    make_bytes(to + 8, 4 * n);
    return 8 + 4 * n;
}

static size_t change_a_byte(uint8_t *bytes, size_t len)
{
    if (len)
        bytes[pick((uint32_t)len)] = (uint8_t)(chance(2) ? pick(34) : next() >> 56);
    return len;
}

static size_t make_spoilt_identity(uint8_t *to)
{
    size_t len = make_sid(to);

    switch (pick(5)) {
    case 0: return len;
    case 1: return pick((uint32_t)len);
    case 2: make_bytes(to + len, 4); return len + 1 + pick(4);
    case 3: return change_a_byte(to, len);
    default: len = pick(80); make_bytes(to, len); return len;
    }
}

size_t make_identity(uint8_t *to, uint32_t spoilt)
{
    size_t len;

    if (chance(spoilt))
        return make_spoilt_identity(to);
    len = make_sid(to);
    to[7] = 5; /* authority 5: no placeholder */
    return len;
}

int is_object(const uint8_t *entry)
{
    return entry[0] == 5 || entry[0] == 6;
}

int is_conditional(const uint8_t *entry)
{
    return entry[0] == 9 || entry[0] == 10;
}

size_t sid_at(const uint8_t *entry)
{
    return is_object(entry) ? 12u + 16u * (entry[8] & 1) + 16u * (entry[8] >> 1) : 8;
}

size_t sid_len(const uint8_t *entry)
{
    return 8 + 4u * entry[sid_at(entry) + 1];
}

static uint32_t make_mask(void)
{
    static const uint32_t masks[] = {0, 1, 0x80000000, 0x40000000, 0x20000000, 0x10000000, 0xF0000000, 0x001F01FF};
    uint32_t some = pick(9);

    return some < 8 ? masks[some] : (uint32_t)next();
}

size_t make_entry(uint8_t *to, unsigned revision)
{
    static const uint8_t types[] = {0, 1, 0, 1, 9, 10, 5, 6, 5, 6};
    size_t at = 8, end;

    to[0] = types[pick(revision == 4 ? 10 : 6)];
    to[1] = (uint8_t)(chance(2) ? 3 : pick(32));
    put32(to + 4, make_mask());
    if (is_object(to)) {
        uint32_t word = pick(4);
        put32(to + 8, word);
        at = 12;
        for (; word; word >>= 1)
            if (word & 1) {
                make_guid(to + at);
                at += 16;
            }
    }
    at += make_sid(to + at);
    if (is_conditional(to)) {
        end = at + make_expression(to + at, chance(12) ? TOKENS_MOST : 2 + pick(6));
        at = padded(end);
        memset(to + end, 0, at - end);
    }
    put16(to + 2, at);
    return at;
}

size_t make_good_list(uint8_t *to, size_t most, unsigned entries)
{
    uint8_t entry[ENTRY_MOST];
    unsigned revision = chance(2) ? 2 : 4, count = 0;
    size_t at = 8;

    while (count < entries) {
        size_t size = make_entry(entry, revision);
        if (at + size > most)
            break;
        memcpy(to + at, entry, size);
        at += size;
        count++;
    }
    memset(to, 0, 8);
    to[0] = (uint8_t)revision;
    put16(to + 2, at);
    put16(to + 4, count);
    return at;
}

/* What a good entry's tests are to find: its type (3), a bit of its flags or of its object word (4), its SID's first two bytes (5), the
 * expression behind it (15). */
static void spoil_on_purpose(uint8_t *entry)
{
    int has_word = is_object(entry);
    uint8_t *sid = entry + sid_at(entry);
    size_t behind = sid_at(entry) + sid_len(entry), size = get16(entry + 2);

    /* spare bytes may be anything */
    if (is_conditional(entry) && behind < size && chance(2)) {
        change_a_byte(entry + behind, size - behind);
        return;
    }
    switch (pick(6)) {
    case 0: entry[0] = (uint8_t)(2 + pick(3)); break;
    case 1: entry[1] |= (uint8_t)(32 << pick(3)); break;
    case 2: entry[has_word ? 8 + pick(4) : 1] |= (uint8_t)(32 << pick(3)); break;
    case 3: sid[0] = (uint8_t)(2 * pick(128)); break;
    case 4: sid[1] = (uint8_t)(16 + pick(240)); break;
    default: entry[0] = (uint8_t)(has_word ? 7 + pick(249) : 5 + pick(2)); /* 5 and 6 are none under revision 2 */
    }
}

/* One of the bytes that an entry's tests look at: its head, its word, its SID's first two bytes. */
static void spoil_an_entry(uint8_t *list, size_t len)
{
    static const uint8_t places[] = {0, 1, 2, 3, 8, 9, 11, 12, 13, 44, 45};
    size_t at = 8, place = places[pick(sizeof places)];
    unsigned skip = pick(4);

    while (skip-- && at + 4 <= len && at + get16(list + at + 2) + 4u <= len)
        at += get16(list + at + 2);
    if (at < len && chance(2))
        spoil_on_purpose(list + at);
    else if (at + place < len)
        list[at + place] = (uint8_t)(chance(2) ? list[at + place] + 1 + pick(4) : next() >> 56);
}

/* Its last entry's size takes in bytes behind it. */
static size_t stretch_an_entry(uint8_t *list, size_t len)
{
    size_t at = 8, more = 1 + pick(8);
    unsigned left = get16(list + 4);

    if (!left)
        return len;
    while (--left)
        at += get16(list + at + 2);
    make_bytes(list + len, 8);
    put16(list + at + 2, get16(list + at + 2) + more);
    put16(list + 2, len + more);
    return len + more;
}

/* The list has at least 8 bytes, and good entries. */
size_t spoil_list(uint8_t *list, size_t len)
{
    switch (pick(16)) {
    case 0:
        return pick((uint32_t)len);
    case 1:
        len = 8 + pick((uint32_t)(len - 7));
        put16(list + 2, len);
        return len;
    case 2:
        return change_a_byte(list, len);
    case 3:
        change_a_byte(list, len);
        change_a_byte(list, len);
        return change_a_byte(list, len);
    case 4:
        put16(list + 4, chance(2) ? next() & 0xFFFF : get16(list + 4) + 2u * pick(2) + 0xFFFFu);
        return len;
    case 5:
        put16(list + 2, chance(2) ? next() & 0xFFFF : len + 2u * pick(2) - 1);
        return len;
    case 6:
        return stretch_an_entry(list, len);
    case 7:
        make_bytes(list + 8, len - 8);
        return len;
    default:
        spoil_an_entry(list, len);
        return len;
    }
}

size_t pad_list(uint8_t *list, size_t len, size_t padded)
{
    make_bytes(list + len, padded - len);
    put16(list + 2, padded);
    return padded;
}

/* Bytes to stand behind the last entry: an entry, good, spoilt or cut, zeros, or any. */
static size_t make_spare(uint8_t *to)
{
    size_t len = make_entry(to, chance(2) ? 2 : 4);

    switch (pick(6)) {
    case 0: return len;
    case 1: spoil_on_purpose(to); return len;
    case 2: return 1 + pick((uint32_t)len);
    case 3: memset(to, 0, 12); return 1 + pick(12);
    default:
        len = 1 + pick(chance(8) ? 400 : 24);
        make_bytes(to, len);
        return len;
    }
}

/* The list has at least 8 bytes. A smaller count makes spare bytes of the entries behind it; a tree takes 1,024 bytes. */
size_t add_spare(uint8_t *list, size_t len)
{
    unsigned count = get16(list + 4);
    int hides = count && chance(3);

    if (hides)
        put16(list + 4, pick(count));
    if (hides && !chance(4))
        return len;
    if (len < 1016 && chance(24))
        return pad_list(list, len, 1016 + pick(16));
    len += make_spare(list + len);
    put16(list + 2, len);
    return len;
}

static size_t make_long_list(uint8_t *to)
{
    size_t len;

    switch (pick(6)) {
    case 0:
        return make_good_list(to, 65535, 4000);
    case 1:
        return make_good_list(to, LIST_MOST, 4000);
    case 2:
        return spoil_list(to, make_good_list(to, 65500, pick(4000)));
    case 3:
        len = make_good_list(to, 4000, pick(41));
        return pad_list(to, len, len + 1 + pick(60000));
    case 4:
        len = make_good_list(to, 65532, chance(2) ? 4000 : pick(41));
        return pad_list(to, len, 65533 + pick(3));
    default:
        len = 1100 + pick(LIST_MOST - 1100);
        make_bytes(to, len);
        if (chance(2)) {
            memset(to, 0, 8);
            to[0] = 4;
            put16(to + 2, len);
            put16(to + 4, pick(65536));
        }
        return len;
    }
}

size_t make_list(uint8_t *to, size_t most, uint32_t spoilt)
{
    size_t len;

    if (chance(200))
        return make_long_list(to);
    if (chance(16 * spoilt)) {
        len = pick(100);
        make_bytes(to, len);
        return len;
    }
    len = make_good_list(to, most, chance(4) ? pick(41) : pick(6));
    if (chance(4))
        len = add_spare(to, len);
    return chance(spoilt) ? spoil_list(to, len) : len;
}

static size_t put_identities(uint8_t *to)
{
    size_t at = 0;
    int i;

    for (i = 0; i < 2; i++) {
        size_t len = make_identity(to + at + 1, 24);
        if (chance(64)) {
            len = pick(256);
            make_bytes(to + at + 1, len);
        }
        to[at] = (uint8_t)len;
        at += 1 + len;
    }
    return at;
}

static size_t put_list(uint8_t *to)
{
    size_t len = chance(3) ? 0 : make_list(to + 2, 1100, 16);

    if (len > 65535)
        len = 65535;
    put16(to, len);
    return 2 + len;
}

static size_t put_record(uint8_t *to, unsigned objects)
{
    size_t at = 2;

    to[0] = (uint8_t)(objects < 2 || chance(2) ? 1 : 2 + pick(4));
    to[1] = (uint8_t)(!objects || chance(30) ? 255 : chance(20) ? objects : pick(objects));
    switch (to[0]) {
    case 1:
        to[2] = (uint8_t)!chance(5);
        to[3] = (uint8_t)chance(5);
        make_guid(to + 4);
        at = 20 + put_identities(to + 20);
        return at + put_list(to + at);
    case 2: return at + put_list(to + at);
    case 3: to[2] = (uint8_t)pick(2); return 3;
    case 4: return at + put_identities(to + at);
    default: return 1;
    }
}

size_t make_script(uint8_t *to)
{
    size_t at = 5;
    unsigned records = pick(chance(4) ? 60 : 8), objects = 0, i;

    memcpy(to, "AXS\1\0", 5);
    for (i = 0; i < records && at < SCRIPT_MOST - LIST_MOST - 1000; i++) {
        size_t record = at;
        at += put_record(to + at, objects);
        objects += to[record] == 1 && objects < 16;
    }
    switch (pick(12)) {
    case 0: return pick((uint32_t)at + 1);
    case 1: return change_a_byte(to, at);
    case 2: change_a_byte(to, at); change_a_byte(to, at); return pick((uint32_t)at + 1);
    case 3: make_bytes(to + at, 8); return at + 1 + pick(8);
    case 4: at = pick(300); make_bytes(to, at); return at;
    default: return at;
    }
}

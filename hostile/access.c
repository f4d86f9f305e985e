#include <string.h>

#include "pipeteasel.h"

#include "lend.h"
#include "make.h"
#include "conditions.h"
#include "cases.h"
#include "spare.h"

enum { INHERIT_ONLY = 8, HELD_MOST = 32, WALK_MOST = 64 };

uint64_t decisions[DECISIONS], conditions[CONDITIONS], entry_steps, last_steps;

/* Whether it is pt_may_open_with that is asked. */
static int has_table;

/* What pt_read says of the first list, whatever its count. */
static uint16_t row[65536];
static uint32_t said[8];

static void read_first(const uint8_t *list, size_t len)
{
    pt_read(list, len, row, 65536, said);
}

/* One of the list's entries; null where it has none, or is refused. */
static const uint8_t *choose_entry(void)
{
    return said[5] ? lent[FIRST].before + row[pick(said[5])] : NULL;
}

/* The list that someone asks about. Its masks are often small ones, so that many entries have the same bit; at times they are 0 up to
 * some entry, so that the answer lies far back. */
static void lend_asked(void)
{
    uint8_t *list = lent[FIRST].before;
    size_t len = make_list(list, chance(8) ? 4000 : 400, 8);
    uint32_t i, from;

    read_first(list, len);
    from = said[5] && chance(4) ? pick(said[5]) : 0;
    if (!chance(4))
        for (i = 0; i < said[5]; i++)
            put32(list + row[i] + 4, i < from ? 0 : 1 + pick(15));
    lend(FIRST, len);
}

/* The SID of an entry, at times another one that differs from it in one byte. */
static size_t copy_sid(uint8_t *to, const uint8_t *entry)
{
    size_t len = sid_len(entry);

    memcpy(to, entry + sid_at(entry), len);
    if (chance(6))
        to[2 + pick((uint32_t)len - 2)] ^= (uint8_t)(1 + pick(255));
    return len;
}

static size_t spoil_held(uint8_t *held, size_t len, size_t last)
{
    switch (pick(5)) {
    case 0: return pick((uint32_t)len + 1);
    case 1: make_bytes(held + len, 8); return len + 1 + pick(8);
    case 2: held[last] = (uint8_t)(2 * pick(128)); return len;
    case 3: held[last + 1] = (uint8_t)pick(256); return len;
    default: len = pick(200); make_bytes(held, len); return len;
    }
}

/* Up to 40 SIDs: of the list's entries, and any others; one of them, or any of the list's bytes, where they lie. */
static void lend_held(void)
{
    uint8_t *held = lent[HELD].before;
    const uint8_t *entry = choose_entry();
    size_t len = 0, last = 0;
    uint32_t left = chance(8) ? 30 + pick(6) : pick(chance(4) ? 41 : 8);

    if (entry && chance(12)) {
        lend_part(HELD, FIRST, (size_t)(entry - lent[FIRST].before) + sid_at(entry), sid_len(entry));
        return;
    }
    if (chance(60)) {
        lend_again(HELD, FIRST);
        return;
    }
    for (; left; left--) {
        entry = choose_entry();
        last = len;
        len += entry && !chance(4) ? copy_sid(held + len, entry) : make_sid(held + len);
    }
    lend(HELD, chance(8) ? spoil_held(held, len, last) : len);
}

/* Any type; one of an entry's where it lies, or another one that differs from it in one byte. */
static void lend_type(void)
{
    uint8_t *type = lent[TYPES].before;
    const uint8_t *entry = choose_entry();
    int has_type = entry && is_object(entry) && entry[8];

    if (has_type && chance(2)) {
        lend_part(TYPES, FIRST, (size_t)(entry - lent[FIRST].before) + 12, 16);
        return;
    }
    make_guid(type);
    if (has_type && chance(2)) {
        memcpy(type, entry + 12, 16);
        type[chance(2) ? 15 : pick(16)] ^= (uint8_t)(1 + pick(255));
    }
    lend(TYPES, 16);
}

static uint32_t choose_wanted(void)
{
    const uint8_t *entry = choose_entry();
    uint32_t mask = entry ? get32(entry + 4) : (uint32_t)next();

    switch (pick(16)) {
    case 0: return 0;
    case 1: return 1u << pick(32);
    case 2: return (uint32_t)next();
    case 3: return mask;
    case 4: return mask & 0x0FFFFFFF & (uint32_t)next();
    case 5: return (uint32_t)next() & 0x0FFFFFFF;
    case 6: case 7: return 1 + pick(15);
    case 8: return mask & 0x0FFFFFFF;
    default: return 1u << pick(4);
    }
}

static void ask(uint32_t has_list, Bytes list, uint32_t wanted, uint32_t *to)
{
    if (has_table)
        pt_may_open_with(has_list, list.at, list.len, lent[TYPES].at, lent[HELD].at, lent[HELD].len, wanted, lent[TABLE].at,
                         lent[TABLE].len, to);
    else
        pt_may_open(has_list, list.at, list.len, lent[TYPES].at, lent[HELD].at, lent[HELD].len, wanted, to);
}

/* How many SIDs are held; -1 where the bytes aren't SIDs to their end. */
static int count_held(void)
{
    const uint8_t *held = lent[HELD].before;
    size_t at = 0, len = lent[HELD].len;
    int count = 0;

    while (at < len) {
        if (len - at < 8 || held[at] != 1 || held[at + 1] > 15 || len - at < 8 + 4u * held[at + 1])
            return -1;
        at += 8 + 4u * held[at + 1];
        count++;
    }
    return count;
}

static int is_held(const uint8_t *sid, size_t len)
{
    const uint8_t *held = lent[HELD].before;
    size_t at = 0;

    while (at < lent[HELD].len) {
        size_t one = 8 + 4u * held[at + 1];
        if (one == len && !memcmp(held + at, sid, len))
            return 1;
        at += one;
    }
    return 0;
}

static int counts(const uint8_t *entry)
{
    int has_type = is_object(entry) && entry[8] & 1;

    if (entry[1] & INHERIT_ONLY || (has_type && memcmp(entry + 12, lent[TYPES].before, 16)))
        return 0;
    return is_held(entry + sid_at(entry), sid_len(entry));
}

static int is_deny(const uint8_t *entry)
{
    return entry[0] == 1 || entry[0] == 6 || entry[0] == 10;
}

/* Whether a conditional entry is one for this question, by what its expression comes to by itself; which is counted. */
static int applies(const uint8_t *entry)
{
    const uint8_t *expression = entry + sid_at(entry) + sid_len(entry);
    uint32_t a[8];
    int which;

    pt_evaluate(expression, (size_t)(entry + get16(entry + 2) - expression), lent[TABLE].at, has_table ? lent[TABLE].len : 0, a);
    if (a[0] || a[3] > 2)
        fault("the list reads as done, but an expression in it comes to number %u, %u", a[0], a[3]);
    if (a[3] == 0)
        which = PASSED_FALSE;
    else if (a[3] == 1)
        which = is_deny(entry) ? DENY_TRUE : ALLOW_TRUE;
    else
        which = is_deny(entry) ? DENY_UNKNOWN : PASSED_UNKNOWN;
    conditions[which]++;
    return which != PASSED_FALSE && which != PASSED_UNKNOWN;
}

/* Each wanted bit is decided by the first entry that counts and has it. */
static int expected_decision(uint32_t wanted)
{
    uint32_t i;

    for (i = 0; i < said[5] && wanted; i++) {
        const uint8_t *entry = lent[FIRST].before + row[i];
        if (!(get32(entry + 4) & wanted) || !counts(entry) || (is_conditional(entry) && !applies(entry)))
            continue;
        if (is_deny(entry))
            return DENIED;
        wanted &= ~get32(entry + 4);
    }
    return wanted ? NOT_SAID : ALLOWED;
}

/* Document 02's order. */
static uint32_t expected_number(uint32_t has_list, uint32_t wanted)
{
    int held = count_held();

    if (wanted & 0xF0000000)
        return PT_GENERIC;
    if (has_list && said[0])
        return said[0];
    if (held < 0)
        return PT_IDENTITY;
    if (held > HELD_MOST)
        return PT_TYPES;
    return has_table && !is_table(lent[TABLE].before, lent[TABLE].len) ? PT_TABLE : PT_DONE;
}

/* Both parts of what is wanted, which may overlap, are a yes exactly where the whole is. */
static void check_parts(uint32_t has_list, uint32_t wanted)
{
    const uint32_t *a = answer();
    uint32_t some = wanted & (uint32_t)next(), rest = wanted & (~some | (uint32_t)next()), one[8], other[8];

    ask(has_list, lent_bytes(FIRST), some, one);
    ask(has_list, lent_bytes(FIRST), rest, other);
    if (one[0] != other[0] || one[3] > 1 || other[3] > 1)
        fault("%08X is number %u, %u, and %08X number %u, %u", some, one[0], one[3], rest, other[0], other[3]);
    one[3] &= other[3];
    if (memcmp(one, a, 32))
        fault("%08X and %08X are number %u, %u, but both together %u, %u", some, rest, one[0], one[3], a[0], a[3]);
}

/* Without a list nothing is looked at but what is wanted and held, and the rest is a yes. */
static void check_absent(uint32_t wanted)
{
    static const Bytes none = {NULL, 0};
    uint32_t expected[8] = {0}, with[8], without[8];

    expected[0] = expected_number(0, wanted);
    expected[3] = !expected[0];
    ask(0, lent_bytes(FIRST), wanted, with);
    ask(0, none, wanted, without);
    if (memcmp(with, expected, 32) || memcmp(without, expected, 32))
        fault("with no list %08X is number %u, %u, then %u, %u", wanted, with[0], with[3], without[0], without[3]);
}

/* The first list with other spare bytes. */
static Bytes with_other_spare(void)
{
    static uint8_t copy[65536];
    Bytes list = lent_bytes(FIRST);
    size_t end = entries_end(list.at, list.len);

    memcpy(copy, list.at, list.len);
    make_bytes(copy + end, list.len - end);
    list.at = copy;
    return list;
}

static void check_spare(uint32_t has_list, uint32_t wanted)
{
    const uint32_t *a = answer();
    uint32_t cut[8], other[8];

    if (!has_list || !has_spare(lent[FIRST].at, lent[FIRST].len))
        return;
    spare_lists++;
    ask(has_list, without_spare(FIRST), wanted, cut);
    ask(has_list, with_other_spare(), wanted, other);
    if (memcmp(a, cut, 32) || memcmp(a, other, 32))
        fault("number %u, %u; %u, %u without spare bytes and %u, %u with others", a[0], a[3], cut[0], cut[3], other[0], other[3]);
}

/* Without a table it is an empty one. */
static void check_empty_table(uint32_t has_list, uint32_t wanted)
{
    uint32_t with[8];

    pt_may_open_with(has_list, lent[FIRST].at, lent[FIRST].len, lent[TYPES].at, lent[HELD].at, lent[HELD].len, wanted, NULL, 0, with);
    if (memcmp(with, answer(), 32))
        fault("number %u, %u, and with an empty table %u, %u", answer()[0], answer()[3], with[0], with[3]);
}

static uint32_t question(void)
{
    uint32_t has_list = chance(8) ? 0 : 1u << pick(32), wanted;
    const uint32_t *a;

    lend_asked();
    lend_held();
    lend_type();
    if (has_table)
        lend_table();
    lend_answer();
    a = answer();
    wanted = choose_wanted();
    ask(has_list, lent_bytes(FIRST), wanted, answer());
    check_places(0, 0);
    if (a[0] != expected_number(has_list, wanted))
        fault("number %u, not %u: %08X is wanted, %d SIDs are held", a[0], expected_number(has_list, wanted), wanted, count_held());
    if (is_list_refusal())
        check_list_refusal(0, has_list ? FIRST : -1);
    if (a[0] == PT_DONE) {
        int decision = has_list ? expected_decision(wanted) : ALLOWED;
        if (a[3] != (decision == ALLOWED) || a[4] || a[5])
            fault("%08X is answered by %u %u %u, against the list's entries", wanted, a[3], a[4], a[5]);
        decisions[decision] += has_list && wanted;
    }
    if (a[0] != PT_GENERIC)
        check_parts(has_list, wanted);
    check_absent(wanted);
    check_spare(has_list, wanted);
    if (!has_table)
        check_empty_table(has_list, wanted);
    return a[0];
}

uint32_t case_may_open(void)
{
    has_table = 0;
    return question();
}

uint32_t case_may_open_with(void)
{
    has_table = 1;
    return question();
}

/* Where an entry begins, beside it, where the entries end, and numbers that only look like it in 16 bits. */
static uint32_t choose_place(void)
{
    static const uint32_t outside[] = {65535, 65536, 65544, 0x7FFFFFFF, 0x80000000, 0x80000008, 0xFFFFFFFE, 0xFFFFFFFF};
    uint32_t offset = said[5] ? row[pick(said[5])] : 8;

    switch (pick(10)) {
    case 0: return 0;
    case 1: return pick(9);
    case 2: return offset - 1;
    case 3: return offset + 1;
    case 4: return offset + (65536u << pick(16));
    case 5: return pick((uint32_t)lent[FIRST].len + 1);
    case 6: return chance(2) ? said[7] : said[7] - 1;
    case 7: return outside[pick(8)];
    default: return offset;
    }
}

/* An entry's fields are the list's own bytes, and its SID ends where it does, but before an expression. */
static void check_entry(uint32_t at, const uint32_t *fields)
{
    const uint8_t *entry = lent[FIRST].before + at;
    uint32_t size = get16(entry + 2), word = is_object(entry) ? get32(entry + 8) : 0;

    if (fields[0] != entry[0] || fields[1] != entry[1] || fields[2] != size || fields[3] != get32(entry + 4) || fields[4] != word)
        fault("the entry at %u is given as %02X %02X, %u bytes, %08X, word %u", at, fields[0], fields[1], fields[2], fields[3], fields[4]);
    if (fields[5] != sid_at(entry) || fields[6] != sid_len(entry) || entry[fields[5]] != 1
        || (is_conditional(entry) ? fields[5] + fields[6] >= size : fields[5] + fields[6] != size))
        fault("the entry at %u has %u bytes, and its SID is given as %u bytes at %u", at, size, fields[6], fields[5]);
    if (fields[7] != at + size)
        fault("the entry at %u has %u bytes, and %u is given as the next place", at, size, fields[7]);
}

/* What a step must give that comes to the entry of this number, of those that pt_read counts; none is left from the count on. */
static void check_step(uint32_t number, const uint32_t *fields, const uint32_t *a)
{
    static const uint32_t zeros[8] = {0};
    uint32_t expected[8] = {0};
    int is_left = number < said[5];

    expected[0] = said[0];
    expected[2] = said[2];
    expected[3] = is_left ? row[number] : 0;
    expected[4] = (uint32_t)is_left;
    if (memcmp(a, expected, 32))
        fault("a step to entry %u of %u: number %u, %u %u %u %u", number, said[5], a[0], a[3], a[4], a[5], a[6]);
    if (is_left)
        check_entry(row[number], fields);
    else if (memcmp(fields, zeros, 32))
        fault("number %u with no entry, but its fields aren't zeros", a[0]);
}

/* From the front each entry comes once, in order, and then none. Of many entries some are walked, from any of them on. */
static void check_walk(void)
{
    uint32_t number = said[5] > WALK_MOST ? pick(said[5]) : 0, place = number ? row[number] : 0, left = WALK_MOST + 1, fields[8], a[8];

    for (; number <= said[5] && left; number++, left--) {
        make_bytes((uint8_t *)fields, 32);
        make_bytes((uint8_t *)a, 32);
        pt_step(lent[FIRST].at, lent[FIRST].len, place, fields, a);
        check_step(number, fields, a);
        place = fields[7];
    }
}

/* The same step over the list without its spare bytes. */
static void check_step_cut(uint32_t place, const uint32_t *fields)
{
    Bytes cut = without_spare(FIRST);
    uint32_t cut_fields[8], a[8];

    pt_step(cut.at, cut.len, place, cut_fields, a);
    if (memcmp(a, answer(), 32) || memcmp(cut_fields, fields, 32))
        fault("number %u at %u, and without spare bytes %u at %u", answer()[0], answer()[3], a[0], a[3]);
}

uint32_t case_step(void)
{
    uint32_t place, number = 0, *fields;

    lend(FIRST, make_list(lent[FIRST].before, chance(8) ? 4000 : 400, 3));
    read_first(lent[FIRST].at, lent[FIRST].len);
    lend_filled(ENTRY, 32);
    lent[ENTRY].may_change = 32;
    lend_answer();
    fields = (uint32_t *)(void *)lent[ENTRY].at;
    place = choose_place();
    while (number < said[5] && row[number] < place)
        number++;
    pt_step(lent[FIRST].at, lent[FIRST].len, place, fields, answer());
    check_places(0, 0);
    if (is_list_refusal())
        check_list_refusal(0, FIRST);
    check_step(number, fields, answer());
    check_walk();
    if (has_spare(lent[FIRST].at, lent[FIRST].len)) {
        spare_lists++;
        check_step_cut(place, fields);
    }
    entry_steps += number < said[5];
    last_steps += !said[0] && number == said[5];
    return answer()[0];
}

#include <string.h>

#include "lend.h"
#include "make.h"
#include "rooms.h"
#include "spare.h"

size_t entries_end(const uint8_t *list, size_t len)
{
    size_t at = 8, left;

    if (len < 8 || get16(list + 2) != len)
        return 0;
    for (left = get16(list + 4); left; left--) {
        size_t size = len - at < 8 ? 0 : get16(list + at + 2);
        if (size < 8 || size > len - at)
            return 0;
        at += size;
    }
    return at;
}

int has_spare(const uint8_t *list, size_t len)
{
    size_t end = entries_end(list, len);

    return end && end < len;
}

/* The list is one whose entries end somewhere. */
static size_t cut_list(const uint8_t *list, size_t len, uint8_t *to)
{
    size_t end = entries_end(list, len);

    memcpy(to, list, end);
    put16(to + 2, end);
    return end;
}

Bytes lent_bytes(int which)
{
    Bytes whole = {lent[which].at, lent[which].len};

    return whole;
}

Bytes without_spare(int list)
{
    static uint8_t copies[THIRD + 1][65536];
    Bytes bytes = lent_bytes(list);

    if (has_spare(bytes.at, bytes.len)) {
        bytes.len = cut_list(bytes.at, bytes.len, copies[list]);
        bytes.at = copies[list];
    }
    return bytes;
}

/* An owner and a group, each behind its length; more than is left where they are cut. */
static size_t identities_len(const uint8_t *at, size_t left)
{
    size_t owner = left ? 1u + at[0] : 1;

    return owner + (left > owner ? 1u + at[owner] : 1);
}

/* How long a record is but for its list and that list's length; more than is left where it is cut, and where it is bad. */
static size_t record_len(const uint8_t *record, size_t left)
{
    switch (record[0]) {
    case 1: return left < 20 || record[2] > 1 || record[3] > 1 ? left + 1 : 20 + identities_len(record + 20, left - 20);
    case 2: return 2;
    case 3: return left < 3 || record[2] > 1 ? left + 1 : 3;
    case 4: return left < 2 ? left + 1 : 2 + identities_len(record + 2, left - 2);
    case 5: return 1;
    default: return left + 1;
    }
}

/* A record's list behind its length; 0 where it is cut. */
static size_t record_list_len(const uint8_t *at, size_t left)
{
    return left < 2 || left - 2 < get16(at) ? 0 : 2u + get16(at);
}

static size_t cut_record_list(const uint8_t *at, uint8_t *to)
{
    size_t len = get16(at);

    if (len <= LIST_LONGEST && has_spare(at + 2, len)) {
        put16(to, cut_list(at + 2, len, to + 2));
        return 2u + get16(to);
    }
    memcpy(to, at, 2 + len);
    return 2 + len;
}

size_t cut_script(const uint8_t *script, size_t len, uint8_t *to)
{
    size_t at = 5, put = 5;

    if (len < 5 || memcmp(script, "AXS\1\0", 5))
        return 0;
    memcpy(to, script, 5);
    while (at < len) {
        uint8_t kind = script[at];
        size_t record = record_len(script + at, len - at), list;

        if (record > len - at)
            return 0;
        memcpy(to + put, script + at, record);
        at += record;
        put += record;
        if (kind > 2)
            continue;
        list = record_list_len(script + at, len - at);
        if (!list)
            return 0;
        put += cut_record_list(script + at, to + put);
        at += list;
    }
    return put;
}

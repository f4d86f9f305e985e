#include <stdio.h>
#include <string.h>

#include "pipeteasel.h"

#include "lend.h"
#include "make.h"
#include "cases.h"
#include "spare.h"

uint8_t plenty[LEND_MOST];
unsigned spare_lists;
uint64_t long_lists, entry_lists;

static uint16_t any_row[65536];

void lend_answer(void)
{
    lend_filled(ANSWER, 32);
    lent[ANSWER].may_change = 32;
}

/* The last twelve bytes of a list's entries are often a SID. */
static int lend_list_end(int which, int list)
{
    size_t end;

    if (list < 0 || !chance(40))
        return 0;
    end = entries_end(lent[list].before, lent[list].len);
    if (end < 20)
        return 0;
    lend_part(which, list, end - 12, 12);
    return 1;
}

void lend_identities(uint32_t spoilt, int list)
{
    if (!lend_list_end(OWNER, list))
        lend(OWNER, make_identity(lent[OWNER].before, spoilt));
    if (chance(6))
        lend_again(GROUP, OWNER);
    else if (!lend_list_end(GROUP, list))
        lend(GROUP, make_identity(lent[GROUP].before, spoilt));
}

void check_places(uint32_t most_control, size_t end)
{
    const uint32_t *a = answer();

    if (a[7] != (a[0] ? 0 : end))
        fault("number %u, place 7 is %u, not %zu", a[0], a[7], a[0] ? 0 : end);
    if (a[0] && (a[3] || a[4] || a[5] || a[6]))
        fault("refusal %u tells more: %u %u %u %u", a[0], a[3], a[4], a[5], a[6]);
    if (!is_list_refusal() && (a[1] || a[2]))
        fault("number %u with list %u and offset %u", a[0], a[1], a[2]);
    if (a[4] > 1)
        fault("present is %u", a[4]);
    if (a[6] && a[6] != most_control)
        fault("control is %u", a[6]);
}

void check_list_refusal(uint32_t which, int list)
{
    const uint32_t *a = answer();
    uint32_t read[8];

    if (list < 0)
        fault("refusal %u of list %u, and none was given", a[0], a[1]);
    pt_read(lent[list].at, lent[list].len, any_row, 65536, read);
    if (a[1] != which || a[0] != read[0] || a[2] != read[2])
        fault("refusal %u of list %u at %u, but the reader says %u at %u of list %u", a[0], a[1], a[2], read[0], read[2], which);
}

int is_list_refusal(void)
{
    uint32_t number = answer()[0];

    return (number >= PT_HEADER && number <= PT_SID) || number == PT_EXPRESSION;
}

void check_reads(const uint8_t *list, const uint32_t *told, int may_spare)
{
    uint32_t read[8];

    if (!told[4]) {
        if (told[3] || told[5])
            fault("an absent list of %u bytes, %u entries", told[3], told[5]);
        return;
    }
    pt_read(list, told[3], any_row, 65536, read);
    if (read[0] || read[3] != told[3] || read[5] != told[5])
        fault("a list of %u bytes, %u entries reads as %u: %u bytes, %u entries", told[3], told[5], read[0], read[3], read[5]);
    if (read[7] != entries_end(list, told[3]) || (!may_spare && read[7] != told[3]))
        fault("a list of %u bytes, whose entries end at %u", told[3], read[7]);
}

size_t choose_out(const uint32_t *probed)
{
    size_t needed = probed[3];

    switch (pick(8)) {
    case 0: return 0;
    case 1: return pick((uint32_t)needed + 1);
    case 2: return needed ? needed - 1 : 0;
    case 3: return needed + 1;
    case 4: return needed + pick(3000);
    case 5: return chance(50) ? 70000 : needed;
    default: return needed;
    }
}

void check_probed(const uint32_t *probed, size_t out_len)
{
    const uint32_t *a = answer();

    if (!probed[0] && probed[3] > out_len) {
        if (a[0] != PT_ROOM)
            fault("%u bytes in %zu of room: number %u", probed[3], out_len, a[0]);
    } else if (memcmp(a, probed, 32)) {
        fault("another answer with %zu bytes of room, or with spare bytes: %u, then %u", out_len, probed[0], a[0]);
    }
    lent[OUT].may_change = a[3];
    if (a[3] && memcmp(lent[OUT].at, plenty, a[3]))
        fault("another result with %zu bytes of room, or with spare bytes", out_len);
}

static uint32_t expected_identity(const uint8_t *bytes, size_t len)
{
    static const uint8_t creator[8] = {1, 1, 0, 0, 0, 0, 0, 3};

    if (len < 8 || bytes[0] != 1 || bytes[1] > 15 || len != 8 + 4u * bytes[1])
        return 6;
    if (!memcmp(bytes, creator, 8) && bytes[8] < 2 && !bytes[9] && !bytes[10] && !bytes[11])
        return 1u + bytes[8];
    return 0;
}

uint32_t case_identity(void)
{
    uint8_t *bytes = lent[FIRST].before;
    size_t len = chance(8) ? make_sid(bytes) : make_identity(bytes, 2);
    uint32_t number;

    if (chance(1000))
        make_bytes(bytes, len = pick(LIST_MOST));
    lend(FIRST, len);
    number = pt_identity(lent[FIRST].at, len);
    if (number != expected_identity(bytes, len))
        fault("number %u", number);
    return number;
}

/* The offsets are those of the list's own sizes. */
static void check_row(const uint8_t *list, const uint16_t *row, size_t count)
{
    size_t at = 8, i;

    for (i = 0; i < count; i++) {
        if (row[i] != at)
            fault("entry %zu at %u, not at %zu", i, row[i], at);
        at += get16(list + at + 2);
    }
}

/* The same list without its spare bytes: all but the length is the same. */
static void check_read_cut(const uint16_t *row, size_t row_len)
{
    const uint32_t *a = answer();
    Bytes cut = without_spare(FIRST);
    uint32_t read[8];

    pt_read(cut.at, cut.len, any_row, row_len, read);
    if (!read[0])
        read[3] = a[3];
    if (memcmp(a, read, 32) || (a[5] && memcmp(row, any_row, 2 * a[5])))
        fault("%zu bytes read as %u at %u, and without spare bytes as %u at %u", lent[FIRST].len, a[0], a[2], read[0], read[2]);
}

static size_t choose_row(const uint8_t *list, size_t len)
{
    size_t count = len < 8 ? 0 : get16(list + 4);

    switch (pick(8)) {
    case 0: return 0;
    case 1: return count ? count - 1 : 0;
    case 2: return count + 1 + pick(50);
    case 3: return pick(50);
    default: return count;
    }
}

/* Whether the list reads as done with one entry more in its count. */
static int has_spare_entry(void)
{
    static uint8_t more[65536];
    uint32_t read[8];

    memcpy(more, lent[FIRST].before, lent[FIRST].len);
    put16(more + 4, get16(more + 4) + 1u);
    pt_read(more, lent[FIRST].len, any_row, 65536, read);
    return !read[0];
}

uint32_t case_read(void)
{
    uint8_t *list = lent[FIRST].before;
    size_t len = make_list(list, chance(4) ? 4000 : 600, 2), row_len = choose_row(list, len), end = entries_end(list, len);
    uint16_t *row;
    const uint32_t *a;

    lend(FIRST, len);
    lend_filled(OUT, 2 * row_len);
    lend_answer();
    a = answer();
    row = (uint16_t *)(void *)lent[OUT].at;
    pt_read(lent[FIRST].at, len, row, row_len, answer());
    check_places(0, end);
    if (a[1])
        fault("the reader tells of list %u", a[1]);
    if (a[2] > len || (is_list_refusal() && a[0] != PT_HEADER && a[2] < 8) || (a[0] == PT_HEADER && a[2]))
        fault("number %u at offset %u of %zu", a[0], a[2], len);
    if (a[0] == PT_ROOM && row_len >= get16(list + 4))
        fault("8 with a row of %zu", row_len);
    if (a[0] == PT_DONE) {
        if (a[3] != len || a[4] != 1 || a[5] != get16(list + 4) || a[5] > row_len)
            fault("length %u, present %u, count %u", a[3], a[4], a[5]);
        if (!end)
            fault("done, but an entry can't be whole");
        check_row(list, row, a[5]);
        long_lists += len > 65532;
    }
    if (end && end < len) {
        spare_lists++;
        check_read_cut(row, row_len);
        entry_lists += !a[0] && has_spare_entry();
    }
    lent[OUT].may_change = 2 * a[5];
    return a[0];
}

static void lend_compute(void)
{
    int list;

    for (list = FIRST; list <= THIRD; list++)
        if (list != FIRST && chance(6))
            lend_again(list, (int)pick((uint32_t)list));
        else
            lend(list, make_list(lent[list].before, 800, 20));
    lend(TYPES, make_types(lent[TYPES].before));
    lend_identities(30, (int)pick(3));
    make_mapping(lent[MAPPING].before);
    lend(MAPPING, 16);
    lend_answer();
}

static void compute(uint32_t rule, uint32_t settings, Bytes list(int), uint8_t *out, size_t out_len, uint32_t *to)
{
    Bytes parent = list(FIRST), creator = list(SECOND), default_ = list(THIRD);

    pt_compute(rule, settings, (const uint32_t *)(const void *)lent[MAPPING].at, parent.at, parent.len, creator.at, creator.len,
               default_.at, default_.len, lent[TYPES].at, lent[TYPES].len, lent[OWNER].at, lent[OWNER].len, lent[GROUP].at,
               lent[GROUP].len, out, out_len, to);
}

/* From 6 on every present list reads as done; 12 comes before they are looked at. */
static void check_present_lists(uint32_t settings)
{
    const uint32_t *a = answer();
    uint32_t read[8];
    int list;

    for (list = FIRST; list <= THIRD && a[0] != PT_RULE; list++) {
        if (!(settings & (PT_PARENT << list)))
            continue;
        spare_lists += (unsigned)has_spare(lent[list].at, lent[list].len);
        pt_read(lent[list].at, lent[list].len, any_row, 65536, read);
        if (read[0]) {
            check_list_refusal((uint32_t)list + 1, list);
            return;
        }
    }
    if (is_list_refusal())
        fault("refusal %u of list %u, but each list reads as done", a[0], a[1]);
}

/* Asked first with plenty of room and no spare bytes: neither may change what comes. */
uint32_t case_compute(void)
{
    uint32_t rule = chance(12) ? pick(4) : 1 + pick(2), settings = (uint32_t)next(), probed[8];
    size_t out_len;

    lend_compute();
    compute(rule, settings, without_spare, plenty, sizeof plenty, probed);
    out_len = choose_out(probed);
    lend_filled(OUT, out_len);
    compute(rule, settings, lent_bytes, lent[OUT].at, out_len, answer());
    check_places(0x0400, 0);
    check_present_lists(settings);
    check_probed(probed, out_len);
    if ((rule != 1 && rule != 2) != (answer()[0] == PT_RULE))
        fault("rule %u: number %u", rule, answer()[0]);
    if (answer()[3] > 65532)
        fault("a result of %u bytes", answer()[3]);
    if (answer()[0] == PT_DONE)
        check_reads(lent[OUT].at, answer(), 0);
    return answer()[0];
}

/* The listing has a line for each object, and one more. `bad at N` names an offset of the script. */
static void check_text(const char *text, const uint32_t *a, size_t script_len)
{
    char begin[32];
    size_t lines = 0, i;
    unsigned long at;

    for (i = 0; i < a[3]; i++)
        lines += text[i] == '\n';
    if (a[4]) {
        snprintf(begin, sizeof begin, "objects %u\n", (unsigned)a[5]);
        if (a[3] > 203 || a[5] > 16 || lines != a[5] + 1 || strncmp(text, begin, strlen(begin)))
            fault("a listing of %u objects in %u bytes", a[5], a[3]);
    } else if (a[5] || lines != 1 || sscanf(text, "bad at %lu\n", &at) != 1 || at > script_len) {
        fault("no listing, and not `bad at N`");
    }
}

/* A script that isn't bad is played first without the spare bytes of its lists: that may not change the text. */
uint32_t case_play(void)
{
    static uint8_t cut[SCRIPT_MOST];
    size_t len = make_script(lent[FIRST].before), cut_len = cut_script(lent[FIRST].before, len, cut), out_len;
    uint32_t probed[8];
    char text[256] = {0};

    lend(FIRST, len);
    lend_answer();
    pt_play(cut_len ? cut : lent[FIRST].at, cut_len ? cut_len : len, plenty, sizeof plenty, probed);
    out_len = choose_out(probed);
    lend_filled(OUT, out_len);
    pt_play(lent[FIRST].at, len, lent[OUT].at, out_len, answer());
    check_places(0, 0);
    check_probed(probed, out_len);
    spare_lists = cut_len && cut_len < len;
    if (answer()[0] == PT_DONE) {
        if (answer()[4] != (cut_len != 0))
            fault("a listing or none, against the script's own lengths");
        if (answer()[3] >= sizeof text)
            fault("a text of %u bytes", answer()[3]);
        memcpy(text, lent[OUT].at, answer()[3]);
        check_text(text, answer(), len);
    }
    return answer()[0];
}

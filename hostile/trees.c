#include <string.h>

#include "pipeteasel.h"

#include "lend.h"
#include "make.h"
#include "cases.h"
#include "rooms.h"
#include "spare.h"

static const uint32_t *mapping(void)
{
    return (const uint32_t *)(const void *)lent[MAPPING].at;
}

static uint32_t choose_limit(int large)
{
    static const uint32_t outside[] = {0, 65, 66, 255, 256, 257, 0x10001, 0x80000001, 0xFFFFFFFF};

    if (chance(20))
        return outside[pick(9)];
    if (large)
        return chance(2) ? 64 : 10 + pick(55);
    return pick(9);
}

uint32_t case_room(void)
{
    uint32_t objects = chance(3) ? (uint32_t)next() : choose_limit(chance(2)), steps = chance(8) ? pick(70) : choose_limit(chance(2));
    size_t bytes = pt_room(objects, steps);

    if (bytes != formula(objects, steps))
        fault("%u objects and %u steps need %zu bytes", objects, steps, bytes);
    return bytes != 0;
}

static size_t own_slot(uint32_t object)
{
    return FIXED + (size_t)OBJECT * object + OWN_LIST;
}

static uint32_t objects_before(void)
{
    return lent[ROOM].len > 3 ? lent[ROOM].before[2] : 0;
}

static uint32_t choose_object(void)
{
    static const uint32_t outside[] = {64, 255, 256, 257, 0x10000, 0x80000000, 0xFFFFFFFE, 0xFFFFFFFF};
    uint32_t standing = objects_before();

    if (chance(10))
        return chance(2) ? standing : outside[pick(8)];
    return standing ? pick(standing) : 0;
}

/* Shorter than its own limits' formula, or its limits are out of range. */
static int is_short(const Lent *room)
{
    return room->len < FIXED || !formula(room->at[0], room->at[1]) || room->len < formula(room->at[0], room->at[1]);
}

/* 13 comes from every call alike, and never from a room that calls reached. */
static void check_counts_agree(uint32_t counts[8])
{
    pt_counts(lent[ROOM].at, lent[ROOM].len, counts);
    if (counts[0] != PT_TREE && is_short(&lent[ROOM]))
        fault("a room of %zu bytes, too short for a tree, isn't 13", lent[ROOM].len);
    if ((counts[0] == PT_TREE) != (answer()[0] == PT_TREE))
        fault("number %u where pt_counts says %u", answer()[0], counts[0]);
}

/* No change or undo leaves spare bytes in a computed list. */
static void check_computed(uint32_t objects)
{
    uint32_t i;

    for (i = 0; i < objects; i++) {
        const uint8_t *slot = object_at(lent[ROOM].at, i) + COMPUTED_LIST;
        if (slot[0] && entries_end(slot + 3, get16(slot + 1)) != get16(slot + 1))
            fault("object %u has a computed list of %u bytes with spare ones, or spoilt", i, get16(slot + 1));
    }
}

/* Limits, rule, mapping and default list stay; a change is one step more while there is room for it, an undo one less. */
static void check_changed_room(const uint32_t counts[8], int undone)
{
    const uint8_t *before = lent[ROOM].before, *now = lent[ROOM].at;
    uint32_t steps = undone ? before[3] - 1u : before[3] < before[1] ? before[3] + 1u : before[1];

    lent[ROOM].may_change = formula(before[0], before[1]);
    if (memcmp(now, before, 2) || memcmp(now + 4, before + 4, FIXED - 4))
        fault("limits, rule, mapping or default list changed");
    if (counts[5] != steps)
        fault("%u kept steps became %u", before[3], counts[5]);
    check_computed(counts[3]);
}

/* A list that a tree took has at most 1,024 bytes, spare ones and all. */
static void check_taken(int list)
{
    if (lent[list].len > LIST_LONGEST)
        fault("a list of %zu bytes was taken", lent[list].len);
    spare_lists += (unsigned)has_spare(lent[list].at, lent[list].len);
}

/* The own list is given back as it was set. */
static void check_own(uint32_t object, int list)
{
    uint32_t told[8];

    pt_own(lent[ROOM].at, lent[ROOM].len, object, plenty, LIST_LONGEST, told);
    if (told[0] || told[3] != lent[list].len || told[4] != 1 || told[5] != get16(lent[list].at + 4) || memcmp(plenty, lent[list].at, told[3]))
        fault("an own list of %zu bytes is given back as %u bytes, or as others", lent[list].len, told[3]);
}

/* A change that is asked again without its list's spare bytes, in a copy of the room. */
static uint8_t room_again[ROOM_LONGEST + 256];

/* Whether the list has spare bytes, and few enough for a tree. */
static int prepare_again(int list)
{
    if (lent[list].len > LIST_LONGEST || !has_spare(lent[list].at, lent[list].len))
        return 0;
    memcpy(room_again, lent[ROOM].before, lent[ROOM].len);
    return 1;
}

/* The same answer, and the same bytes but for the list's own, whose slot begins at `slot`. */
static void check_again(const uint32_t again[8], size_t slot)
{
    const uint8_t *now = lent[ROOM].at;
    size_t behind = slot + 3 + LIST_LONGEST;

    if (memcmp(again, answer(), 32))
        fault("number %u, %u bytes, and without spare bytes number %u, %u bytes", answer()[0], answer()[3], again[0], again[3]);
    if (!again[0] && (memcmp(room_again, now, slot) || memcmp(room_again + behind, now + behind, formula(now[0], now[1]) - behind)))
        fault("another tree without spare bytes");
}

/* list: the one that is given as own list, or -1. */
static uint32_t after_change(uint32_t object, uint32_t added, int list)
{
    uint32_t counts[8], told[8];

    check_places(0, 0);
    check_counts_agree(counts);
    if (is_list_refusal())
        check_list_refusal(2, list);
    if (answer()[0] == PT_DONE) {
        check_changed_room(counts, 0);
        if (counts[3] != objects_before() + added)
            fault("%u objects became %u", objects_before(), counts[3]);
        pt_list(lent[ROOM].at, lent[ROOM].len, object, plenty, LIST_LONGEST, told);
        if (memcmp(told, answer(), 32))
            fault("a change answers another list than pt_list");
        check_reads(plenty, told, 0);
        if (list >= 0)
            check_taken(list);
        if (spare_lists)
            check_own(object, list);
        if (lent_live >= 0)
            keep_live(lent_live);
    }
    return answer()[0];
}

uint32_t case_start(void)
{
    int large = chance(24), has_default = chance(2);
    uint32_t objects = choose_limit(large), steps = choose_limit(large), rule = chance(12) ? pick(4) : 1 + pick(2), counts[8], again[8];
    size_t needed = formula(objects, steps), len = needed;

    if (chance(8))
        len = chance(2) && needed ? needed - 1 : pick((uint32_t)needed + 1);
    else if (chance(4))
        len += 1 + pick(200);
    lend_filled(ROOM, len);
    lend(FIRST, make_list(lent[FIRST].before, 1200, 6));
    make_mapping(lent[MAPPING].before);
    lend(MAPPING, 16);
    lend_answer();
    pt_start(lent[ROOM].at, len, objects, steps, rule, mapping(), has_default ? 1u << pick(32) : 0, lent[FIRST].at, lent[FIRST].len, answer());
    check_places(0, 0);
    if ((!needed || len < needed || rule < 1 || rule > 2) != (answer()[0] == PT_RULE))
        fault("%u objects, %u steps, rule %u, %zu bytes: number %u", objects, steps, rule, len, answer()[0]);
    if (has_default && prepare_again(FIRST)) {
        Bytes cut = without_spare(FIRST);
        pt_start(room_again, len, objects, steps, rule, mapping(), 1, cut.at, cut.len, again);
        check_again(again, DEFAULT_LIST);
    }
    if (is_list_refusal())
        check_list_refusal(3, has_default ? FIRST : -1);
    if (answer()[0] == PT_DONE) {
        lent[ROOM].may_change = needed;
        if (has_default)
            check_taken(FIRST);
        check_counts_agree(counts);
        if (answer()[3] || answer()[4] || answer()[5] || counts[3] || counts[5])
            fault("start tells more than zeros, or the tree isn't empty");
        if (chance(large ? 60 : 6))
            keep_live(large ? 0 : 1 + (int)pick(LIVE_ROOMS - 1));
    }
    return answer()[0];
}

static void add(uint8_t *room, uint32_t parent, uint32_t traits, Bytes list, uint32_t *to)
{
    pt_add(room, lent[ROOM].len, parent, traits, lent[TYPES].at, lent[OWNER].at, lent[OWNER].len, lent[GROUP].at, lent[GROUP].len,
           list.at, list.len, to);
}

uint32_t case_add(void)
{
    uint32_t traits = (uint32_t)next() & ~1u, parent, again[8];

    lend_room();
    parent = objects_before() && !chance(40) ? choose_object() : chance(20) ? choose_object() : PT_NO_PARENT;
    if (!chance(objects_before() ? 4 : 12))
        traits |= PT_IS_CONTAINER;
    make_guid(lent[TYPES].before);
    lend(TYPES, 16);
    lend(SECOND, make_list(lent[SECOND].before, chance(6) ? 1200 : 200, 4));
    lend_identities(40, SECOND);
    add(lent[ROOM].at, parent, traits, lent_bytes(SECOND), answer());
    if (traits & PT_HAS_LIST && prepare_again(SECOND)) {
        add(room_again, parent, traits, without_spare(SECOND), again);
        check_again(again, own_slot(objects_before()));
    }
    return after_change(objects_before(), 1, traits & PT_HAS_LIST ? SECOND : -1);
}

static void set_list(uint8_t *room, uint32_t object, uint32_t has_list, Bytes list, uint32_t *to)
{
    pt_set_list(room, lent[ROOM].len, object, has_list, list.at, list.len, to);
}

uint32_t case_set_list(void)
{
    uint32_t object, has_list = chance(4) ? 0 : 1u << pick(32), again[8];

    lend_room();
    object = choose_object();
    lend(SECOND, make_list(lent[SECOND].before, chance(4) ? 1200 : 300, 6));
    set_list(lent[ROOM].at, object, has_list, lent_bytes(SECOND), answer());
    if (has_list && prepare_again(SECOND)) {
        set_list(room_again, object, has_list, without_spare(SECOND), again);
        check_again(again, own_slot(object));
    }
    return after_change(object, 0, has_list ? SECOND : -1);
}

uint32_t case_set_mark(void)
{
    uint32_t object;

    lend_room();
    object = choose_object();
    pt_set_mark(lent[ROOM].at, lent[ROOM].len, object, chance(2) ? 0 : 1u << pick(32), answer());
    return after_change(object, 0, -1);
}

uint32_t case_set_owner(void)
{
    uint32_t object;

    lend_room();
    object = choose_object();
    lend_identities(20, -1);
    pt_set_owner(lent[ROOM].at, lent[ROOM].len, object, lent[OWNER].at, lent[OWNER].len, lent[GROUP].at, lent[GROUP].len, answer());
    return after_change(object, 0, -1);
}

/* Undo puts the latest step's own data back, its list with all of its bytes. */
static void check_put_back(void)
{
    const uint8_t *step = step_data_at(lent[ROOM].before, 0);

    if (memcmp(object_at(lent[ROOM].at, step[-1]), step, COMPUTED_LIST))
        fault("undo put back other own data of object %u", step[-1]);
}

uint32_t case_undo(void)
{
    uint32_t counts[8], was_add;

    lend_room();
    pt_undo(lent[ROOM].at, lent[ROOM].len, answer());
    check_places(0, 0);
    check_counts_agree(counts);
    if (lent_live >= 0 && (answer()[0] == PT_ROOM || answer()[0] == PT_TREE))
        fault("number %u in a room that calls reached", answer()[0]);
    if (answer()[0] == PT_DONE) {
        was_add = step_data_at(lent[ROOM].before, 0)[-2] == 1;
        check_changed_room(counts, 1);
        check_put_back();
        if (answer()[3] || answer()[4] || answer()[5] || counts[3] != objects_before() - was_add)
            fault("undo tells more than zeros, or %u objects became %u", objects_before(), counts[3]);
        if (lent_live >= 0)
            keep_live(lent_live);
    }
    return answer()[0];
}

typedef void ReadBack(const uint8_t *, size_t, uint32_t, uint8_t *, size_t, uint32_t *);

static uint32_t read_back(ReadBack *call)
{
    uint32_t object, probed[8], counts[8];
    size_t out_len;

    lend_room();
    object = choose_object();
    call(lent[ROOM].at, lent[ROOM].len, object, plenty, LIST_LONGEST, probed);
    out_len = choose_out(probed);
    lend_filled(OUT, out_len);
    call(lent[ROOM].at, lent[ROOM].len, object, lent[OUT].at, out_len, answer());
    check_places(0, 0);
    check_probed(probed, out_len);
    check_counts_agree(counts);
    if (answer()[0] != PT_TREE && (object >= counts[3]) != (answer()[0] == PT_OBJECT))
        fault("object %u of %u: number %u", object, counts[3], answer()[0]);
    return answer()[0];
}

uint32_t case_list(void)
{
    uint32_t number = read_back(pt_list);

    if (number == PT_DONE)
        check_reads(lent[OUT].at, answer(), lent_live < 0);
    return number;
}

uint32_t case_own(void)
{
    uint32_t number = read_back(pt_own);

    if (number == PT_DONE) {
        check_reads(lent[OUT].at, answer(), 1);
        spare_lists = (unsigned)has_spare(lent[OUT].at, answer()[3]);
    }
    return number;
}

uint32_t case_data(void)
{
    uint32_t number = read_back(pt_data);

    if (number == PT_DONE) {
        const uint8_t *owner = lent[OUT].at + OWNER_AT, *group = owner + 1 + owner[0];
        if (answer()[3] != OWNER_AT + 2u + owner[0] + group[0] || answer()[4] != 1 || answer()[5])
            fault("own data of %u bytes, present %u, count %u", answer()[3], answer()[4], answer()[5]);
        if (pt_identity(owner + 1, owner[0]) || pt_identity(group + 1, group[0]))
            fault("own data with an owner or a group that is none");
    }
    return number;
}

uint32_t case_counts(void)
{
    const uint32_t *a;
    uint32_t again[8];

    lend_room();
    a = answer();
    pt_counts(lent[ROOM].at, lent[ROOM].len, answer());
    check_places(0, 0);
    check_counts_agree(again);
    if (lent_live >= 0 && a[0])
        fault("a room that calls reached is %u", a[0]);
    if (a[0] == PT_DONE && (a[3] != lent[ROOM].at[2] || a[4] != 1 || a[5] != lent[ROOM].at[3]))
        fault("counts %u %u %u", a[3], a[4], a[5]);
    return a[0];
}

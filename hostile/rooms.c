#include <stdlib.h>
#include <string.h>

#include "pipeteasel.h"

#include "lend.h"
#include "make.h"
#include "cases.h"
#include "rooms.h"

/* Rooms that earlier calls started and changed. The first has larger limits and is taken less often: its calls cost the most. */
static struct {
    uint8_t *bytes;
    size_t len;
} live[LIVE_ROOMS];

int lent_live;

uint32_t formula(uint32_t objects, uint32_t steps)
{
    return objects < 1 || objects > 64 || steps > 64 ? 0 : FIXED + OBJECT * objects + STEP * steps;
}

void rooms_prepare(void)
{
    static const uint32_t plain_mapping[4] = {1, 2, 4, 7};
    uint32_t start[8];
    uint32_t i;

    for (i = 0; i < LIVE_ROOMS; i++) {
        live[i].bytes = malloc(ROOM_LONGEST);
        if (!live[i].bytes)
            fault("no memory");
        live[i].len = formula(i ? i : 64, i ? i : 64);
        pt_start(live[i].bytes, live[i].len, i ? i : 64, i ? i : 64, 1 + i % 2, plain_mapping, 0, NULL, 0, start);
    }
}

uint8_t *object_at(uint8_t *room, uint32_t object)
{
    return room + FIXED + OBJECT * object;
}

uint8_t *step_data_at(uint8_t *room, uint32_t step)
{
    return room + FIXED + OBJECT * room[0] + STEP * step + 2;
}

static void plant_list(uint8_t *slot)
{
    size_t len = make_good_list(slot + 3, LIST_LONGEST, chance(2) ? 60 : pick(8));

    if (chance(4))
        len = pad_list(slot + 3, len, len + pick((uint32_t)(LIST_LONGEST - len) + 1));
    slot[0] = 1;
    put16(slot + 1, len);
}

/* A well-formed list where no call put it: such a room is a tree, but not one that calls reach. */
static void plant(uint8_t *room)
{
    uint32_t object = pick(room[2] + 1u) % room[0];

    switch (pick(4)) {
    case 0: plant_list(object_at(room, object) + OWN_LIST); break;
    case 1: plant_list(object_at(room, object) + COMPUTED_LIST); break;
    case 2: plant_list(room + DEFAULT_LIST); break;
    default:
        if (room[3])
            plant_list(step_data_at(room, 0) + OWN_LIST);
    }
}

/* Bytes that the test of a room looks at: its head, an object's, a list's and a step's. */
static void spoil_head(uint8_t *room)
{
    uint32_t object = pick(room[2] + 1u) % room[0];
    uint8_t *some = room;

    switch (pick(6)) {
    case 0: some += pick(6); break;
    case 1: some += DEFAULT_LIST + pick(40); break;
    case 2: some = object_at(room, object) + pick(OWN_LIST + 40); break;
    case 3: some = object_at(room, object) + COMPUTED_LIST + pick(40); break;
    case 4: some = object_at(room, object) + OWNER_AT + 69 * pick(2) + pick(14); break;
    default:
        if (room[1])
            some = step_data_at(room, pick(room[3] + 1u) % room[1]) - 2 + pick(OWN_LIST + 40);
    }
    *some = (uint8_t)(chance(2) ? pick(4) : next() >> 56);
}

static size_t spoil_room(uint8_t *room, size_t len)
{
    uint32_t i;

    switch (pick(8)) {
    case 0: return pick((uint32_t)len);
    case 1: return len - 1;
    case 2: memset(room, 0, len); return len;
    case 3: len = pick(9000); make_bytes(room, len); return len;
    case 4: room[0] = (uint8_t)(1 + pick(4)); room[1] = (uint8_t)pick(4); make_bytes(room + 2, len - 2); return len;
    case 5:
        for (i = 1 + pick(20); i; i--)
            room[pick((uint32_t)len)] = (uint8_t)(next() >> 56);
        return len;
    default: spoil_head(room); return len;
    }
}

void lend_room(void)
{
    uint8_t *room = lent[ROOM].before;
    uint32_t which = chance(12) ? 0 : 1 + pick(LIVE_ROOMS - 1), how = pick(12);
    size_t len = live[which].len;

    memcpy(room, live[which].bytes, len);
    lent_live = how < 8 ? (int)which : -1;
    if (how == 8 || how == 9)
        plant(room);
    else if (how > 9)
        len = spoil_room(room, len);
    if (chance(4)) {
        size_t more = 1 + pick(200);
        make_bytes(room + len, more);
        len += more;
    }
    lend(ROOM, len);
    lend_answer();
}

void keep_live(int which)
{
    live[which].len = formula(lent[ROOM].at[0], lent[ROOM].at[1]);
    memcpy(live[which].bytes, lent[ROOM].at, live[which].len);
}

/* Rooms to lend: live ones, that earlier calls started and changed, and copies of them with other bytes. */
#ifndef ROOMS_H
#define ROOMS_H

#include <stddef.h>
#include <stdint.h>

/* The layout of docs/ROOM.md. */
enum {
    FIXED = 1048, OBJECT = 2211, STEP = 1186, ROOM_LONGEST = FIXED + 64 * OBJECT + 64 * STEP,
    OWN_LIST = 157, COMPUTED_LIST = 1184, DEFAULT_LIST = 21, OWNER_AT = 19, LIST_LONGEST = 1024
};

enum { LIVE_ROOMS = 12 };

extern int lent_live; /* which live room is lent as it is, or -1 */

uint32_t formula(uint32_t objects, uint32_t steps);
uint8_t *object_at(uint8_t *room, uint32_t object);
uint8_t *step_data_at(uint8_t *room, uint32_t step);
void rooms_prepare(void);
void lend_room(void);      /* and the answer */
void keep_live(int which); /* the lent room, changed by a call, is from now on that live room */

#endif

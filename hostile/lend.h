/* Lent ranges between guard pages. A range lies flush against the guard behind it or against the one before it; the rest of its pages,
 * the slack, holds a pattern. A touch of a guard is a signal, a write into the slack is seen when the range is taken back. */
#ifndef LEND_H
#define LEND_H

#include <stddef.h>
#include <stdint.h>

enum { PAGE = 4096, GUARD = 32 * PAGE, LEND_MOST = 64 * PAGE };

/* What a call can be lent. FIRST, SECOND and THIRD are lists (parent, creator, default; two side by side), scripts, an expression, a text or an identity's bytes;
 * HELD are the SIDs that someone holds, TABLE the names that are known of them, ENTRY is what a step writes. */
enum { FIRST, SECOND, THIRD, TYPES, OWNER, GROUP, MAPPING, ROOM, OUT, ANSWER, HELD, TABLE, ENTRY, LENT_KINDS };

typedef struct {
    uint8_t *before;   /* filled by the case before lend, and compared afterwards */
    uint8_t *at;       /* where the range lies while it is lent; null at times where its length is 0 */
    size_t len;
    size_t may_change; /* how many bytes of the range's front the call may have changed: 0 until the case says more */
    int is_lent;
    uint8_t *area;     /* the pages between the guards */
    size_t area_len;
    uint8_t *areas[7]; /* areas of 1, 2, 4 ... 64 pages, mapped when first needed */
} Lent;

extern Lent lent[LENT_KINDS];
extern uint64_t lent_twice; /* how often a range was lent for a second parameter */

void lend_prepare(void);
void lend(int which, size_t len);
void lend_filled(int which, size_t len); /* the range holds random bytes: something that a call will write */
/* Lends a part of what is lent already for another parameter. It is watched as the other's, and only for what a call reads. */
void lend_part(int which, int of, size_t from, size_t len);
void lend_again(int which, int of);      /* the whole of it, at times any part */
void take_back(void);                    /* a fault where anything changed but what the case allows */

/* The lent answer, eight numbers. */
uint32_t *answer(void);

/* Names the call and the case, says what was wrong and ends the program with 1. */
void fault(const char *format, ...);
extern const char *fault_call;
extern uint64_t fault_case, fault_seed;

#endif

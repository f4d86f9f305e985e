/* What the stand-in and the driver have in common: the calls, and the memory through which one asks and the other answers.
 * Both machines count in 64 bits with the low byte first, so that the layout is the same for both. */
#ifndef SHARED_H
#define SHARED_H

#include <stdint.h>

/* What each call takes, in the header's order. The two programs are made from these lines: AS_LENT and so on is what a program
 * makes of a parameter. LENT: bytes to read; CHANGED: bytes, ROW: 16-bit numbers, ROW32: 32-bit numbers that the call may change, each
 * with a length; NUMBER, MAPPING, TYPE and ANSWER: as in the header, where pt_step's entry is made as an answer is. */
#define TAKES_pt_identity(AS) AS##_LENT(bytes)
#define TAKES_pt_read(AS) AS##_LENT(list), AS##_ROW(row), AS##_ANSWER(answer)
#define TAKES_pt_step(AS) AS##_LENT(list), AS##_NUMBER(place), AS##_ANSWER(entry), AS##_ANSWER(answer)
#define TAKES_pt_compare(AS) AS##_LENT(first), AS##_LENT(second), AS##_ROW32(row), AS##_ANSWER(answer)
#define TAKES_pt_may_open(AS) \
    AS##_NUMBER(has_list), AS##_LENT(list), AS##_TYPE(type), AS##_LENT(held), AS##_NUMBER(wanted), AS##_ANSWER(answer)
#define TAKES_pt_evaluate(AS) AS##_LENT(expression), AS##_LENT(table), AS##_ANSWER(answer)
#define TAKES_pt_may_open_with(AS) \
    AS##_NUMBER(has_list), AS##_LENT(list), AS##_TYPE(type), AS##_LENT(held), AS##_NUMBER(wanted), AS##_LENT(table), AS##_ANSWER(answer)
#define TAKES_pt_condition(AS) AS##_LENT(text), AS##_CHANGED(out), AS##_ANSWER(answer)
#define TAKES_pt_compute(AS) \
    AS##_NUMBER(rule), AS##_NUMBER(settings), AS##_MAPPING(mapping), AS##_LENT(parent), AS##_LENT(creator), AS##_LENT(by_default), \
    AS##_LENT(types), AS##_LENT(owner), AS##_LENT(group), AS##_CHANGED(out), AS##_ANSWER(answer)
#define TAKES_pt_room(AS) AS##_NUMBER(objects), AS##_NUMBER(steps)
#define TAKES_pt_start(AS) \
    AS##_CHANGED(room), AS##_NUMBER(objects), AS##_NUMBER(steps), AS##_NUMBER(rule), AS##_MAPPING(mapping), AS##_NUMBER(has_default), \
    AS##_LENT(by_default), AS##_ANSWER(answer)
#define TAKES_pt_add(AS) \
    AS##_CHANGED(room), AS##_NUMBER(parent), AS##_NUMBER(traits), AS##_TYPE(type), AS##_LENT(owner), AS##_LENT(group), AS##_LENT(list), \
    AS##_ANSWER(answer)
#define TAKES_pt_set_list(AS) AS##_CHANGED(room), AS##_NUMBER(object), AS##_NUMBER(has_list), AS##_LENT(list), AS##_ANSWER(answer)
#define TAKES_pt_set_mark(AS) AS##_CHANGED(room), AS##_NUMBER(object), AS##_NUMBER(mark), AS##_ANSWER(answer)
#define TAKES_pt_set_owner(AS) AS##_CHANGED(room), AS##_NUMBER(object), AS##_LENT(owner), AS##_LENT(group), AS##_ANSWER(answer)
#define TAKES_pt_undo(AS) AS##_CHANGED(room), AS##_ANSWER(answer)
#define TAKES_pt_list(AS) AS##_LENT(room), AS##_NUMBER(object), AS##_CHANGED(out), AS##_ANSWER(answer)
#define TAKES_pt_own(AS) AS##_LENT(room), AS##_NUMBER(object), AS##_CHANGED(out), AS##_ANSWER(answer)
#define TAKES_pt_data(AS) AS##_LENT(room), AS##_NUMBER(object), AS##_CHANGED(out), AS##_ANSWER(answer)
#define TAKES_pt_counts(AS) AS##_LENT(room), AS##_ANSWER(answer)
#define TAKES_pt_play(AS) AS##_LENT(script), AS##_CHANGED(out), AS##_ANSWER(answer)

/* What each call gives back besides: a number of some type, or nothing. */
#define CALLS(GIVING, SILENT) \
    GIVING(uint32_t, pt_identity) \
    SILENT(pt_read) \
    SILENT(pt_step) \
    SILENT(pt_compare) \
    SILENT(pt_may_open) \
    SILENT(pt_evaluate) \
    SILENT(pt_may_open_with) \
    SILENT(pt_condition) \
    SILENT(pt_compute) \
    GIVING(size_t, pt_room) \
    SILENT(pt_start) \
    SILENT(pt_add) \
    SILENT(pt_set_list) \
    SILENT(pt_set_mark) \
    SILENT(pt_set_owner) \
    SILENT(pt_undo) \
    SILENT(pt_list) \
    SILENT(pt_own) \
    SILENT(pt_data) \
    SILENT(pt_counts) \
    SILENT(pt_play)

/* Each call has a number and a name. */
#define NUMBER_OF_GIVING(type, call) CALL_##call,
#define NUMBER_OF_SILENT(call) CALL_##call,
enum { CALLS(NUMBER_OF_GIVING, NUMBER_OF_SILENT) CALLS_ALL };
#define NAME_OF_GIVING(type, call) #call,
#define NAME_OF_SILENT(call) #call,
#define CALL_NAMES {CALLS(NAME_OF_GIVING, NAME_OF_SILENT)}

enum { PARTS_MOST = 16, GAP_LEAST = 256, GAP_MOST = GAP_LEAST + 16, PATTERN = 0xA5 };

/* A range of the shared memory. */
typedef struct {
    uint64_t place; /* counted from the beginning of the memory */
    uint64_t length;
} Span;

/* One parameter: where it lies, 0 for a null pointer, and its length as the call takes it, or the number itself. */
typedef struct {
    uint64_t place;
    uint64_t number;
} Handed;

/* The memory begins with this. What is lent lies behind it, with a gap before and behind each range that the pattern fills. */
typedef struct {
    uint32_t call;
    uint32_t gaps_count;
    uint64_t given; /* what the call gave back: written by the driver */
    Handed handed[PARTS_MOST];
    Span gaps[PARTS_MOST + 1];
} Head;

#define SHARED_BYTES ((size_t)256 << 20)

#endif

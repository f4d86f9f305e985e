/* Makes the library's calls for the stand-in: the memory that both map says which call and what is lent, a byte on standard input
 * asks for it, and a byte on standard output says that it is done. Ends where it is asked no more, and with 1 at the first write of the
 * library outside what it was lent. Usage: driver N, where N is the open file that is the memory. */
#define _POSIX_C_SOURCE 200809L
#include <stdio.h>
#include <stdlib.h>
#include <string.h>
#include <sys/mman.h>
#include <unistd.h>

#include "pipeteasel.h"

#include "shared.h"

static const char *const call_names[] = CALL_NAMES;
static uint8_t pattern[GAP_MOST];

static uint8_t *memory;
static Head asked; /* as it was before the call */

static void fault(const char *what)
{
    fprintf(stderr, "driver: %s: %s\n", asked.call < CALLS_ALL ? call_names[asked.call] : "no call", what);
    exit(1);
}

static void *at(int part)
{
    uint64_t place = asked.handed[part].place;

    return place ? memory + place : NULL;
}

/* A call's parameters are numbered by an enum of their names. */
#define INDEX_LENT(name) name##_index
#define INDEX_CHANGED(name) name##_index
#define INDEX_ROW(name) name##_index
#define INDEX_ROW32(name) name##_index
#define INDEX_NUMBER(name) name##_index
#define INDEX_MAPPING(name) name##_index
#define INDEX_TYPE(name) name##_index
#define INDEX_ANSWER(name) name##_index

#define HANDED_LENT(name) at(name##_index), asked.handed[name##_index].number
#define HANDED_CHANGED(name) HANDED_LENT(name)
#define HANDED_ROW(name) HANDED_LENT(name)
#define HANDED_ROW32(name) HANDED_LENT(name)
#define HANDED_NUMBER(name) (uint32_t)asked.handed[name##_index].number
#define HANDED_MAPPING(name) at(name##_index)
#define HANDED_TYPE(name) at(name##_index)
#define HANDED_ANSWER(name) at(name##_index)

#define MAKE_GIVING(type, call) \
    case CALL_##call: { \
        enum { TAKES_##call(INDEX) }; \
        return call(TAKES_##call(HANDED)); \
    }
#define MAKE_SILENT(call) \
    case CALL_##call: { \
        enum { TAKES_##call(INDEX) }; \
        call(TAKES_##call(HANDED)); \
        return 0; \
    }

static uint64_t make_call(void)
{
    switch (asked.call) {
    CALLS(MAKE_GIVING, MAKE_SILENT)
    default:
        fault("no such number");
        return 0;
    }
}

static void check_gaps(void)
{
    uint32_t i;

    if (memcmp(memory, &asked, sizeof asked))
        fault("wrote far before what it was lent");
    for (i = 0; i < asked.gaps_count; i++)
        if (memcmp(memory + asked.gaps[i].place, pattern, asked.gaps[i].length))
            fault("wrote outside what it was lent");
}

int main(int argc, char **argv)
{
    uint64_t given;
    char byte;

    memory = mmap(NULL, SHARED_BYTES, PROT_READ | PROT_WRITE, MAP_SHARED, argc > 1 ? atoi(argv[1]) : -1, 0);
    if (memory == MAP_FAILED) {
        fprintf(stderr, "driver: no shared memory\n");
        return 1;
    }
    memset(pattern, PATTERN, sizeof pattern);
    while (read(STDIN_FILENO, &byte, 1) == 1) {
        memcpy(&asked, memory, sizeof asked);
        given = make_call();
        check_gaps();
        memcpy(memory + offsetof(Head, given), &given, sizeof given);
        if (write(STDOUT_FILENO, &byte, 1) != 1)
            return 1;
    }
    return 0;
}

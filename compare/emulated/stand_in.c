/* The library's functions on a machine that can't link it, as it is for x86-64: each call is handed to the driver, a program that has
 * linked it and runs under the emulator, one process for the whole run. What is lent is copied into memory that both map, and what the call
 * may change is copied back. Where the driver ends, or a range that was lent to be read is changed, the program is aborted. */
#define _GNU_SOURCE
#include <fcntl.h>
#include <pthread.h>
#include <stdio.h>
#include <stdlib.h>
#include <string.h>
#include <sys/mman.h>
#include <sys/wait.h>
#include <unistd.h>

#include "pipeteasel.h"

#include "shared.h"

/* A parameter: a range of count elements, or, of size 0, the number count. */
typedef struct {
    const void *begin;
    size_t count, size;
    void *may_change; /* begin, or null where the call only reads */
} Part;

/* A piece of the caller's memory that one or more parts lie in, and where its copy lies. */
typedef struct {
    uintptr_t from, to;
    uint64_t place;
} Block;

static const char *const call_names[] = CALL_NAMES;
static pthread_mutex_t one_at_a_time = PTHREAD_MUTEX_INITIALIZER;
static uint8_t *memory;
static Head *head;
static int to_driver, from_driver;
static pid_t driver;

static void fail(const char *what)
{
    fprintf(stderr, "stand-in: %s: %s\n", head ? call_names[head->call] : "before the first call", what);
    abort();
}

static void become_driver(int file, int asks, int answers)
{
    char number[16];

    snprintf(number, sizeof number, "%d", file);
    if (fcntl(file, F_SETFD, 0) == 0 && dup2(asks, STDIN_FILENO) == STDIN_FILENO && dup2(answers, STDOUT_FILENO) == STDOUT_FILENO)
        execl(EMULATED, EMULATED, DRIVER, number, (char *)NULL);
    _exit(127);
}

/* At the caller's end: the driver sees that it is asked no more. */
static void end_driver(void)
{
    close(to_driver);
    waitpid(driver, NULL, 0);
}

/* No other program that the caller starts holds the pipes or the memory open. */
static void start_driver(void)
{
    int asks[2], answers[2], file = memfd_create("pipeteasel", MFD_CLOEXEC);

    if (file < 0 || ftruncate(file, (off_t)SHARED_BYTES) || pipe2(asks, O_CLOEXEC) || pipe2(answers, O_CLOEXEC))
        fail("no memory or no pipes to share with the driver");
    memory = mmap(NULL, SHARED_BYTES, PROT_READ | PROT_WRITE, MAP_SHARED, file, 0);
    if (memory == MAP_FAILED)
        fail("no memory to share with the driver");
    driver = fork();
    if (driver < 0)
        fail("the driver can't be started");
    if (driver == 0)
        become_driver(file, asks[0], answers[1]);
    close(asks[0]);
    close(answers[1]);
    close(file);
    to_driver = asks[1];
    from_driver = answers[0];
    atexit(end_driver);
    head = (Head *)(void *)memory;
}

static size_t bytes_of(const Part *part)
{
    return part->count * part->size;
}

static Block block_of(const Part *part)
{
    Block block = {(uintptr_t)part->begin, (uintptr_t)part->begin + bytes_of(part), 0};

    return block;
}

static int meet(const Block *a, const Block *b)
{
    return a->from == b->from || (a->from < b->to && b->from < a->to);
}

/* Parts that begin alike or overlap are one block, so that they do so for the driver too. */
static size_t add_block(Block *blocks, size_t count, Block block)
{
    size_t i = 0;

    while (i < count) {
        if (!meet(&blocks[i], &block)) {
            i++;
            continue;
        }
        if (blocks[i].from < block.from)
            block.from = blocks[i].from;
        if (blocks[i].to > block.to)
            block.to = blocks[i].to;
        blocks[i] = blocks[--count];
        i = 0;
    }
    blocks[count] = block;
    return count + 1;
}

static void put_gap(uint64_t place, uint64_t length)
{
    Span gap = {place, length};

    if (place + length > SHARED_BYTES)
        fail("more is lent than the shared memory holds");
    memset(memory + place, PATTERN, length);
    head->gaps[head->gaps_count++] = gap;
}

/* Copies the blocks, each as far from a multiple of 16 as it was, and gaps between them. */
static void put_blocks(Block *blocks, size_t count)
{
    uint64_t at = sizeof *head;
    size_t i;

    head->gaps_count = 0;
    for (i = 0; i < count; i++) {
        uint64_t gap = GAP_LEAST + ((blocks[i].from - at - GAP_LEAST) & 15), length = blocks[i].to - blocks[i].from;
        put_gap(at, gap);
        blocks[i].place = at + gap;
        at += gap + length;
        if (at > SHARED_BYTES)
            fail("more is lent than the shared memory holds");
        memcpy(memory + blocks[i].place, (const void *)blocks[i].from, length);
    }
    put_gap(at, GAP_LEAST);
}

static uint64_t place_of(const Part *part, const Block *blocks, size_t count)
{
    Block own = block_of(part);
    size_t i;

    for (i = 0; i < count; i++)
        if (blocks[i].from <= own.from && own.to <= blocks[i].to)
            return blocks[i].place + (own.from - blocks[i].from);
    return 0;
}

static void lay_out(const Part *parts, size_t count)
{
    Block blocks[PARTS_MOST];
    size_t blocks_count = 0, i;

    for (i = 0; i < count; i++)
        if (parts[i].begin)
            blocks_count = add_block(blocks, blocks_count, block_of(&parts[i]));
    put_blocks(blocks, blocks_count);
    for (i = 0; i < count; i++) {
        head->handed[i].place = parts[i].begin ? place_of(&parts[i], blocks, blocks_count) : 0;
        head->handed[i].number = parts[i].count;
    }
}

static void ask(void)
{
    char byte = 0;

    if (write(to_driver, &byte, 1) != 1 || read(from_driver, &byte, 1) != 1)
        fail("the driver ended");
}

/* What was lent to be read is compared once everything that may change is copied. */
static void take_back(const Part *parts, size_t count)
{
    size_t i;

    for (i = 0; i < count; i++)
        if (parts[i].may_change)
            memcpy(parts[i].may_change, memory + head->handed[i].place, bytes_of(&parts[i]));
    for (i = 0; i < count; i++)
        if (parts[i].begin && memcmp(parts[i].begin, memory + head->handed[i].place, bytes_of(&parts[i])))
            fail("changed what it was lent to read");
}

static uint64_t hand_over(uint32_t call, const Part *parts, size_t count)
{
    uint64_t given;

    pthread_mutex_lock(&one_at_a_time);
    if (!head)
        start_driver();
    head->call = call;
    if (count > PARTS_MOST)
        fail("takes more parameters than the shared memory has places for");
    lay_out(parts, count);
    ask();
    take_back(parts, count);
    given = head->given;
    pthread_mutex_unlock(&one_at_a_time);
    return given;
}

#define SIGNED_LENT(name) const uint8_t *name, size_t name##_len
#define SIGNED_CHANGED(name) uint8_t *name, size_t name##_len
#define SIGNED_ROW(name) uint16_t *name, size_t name##_len
#define SIGNED_ROW32(name) uint32_t *name, size_t name##_len
#define SIGNED_NUMBER(name) uint32_t name
#define SIGNED_MAPPING(name) const uint32_t name[4]
#define SIGNED_TYPE(name) const uint8_t name[16]
#define SIGNED_ANSWER(name) uint32_t name[8]

#define PART_LENT(name) {name, name##_len, 1, NULL}
#define PART_CHANGED(name) {name, name##_len, 1, name}
#define PART_ROW(name) {name, name##_len, sizeof *name, name}
#define PART_ROW32(name) PART_ROW(name)
#define PART_NUMBER(name) {NULL, name, 0, NULL}
#define PART_MAPPING(name) {name, 4, sizeof *name, NULL}
#define PART_TYPE(name) {name, 16, 1, NULL}
#define PART_ANSWER(name) {name, 8, sizeof *name, name}

#define HAND_OVER(call, parts) hand_over(CALL_##call, parts, sizeof parts / sizeof *parts)
#define DEFINE_GIVING(type, call) \
    type call(TAKES_##call(SIGNED)) \
    { \
        const Part parts[] = {TAKES_##call(PART)}; \
        return (type)HAND_OVER(call, parts); \
    }
#define DEFINE_SILENT(call) \
    void call(TAKES_##call(SIGNED)) \
    { \
        const Part parts[] = {TAKES_##call(PART)}; \
        HAND_OVER(call, parts); \
    }

CALLS(DEFINE_GIVING, DEFINE_SILENT)

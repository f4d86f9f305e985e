#include <signal.h>
#include <stdarg.h>
#include <stdio.h>
#include <stdlib.h>
#include <string.h>
#include <sys/mman.h>
#include <unistd.h>

#include "lend.h"
#include "make.h"

enum { SLACK = 0xC3 };

static const char *const lent_names[LENT_KINDS] = {"first list or bytes", "second list", "third list", "types", "owner",
                                                   "group", "mapping", "room", "out", "answer", "held SIDs", "table", "entry"};
static uint8_t slack[LEND_MOST];

Lent lent[LENT_KINDS];
uint64_t lent_twice;
const char *fault_call = "none";
uint64_t fault_case, fault_seed;

void fault(const char *format, ...)
{
    va_list more;

    printf("fault: %s, case %llu, seed %llu: ", fault_call, (unsigned long long)fault_case, (unsigned long long)fault_seed);
    va_start(more, format);
    vprintf(format, more);
    va_end(more);
    printf("\n");
    fflush(stdout);
    _exit(1);
}

/* The signal comes out of the library, which is never inside the C library, so printing from here is safe. */
static void on_signal(int number, siginfo_t *info, void *context)
{
    const uint8_t *touched = info->si_addr;
    int i;

    (void)context;
    for (i = 0; i < LENT_KINDS; i++) {
        const Lent *l = &lent[i];
        if (!l->is_lent)
            continue;
        if (touched >= l->area - GUARD && touched < l->area)
            fault("touched %ld bytes before the %s of %zu", (long)(l->area - touched), lent_names[i], l->len);
        if (touched >= l->area + l->area_len && touched < l->area + l->area_len + GUARD)
            fault("touched byte %ld behind the %s of %zu", (long)(touched - l->area - l->area_len), lent_names[i], l->len);
    }
    fault("signal %d at %p", number, (const void *)touched);
}

static void catch_signals(void)
{
    static const int numbers[] = {SIGSEGV, SIGBUS, SIGILL, SIGFPE, SIGABRT};
    static uint8_t other_stack[65536];
    stack_t stack;
    struct sigaction action;
    size_t i;

    memset(&stack, 0, sizeof stack);
    stack.ss_sp = other_stack;
    stack.ss_size = sizeof other_stack;
    sigaltstack(&stack, NULL);
    memset(&action, 0, sizeof action);
    action.sa_sigaction = on_signal;
    action.sa_flags = SA_SIGINFO | SA_ONSTACK;
    for (i = 0; i < sizeof numbers / sizeof *numbers; i++)
        sigaction(numbers[i], &action, NULL);
}

void lend_prepare(void)
{
    int i;

    memset(slack, SLACK, sizeof slack);
    for (i = 0; i < LENT_KINDS; i++) {
        lent[i].before = malloc(LEND_MOST);
        if (!lent[i].before)
            fault("no memory");
    }
    catch_signals();
}

static uint8_t *map_area(size_t len)
{
    uint8_t *whole = mmap(NULL, len + 2 * GUARD, PROT_NONE, MAP_PRIVATE | MAP_ANONYMOUS, -1, 0);

    if (whole == MAP_FAILED || mprotect(whole + GUARD, len, PROT_READ | PROT_WRITE))
        fault("no guarded memory");
    memset(whole + GUARD, SLACK, len);
    return whole + GUARD;
}

/* The smallest area that holds len bytes: then all of its slack can be checked each time. */
static void choose_area(Lent *l, size_t len)
{
    int size = 0;

    while (((size_t)PAGE << size) < len)
        size++;
    l->area_len = (size_t)PAGE << size;
    if (!l->areas[size])
        l->areas[size] = map_area(l->area_len);
    l->area = l->areas[size];
}

void lend(int which, size_t len)
{
    Lent *l = &lent[which];

    if (len > LEND_MOST)
        fault("the case itself lends %zu bytes", len);
    choose_area(l, len);
    l->at = chance(2) ? l->area + l->area_len - len : l->area;
    l->len = len;
    l->may_change = 0;
    l->is_lent = 1;
    if (len)
        memcpy(l->at, l->before, len);
    else if (chance(3))
        l->at = NULL;
}

void lend_filled(int which, size_t len)
{
    make_bytes(lent[which].before, len);
    lend(which, len);
}

void lend_part(int which, int of, size_t from, size_t len)
{
    Lent *l = &lent[which];

    memcpy(l->before, lent[of].before + from, len);
    l->at = lent[of].at ? lent[of].at + from : NULL;
    l->len = len;
    lent_twice++;
}

void lend_again(int which, int of)
{
    size_t whole = lent[of].len, from = chance(6) ? pick((uint32_t)whole + 1) : 0;

    lend_part(which, of, from, from ? pick((uint32_t)(whole - from) + 1) : whole);
}

uint32_t *answer(void)
{
    return (uint32_t *)(void *)lent[ANSWER].at;
}

static void check_slack(int which, const uint8_t *from, const uint8_t *to)
{
    if (to > from && memcmp(from, slack, (size_t)(to - from)))
        fault("bytes beside the %s of %zu changed", lent_names[which], lent[which].len);
}

static void take_one_back(int which)
{
    Lent *l = &lent[which];
    const uint8_t *begin = l->at ? l->at : l->area;

    if (l->may_change > l->len)
        fault("%zu bytes answered for the %s of %zu", l->may_change, lent_names[which], l->len);
    check_slack(which, l->area, begin);
    check_slack(which, begin + l->len, l->area + l->area_len);
    if (l->len && memcmp(l->at + l->may_change, l->before + l->may_change, l->len - l->may_change))
        fault("the %s changed past byte %zu", lent_names[which], l->may_change);
    if (l->len)
        memset(l->at, SLACK, l->len);
    l->is_lent = 0;
}

void take_back(void)
{
    int i;

    for (i = 0; i < LENT_KINDS; i++)
        if (lent[i].is_lent)
            take_one_back(i);
}

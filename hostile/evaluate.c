#include <string.h>

#include "pipeteasel.h"

#include "lend.h"
#include "make.h"
#include "conditions.h"
#include "cases.h"

enum { FALSE, TRUE, UNKNOWN };

uint64_t truths[TRUTHS];

/* What is asked again lies in a copy, with room for more behind. */
static uint8_t copy[LEND_MOST + 16];

/* Whether it is a good one is given. */
static int lend_expression(void)
{
    uint8_t *expression = lent[FIRST].before;
    size_t len = make_expression(expression, chance(4) ? TOKENS_MOST : 2 + pick(12));
    int spoilt = chance(2);

    if (chance(2)) {
        memset(expression + len, 0, 3);
        len = padded(len);
    }
    if (spoilt)
        len = spoil_expression(expression, len);
    if (chance(500)) {
        make_bytes(expression + 4, len = 60000 + pick(10000));
        spoilt = 1;
    }
    lend(FIRST, len);
    return !spoilt;
}

/* At times any of the expression's bytes. */
void lend_table(void)
{
    uint8_t *table = lent[TABLE].before;
    size_t len = make_table(table);

    if (chance(60))
        lend_again(TABLE, FIRST);
    else
        lend(TABLE, chance(4) ? spoil_table(table, len) : len);
}

static void evaluate(const uint8_t *expression, size_t len, const uint8_t *table, size_t table_len, uint32_t *to)
{
    make_bytes((uint8_t *)to, 32);
    pt_evaluate(expression, len, table, table_len, to);
}

/* The same with these bytes behind its tokens. */
static void evaluate_with(const uint8_t *behind, size_t len, uint32_t *to)
{
    size_t end = tokens_end(lent[FIRST].before, lent[FIRST].len);

    memcpy(copy, lent[FIRST].before, end);
    memcpy(copy + end, behind, len);
    evaluate(copy, end + len, lent[TABLE].at, lent[TABLE].len, to);
}

/* Turned by one more not, if there is a token left for it. */
static void check_not(void)
{
    static const uint8_t not_it[] = {0xA2};
    static const uint32_t turned[] = {TRUE, FALSE, UNKNOWN};
    size_t end = tokens_end(lent[FIRST].before, lent[FIRST].len);
    unsigned tokens = count_tokens(lent[FIRST].before, end);
    uint32_t a[8] = {0}, found[8];

    if (tokens < TOKENS_MOST)
        a[3] = turned[answer()[3]];
    else
        a[0] = PT_EXPRESSION;
    evaluate_with(not_it, 1, found);
    if (memcmp(found, a, 32))
        fault("%u tokens come to %u, and with one more not to number %u, %u", tokens, answer()[3], found[0], found[3]);
}

/* No zeros and those up to a multiple of four say nothing; others are refused. */
static void check_zeros(void)
{
    static const uint8_t zeros[8] = {0};
    size_t end = tokens_end(lent[FIRST].before, lent[FIRST].len), behind = pick(9);
    int may_be = behind == 0 || behind == padded(end) - end;
    uint32_t found[8], refused[8] = {PT_EXPRESSION, 0, 0, 0, 0, 0, 0, 0};

    evaluate_with(zeros, behind, found);
    if (memcmp(found, may_be ? answer() : refused, 32))
        fault("%zu bytes and %zu zeros: number %u, %u", end, behind, found[0], found[3]);
}

/* The first record comes last. */
static void check_other_order(void)
{
    const uint8_t *table = lent[TABLE].before;
    size_t len = lent[TABLE].len, first = len ? 10u + get16(table) : 0;
    uint32_t found[8];

    memcpy(copy, table + first, len - first);
    memcpy(copy + len - first, table, first);
    evaluate(lent[FIRST].at, lent[FIRST].len, copy, len, found);
    if (memcmp(found, answer(), 32))
        fault("number %u, %u, and in another order of the table %u, %u", answer()[0], answer()[3], found[0], found[3]);
}

/* In an entry the expression is acceptable just where the call takes it, but for its zeros: too many are the entry's size. */
static void check_in_an_entry(void)
{
    static const uint8_t head[] = {2, 0, 0, 0, 1, 0, 0, 0, 9, 0, 0, 0, 1, 0, 0, 0, 1, 0, 0, 0, 0, 0, 0, 5};
    size_t len = sizeof head + padded(lent[FIRST].len);
    uint32_t read[8];
    uint16_t row[1];

    if (len > 65535)
        return;
    memset(copy, 0, len);
    memcpy(copy, head, sizeof head);
    memcpy(copy + sizeof head, lent[FIRST].before, lent[FIRST].len);
    put16(copy + 2, len);
    put16(copy + 10, len - 8);
    pt_read(copy, len, row, 1, read);
    if (answer()[0] == PT_EXPRESSION ? read[0] != PT_EXPRESSION && read[0] != PT_SIZE && lent[FIRST].len % 4 == 0 : read[0] != PT_DONE)
        fault("number %u, but in an entry the reader says %u", answer()[0], read[0]);
}

uint32_t case_evaluate(void)
{
    int is_good = lend_expression();
    const uint32_t *a;

    lend_table();
    lend_answer();
    a = answer();
    pt_evaluate(lent[FIRST].at, lent[FIRST].len, lent[TABLE].at, lent[TABLE].len, answer());
    check_places(0, 0);
    if (a[1] || a[2])
        fault("number %u of list %u at %u, and there is none", a[0], a[1], a[2]);
    if (is_good && a[0] == PT_EXPRESSION)
        fault("a good expression is refused");
    if (a[0] != PT_EXPRESSION && (a[0] == PT_TABLE) == is_table(lent[TABLE].before, lent[TABLE].len))
        fault("number %u, against the table", a[0]);
    check_in_an_entry();
    if (a[0] == PT_DONE) {
        if (a[3] > UNKNOWN || a[4] || a[5])
            fault("it comes to %u %u %u", a[3], a[4], a[5]);
        check_not();
        check_zeros();
        check_other_order();
        truths[a[3]]++;
    }
    return a[0];
}

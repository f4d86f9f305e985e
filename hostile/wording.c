#include <string.h>

#include "pipeteasel.h"

#include "lend.h"
#include "make.h"
#include "conditions.h"
#include "texts.h"
#include "cases.h"

/* How long the form of two one-letter names is. */
enum { SHORTEST_FORM = 4 + 7 + 7 + 1 };

uint64_t texts[TEXTS];

/* What is asked again lies in a copy, and what comes of it beside. */
static uint8_t copy[LEND_MOST], again[4000];

/* Whether it is in the grammar and not too long is given. */
static int lend_text(void)
{
    uint8_t *text = lent[FIRST].before;
    size_t len = make_text(text, chance(6) ? 14 + pick(4) : chance(4) ? 1 + pick(16) : 1 + pick(5));
    int spoilt = chance(3);

    if (chance(8))
        len = fill_text(text, len, TEXT_MOST - 2 + pick(5));
    if (spoilt)
        len = spoil_text(text, len);
    if (chance(12)) {
        len = make_any_text(text);
        spoilt = 1;
    }
    lend(FIRST, len);
    return !spoilt && len <= TEXT_MOST;
}

static void translate(const uint8_t *text, size_t len, uint8_t *out, size_t out_len, uint32_t *to)
{
    make_bytes((uint8_t *)to, 32);
    pt_condition(text, len, out, out_len, to);
}

/* The copy's first bytes, so many, with plenty of room. */
static void translate_copy(size_t len, uint32_t *to)
{
    translate(copy, len, again, sizeof again, to);
}

static void check_text_places(size_t len)
{
    const uint32_t *a = answer();
    size_t most = len < TEXT_MOST ? len : TEXT_MOST;

    if (a[1] || a[6] || a[7])
        fault("number %u, places 1, 6 and 7 are %u, %u and %u", a[0], a[1], a[6], a[7]);
    if (a[0] && (a[3] || a[4] || a[5]))
        fault("refusal %u tells more: %u %u %u", a[0], a[3], a[4], a[5]);
    if (a[0] == PT_TEXT ? a[2] > most : a[2] != 0)
        fault("number %u at %u of %zu", a[0], a[2], len);
    if (len > TEXT_MOST && (a[0] != PT_TEXT || a[2] != TEXT_MOST))
        fault("%zu bytes, and number %u at %u", len, a[0], a[2]);
}

/* It is an expression without zeros, and has as many tokens as were told. */
static void check_form(const uint8_t *form, const uint32_t *told)
{
    uint32_t found[8];

    if (told[3] < SHORTEST_FORM || told[4] != 1 || told[5] < 3 || told[5] > TOKENS_MOST)
        fault("a form of %u bytes, %u, %u tokens", told[3], told[4], told[5]);
    pt_evaluate(form, told[3], NULL, 0, found);
    if (found[0] != PT_DONE)
        fault("a form of %u bytes is refused as %u", told[3], found[0]);
    if (tokens_end(form, told[3]) != told[3] || count_tokens(form, told[3]) != told[5])
        fault("a form of %u bytes hasn't %u tokens", told[3], told[5]);
}

/* What stands before the offset could go on: it is taken, or refused at its end. */
static void check_before_offset(void)
{
    size_t offset = answer()[2];
    uint32_t found[8];

    memcpy(copy, lent[FIRST].before, offset);
    translate_copy(offset, found);
    if (found[0] == PT_TEXT ? found[2] != offset : found[0] != PT_DONE && found[0] != PT_LARGE)
        fault("16 at %zu, and what stands before it is %u at %u", offset, found[0], found[2]);
}

/* Whether the copy's first bytes are a text with this behind them and the parentheses closed that are open; one that would be too long
 * passes, as the length is none of the grammar. */
static int goes_on(size_t len, const char *ending)
{
    size_t end = len, i, open = 0;
    uint32_t found[8];

    for (i = 0; i < len; i++)
        open += (size_t)(copy[i] == '(') - (size_t)(copy[i] == ')');
    memcpy(copy + end, ending, strlen(ending));
    end += strlen(ending);
    memset(copy + end, ')', open);
    end += open;
    translate_copy(end, found);
    return end > TEXT_MOST || found[0] != PT_TEXT;
}

/* With one of these endings it is a text, wherever it stops. */
static void check_goes_on(void)
{
    static const char *const endings[] = {"", "1", "1<1", "<1", "=1", "a<1", "&a<1", "|a<1"};
    size_t offset = answer()[2], i = 0;

    memcpy(copy, lent[FIRST].before, offset);
    while (i < sizeof endings / sizeof *endings && !goes_on(offset, endings[i]))
        i++;
    if (i == sizeof endings / sizeof *endings)
        fault("16 at %zu, and what stands before it has no ending", offset);
}

/* What stands behind the byte at the offset isn't looked at. */
static void check_behind_offset(void)
{
    size_t offset = answer()[2], len;
    uint32_t found[8];

    if (offset == lent[FIRST].len)
        return;
    len = offset + 1 + pick((uint32_t)(TEXT_MOST - offset));
    memcpy(copy, lent[FIRST].before, offset + 1);
    make_bytes(copy + offset + 1, len - offset - 1);
    translate_copy(len, found);
    if (memcmp(found, answer(), 32))
        fault("16 at %zu, and with other bytes behind it number %u at %u", offset, found[0], found[2]);
}

/* Too long stays too long, whatever the bytes are. */
static void check_longer(void)
{
    size_t len = TEXT_MOST + 1 + pick(3000);
    uint32_t found[8];

    make_bytes(copy, len);
    translate_copy(len, found);
    if (memcmp(found, answer(), 32))
        fault("%zu bytes, and number %u at %u", len, found[0], found[2]);
}

/* The copy becomes what stands before, the text, and what stands behind it. */
static size_t put_about(const char *before, const char *behind)
{
    size_t front = strlen(before), back = strlen(behind), len = lent[FIRST].len;

    memcpy(copy, before, front);
    memcpy(copy + front, lent[FIRST].before, len);
    memcpy(copy + front + len, behind, back);
    return front + len + back;
}

/* In parentheses it is the same, and a not before them is one more token; a 13th parenthesis is none of the grammar. */
static void check_in_parentheses(const uint32_t *probed)
{
    int is_nested = nested(lent[FIRST].before, lent[FIRST].len) == OPEN_MOST, has_not = chance(2);
    size_t len = put_about(has_not ? "!(" : "(", ")");
    uint32_t found[8], a[8];

    if (len > TEXT_MOST)
        return;
    memcpy(a, probed, 32);
    if (!a[0] && has_not) {
        a[3]++;
        a[5]++;
    }
    if (a[5] > TOKENS_MOST) {
        memset(a, 0, 32);
        a[0] = PT_LARGE;
    }
    translate_copy(len, found);
    if (is_nested ? found[0] != PT_TEXT : memcmp(found, a, 32))
        fault("number %u, and in parentheses %u at %u", probed[0], found[0], found[2]);
    if (!found[0] && (memcmp(again, plenty, probed[3]) || (has_not && again[probed[3]] != 0xA2)))
        fault("in parentheses it has another form");
}

/* Twice, in parentheses, and joined: the form twice, and the operator. */
static void check_twice(const uint32_t *probed)
{
    size_t len = put_about("(", ")"), tokens = probed[3] - 4;
    int is_and = chance(2);
    uint32_t found[8];

    if (2 * len + 2 > TEXT_MOST || nested(lent[FIRST].before, lent[FIRST].len) == OPEN_MOST)
        return;
    memcpy(copy + len, is_and ? "&&" : "||", 2);
    memcpy(copy + len + 2, copy, len);
    translate_copy(2 * len + 2, found);
    if (found[0] != PT_DONE) {
        if (found[0] != PT_LARGE)
            fault("a good text, joined to itself, is %u at %u", found[0], found[2]);
        return;
    }
    if (found[3] != 4 + 2 * tokens + 1 || found[5] != 2 * probed[5] + 1 || again[found[3] - 1] != (is_and ? 0xA0 : 0xA1) ||
        memcmp(again, plenty, 4 + tokens) || memcmp(again + 4 + tokens, plenty + 4, tokens))
        fault("%u bytes, joined to themselves, are %u", probed[3], found[3]);
}

static void count_text(const uint32_t *a)
{
    size_t len = lent[FIRST].len;

    texts[TEXT_OF_64] += !a[0] && a[5] == TOKENS_MOST;
    texts[TEXT_NESTED] += !a[0] && nested(lent[FIRST].before, len) == OPEN_MOST;
    texts[TEXT_LONGEST] += !a[0] && len == TEXT_MOST;
    texts[TEXT_TOO_LONG] += len > TEXT_MOST;
    texts[TEXT_CUT] += a[0] == PT_TEXT && a[2] == len;
}

/* Asked first with plenty of room. */
uint32_t case_condition(void)
{
    int is_good = lend_text();
    size_t len = lent[FIRST].len, out_len;
    uint32_t probed[8];

    lend_answer();
    translate(lent[FIRST].at, len, plenty, sizeof plenty, probed);
    out_len = choose_out(probed);
    lend_filled(OUT, out_len);
    pt_condition(lent[FIRST].at, len, lent[OUT].at, out_len, answer());
    check_text_places(len);
    check_probed(probed, out_len);
    if (is_good && probed[0] == PT_TEXT)
        fault("a text in the grammar is refused at %u", probed[2]);
    if (probed[0] == PT_DONE) {
        check_form(plenty, probed);
        check_twice(probed);
    }
    if (probed[0] != PT_TEXT) {
        check_in_parentheses(probed);
    } else if (len > TEXT_MOST) {
        check_longer();
    } else {
        check_before_offset();
        check_goes_on();
        check_behind_offset();
    }
    count_text(answer());
    return answer()[0];
}

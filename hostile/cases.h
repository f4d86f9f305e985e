/* The cases: each lends what its call asks for, makes the call, checks the answer and takes everything back. */
#ifndef CASES_H
#define CASES_H

#include <stddef.h>
#include <stdint.h>

#include "lend.h"

/* The number that came, for the tally. */
typedef uint32_t Case(void);

/* Lists with spare bytes that the case's call is handed, or gives back: counted where it is done. */
extern unsigned spare_lists;
/* Lists that pt_read took, in all cases: of 65,533 to 65,535 bytes, and whose spare bytes begin like an entry. */
extern uint64_t long_lists, entry_lists;
/* What decided pt_may_open's answers, where a list was asked for something: allows for each bit, a deny, or no entry at all for some bit. */
enum { ALLOWED, DENIED, NOT_SAID, DECISIONS };
extern uint64_t decisions[DECISIONS];
/* Steps of pt_step: to an entry, and where none was left. */
extern uint64_t entry_steps, last_steps;
/* What expressions came to in pt_evaluate: false, true, unknown. */
enum { TRUTHS = 3 };
extern uint64_t truths[TRUTHS];
/* Conditional entries that decided something: passed over as false, or an allow as unknown; an allow as true; a deny as true or as unknown. */
enum { PASSED_FALSE, PASSED_UNKNOWN, ALLOW_TRUE, DENY_TRUE, DENY_UNKNOWN, CONDITIONS };
extern uint64_t conditions[CONDITIONS];
/* Texts of pt_condition: taken with 64 tokens, nested 12 deep and of 512 bytes; refused as over 512 bytes, and at their end. */
enum { TEXT_OF_64, TEXT_NESTED, TEXT_LONGEST, TEXT_TOO_LONG, TEXT_CUT, TEXTS };
extern uint64_t texts[TEXTS];
/* Lists that pt_compare laid side by side: the same bytes; of the same entries, where only the headers or only the spare bytes differ; with
 * no entry in common; of 128 entries; and such that another set of removals and additions is as short. */
enum { SIDES_SAME, SIDES_HEADERS, SIDES_SPARE, SIDES_APART, SIDES_FULL, SIDES_CHOSEN, SIDES };
extern uint64_t sides[SIDES];

Case case_identity, case_read, case_compute, case_play;
Case case_room, case_start, case_add, case_set_list, case_set_mark, case_set_owner, case_undo;
Case case_list, case_own, case_data, case_counts;
Case case_may_open, case_may_open_with, case_step, case_compare, case_evaluate, case_condition;

/* In lists.c, for all: */
void lend_answer(void);
void lend_identities(uint32_t spoilt, int list);            /* owner and group; list: one that is lent already, or -1 */
int is_list_refusal(void);                                  /* 1 to 5 and 15, of a call that is handed a list */
void check_places(uint32_t most_control, size_t end);       /* the answer's places; end: place 7 where it is done */
void check_list_refusal(uint32_t which, int list);          /* such a refusal is the reader's of the same list; list: -1 where none is given */
void check_reads(const uint8_t *list, const uint32_t *told, int may_spare); /* a list that was given out reads as done */
size_t choose_out(const uint32_t *probed);                  /* a length to lend: none, short, exact or plenty */
void check_probed(const uint32_t *probed, size_t out_len);  /* the same call with plenty of room told the truth */

/* In evaluate.c: a table, at times a spoilt one. */
void lend_table(void);

/* Room for anything that any call writes. */
extern uint8_t plenty[LEND_MOST];

#endif

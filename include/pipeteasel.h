/* Pipeteasel: access lists whose inheritance, undo and refusals are proved.
 *
 * Every call checks what it is handed, whatever bytes that is, and refuses with the number that fits the fault. Nothing that was lent
 * changes where a call refuses; the answer itself is written always, and so is pt_step's entry.
 *
 * What a caller must know, as no call can check it:
 *   - A range is a pointer and a length: in bytes, but row_len counts the elements of row, not its bytes (sizeof row would lend twice
 *     the row, and of pt_compare four times). A range has less than 2^63 bytes. Its pointer may be null where its length is 0.
 *   - mapping, type, entry and answer are never null.
 *   - row of pt_read is aligned for uint16_t; row of pt_compare, mapping, entry and answer for uint32_t. Ranges of bytes lie wherever
 *     they like.
 *   - What a call may write (a room that isn't const, out, row, entry, answer) overlaps nothing else that it is lent: not the list, not
 *     the room, not each other. What it only reads may be one range or overlap: one SID may be handed over as owner and group, one
 *     list as first and second.
 *   - A flag is yes where it isn't 0: has_list, has_default, mark. Bits of settings and traits that have no name here aren't looked at.
 *   - A list that isn't given, by its flag, setting or trait, isn't looked at, whatever is passed for it: null and 0 do. A list of length
 *     0 that is given is no list, and refused by 1.
 *   - The library is reentrant: any number of threads may call at once, as long as no range that one of them may write is lent to
 *     another. It has no writable data, holds on to nothing that it is lent, allocates nothing, and needs memcpy and memset of C's
 *     library alone.
 *   - It is compiled for x86-64 Linux, with the calling convention of that system.
 *   - The stack at the call has to suffice: the table behind the numbers says how much each call takes.
 *
 * An answer is eight numbers:
 *   0  the number: 0 done, or why the call refused (PT_..., below)
 *   1  which list a refusal concerns: 1 parent, 2 creator, own or set list, 3 default; of pt_compare 1 first, 2 second; else 0
 *   2  the offset of a refusal's entry; of pt_condition's 16 the offset in the text; else 0
 *   3  done: the length; of pt_may_open and pt_may_open_with 1 for yes and 0 for no; of pt_evaluate 0 false, 1 true, 2 unknown;
 *      of pt_step where the entry begins, 0 where none is left; of pt_compare how many entries are removed; of pt_counts how many
 *      objects stand
 *   4  done: 1 present, 0 absent; of pt_may_open, pt_may_open_with and pt_evaluate 0; of pt_step 1, or 0 where no entry is left;
 *      of pt_compare how many entries are added; of pt_play 1 for a listing, 0 where the script is bad
 *   5  done: the entry count; of pt_compare what differs besides, PT_HEADERS_DIFFER and PT_SPARE_DIFFERS; of pt_condition the number
 *      of tokens; of pt_counts the kept steps; of pt_play the objects in the listing; of pt_may_open, pt_may_open_with, pt_evaluate,
 *      pt_step and pt_data 0
 *   6  done, of pt_compute: the control bits, PT_AUTO_INHERITED or 0; else 0
 *   7  done, of pt_read: where the entries end, 8 where there are none; else 0
 * pt_start and pt_undo, done, answer zeros. A refusal's places 3 to 7 are 0.
 *
 * Each number below names the calls that give it. There,
 *   calls with a list: pt_read, pt_step, pt_compare, pt_may_open, pt_may_open_with, pt_compute, pt_start, pt_add and pt_set_list
 *   changes: pt_add, pt_set_list, pt_set_mark and pt_set_owner
 *   reading back: pt_list, pt_own and pt_data
 */
#ifndef PIPETEASEL_H
#define PIPETEASEL_H

#include <stddef.h>
#include <stdint.h>

#ifdef __cplusplus
extern "C" {
#endif

enum {
    PT_DONE = 0,
    PT_HEADER = 1,   /* list under 8 bytes, revision not 2 or 4, zero bytes not zero, size not the length. From calls with a list. */
    PT_SIZE = 2,     /* an entry doesn't fit or its size is wrong. From calls with a list. */
    PT_TYPE = 3,     /* entry type not 00, 01, 05, 06, 09, 0A, or 05 and 06 under revision 2. From calls with a list. */
    PT_BITS = 4,     /* an unknown bit in the flags or in the object word. From calls with a list. */
    PT_SID = 5,      /* SID first byte not 1, or n above 15, in an entry. From calls with a list. */
    PT_IDENTITY = 6, /* owner or group isn't exactly one SID, or is a placeholder; of pt_may_open and pt_may_open_with: the held
                        bytes aren't SIDs to their end (placeholders are allowed there); of pt_identity, which gives it back: not
                        exactly one SID. From pt_identity, pt_may_open, pt_may_open_with, pt_compute, pt_add and pt_set_owner. */
    PT_TYPES = 7,    /* object types not a multiple of 16 bytes, or over 64 bytes; of pt_may_open and pt_may_open_with: more than 32
                        SIDs held. From pt_may_open, pt_may_open_with and pt_compute. */
    PT_ROOM = 8,     /* no room: a result or a stored form over the lent length, or a result over 65,532 bytes; a row too short; in
                        a tree a list given, or any list that the change or undo would compute, over 1,024 bytes. From pt_read,
                        pt_compare, pt_condition, pt_compute, pt_start, changes, pt_undo, reading back and pt_play. */
    PT_OBJECT = 9,   /* no such object; parent missing, not a container, or not as the first or later add asks. From changes and
                        reading back. */
    PT_FULL = 10,    /* object limit reached. From pt_add. */
    PT_NO_STEP = 11, /* undo with no kept step. From pt_undo. */
    PT_RULE = 12,    /* limits or rule out of range, or lent room under the formula. From pt_compute and pt_start. */
    PT_TREE = 13,    /* the room handed in isn't a well-formed tree. From changes, pt_undo, reading back and pt_counts. */
    PT_GENERIC = 14, /* a generic bit (F0000000) is wanted. From pt_may_open and pt_may_open_with. */
    PT_EXPRESSION = 15, /* the expression of a conditional entry, or one handed to pt_evaluate, isn't acceptable. From calls with a list
                           and pt_evaluate. */
    PT_TEXT = 16,    /* a condition's text over 512 bytes, not in the grammar or nested too deep. From pt_condition. */
    PT_LARGE = 17,   /* a condition's text that comes to over 64 tokens or depth 16. From pt_condition. */
    PT_MANY = 22,    /* over 128 entries in a list that is laid beside another. From pt_compare. */
    PT_TABLE = 23    /* a table that isn't made as pt_evaluate says. From pt_may_open_with and pt_evaluate. */
};

/* Stack that a call takes at most, its return address among it, but not what memcpy and memset take: a few bytes, or some 3,200 at a
 * program's first call of them where the dynamic linker binds them as late as that.
 *   64 bytes  pt_identity, pt_room
 *   768 bytes  pt_evaluate
 *   1,024 bytes  pt_read, pt_step, pt_start, pt_list, pt_own, pt_data, pt_counts
 *   1,280 bytes  pt_may_open, pt_may_open_with
 *   2,048 bytes  pt_compute
 *   20,480 bytes  pt_compare
 *   163,840 bytes  pt_condition
 *   245,760 bytes  pt_add, pt_set_list, pt_set_mark, pt_set_owner, pt_undo
 *   348,160 bytes  pt_play
 */

/* Settings of a computation: bits of a number. Other bits aren't looked at. */
enum {
    PT_PARENT = 1,     /* the parent's list is present */
    PT_CREATOR = 2,    /* the creator's list is present */
    PT_DEFAULT = 4,    /* the default list is present */
    PT_CONTAINER = 8,
    PT_AUTO_INHERIT = 16,
    PT_DEFAULT_DESCRIPTOR = 32,
    PT_PROTECTED = 64
};

/* The control bit of a computed list, in place 6: what the parent hands on was put into it, though it may have handed on nothing. It is
 * MS-DTYP's DI, "DACL Auto-Inherited". */
#define PT_AUTO_INHERITED 0x0400u

/* Which identity the bytes are: 0 exactly one SID and no placeholder, 1 creator owner (S-1-3-0),
 * 2 creator group (S-1-3-1), 6 not exactly one SID. */
uint32_t pt_identity(const uint8_t *bytes, size_t bytes_len);

/* A list handed to any call may have spare bytes: any bytes between the last entry that its count says and its size, which must
 * equal the length handed in, so up to 65,535 bytes in all. They are looked at by nothing but pt_compare, which tells whether those of
 * two lists are the same. An own list is kept and given back with them, and they count for the 1,024 bytes of a list given to a tree; a
 * computed list never has any. */

/* Entries of the types 09 (allow) and 0A (deny) are conditional, under either revision: behind the SID stands an expression, in
 * MS-DTYP's stored form. It begins with 61 72 74 78; then come its tokens, at most 64, an operator behind its operands:
 *   04          a number: eight bytes, two's complement, lowest first, a sign byte and a base byte (each 1 to 3, whatever it is)
 *   F8          a local name: its length in bytes, 32 bits, even and not 0, then the name
 *   80 to 85    ==, !=, <, <=, >, >= of two operands, each a number or a name
 *   87          Exists, of a name
 *   A0, A1, A2  and, or, not, over conditions: what the comparisons, Exists and these themselves give
 * Exactly one condition is left, and at no time more than 16 operands and conditions wait at once. In an entry zeros follow up to
 * a multiple of four, none where the length is one already. An expression that isn't so is 15, wherever 1 to 5 are tested: behind
 * the 5 of its entry (so where the SID ends within the entry's size), and before the 2 of other zeros.
 * A list is computed from 09 as from 00 and from 0A as from 01; the expression goes along unchanged. */

/* Reads an access list. Done: the row's elements up to the entry count hold the entries' offsets, and the rest are as they were;
 * place 7 is where the entries end and spare bytes begin. Refused, by 1 to 5 and 15 and then 8: no element changes.
 * row_len counts elements, not bytes. 4,095 elements always suffice, with spare bytes or without: an entry has at least 16 bytes, and
 * no more than 65,527 can follow a header. */
void pt_read(const uint8_t *list, size_t list_len, uint16_t *row, size_t row_len, uint32_t answer[8]);

/* The viewer's walk over a list, entry by entry, where they lie. place: 0 to begin with, then entry[7] of the last call, until
 * answer[4] is 0. Any other number may be passed: the entry meant is the first one that begins at or after place. Spare bytes are
 * no entry. The whole list is tested at every step, as pt_read tests it: 1 to 5 and 15 (list 0, with the offset). Nothing else
 * refuses.
 * Done: place 4 is 1 and place 3 where the entry begins, or both are 0 where none is left; places 5 to 7 are 0. The entry:
 *   0  its type
 *   1  its flags
 *   2  its size
 *   3  its mask
 *   4  its object word, 0 where its type has none
 *   5  where its SID begins, counted from the entry's first byte
 *   6  the SID's length; in types 09 and 0A the expression follows, to the entry's end
 *   7  the place of what follows the entry, counted from the list's first byte
 * Refused, or where no entry is left, all eight are 0. */
void pt_step(const uint8_t *list, size_t list_len, uint32_t place, uint32_t entry[8], uint32_t answer[8]);

/* What differs in two lists besides their entries: bits of a number. */
enum {
    PT_HEADERS_DIFFER = 1, /* any of the eight bytes: revision, size, count */
    PT_SPARE_DIFFERS = 2   /* the spare bytes, or how many there are */
};

/* Lays two lists side by side: which entries of the first are removed, and which of the second are added, to make the second of the
 * first. Entries are numbered from 0, and are equal where their bytes are. Done: the row's first elements hold the numbers of the
 * removed entries, rising, and then those of the added ones, rising; the rest are as they were. Place 3 is how many are removed, place
 * 4 how many are added, and place 5 what differs besides; places 6 and 7 are 0. All other entries are kept: the first of them in the
 * one list is the first of them in the other, and so on.
 * No shorter set of removals and additions makes the second list of the first. Of several that are as short it is the one that keeps
 * the earliest entry of the first list that can be kept, as the earliest of the second that it can be kept as, and so on from there.
 * Nothing is removed, nothing added and place 5 is 0 exactly where the lists are the same bytes. Handed over the other way round, two
 * lists give the same counts in each other's place and the same place 5. The numbers may be others then, since of several ways that
 * are as short the earliest is told, by the list that comes first.
 * Tests in order: the first list 1 to 5 and 15 (list 1, with the offset), the second likewise (list 2), over 128 entries in either 22,
 * fewer elements in the row than entries are removed and added 8, these two with list and offset 0. Refused: no element changes.
 * row_len counts elements, not bytes. 256 elements always suffice. */
void pt_compare(const uint8_t *first, size_t first_len, const uint8_t *second, size_t second_len, uint32_t *row, size_t row_len,
                uint32_t answer[8]);

/* Whether someone who holds the SIDs in held, at most 32 laid end to end, may do what every bit of wanted says with an object of
 * this type that has this list, or no list where has_list is 0 (what is passed for it then is not looked at). Done: place 3 is 1
 * for yes, 0 for no. Yes exactly if, for each wanted bit by itself, the first entry that isn't inherit only, names a held SID and
 * has the bit is an allow. An object entry counts only without an ObjectType, or with one that is type. A bit that no entry speaks
 * of is a no; an absent list, or a wanted mask of 0, is a yes. SIDs are compared byte for byte, placeholders like any other. Not
 * looked at: other flags than inherit only, an InheritedObjectType, spare bytes. Nothing is mapped: a generic bit in an entry's
 * mask says nothing about other bits (a list computed under rule 2 has none). Tests in order: wanted 14, the list 1 to 5 and 15
 * (list 0, with the offset), held 6, then 7, all before the yes of an absent list or of nothing wanted. It is pt_may_open_with with
 * an empty table: a conditional entry finds every name missing. */
void pt_may_open(uint32_t has_list, const uint8_t *list, size_t list_len, const uint8_t type[16],
                 const uint8_t *held, size_t held_len, uint32_t wanted, uint32_t answer[8]);

/* What an expression comes to by a table: place 3 is 0 for false, 1 for true, 2 for unknown. The expression is one as above,
 * without zeros or with those up to a multiple of four; other zeros are 15. The table has records to its end, at most 32: the
 * 16-bit length of a name in bytes, even and not 0, the name, and a signed 64-bit number, lowest byte first; no name comes twice.
 * An empty table is fine. Names are compared as bytes. A comparison with a name that isn't in the table is unknown; Exists of it is
 * false. False and unknown is false, true or unknown is true; else what is joined to unknown is unknown, and so is not unknown.
 * Tests in order: the expression 15, the table 23, both with list and offset 0. */
void pt_evaluate(const uint8_t *expression, size_t expression_len, const uint8_t *table, size_t table_len, uint32_t answer[8]);

/* As pt_may_open, where the table says what is known of the one who asks. A conditional entry whose expression comes to false is
 * passed over; where it comes to true it is an entry as 00 and 01 are; where it comes to unknown, a deny denies, and an allow is
 * passed over: it grants nothing, and a later entry may still grant the bit. The table is tested last: 14, 1 to 5 and 15, 6, 7,
 * then 23, also where there is no list or no conditional entry in it. */
void pt_may_open_with(uint32_t has_list, const uint8_t *list, size_t list_len, const uint8_t type[16],
                      const uint8_t *held, size_t held_len, uint32_t wanted, const uint8_t *table, size_t table_len,
                      uint32_t answer[8]);

/* The stored form of a condition typed as text, as `level>=3&&!(dept==2||dept==7)`, onto the front of out; bytes past it stay as
 * they were. A condition is terms joined by ||, a term is factors joined by &&; && comes before ||, and both group to the left. A
 * factor is ! before a factor, a whole condition in parentheses, or two operands with ==, !=, <, <=, > or >= between them. An
 * operand is a name (ASCII letters and digits, a letter first) or a decimal integer of signed 64 bits (a - may stand before it, a +
 * may not; leading zeros are fine). Nothing else may stand there, no blank either. Names come out with 16-bit units, numbers with
 * sign byte 3 and base byte 2, all in text order, without padding: an entry wants zeros behind it up to a multiple of four.
 * For every text that is done and every table, pt_evaluate of the stored form gives what the text means.
 * Done: place 3 is the stored form's length, place 4 is 1, place 5 the number of tokens. Tests in order: 16 with the offset in the
 * text: 512 where it is over 512 bytes, else the first byte after which no continuation is left, or the end of a text that stops too
 * early (a 13th open parenthesis and a digit that leaves the 64 bits count here); 17, over 64 tokens or more than 16 operands and
 * conditions waiting at once; 8, out shorter than the stored form. 1,255 bytes suffice for every text. */
void pt_condition(const uint8_t *text, size_t text_len, uint8_t *out, size_t out_len, uint32_t answer[8]);

/* Computes the list of a new object by MS-DTYP under rule 1 (the printed text) or 2 (what the library runs), onto the front of out;
 * bytes past the result stay as they were. mapping: read, write, execute, all, each joined to an entry's mask where that has
 * 80000000, 40000000, 20000000, 10000000. Under rule 2 these four bits are cleared then, those too that a mapping brought in; under
 * rule 1 they stay, and 10000000 joins nothing. What is passed for a list that isn't present is not looked at. Tests in order: rule
 * 12, parent, creator and default 1 to 5 and 15 (lists 1, 2, 3), owner and group 6, types 7, room 8. Refused, or where the result
 * is absent, no byte of out changes. No result has more than 65,532 bytes. */
void pt_compute(uint32_t rule, uint32_t settings, const uint32_t mapping[4],
                const uint8_t *parent, size_t parent_len, const uint8_t *creator, size_t creator_len,
                const uint8_t *default_, size_t default_len, const uint8_t *types, size_t types_len,
                const uint8_t *owner, size_t owner_len, const uint8_t *group, size_t group_len,
                uint8_t *out, size_t out_len, uint32_t answer[8]);

/* A tree of objects with undo, kept in a room of bytes that every call is lent (docs/ROOM.md has its layout).
 * Bytes past pt_room's are never read or changed. A room that is no well-formed tree is 13, from every call but pt_start. */

#define PT_NO_PARENT 0xFFFFFFFFu

/* Traits of a new object: bits of a number. Other bits aren't looked at. */
enum {
    PT_IS_CONTAINER = 1,
    PT_HAS_MARK = 2,   /* the protected mark */
    PT_HAS_LIST = 4    /* an own list is given */
};

/* Bytes of room that a tree needs: object limit 1 to 64, step limit 0 to 64; 0 where a limit is out of range. */
size_t pt_room(uint32_t objects, uint32_t steps);

/* Starts a tree: limits, rule, mapping, and a default list where has_default isn't 0. What the room holds is not looked at;
 * pt_room's bytes of it are written. Tests in order: 12, the default list 1 to 5 and 15 (list 3), 8. Answers zeros. */
void pt_start(uint8_t *room, size_t room_len, uint32_t objects, uint32_t steps, uint32_t rule, const uint32_t mapping[4],
              uint32_t has_default, const uint8_t *default_, size_t default_len, uint32_t answer[8]);

/* Changes. Each that is accepted is one kept step, and answers its object's computed list: length, present or absent, count.
 * Every computed list is worked out again from the root. Tests in order: 13, 9, 10, the list 1 to 5 and 15 (list 2), 6, 8.
 * Objects are numbered from 0 in order of adding. parent: PT_NO_PARENT for the first object; a container for each later one. */
void pt_add(uint8_t *room, size_t room_len, uint32_t parent, uint32_t traits, const uint8_t type[16],
            const uint8_t *owner, size_t owner_len, const uint8_t *group, size_t group_len,
            const uint8_t *list, size_t list_len, uint32_t answer[8]);
void pt_set_list(uint8_t *room, size_t room_len, uint32_t object, uint32_t has_list,
                 const uint8_t *list, size_t list_len, uint32_t answer[8]);
void pt_set_mark(uint8_t *room, size_t room_len, uint32_t object, uint32_t mark, uint32_t answer[8]);
void pt_set_owner(uint8_t *room, size_t room_len, uint32_t object, const uint8_t *owner, size_t owner_len,
                  const uint8_t *group, size_t group_len, uint32_t answer[8]);

/* Takes off the latest change not yet undone. Tests in order: 13, 11, 8 (8 only in a room that no calls reach). Answers zeros. */
void pt_undo(uint8_t *room, size_t room_len, uint32_t answer[8]);

/* Reading back, onto the front of out: the computed list, the own list, and own data but for the list (parent byte, FF none, kind,
 * mark, 16 type bytes, owner length, owner, group length, group; its count is 0). Bytes past the result stay as they were. 1,024 bytes
 * always suffice for a list, and 157 for own data. Tests in order: 13, 9, 8. */
void pt_list(const uint8_t *room, size_t room_len, uint32_t object, uint8_t *out, size_t out_len, uint32_t answer[8]);
void pt_own(const uint8_t *room, size_t room_len, uint32_t object, uint8_t *out, size_t out_len, uint32_t answer[8]);
void pt_data(const uint8_t *room, size_t room_len, uint32_t object, uint8_t *out, size_t out_len, uint32_t answer[8]);

/* 13, or done with the objects that stand in place 3, 1 in place 4 and the kept steps in place 5. */
void pt_counts(const uint8_t *room, size_t room_len, uint32_t answer[8]);

/* Plays a whole script held in memory, in a room of its own (16 objects, 16 steps, rule 2), and writes the text that the program
 * axs writes: the listing, or `bad at N`. Refuses with 8 alone, where out is shorter than the text; then out is unchanged.
 * Done: the text's length in place 3; 1 in place 4 where it is the listing, 0 where the script is bad; in place 5 the number of
 * objects in the listing. A listing has at most 203 bytes, and `bad at N` at most 28. */
void pt_play(const uint8_t *script, size_t script_len, uint8_t *out, size_t out_len, uint32_t answer[8]);

#ifdef __cplusplus
}
#endif

#endif

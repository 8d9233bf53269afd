/*
 * Futtockram for C: an index of batches that keeps itself balanced, in words lent by the caller.
 *
 * The library allocates nothing and keeps nothing between calls: a table is the words you lend, and each call is a
 * function of those words and its arguments. What each call answers and which words it writes is proved for any words
 * and any arguments, damaged tables included. Link with libpanel.a.
 *
 * THE TABLE is an array of FTK_WORDS(slots) words, with 1 to FTK_MOST_SLOTS slots. It begins with its header:
 *
 *   t[FTK_HEADER_ROOT]     slot of the root, 0 if the table is empty
 *   t[FTK_HEADER_RECORDS]  number of records
 *   t[FTK_HEADER_CHANGE]   change number: how many posts, amendments and drops were accepted since the start
 *   t[FTK_HEADER_ZERO]     always 0
 *
 * Slot k, counted from 1, is the FTK_SLOT_WORDS words from FTK_WORD(k, 0): state, key, pieces, left, right, lefth,
 * righth, 0. A free slot is all zeros. A son's register (lefth, righth) is the height that its parent believes it to
 * have; it may be stale, and the firings bring it up to date.
 *
 * A table is SOUND if its header is good, the slots that can be reached from the root hold records in range, each is
 * reached once and the header counts them, their keys lie in search order, and all other slots are free. Every accepted
 * call on a sound table leaves a sound one.
 *
 * EVERY CALL takes the words `t`, their number `n` and room for five numbers, which it always writes:
 *
 *   out[FTK_CODE]    0 if the call was accepted, else the refusal
 *   out[FTK_CHANGE]  the change number afterwards
 *   out[FTK_VALUE], out[FTK_MORE], out[FTK_KIND]   as told at each call, 0 where nothing is told
 *
 * A figure that you keep or show belongs to its change number: it is old once another accepted call on the same table
 * answers another one. Firings do not move it, and a table that is started again counts from 0.
 *
 * A refusal writes no word of the table, and to `out` its code and four zeros, with one exception: where find, amend
 * or drop do not find the key (5), out[FTK_VALUE] is the nearest smaller key that is there and out[FTK_MORE] the
 * nearest larger one, 0 for none; the change number and the kind are 0 as in every refusal.
 *
 * `t` may be any pointer to n words (not null, aligned for uint32_t, even if n is 0); `out` may not lie inside the
 * table. Two calls may run at the same time on one table only if both take it as const.
 */
#ifndef FUTTOCKRAM_H
#define FUTTOCKRAM_H

#include <stddef.h>
#include <stdint.h>

#ifdef __cplusplus
extern "C" {
#endif

/* Limits. */
#define FTK_MOST_SLOTS 4095u
#define FTK_MOST_PIECES 1000000u
#define FTK_MOST_KEY 4294967295u
#define FTK_MOST_HEIGHT 65535u
#define FTK_MOST_CHANGE 4294967295u

/* The words of the header and of a slot, the number of words of a table, and the place of a word of slot k. */
#define FTK_HEADER_WORDS 4u
#define FTK_SLOT_WORDS 8u
#define FTK_WORDS(slots) (FTK_HEADER_WORDS + FTK_SLOT_WORDS * (slots))
#define FTK_WORD(k, field) (FTK_HEADER_WORDS + FTK_SLOT_WORDS * ((k) - 1u) + (field))

/* The words of the header. */
#define FTK_HEADER_ROOT 0u
#define FTK_HEADER_RECORDS 1u
#define FTK_HEADER_CHANGE 2u
#define FTK_HEADER_ZERO 3u

/* The fields of a slot, for FTK_WORD. */
#define FTK_STATE 0u
#define FTK_KEY 1u
#define FTK_PIECES 2u
#define FTK_LEFT 3u
#define FTK_RIGHT 4u
#define FTK_LEFTH 5u
#define FTK_RIGHTH 6u

/* States of a slot. */
#define FTK_FREE 0u
#define FTK_POURED 1u
#define FTK_REMELT 2u

/* Sides of a link. */
#define FTK_SIDE_LEFT 0u
#define FTK_SIDE_RIGHT 1u

/* The five numbers of an answer. */
#define FTK_CODE 0u
#define FTK_CHANGE 1u
#define FTK_VALUE 2u
#define FTK_MORE 3u
#define FTK_KIND 4u
#define FTK_NUMBERS 5u

/* Codes. The tests run in this order, so an answer names the first that applies. docs/REFUSALS.md tells what to do. */
#define FTK_ACCEPTED 0u     /* done */
#define FTK_WRONG_LENGTH 1u /* n is not FTK_WORDS(slots) for 1 to 4,095 slots */
#define FTK_OUT_OF_RANGE 2u /* an argument is outside the range told at the call */
#define FTK_DAMAGED 3u      /* the call met words that no sound table has */
#define FTK_KEY_PRESENT 4u  /* post: the key is there already */
#define FTK_KEY_ABSENT 5u   /* find, amend, drop: no such key, the nearest are told; rank: fewer records than that */
#define FTK_NO_FREE_SLOT 6u /* post: no slot is free */
#define FTK_LAST_CHANGE 7u  /* post, amend, drop: the change number has reached its limit */
#define FTK_GUARD_FAILS 8u  /* fire: the rule does not apply at that link */
#define FTK_TOO_HIGH 9u     /* fire: the firing would write a height above 65,535 */
#define FTK_UNREADABLE 10u  /* never from these calls: the program `stand` could not read a line */

/*
 * Makes an empty table: all n words become 0. Whatever they held is lost.
 * Refusals: 1.
 */
void ftk_start(uint32_t *t, size_t n, uint64_t out[FTK_NUMBERS]);

/*
 * Says whether the table is sound: accepted exactly if it is.
 * Refusals: 1, 3.
 */
void ftk_check(const uint32_t *t, size_t n, uint64_t out[FTK_NUMBERS]);

/*
 * Finds the record of a key. key: 1 to 4,294,967,295.
 * value: its pieces; more: the slots visited, the found one counted; kind: its state.
 * Refusals: 1; 2 key 0; 3 if the header or a slot on the way is bad or the way is longer than the table; 5 with the
 * nearest keys: value the smaller one, more the larger one, 0 for none. If the table is damaged but the way comes to an
 * end, they are the last keys passed on each side, and nearer ones may be there.
 */
void ftk_find(const uint32_t *t, size_t n, uint32_t key, uint64_t out[FTK_NUMBERS]);

/*
 * Posts a record as a new leaf, in the lowest-numbered free slot. key: 1 to 4,294,967,295; pieces: 1 to 1,000,000;
 * state: FTK_POURED or FTK_REMELT. The register above the leaf is left as it was: fire or tidy bring it up to date.
 * Counts one record and one change more. value: the slot.
 * Refusals: 1; 2; 3 as for find; 4; 6; 3 if that free slot is not blank or the header says that the table is full; 7.
 */
void ftk_post(uint32_t *t, size_t n, uint32_t key, uint32_t pieces, uint32_t state, uint64_t out[FTK_NUMBERS]);

/*
 * Gives the record of a key other pieces and another state; ranges as for post. Counts one change more.
 * value: the slot.
 * Refusals: 1; 2; 3 as for find; 5 as for find, with the nearest keys in value and more; 7.
 */
void ftk_amend(uint32_t *t, size_t n, uint32_t key, uint32_t pieces, uint32_t state, uint64_t out[FTK_NUMBERS]);

/*
 * Removes the record of a key and frees a slot. A record with two sons stays in its place and takes over the next
 * larger record, whose slot is freed instead: value tells which slot it was. A register beside a link left empty
 * becomes 0; the others stay. Counts one record less and one change more.
 * Refusals: 1; 2 key 0; 3 as for find, the way going on to the next larger record; 5 as for find, with the nearest
 * keys in value and more; 3 if the header counts no record; 7.
 */
void ftk_drop(uint32_t *t, size_t n, uint32_t key, uint64_t out[FTK_NUMBERS]);

/*
 * Finds the record with the r-th smallest key, r from 1. value: its slot.
 * Refusals: 1; 2 r is 0; 3 exactly if the table is not sound; 5 with four zeros if r is above the number
 * of records.
 */
void ftk_rank(const uint32_t *t, size_t n, uint32_t r, uint64_t out[FTK_NUMBERS]);

/*
 * Adds up the pieces of all records, poured or remelt, whose key is at most the given one (0 or more). value: the sum.
 * Refusals: 1; 3 exactly if the table is not sound.
 */
void ftk_total(const uint32_t *t, size_t n, uint32_t key, uint64_t out[FTK_NUMBERS]);

/*
 * Tells how far the table is from balance with true registers: value falls with every firing, so it also limits how
 * many more can follow.
 * Refusals: 1; 3 exactly if the table is not sound.
 */
void ftk_worth(const uint32_t *t, size_t n, uint64_t out[FTK_NUMBERS]);

/*
 * Fires one rule at one link. rule: 1 to 8; holder: the slot that holds the link to the upper record v, 0 for the
 * root link; side: FTK_SIDE_LEFT or FTK_SIDE_RIGHT, the left for the root link.
 *
 *   1 LP   the register of v beside its left son becomes one more than that son's larger register   (2 RP: mirror)
 *   3 RR*  right rotation, the left son leans left                                                  (4 LR*: mirror)
 *   5 RR=  right rotation, the left son leans nowhere                                               (6 LR=: mirror)
 *   7 LRR  double rotation, the left son leans right                                                (8 RLR: mirror)
 *
 * Rules 1 and 2 apply where the register is wrong. The others apply where the registers that they use are right and
 * v leans to the named side by two or more. Counts no change.
 * Refusals: 1; 2; 3 bad header; 8 the holder is free; 3 a slot that the rule looks at is bad or met twice;
 * 8 there is no such slot or the rule does not apply; 9.
 */
void ftk_fire(uint32_t *t, size_t n, uint32_t rule, uint32_t holder, uint32_t side, uint64_t out[FTK_NUMBERS]);

/*
 * Fires rule after rule, at most `budget` (any number): each time at the lowest-numbered upper record v, and there the
 * lowest rule, that applies and would not be refused with 9. value: the firings made; more: 1 if no rule applies any
 * longer. Budget 0 fires nothing and still tells. Counts no change.
 * Refusals: 1; 3 exactly if the table is not sound.
 */
void ftk_tidy(uint32_t *t, size_t n, uint32_t budget, uint64_t out[FTK_NUMBERS]);

#ifdef __cplusplus
}
#endif

#endif

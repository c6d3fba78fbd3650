/* Gongcollar's C interface. Every call is proved in Rattle; this header is what a host declares.
 *
 * A slice is a pointer and a count of elements. NULL with the count 0 is a slice, the one with no elements. Slices
 * that are lent together must not overlap. In every answer `refused` is 0 for an answer, else the refusal's number,
 * with `place`; the other fields are then 0 (but for gc_step and gc_step_rows, which give the walker back as it
 * came). A refusal leaves every lent slice, and a lent walker, as it was.
 *
 * Refusals: 1 to 8 a rule's, 9 two formulas have more than 255 bytes, 11 to 16 a model's, 21 a lent slice has fewer than
 * 4,096 entries, or fewer than 704 bytes for a model, 22 a byte that is no letter, 23 more than 16 letters for gc_judge,
 * 24 the slice holds no table of the weight and the finals that are stated, 25 a walker's count is at its largest, 30 a
 * text has more than 1,280 characters, 31 no rule has the text, 32 the output is too short for what would be written. A
 * table's label from p to q stands at 64p+q; a set has bit q for state q.
 *
 * No call keeps anything between calls, takes memory or asks anything of the system. So calls may run in several
 * threads at once, as long as nothing that one of them writes is lent to another. A call needs 512 KiB of stack at
 * most, whatever it is given: a thread that calls should have that much left. */
#ifndef GONGCOLLAR_H
#define GONGCOLLAR_H
#include <stddef.h>
#include <stdint.h>

/* The number of this page. It goes up by one whenever a call or a field is added or changed, so that a host can ask
 * at compile time for the page it was written against, as by `#if GONGCOLLAR_VERSION < 2`. (The page before the first
 * number had no gc_follow.) The archive has no number of its own: take both from one commit. */
#define GONGCOLLAR_VERSION 9

#ifdef __cplusplus
extern "C" {
#endif

/* `uses` is the set of the propositions that the rule names, bit i for proposition i, whether or not they matter to its
 * meaning. */
typedef struct { uint64_t refused, place, weight, uses; } gc_rule;
typedef struct { uint64_t refused, place, weight, finals, uses; } gc_built;
typedef struct { uint64_t refused, place, accepts, uses; } gc_judged;
/* A walker, which the host keeps in its own record: the states that it may be in and the final states; how many letters
 * it has taken, how many it had taken at its first match (0 if there is none yet), and whether there is one: 1 or 0, and
 * any other number counts as 1. It matches now if `set` and `finals` have a state in common. */
typedef struct { uint64_t set, finals; uint32_t taken, first, matched; } gc_walker;
typedef struct { uint64_t refused, place, matches; gc_walker walker; } gc_stepped;
typedef struct { uint64_t refused, place, matches; } gc_moved;
typedef struct { uint64_t refused, place; } gc_done;
typedef struct { uint64_t refused, place, states; } gc_model;
typedef struct { uint64_t refused, place, states, lasting; } gc_lasts;
typedef struct { uint64_t refused, place, length; } gc_written;
typedef struct { uint64_t refused, place, found, length, pairs, uses; } gc_searched;
typedef struct { uint64_t refused, place, weight, finals; } gc_trimmed;
typedef struct { uint64_t refused, place, length, weight, uses; } gc_text;

gc_rule gc_read_rule(const uint8_t *rule, size_t rule_len);
gc_built gc_build(const uint8_t *rule, size_t rule_len, uint64_t *table, size_t table_len);
gc_judged gc_judge(const uint8_t *rule, size_t rule_len, const uint8_t *letters, size_t letters_len);
/* A fresh walker: it is in state 0, has taken no letter, and has matched, at 0, if bit 0 of the finals is set. */
gc_walker gc_start(uint64_t finals);
/* One letter more: the walker after it, and in `matches` whether it matches now. 21, then 22 at 0, then 25 where it has
 * taken 4,294,967,295 letters. */
gc_stepped gc_step(gc_walker walker, const uint64_t *table, size_t table_len, uint8_t letter);
/* The same where the walker stands: what gc_step gives back is stored in its place. The walker lies in no slice that is
 * lent with it. */
gc_moved gc_step_lent(gc_walker *walker, const uint64_t *table, size_t table_len, uint8_t letter);
/* a fresh walker led through all the letters: `matches` is 1 if it matches at the end, 22 is at the first index that
 * holds no letter */
gc_moved gc_follow(const uint64_t *table, size_t table_len, uint64_t finals, const uint8_t *letters, size_t letters_len);
/* A table stored the other way: the row for letter x and state p, which stands at 64x+p, has bit q exactly if the label
 * from p to q has bit x. Each of the two calls writes 4,096 entries, whatever words it is lent, and undoes the other; 21
 * alone. */
gc_done gc_rows_of(const uint64_t *table, size_t table_len, uint64_t *rows, size_t rows_len);
gc_done gc_table_of(const uint64_t *rows, size_t rows_len, uint64_t *table, size_t table_len);
/* What gc_step and gc_follow answer over the table that has these rows, refusals too. A step reads one row for each state
 * that the walker may be in, where gc_step reads 64 labels. */
gc_stepped gc_step_rows(gc_walker walker, const uint64_t *rows, size_t rows_len, uint8_t letter);
gc_moved gc_follow_rows(const uint64_t *rows, size_t rows_len, uint64_t finals, const uint8_t *letters, size_t letters_len);
gc_model gc_read_model(const uint8_t *model, size_t model_len);
/* A model given by two formulas, written to the first 704 bytes of `model`; `length` is 704. The bytes are kind 30 with a
 * formula for the initial states, and kind 31 with a formula for the step, in which kind 07 with a number 0 to 5 names a
 * proposition of the next state as 01 does one of the present. State x has letter x, for all 64; it is initial if the
 * first formula holds in x, and y follows it if the second holds of x and y. 9, then 2 to 6 as of a rule, at the first
 * fault (4 for each kind out of its place, as 07 is in the first formula), then 21. */
gc_written gc_formula_model(const uint8_t *formulas, size_t formulas_len, uint8_t *model, size_t model_len);
/* `lasting` is the set of the model's states from which an endless run leaves, bit s for state s. Each other state is a
 * dead end or leads to dead ends alone: a job that is half drawn. */
gc_lasts gc_lasting(const uint8_t *model, size_t model_len);
/* Only runs that can be continued for ever count: a search finds, shows and counts what it would in the model without the
 * states that do not last. */
gc_searched gc_search(const uint8_t *rule, size_t rule_len, const uint8_t *model, size_t model_len,
                      uint64_t *table, size_t table_len, uint16_t *work1, size_t work1_len,
                      uint16_t *work2, size_t work2_len, uint8_t *run, size_t run_len);
/* Takes the states that do no work out of a table, built or not: 0 stays, and each state on a path from 0 to a final by
 * labels that are not 0, all numbered anew in rising order. 24 if `weight` is 0 or above 64, or a final or one of the
 * first 4,096 labels lies outside it; else the new weight and finals. Labels outside the new weight are 0. */
gc_trimmed gc_trim(uint64_t *table, size_t table_len, uint64_t weight, uint64_t finals);
/* as gc_search, over the rule's table as it is trimmed: the run and the refusals are the same, `pairs` and the table that
 * is left are the trimmed one's */
gc_searched gc_search_trimmed(const uint8_t *rule, size_t rule_len, const uint8_t *model, size_t model_len,
                              uint64_t *table, size_t table_len, uint16_t *work1, size_t work1_len,
                              uint16_t *work2, size_t work2_len, uint8_t *run, size_t run_len);
/* rulecheck's line for one input (without the closing newline) into out, which holds 16,384 bytes or more;
 * the answer is the line's length, 0 where out is shorter than that, and out is then untouched */
uint64_t gc_rulecheck(const uint8_t *input, size_t input_len, uint8_t *out, size_t out_len);
/* A rule as text: `length` is the number of bytes of the rule, or of characters of the text, written to the beginning of
 * out; 255 bytes, or 1,280 characters, are always enough. 31 is at the first character that no rule text has there, or
 * at the text's length where it ends too early, so that the characters before it begin one; reading tests 30, 31, 1, 7
 * and then 32, writing the rule's own and then 32. */
gc_text gc_read_text(const uint8_t *text, size_t text_len, uint8_t *out, size_t out_len);
gc_text gc_write_text(const uint8_t *rule, size_t rule_len, uint8_t *out, size_t out_len);

#ifdef __cplusplus
}
#endif
#endif

/* Joistpetal: rule sets over yes/no options, kept as decision diagrams in arrays of numbers.
 *
 * The functions of `libjoistpetal.a`, which `include/archive` proves and writes (Linux on x86-64, aarch64, riscv64 and
 * 32-bit Arm), and inline forms of them. C99 and C++. No function allocates, keeps anything between calls, or calls
 * anything but memcpy and memset; any number of threads may call them on runs of their own. Each takes any numbers in
 * the runs and counts that it is given; what it answers and what it leaves in each run is proved for all of them
 * (crates/exports, crates/exports_relations).
 *
 * WHAT NO PROOF CAN SEE
 *
 * This is the caller's part:
 *
 * - a pointer is not null, aligned for its type, and points to as many elements as its count says; also where
 *   the count is 0;
 * - a run or number that a call writes overlaps nothing else that the call is given. Runs that are only read
 *   (const) may be the same: a set may be both left and right;
 * - the stack has room. A call was measured (examples/c/stack.c) to take at most 100,095 bytes below its caller where
 *   it picks all 256 options, some 386 of them for each option; 33,007 where it is the tidy or the signing order
 *   check, 1,743 where it picks one option, 879 where it is an operator, 911 where it is a quantifier or a
 *   selection, 919 where it is a restriction, 575 where it is a dry run, and 450 where it is any other; that is on x86-64.
 *   tests/machines measures the other machines: nowhere more than JP_STACK_BYTES, JP_CHECK_STACK_BYTES and
 *   JP_PICK_STACK_BYTES say. Where memset and memcpy are only found as they are first called, the
 *   loader takes some three thousand more then.
 *
 * RUNS
 *
 * A run is a pointer and a count: `low` and `low_len`. The runs come in families.
 *
 * A set: `variable`, `low`, `high`, three runs of one length L, 1 to JP_MOST_ENTRIES; entry i is (variable[i],
 *   low[i], high[i]). Over n options, 0 to JP_MOST_OPTIONS: entry 0 is (n, 0, 0), entry 1, if there, (n, 1, 1);
 *   every other has a variable below n and links to earlier entries of greater variables; the last entry is the
 *   root. L = 1 is the set that is always off, L = 2 the one that is always on. A set is ORDERED where all this
 *   holds. A call that takes a set checks it. lv, ll, lh are the left set's runs; rv, rl, rh the right one's.
 * The output: three runs that receive an array of S entries. W is the shortest of the three lengths, or
 *   JP_MOST_ENTRIES if that is less: the array has room where S is at most W.
 * The working runs of an operator, whose content on entry never matters:
 *   `stack`  of at least JP_STACK_LEN(n) numbers;
 *   `index`  of at least W numbers, JP_INDEX_LEN of the shortest length of the output;
 *   `pairs`  of JP_PAIRS_LEN(R) numbers for R pairs. An operator needs T of them: the number c of undecided pairs
 *            that it reaches, or 1 where c is 0. The dry run tells c. JP_ENOUGH_PAIRS(L, M) pairs always do.
 *   An operator's S is at most c + 2.
 * A restriction has no pair run, and in its place
 *   `map`    of at least JP_MAP_LEN(L) numbers, for a set of L entries.
 * Picking has three spare runs besides those of an operator, for the arrays of its steps:
 *   `spare_variable`, `spare_low`, `spare_high`  of at least JP_SPARE_LEN(k, entries) numbers each, to pick k options.
 * The working run of the comparison: `room`, of at least JP_COMPARE_LEN(L, M) numbers.
 *
 * NUMBERS GIVEN
 *
 * flip_left, flip_right, flip_out: the option that is switched for the left set, the right set, the output;
 *   JP_NO_FLIP is none. Any other number of n or more is refused with 5.
 * limit: the most entries that an operator may write, or the most pairs that a dry run may count; JP_NO_LIMIT
 *   is none, and any other number is a limit.
 * table: nine answers, at place 3a + b for inputs a of the left and b of the right set, where 0 is off, 1 on
 *   and 2 not yet known. Good where it has nine; those at two known inputs are 0 or 1; the others are 0, 1 or
 *   2; and a 0 or 1 stands, the same, at every place got by making an unknown input known.
 * p: one of the sixteen operators; bit 2a + b of p is the answer at known a, b.
 *
 * NUMBERS ANSWERED
 *
 * Every function that can refuse answers 0 for done or the number of the refusal, one of enum jp_answer. They
 * are tested in the order 1 to 5, 10, 6 to 9, and the first that holds is answered. What else it has to tell it
 * writes through the pointers at the end of its list (`size`, `records` and so on), in a refusal 0.
 *
 * What the runs hold after:
 *
 *   answer        output runs                             working runs
 *   0             the array first; from S on as before    all zero
 *   1 to 6, 10    as before                               as before
 *   7, 8, 9       all zero                                all zero
 *
 * "All zero" is each run to its end, longer ones than W too. The byte reader and writer leave their runs as
 * before in every refusal. Runs that are const are never written.
 */
#ifndef JOISTPETAL_H
#define JOISTPETAL_H

#include <stddef.h>
#include <stdint.h>
#ifndef __cplusplus
#include <stdbool.h>
#endif

#ifdef __cplusplus
extern "C" {
#endif

/* A count or a length: a word of 64 bits, as the library was proved with, on every machine. On 64-bit Linux it is size_t; on
 * a 32-bit machine a caller's own count is widened. */
typedef uint64_t jp_size;

/* The greatest number of options, and of entries. */
#define JP_MOST_OPTIONS 256
#define JP_MOST_ENTRIES 4096

/* The bytes of a record, and the answers of a table. */
#define JP_RECORD_BYTES 10
#define JP_TABLE_ANSWERS 9

/* The stack that a call takes at the most, in bytes, rounded up; the tidy and the signing order check; and jp_pick. */
#define JP_STACK_BYTES 3072
#define JP_CHECK_STACK_BYTES 38912
#define JP_PICK_STACK_BYTES 307200

/* No flip, no limit. */
#define JP_NO_FLIP ((uint32_t)65536)
#define JP_NO_LIMIT ((jp_size)-1)

/* ---- How long what is lent must be, in elements. Constants where their arguments are, so that arrays can be
 * declared by them. ---- */

/* The stack over n options. Over any number of options: JP_STACK_LEN(JP_MOST_OPTIONS). */
#define JP_STACK_LEN(n) (2 * (jp_size)(n) + 1)

/* W, and so the index, where the shortest output run has so many entries. JP_MOST_ENTRIES always do. */
#define JP_INDEX_LEN(entries) ((jp_size)(entries) < JP_MOST_ENTRIES ? (jp_size)(entries) : (jp_size)JP_MOST_ENTRIES)

/* The pair run for so many pairs. Searches are short in a full run too: more room than the pairs that are reached
 * need gains little. */
#define JP_PAIRS_LEN(pairs) (4 * (jp_size)(pairs))

/* As many pairs as sets of L and M entries have: no operator reaches more. Of the two largest sets they are
 * 16,777,216, in 256 MiB; most operators reach far fewer, and the dry run tells. */
#define JP_ENOUGH_PAIRS(l, m) ((jp_size)(l) * (jp_size)(m))

/* The map of a restriction of a set of L entries. */
#define JP_MAP_LEN(l) ((jp_size)(l))

/* Each of the spare runs, to pick k options, where the shortest output run has so many entries: (k + 4) W. */
#define JP_SPARE_LEN(k, entries) (((jp_size)(k) + 4) * JP_INDEX_LEN(entries))

/* The file of a set of L entries. */
#define JP_FILE_LEN(l) (JP_RECORD_BYTES * (jp_size)(l))

/* The setting that a comparison writes. */
#define JP_SETTING JP_MOST_OPTIONS

/* The room of a comparison of sets of L and M entries: the least, and what keeps its searches short. */
#define JP_COMPARE_LEN(l, m) (5 * ((jp_size)(l) + (jp_size)(m)))
#define JP_COMPARE_ADVISED_LEN(l, m) (9 * ((jp_size)(l) + (jp_size)(m)))

/* Done, and the refusals. */
enum jp_answer {
    JP_DONE = 0,
    JP_BAD_TABLE = 1,         /* the table is not good, or the operator's number is 16 or more */
    JP_LEFT_NOT_ORDERED = 2,  /* the left, or only, set is not ordered */
    JP_RIGHT_NOT_ORDERED = 3, /* the right set is not ordered */
    JP_COUNTS_DIFFER = 4,     /* the two sets are over different numbers of options */
    JP_NO_SUCH_OPTION = 5,    /* an option or a flip is n or more, or n is above JP_MOST_OPTIONS */
    JP_SHORT_RUN = 6,         /* the stack, the index, the map, a spare run or the comparison's room is too short */
    JP_PAIR_ROOM = 7,         /* T is more than R */
    JP_OVER_LIMIT = 8,        /* S is more than the limit, and the limit is at most W */
    JP_NO_ROOM = 9,           /* S is more than W, and there is no limit or it is above W; records are more than W,
                                 or a set's bytes more than there is room for */
    JP_BAD_LIST = 10          /* a setting is not n numbers of 0 and 1, a restriction's values not n of 0, 1 and 2, or a
                                 list of options that are picked repeats one */
};

/* What a restriction puts an option to. */
enum jp_put {
    JP_OFF = 0,
    JP_ON = 1,
    JP_FREE = 2 /* as it is */
};

/* How two sets stand to each other; 0 in a refusal. */
enum jp_standing {
    JP_SAME_NUMBERS = 1, /* they are equal, number for number */
    JP_SAME_MEANING = 2, /* they mean the same in another order */
    JP_DIFFER = 3        /* their values differ at some setting */
};

/* The operators that have names, by number. */
enum jp_number {
    JP_AND_NOT = 4,
    JP_XOR = 6,
    JP_AND = 8,
    JP_IFF = 9,
    JP_IMP = 11,
    JP_OR = 14
};

/* The families of runs as the functions take them, in lists of parameters and of what is handed on; gone at the
 * end of this file. */
#define JP_ONE_SET_                                                                                          \
    const uint16_t *variable, jp_size variable_len, const uint32_t *low, jp_size low_len, const uint32_t *high, \
        jp_size high_len
#define JP_LEFT_SET_ \
    const uint16_t *lv, jp_size lv_len, const uint32_t *ll, jp_size ll_len, const uint32_t *lh, jp_size lh_len
#define JP_TWO_SETS_ \
    JP_LEFT_SET_, \
        const uint16_t *rv, jp_size rv_len, const uint32_t *rl, jp_size rl_len, const uint32_t *rh, jp_size rh_len
#define JP_FLIPS_ uint32_t flip_left, uint32_t flip_right, uint32_t flip_out
#define JP_OUTPUT_ \
    uint16_t *variable, jp_size variable_len, uint32_t *low, jp_size low_len, uint32_t *high, jp_size high_len
#define JP_DRY_WORK_ uint32_t *pairs, jp_size pairs_len, uint32_t *stack, jp_size stack_len
#define JP_WORK_ JP_DRY_WORK_, uint32_t *index, jp_size index_len
#define JP_SPARE_                                                                                                 \
    uint16_t *spare_variable, jp_size spare_variable_len, uint32_t *spare_low, jp_size spare_low_len, uint32_t *spare_high, \
        jp_size spare_high_len
#define JP_MAP_WORK_ \
    uint32_t *stack, jp_size stack_len, uint32_t *index, jp_size index_len, uint32_t *map, jp_size map_len

#define JP_TWO_SETS_ON_ lv, lv_len, ll, ll_len, lh, lh_len, rv, rv_len, rl, rl_len, rh, rh_len
#define JP_NO_FLIPS_ON_ JP_NO_FLIP, JP_NO_FLIP, JP_NO_FLIP
#define JP_FLIPS_ON_ flip_left, flip_right, flip_out
#define JP_DRY_WORK_ON_ pairs, pairs_len, stack, stack_len
#define JP_OUTPUT_AND_WORK_ON_ \
    variable, variable_len, low, low_len, high, high_len, JP_DRY_WORK_ON_, index, index_len, size

/* ---- Terminals, literals, negation: they need the output alone. ---- */

/* The set over n options that is always off: the one entry (n, 0, 0). Answers 0 with 1 in *size, or 5 where n
 * is above JP_MOST_OPTIONS, or 9. */
uint32_t jp_mk_false(uint16_t n, JP_OUTPUT_, jp_size *size);

/* The set that is always on: two entries. Answers 0 with 2 in *size, 5 or 9, as jp_mk_false. */
uint32_t jp_mk_true(uint16_t n, JP_OUTPUT_, jp_size *size);

/* The literal of option v: on where the option is on (value true) or off (value false). The two terminals and
 * (v, 0, 1) or (v, 1, 0). Answers 0 with 3 in *size, or 5 where v is n or more or n is above JP_MOST_OPTIONS,
 * or 9. */
uint32_t jp_mk_literal(uint16_t n, uint16_t v, bool value, JP_OUTPUT_, jp_size *size);

/* Negation: off and on swap; else links 0 and 1 swap from entry 2 on and the layout is kept, so that signing
 * order stays. Answers 0 with S in *size (1 for 2 entries, 2 for 1, else the set's own length), 2 or 9. */
uint32_t jp_not(
    JP_ONE_SET_,
    uint16_t *out_variable, jp_size out_variable_len, uint32_t *out_low, jp_size out_low_len,
    uint32_t *out_high, jp_size out_high_len,
    jp_size *size);

/* ---- The byte form: ten bytes to an entry, u16, u32, u32, least byte first. ---- */

/* Where record k stands in a file: answers its length, 10, and writes 10 k to *at; where the file has no whole
 * record k, answers 0 and writes 0. The record is the bytes file[*at] to file[*at + 9]. */
jp_size jp_record(const uint8_t *file, jp_size file_len, jp_size k, jp_size *at);

/* Reads the whole records of a file into the three runs. Answers 0, with the number of records in *records and
 * of bytes behind the last, 0 to 9, in *tail; the entries stand first, those behind are as before. Or 9 where
 * the records are more than W: the runs are then as before. It does not check the set. */
uint32_t jp_read_as_bytes(const uint8_t *file, jp_size file_len, JP_OUTPUT_, jp_size *records, jp_size *tail);

/* Writes a set as a file. Answers 0 with 10 L in *written; bytes behind are as before. Or 2 where the set is
 * not ordered, or 9 where bytes_len is below 10 L; the bytes are then as before. */
uint32_t jp_write_as_bytes(JP_ONE_SET_, uint8_t *bytes, jp_size bytes_len, jp_size *written);

/* ---- Tables. ---- */

/* Writes the nine answers of operator p to table[0] to table[8]: an answer is 2 exactly where the ways to fill
 * in the unknowns disagree. Answers 0, or 1 where p is 16 or more; the nine are then as before. */
uint32_t jp_operator(uint8_t p, uint8_t table[JP_TABLE_ANSWERS]);

/* Whether a table is good: 1 yes, 0 no. */
uint32_t jp_check_table(const uint8_t *table, jp_size table_len);

/* The answer, 0, 1 or 2, of an operator at inputs l and r: each is 0, 1, or anything from 2 on for not yet
 * known. */
uint8_t jp_op_and(uint8_t l, uint8_t r);     /* l and r */
uint8_t jp_op_or(uint8_t l, uint8_t r);      /* l or r */
uint8_t jp_op_imp(uint8_t l, uint8_t r);     /* r where l */
uint8_t jp_op_iff(uint8_t l, uint8_t r);     /* l as r */
uint8_t jp_op_xor(uint8_t l, uint8_t r);     /* l or r, not both */
uint8_t jp_op_and_not(uint8_t l, uint8_t r); /* l and not r */

/* ---- Checks of three runs of any lengths and numbers: 0 for no, n + 1 for yes over n options. ---- */

/* Whether they are an ordered set. */
uint32_t jp_check_ordered(JP_ONE_SET_);

/* Whether they are tidy: ordered, no entry from 2 on with equal links, no two of them equal. */
uint32_t jp_check_tidy(JP_ONE_SET_);

/* Whether they are in signing order: the one array of their function, which two sets over the same options
 * share, number for number, exactly when they mean the same. */
uint32_t jp_check_signing(JP_ONE_SET_);

/* ---- What sets mean. ---- */

/* The value of a set at a setting of its n options: n numbers, 1 for on and 0 for off. Answers 0 with 1 or 0 in
 * *value, or 2 where the set is not ordered, or 10 where the setting has not n numbers of 0 and 1. */
uint32_t jp_value_at(JP_ONE_SET_, const uint8_t *setting, jp_size setting_len, uint32_t *value);

/* How two sets stand to each other, whatever their layouts. Answers 0, with one of enum jp_standing in *standing;
 * or 2, 3, 4, or 6 where room_len is below JP_COMPARE_LEN(L, M), with 0. Where they differ, the JP_SETTING numbers
 * of the setting are the first at which they do, read from the smallest option, off (0) before on (1), all 0 from
 * n on, and *left is the left set's value there; the right set has the other. In every other answer the setting is
 * as before and *left is 0. */
uint32_t jp_same(
    JP_TWO_SETS_, uint8_t setting[JP_SETTING], uint32_t *room, jp_size room_len, uint32_t *standing, uint32_t *left);

/* ---- Operators. Each writes the one array, in signing order, of the operator's answer at the values of its
 * sets; an output flip first switches its option in the setting, and a set's own flip then switches its option
 * for that set alone. Each answers 0 with S in *size, or a refusal from those named. ---- */

/* By a table, with flips and a limit. 1 to 9. */
uint32_t jp_fused_binary_flip_op_with_limit(
    jp_size limit, const uint8_t *table, jp_size table_len, JP_TWO_SETS_, JP_FLIPS_, JP_OUTPUT_, JP_WORK_,
    jp_size *size);

/* By a number, with flips and a limit. 1 to 9. */
uint32_t jp_numbered_flip_op_with_limit(
    jp_size limit, uint8_t p, JP_TWO_SETS_, JP_FLIPS_, JP_OUTPUT_, JP_WORK_, jp_size *size);

/* By a table. 1 to 4, 6, 7, 9. */
static inline uint32_t jp_binary_op(
    const uint8_t *table, jp_size table_len, JP_TWO_SETS_, JP_OUTPUT_, JP_WORK_, jp_size *size)
{
    return jp_fused_binary_flip_op_with_limit(
        JP_NO_LIMIT, table, table_len, JP_TWO_SETS_ON_, JP_NO_FLIPS_ON_, JP_OUTPUT_AND_WORK_ON_);
}

/* By a table, with a limit. 1 to 4, 6 to 9. */
static inline uint32_t jp_binary_op_with_limit(
    jp_size limit, const uint8_t *table, jp_size table_len, JP_TWO_SETS_, JP_OUTPUT_, JP_WORK_, jp_size *size)
{
    return jp_fused_binary_flip_op_with_limit(
        limit, table, table_len, JP_TWO_SETS_ON_, JP_NO_FLIPS_ON_, JP_OUTPUT_AND_WORK_ON_);
}

/* By a table, with flips. 1 to 7, 9. */
static inline uint32_t jp_fused_binary_flip_op(
    const uint8_t *table, jp_size table_len, JP_TWO_SETS_, JP_FLIPS_, JP_OUTPUT_, JP_WORK_, jp_size *size)
{
    return jp_fused_binary_flip_op_with_limit(
        JP_NO_LIMIT, table, table_len, JP_TWO_SETS_ON_, JP_FLIPS_ON_, JP_OUTPUT_AND_WORK_ON_);
}

/* By a number. 1 to 4, 6, 7, 9. */
static inline uint32_t jp_numbered_op(uint8_t p, JP_TWO_SETS_, JP_OUTPUT_, JP_WORK_, jp_size *size)
{
    return jp_numbered_flip_op_with_limit(
        JP_NO_LIMIT, p, JP_TWO_SETS_ON_, JP_NO_FLIPS_ON_, JP_OUTPUT_AND_WORK_ON_);
}

/* By a number, with a limit. 1 to 4, 6 to 9. */
static inline uint32_t jp_numbered_op_with_limit(
    jp_size limit, uint8_t p, JP_TWO_SETS_, JP_OUTPUT_, JP_WORK_, jp_size *size)
{
    return jp_numbered_flip_op_with_limit(limit, p, JP_TWO_SETS_ON_, JP_NO_FLIPS_ON_, JP_OUTPUT_AND_WORK_ON_);
}

/* By a number, with flips. 1 to 7, 9. */
static inline uint32_t jp_numbered_flip_op(
    uint8_t p, JP_TWO_SETS_, JP_FLIPS_, JP_OUTPUT_, JP_WORK_, jp_size *size)
{
    return jp_numbered_flip_op_with_limit(
        JP_NO_LIMIT, p, JP_TWO_SETS_ON_, JP_FLIPS_ON_, JP_OUTPUT_AND_WORK_ON_);
}

/* Both. 2, 3, 4, 6, 7, 9. */
static inline uint32_t jp_and(JP_TWO_SETS_, JP_OUTPUT_, JP_WORK_, jp_size *size)
{
    return jp_numbered_op(JP_AND, JP_TWO_SETS_ON_, JP_OUTPUT_AND_WORK_ON_);
}

/* One of them, or both. 2, 3, 4, 6, 7, 9. */
static inline uint32_t jp_or(JP_TWO_SETS_, JP_OUTPUT_, JP_WORK_, jp_size *size)
{
    return jp_numbered_op(JP_OR, JP_TWO_SETS_ON_, JP_OUTPUT_AND_WORK_ON_);
}

/* One of them, not both. 2, 3, 4, 6, 7, 9. */
static inline uint32_t jp_xor(JP_TWO_SETS_, JP_OUTPUT_, JP_WORK_, jp_size *size)
{
    return jp_numbered_op(JP_XOR, JP_TWO_SETS_ON_, JP_OUTPUT_AND_WORK_ON_);
}

/* Both or neither. 2, 3, 4, 6, 7, 9. */
static inline uint32_t jp_iff(JP_TWO_SETS_, JP_OUTPUT_, JP_WORK_, jp_size *size)
{
    return jp_numbered_op(JP_IFF, JP_TWO_SETS_ON_, JP_OUTPUT_AND_WORK_ON_);
}

/* The right one where the left one is. 2, 3, 4, 6, 7, 9. */
static inline uint32_t jp_imp(JP_TWO_SETS_, JP_OUTPUT_, JP_WORK_, jp_size *size)
{
    return jp_numbered_op(JP_IMP, JP_TWO_SETS_ON_, JP_OUTPUT_AND_WORK_ON_);
}

/* The left one without the right one. 2, 3, 4, 6, 7, 9. */
static inline uint32_t jp_and_not(JP_TWO_SETS_, JP_OUTPUT_, JP_WORK_, jp_size *size)
{
    return jp_numbered_op(JP_AND_NOT, JP_TWO_SETS_ON_, JP_OUTPUT_AND_WORK_ON_);
}

/* The signing order of any ordered set: the and of the set with itself. 2, 6, 7, 9. */
static inline uint32_t jp_signing_order(
    const uint16_t *v, jp_size v_len, const uint32_t *l, jp_size l_len, const uint32_t *h, jp_size h_len, JP_OUTPUT_,
    JP_WORK_, jp_size *size)
{
    return jp_and(v, v_len, l, l_len, h, h_len, v, v_len, l, l_len, h, h_len, JP_OUTPUT_AND_WORK_ON_);
}

/* ---- Quantifiers and selection of one option v of one set. Each is one operator and writes an array in signing
 * order; T is that operator's. Each answers 0 with S in *size, or 2, 5 where v is n or more, 6, 7 or 9. ---- */

/* On where the set is on with the option off or with it on: the or of the set and of itself with v switched. */
uint32_t jp_var_exists(JP_LEFT_SET_, uint16_t v, JP_OUTPUT_, JP_WORK_, jp_size *size);

/* On where the set is on with both: the and. */
uint32_t jp_var_for_all(JP_LEFT_SET_, uint16_t v, JP_OUTPUT_, JP_WORK_, jp_size *size);

/* The set's value where the option is on (value true) or off (value false), otherwise off: the and with the literal,
 * which needs no room. JP_ENOUGH_PAIRS(L, 3) pairs always do. */
uint32_t jp_var_select(JP_LEFT_SET_, uint16_t v, bool value, JP_OUTPUT_, JP_WORK_, jp_size *size);

/* ---- Restriction: the value of a set with some options put as asked, which it then no longer looks at. The array
 * has its LOW side first, so it is not in signing order in general: do not hash it, jp_signing_order gives the array
 * that is hashed. Each answers 0 with S in *size, or a refusal from those named. ---- */

/* By n values of enum jp_put, one to an option. 2, 10 where they are not n of 0, 1 and 2, 6, 9. */
uint32_t jp_restrict(
    JP_LEFT_SET_, const uint8_t *values, jp_size values_len, JP_OUTPUT_, JP_MAP_WORK_, jp_size *size);

/* Option v put on (value true) or off (value false), all others as they are. 2, 5 where v is n or more, 6, 9. */
uint32_t jp_var_restrict(JP_LEFT_SET_, uint16_t v, bool value, JP_OUTPUT_, JP_MAP_WORK_, jp_size *size);

/* ---- Picking: for each setting of the other options the one allowed setting of the picked options that is smallest
 * when read from the smallest option, off before on. It is a sequence of operators, each into room W: the greatest
 * option is quantified away, the rest is picked, and joined with jp_var_pick of it (a selection, then and_not). The first
 * step that is refused with 7 or 9 answers for all. Each answers 0 with S in *size, in signing order unless the list is
 * empty, or 2, 5 where an option is n or more, 6, 7, 9, or 10. ---- */

/* One option. */
uint32_t jp_var_pick(JP_LEFT_SET_, uint16_t v, JP_OUTPUT_, JP_WORK_, JP_SPARE_, jp_size *size);

/* A list of options in any order; where it repeats one, 10. With an empty list the set is copied as it is. */
uint32_t jp_pick(
    JP_LEFT_SET_, const uint16_t *picks, jp_size picks_len, JP_OUTPUT_, JP_WORK_, JP_SPARE_, jp_size *size);

/* ---- Dry runs. They write no array: 1 in *holds where some reached pair is decided as on, so that the
 * operator's set can hold, else 0; and c in *count. They are lent `pairs` and `stack` alone, which are as under
 * "working runs" after. Their 6 is for the stack; 8 where c is more than the limit and the limit is at most R;
 * 7 where c is more than R and the limit is above R. ---- */

/* With flips. 1 to 8. */
uint32_t jp_check_fused_binary_flip_op(
    jp_size limit, const uint8_t *table, jp_size table_len, JP_TWO_SETS_, JP_FLIPS_, JP_DRY_WORK_, uint32_t *holds,
    jp_size *count);

/* 1 to 4, 6, 7, 8. */
static inline uint32_t jp_check_binary_op(
    jp_size limit, const uint8_t *table, jp_size table_len, JP_TWO_SETS_, JP_DRY_WORK_, uint32_t *holds, jp_size *count)
{
    return jp_check_fused_binary_flip_op(
        limit, table, table_len, JP_TWO_SETS_ON_, JP_NO_FLIPS_ON_, JP_DRY_WORK_ON_, holds, count);
}

#undef JP_ONE_SET_
#undef JP_LEFT_SET_
#undef JP_TWO_SETS_
#undef JP_FLIPS_
#undef JP_OUTPUT_
#undef JP_DRY_WORK_
#undef JP_WORK_
#undef JP_SPARE_
#undef JP_MAP_WORK_
#undef JP_TWO_SETS_ON_
#undef JP_NO_FLIPS_ON_
#undef JP_FLIPS_ON_
#undef JP_DRY_WORK_ON_
#undef JP_OUTPUT_AND_WORK_ON_

#ifdef __cplusplus
}
#endif

#endif

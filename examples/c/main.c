/* A box decides about its options through the proved library: it builds rules, combines them, signs what they
 * mean, asks before it works, and is told why where it may not. `./run` beside this file proves the library,
 * compiles this over it and runs it. It prints each step, and exits 1 if any answer is not the one expected. */
#include <inttypes.h>
#include <stdio.h>
#include <string.h>

#include "joistpetal.h"

enum { TUNER, DRIVE, OPTIONS };

/* Room for every array that two options can make, and for 16 pairs; the working runs for it. */
#define ROOM 16

struct rule {
    uint16_t variable[ROOM];
    uint32_t low[ROOM];
    uint32_t high[ROOM];
    jp_size size;
};

static uint32_t pairs[JP_PAIRS_LEN(ROOM)], stack[JP_STACK_LEN(OPTIONS)], index_run[JP_INDEX_LEN(ROOM)];
static uint16_t spare_variable[JP_SPARE_LEN(OPTIONS, ROOM)];
static uint32_t spare_low[JP_SPARE_LEN(OPTIONS, ROOM)], spare_high[JP_SPARE_LEN(OPTIONS, ROOM)];
static uint32_t map_run[JP_MAP_LEN(ROOM)], compare_run[JP_COMPARE_LEN(ROOM, ROOM)];

/* A rule as a set that is read, as an output that is lent whole, and the working runs. */
#define SET(r) (r).variable, (r).size, (r).low, (r).size, (r).high, (r).size
#define OUT(r) (r).variable, ROOM, (r).low, ROOM, (r).high, ROOM
#define DRY_WORK pairs, JP_PAIRS_LEN(ROOM), stack, JP_STACK_LEN(OPTIONS)
#define WORK DRY_WORK, index_run, JP_INDEX_LEN(ROOM)
#define SPARE_LEN JP_SPARE_LEN(OPTIONS, ROOM)
#define SPARE spare_variable, SPARE_LEN, spare_low, SPARE_LEN, spare_high, SPARE_LEN
#define MAP_WORK stack, JP_STACK_LEN(OPTIONS), index_run, JP_INDEX_LEN(ROOM), map_run, JP_MAP_LEN(ROOM)
#define COMPARE compare_run, JP_COMPARE_LEN(ROOM, ROOM)
#define NO_FLIPS JP_NO_FLIP, JP_NO_FLIP, JP_NO_FLIP

static int surprises;

static void expect(const char *what, uint64_t got, uint64_t wanted)
{
    printf("%-58s %" PRIu64, what, got);
    if (got != wanted) {
        printf(", but %" PRIu64 " was expected", wanted);
        surprises++;
    }
    printf("\n");
}

/* The entries from 2 on, which are to read so. */
static void show(const struct rule *r, const char *wanted)
{
    char text[24 * ROOM] = "";
    for (size_t i = 2, used = 0; i < r->size; i++)
        used += (size_t)snprintf(text + used, sizeof text - used, "(%u,%" PRIu32 ",%" PRIu32 ")",
                                 (unsigned)r->variable[i], r->low[i], r->high[i]);
    expect(text, (uint64_t)(strcmp(text, wanted) == 0), 1);
}

/* The bytes that are hashed and signed. */
static size_t bytes_of(const struct rule *r, uint8_t bytes[JP_FILE_LEN(ROOM)])
{
    jp_size written;
    if (jp_write_as_bytes(SET(*r), bytes, JP_FILE_LEN(ROOM), &written) != JP_DONE)
        surprises++;
    return written;
}

static int same_bytes(const struct rule *a, const struct rule *b)
{
    uint8_t left[JP_FILE_LEN(ROOM)], right[JP_FILE_LEN(ROOM)];
    jp_size size = bytes_of(a, left);
    return size == bytes_of(b, right) && memcmp(left, right, size) == 0;
}

static struct rule tuner, drive, both, either, drive_alone;

static void build(void)
{
    expect("the tuner is on", jp_mk_literal(OPTIONS, TUNER, true, OUT(tuner), &tuner.size), JP_DONE);
    expect("the drive is on", jp_mk_literal(OPTIONS, DRIVE, true, OUT(drive), &drive.size), JP_DONE);
    expect("tuner and drive", jp_and(SET(tuner), SET(drive), OUT(both), WORK, &both.size), JP_DONE);
    show(&both, "(1,0,1)(0,0,2)");
    expect("tuner or drive", jp_or(SET(tuner), SET(drive), OUT(either), WORK, &either.size), JP_DONE);
    show(&either, "(1,0,1)(0,2,1)");
    expect("drive alone: and, with the tuner switched for the left set",
           jp_numbered_flip_op(JP_AND, SET(tuner), SET(drive), TUNER, JP_NO_FLIP, JP_NO_FLIP, OUT(drive_alone), WORK,
                               &drive_alone.size), JP_DONE);
    show(&drive_alone, "(1,0,1)(0,2,0)");
    expect("in signing order, over two options: n + 1", jp_check_signing(SET(either)), OPTIONS + 1);
}

/* Not both, got in two ways, is one array. */
static void de_morgan(void)
{
    struct rule not_both, no_tuner, no_drive, one_off;
    expect("not (tuner and drive)", jp_not(SET(both), OUT(not_both), &not_both.size), JP_DONE);
    expect("not tuner", jp_not(SET(tuner), OUT(no_tuner), &no_tuner.size), JP_DONE);
    expect("not drive", jp_not(SET(drive), OUT(no_drive), &no_drive.size), JP_DONE);
    expect("(not tuner) or (not drive)",
           jp_or(SET(no_tuner), SET(no_drive), OUT(one_off), WORK, &one_off.size), JP_DONE);
    show(&not_both, "(1,1,0)(0,1,2)");
    show(&one_off, "(1,1,0)(0,1,2)");
    expect("their bytes are the same", (uint64_t)same_bytes(&not_both, &one_off), 1);
    expect("and not those of either", (uint64_t)same_bytes(&not_both, &either), 0);
}

/* A file of a rule and three bytes more, read back; and one record of it. */
static void bytes(void)
{
    static const uint8_t root[JP_RECORD_BYTES] = {TUNER, 0, 0, 0, 0, 0, 2, 0, 0, 0};
    uint8_t file[JP_FILE_LEN(ROOM)];
    struct rule again;
    jp_size tail, at, size = bytes_of(&both, file);
    memset(file + size, 255, 3);
    expect("both in bytes, ten to an entry", size, JP_FILE_LEN(both.size));
    expect("read back, with three bytes behind",
           jp_read_as_bytes(file, size + 3, OUT(again), &again.size, &tail), JP_DONE);
    expect("records", again.size, both.size);
    expect("tail bytes", tail, 3);
    expect("the same rule", (uint64_t)same_bytes(&again, &both), 1);
    expect("the length of record 3, the root", jp_record(file, size + 3, 3, &at), JP_RECORD_BYTES);
    expect("it is (0,0,2)", (uint64_t)(memcmp(file + at, root, sizeof root) == 0), 1);
    expect("the length of record 4, which is not whole", jp_record(file, size + 3, 4, &at), 0);
}

/* What an operator would take, before it is run. */
static void dry(void)
{
    uint8_t table[JP_TABLE_ANSWERS];
    struct rule no_tuner;
    uint32_t holds;
    jp_size count;
    expect("the nine answers of and", jp_operator(JP_AND, table), JP_DONE);
    expect("they are a good table", jp_check_table(table, sizeof table), 1);
    expect("off and not yet known is off", jp_op_and(0, 2), 0);
    expect("dry run of tuner and drive",
           jp_check_binary_op(JP_NO_LIMIT, table, sizeof table, SET(tuner), SET(drive), DRY_WORK, &holds, &count),
           JP_DONE);
    expect("it can hold", holds, 1);
    expect("pairs", count, 2);
    jp_not(SET(tuner), OUT(no_tuner), &no_tuner.size);
    expect("dry run of tuner and not tuner",
           jp_check_binary_op(JP_NO_LIMIT, table, sizeof table, SET(tuner), SET(no_tuner), DRY_WORK, &holds, &count),
           JP_DONE);
    expect("it cannot hold", holds, 0);
    expect("pairs", count, 1);
}

/* The question of a release that stopped: do two files mean the same, and if not, where do they differ? */
static void compare(void)
{
    static const uint8_t drive_on[OPTIONS] = {0, 1};
    struct rule twisted = either;
    uint8_t setting[JP_SETTING] = {7};
    uint32_t standing, left, value;
    expect("either and itself", jp_same(SET(either), SET(either), setting, COMPARE, &standing, &left), JP_DONE);
    expect("the same numbers", standing, JP_SAME_NUMBERS);
    expect("the setting, as it was", setting[0], 7);
    twisted.variable[4] = TUNER, twisted.low[4] = 2, twisted.high[4] = 1, twisted.size = 5;
    expect("either, and either with its root twice",
           jp_same(SET(either), SET(twisted), setting, COMPARE, &standing, &left), JP_DONE);
    expect("the same meaning", standing, JP_SAME_MEANING);
    expect("both and either", jp_same(SET(both), SET(either), setting, COMPARE, &standing, &left), JP_DONE);
    expect("they differ", standing, JP_DIFFER);
    expect("first where the drive alone is on", (uint64_t)(memcmp(setting, drive_on, sizeof drive_on) == 0), 1);
    expect("where both is off", left, 0);
    expect("and the value of either there", jp_value_at(SET(either), setting, OPTIONS, &value), JP_DONE);
    expect("is on", value, 1);
    expect("in too short a run",
           jp_same(SET(both), SET(either), setting, compare_run, JP_COMPARE_LEN(both.size, either.size) - 1, &standing, &left),
           JP_SHORT_RUN);
}

/* What is left of a rule when an option is quantified away, selected or put on or off. */
static void relations(void)
{
    static const uint8_t nothing[OPTIONS] = {JP_FREE, JP_FREE}, tuner_on[OPTIONS] = {JP_ON, JP_FREE};
    struct rule one, made, back;
    expect("both, whatever the tuner is", jp_var_exists(SET(both), TUNER, OUT(made), WORK, &made.size), JP_DONE);
    expect("is drive", (uint64_t)same_bytes(&made, &drive), 1);
    expect("either, both for tuner on and off",
           jp_var_for_all(SET(either), TUNER, OUT(made), WORK, &made.size), JP_DONE);
    expect("is drive", (uint64_t)same_bytes(&made, &drive), 1);
    expect("either, with the tuner off", jp_var_select(SET(either), TUNER, false, OUT(made), WORK, &made.size), JP_DONE);
    expect("is drive alone", (uint64_t)same_bytes(&made, &drive_alone), 1);
    expect("one of the two, not both", jp_xor(SET(tuner), SET(drive), OUT(one), WORK, &one.size), JP_DONE);
    show(&one, "(1,1,0)(1,0,1)(0,3,2)");
    expect("restricted by nothing: low side first",
           jp_restrict(SET(one), nothing, OPTIONS, OUT(made), MAP_WORK, &made.size), JP_DONE);
    show(&made, "(1,0,1)(1,1,0)(0,2,3)");
    expect("so not in signing order", jp_check_signing(SET(made)), 0);
    expect("its signing order", jp_signing_order(SET(made), OUT(back), WORK, &back.size), JP_DONE);
    expect("is what was restricted", (uint64_t)same_bytes(&back, &one), 1);
    expect("with the tuner on", jp_var_restrict(SET(one), TUNER, true, OUT(made), MAP_WORK, &made.size), JP_DONE);
    show(&made, "(1,1,0)");
    expect("the same by a list", jp_restrict(SET(one), tuner_on, OPTIONS, OUT(back), MAP_WORK, &back.size), JP_DONE);
    expect("gives the same", (uint64_t)same_bytes(&back, &made), 1);
    expect("by one value too few",
           jp_restrict(SET(one), tuner_on, OPTIONS - 1, OUT(back), MAP_WORK, &back.size), JP_BAD_LIST);
    expect("option 2 of 2, whatever it is",
           jp_var_exists(SET(both), OPTIONS, OUT(back), WORK, &back.size), JP_NO_SUCH_OPTION);
    expect("in too short a map",
           jp_restrict(SET(one), nothing, OPTIONS, OUT(back), stack, JP_STACK_LEN(OPTIONS), index_run, JP_INDEX_LEN(ROOM), map_run,
                       JP_MAP_LEN(one.size) - 1, &back.size), JP_SHORT_RUN);
}

/* Of the settings that differ in some options alone, the smallest that is allowed. */
static void picking(void)
{
    static const uint16_t picks[] = {DRIVE, TUNER, DRIVE};
    struct rule one, made;
    jp_xor(SET(tuner), SET(drive), OUT(one), WORK, &one.size);
    expect("either, with the tuner picked", jp_var_pick(SET(either), TUNER, OUT(made), WORK, SPARE, &made.size), JP_DONE);
    expect("is one of the two", (uint64_t)same_bytes(&made, &one), 1);
    expect("either, with both picked", jp_pick(SET(either), picks, 2, OUT(made), WORK, SPARE, &made.size), JP_DONE);
    expect("is drive alone", (uint64_t)same_bytes(&made, &drive_alone), 1);
    expect("with an option twice", jp_pick(SET(either), picks, 3, OUT(made), WORK, SPARE, &made.size), JP_BAD_LIST);
    expect("with nothing picked", jp_pick(SET(either), picks, 0, OUT(made), WORK, SPARE, &made.size), JP_DONE);
    expect("is either", (uint64_t)same_bytes(&made, &either), 1);
    expect("in too short a spare run",
           jp_pick(SET(either), picks, 2, OUT(made), WORK, spare_variable, SPARE_LEN - 1, spare_low, SPARE_LEN, spare_high,
                   SPARE_LEN, &made.size), JP_SHORT_RUN);
}

/* The inline forms, each beside the general call that it is. */
static void forms(void)
{
    static uint32_t (*const named[])(
        const uint16_t *, jp_size, const uint32_t *, jp_size, const uint32_t *, jp_size, const uint16_t *, jp_size,
        const uint32_t *, jp_size, const uint32_t *, jp_size, uint16_t *, jp_size, uint32_t *, jp_size, uint32_t *, jp_size,
        uint32_t *, jp_size, uint32_t *, jp_size, uint32_t *, jp_size, jp_size *) = {jp_and, jp_or,  jp_xor,
                                                                                 jp_iff, jp_imp, jp_and_not};
    static const uint8_t numbers[] = {JP_AND, JP_OR, JP_XOR, JP_IFF, JP_IMP, JP_AND_NOT};
    uint8_t table[JP_TABLE_ANSWERS];
    struct rule general, form;
    uint64_t same = 0;
    for (size_t i = 0; i < sizeof numbers; i++) {
        jp_operator(numbers[i], table);
        jp_fused_binary_flip_op_with_limit(JP_NO_LIMIT, table, sizeof table, SET(both), SET(drive), NO_FLIPS, OUT(general), WORK,
                                           &general.size);
        named[i](SET(both), SET(drive), OUT(form), WORK, &form.size);
        same += (uint64_t)same_bytes(&general, &form);
        jp_binary_op(table, sizeof table, SET(both), SET(drive), OUT(form), WORK, &form.size);
        same += (uint64_t)same_bytes(&general, &form);
        jp_numbered_op(numbers[i], SET(both), SET(drive), OUT(form), WORK, &form.size);
        same += (uint64_t)same_bytes(&general, &form);
        jp_numbered_op_with_limit(ROOM, numbers[i], SET(both), SET(drive), OUT(form), WORK, &form.size);
        same += (uint64_t)same_bytes(&general, &form);
        jp_fused_binary_flip_op_with_limit(JP_NO_LIMIT, table, sizeof table, SET(both), SET(drive), TUNER, DRIVE, TUNER,
                                           OUT(general), WORK, &general.size);
        jp_fused_binary_flip_op(table, sizeof table, SET(both), SET(drive), TUNER, DRIVE, TUNER, OUT(form), WORK, &form.size);
        same += (uint64_t)same_bytes(&general, &form);
        jp_numbered_flip_op(numbers[i], SET(both), SET(drive), TUNER, DRIVE, TUNER, OUT(form), WORK, &form.size);
        same += (uint64_t)same_bytes(&general, &form);
    }
    expect("six operators in six forms, as the general call has them", same, 36);
    expect("the signing order of both", jp_signing_order(SET(both), OUT(form), WORK, &form.size), JP_DONE);
    expect("is both", (uint64_t)same_bytes(&form, &both), 1);
}

/* A refusal has a number, carries 0, and says what the runs hold. */
static void refusals(void)
{
    struct rule out, looped = both;
    uint8_t table[JP_TABLE_ANSWERS];
    jp_operator(JP_AND, table);
    expect("and, of at most 3 entries: over the limit",
           jp_binary_op_with_limit(3, table, sizeof table, SET(tuner), SET(drive), OUT(out), WORK, &out.size),
           JP_OVER_LIMIT);
    expect("size", out.size, 0);
    expect("the output's first number, cleared", out.variable[0], 0);
    looped.low[3] = 3;
    memset(out.variable, 7, sizeof out.variable);
    expect("negation of a set that links to itself", jp_not(SET(looped), OUT(out), &out.size), JP_LEFT_NOT_ORDERED);
    expect("the output's first number, as it was", out.variable[0], 0x0707);
    expect("ordered: no", jp_check_ordered(SET(looped)), 0);
    expect("operator 16", jp_numbered_op(16, SET(tuner), SET(drive), OUT(out), WORK, &out.size), JP_BAD_TABLE);
    expect("the literal of option 2 of 2",
           jp_mk_literal(OPTIONS, OPTIONS, true, OUT(out), &out.size), JP_NO_SUCH_OPTION);
    expect("and, with option 2 of 2 switched",
           jp_numbered_flip_op(JP_AND, SET(tuner), SET(drive), OPTIONS, JP_NO_FLIP, JP_NO_FLIP, OUT(out), WORK, &out.size),
           JP_NO_SUCH_OPTION);
    expect("and with an option beyond the number for none",
           jp_numbered_flip_op(JP_AND, SET(tuner), SET(drive), JP_NO_FLIP + 1, JP_NO_FLIP, JP_NO_FLIP, OUT(out), WORK, &out.size),
           JP_NO_SUCH_OPTION);
}

int main(void)
{
    build();
    de_morgan();
    bytes();
    dry();
    compare();
    relations();
    picking();
    forms();
    refusals();
    if (surprises != 0) {
        printf("%d not as expected\n", surprises);
        return 1;
    }
    printf("all as expected\n");
    return 0;
}

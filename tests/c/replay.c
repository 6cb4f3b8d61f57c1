/* replay LIST..: the recorded answers of the original (oracle/record writes the lists, oracle/README.md has their form) held
 * against the functions of joistpetal.h: what each answers and every number of every run that it is lent. Prints how many
 * agreed, and the lines that did not; exits 1 if there is one. */
#include <stdio.h>
#include <stdlib.h>
#include <string.h>

#include "runs.h"

/* The most numbers of a line, entries of a set, pairs of a job and places of a spare run; what the runs hold before a call. */
enum { NUMBERS = 1024, ENTRIES = 64, PAIRS = 128, SPARE = 1024, TABLE = 10, MARK = 7 };

SET_ROOM(left, ENTRIES);
SET_ROOM(right, ENTRIES);
SET_ROOM(out, ENTRIES);
RUN(uint32_t, pairs, JP_PAIRS_LEN(PAIRS));
RUN(uint32_t, stack, JP_STACK_LEN(JP_MOST_OPTIONS));
RUN(uint32_t, index_run, ENTRIES);
RUN(uint32_t, map, ENTRIES);
SET_ROOM(spare, SPARE);
RUN(uint8_t, bytes, NUMBERS);
RUN(uint16_t, picks, NUMBERS);

/* The job: its numbers, how many were taken, and whether all was right so far. */
static uint32_t numbers[NUMBERS];
static jp_size count, taken;
static int agrees;

static void expect(uint64_t got, uint64_t wanted)
{
    if (got != wanted)
        agrees = 0;
}

/* The next number; a line that has none left is wrong. */
static uint32_t take(void)
{
    if (taken == count) {
        agrees = 0;
        return 0;
    }
    return numbers[taken++];
}

/* A length; one that the runs here cannot hold is wrong. */
static jp_size take_length(jp_size most)
{
    uint32_t length = take();
    expect(length <= most, 1);
    return length <= most ? length : 0;
}

static void lend(struct run *run, jp_size length, uint32_t mark)
{
    run->len = length;
    for (jp_size i = 0; i < places(run); i++)
        put(run, i, mark);
}

static void lend_set(struct set *set, jp_size length, uint32_t mark)
{
    lend(&set->variable, length, mark);
    lend(&set->low, length, mark);
    lend(&set->high, length, mark);
}

static void take_run(struct run *run, jp_size length)
{
    lend(run, length, MARK);
    for (jp_size i = 0; i < length; i++)
        put(run, EDGE + i, take());
}

static void take_set(struct set *set)
{
    jp_size length = take_length(ENTRIES);
    lend_set(set, length, MARK);
    for (jp_size i = EDGE; i < EDGE + length; i++) {
        put(&set->variable, i, take());
        put(&set->low, i, take());
        put(&set->high, i, take());
    }
}

/* The lent numbers from `from` on are x, and the edges are as they were. */
static void expect_rest(const struct run *run, jp_size from, uint32_t x, uint32_t mark)
{
    for (jp_size i = 0; i < EDGE; i++) {
        expect(get(run, i), mark);
        expect(get(run, EDGE + run->len + i), mark);
    }
    for (jp_size i = EDGE + from; i < EDGE + run->len; i++)
        expect(get(run, i), x);
}

/* What a working run holds after an answer, and the output after a refusal. */
static uint32_t left_by(uint32_t answer, uint32_t mark)
{
    return (answer >= 1 && answer <= 6) || answer == 10 ? mark : 0;
}

/* The output's first entries are the next numbers, as many as were made; the others are x. */
static void expect_entries(jp_size size, uint32_t x, uint32_t mark)
{
    if (size > out.variable.len)
        size = agrees = 0;
    for (jp_size i = EDGE; i < EDGE + size; i++) {
        expect(get(&out.variable, i), take());
        expect(get(&out.low, i), take());
        expect(get(&out.high, i), take());
    }
    expect_rest(&out.variable, size, x, mark);
    expect_rest(&out.low, size, x, mark);
    expect_rest(&out.high, size, x, mark);
}

/* The recorded S and array, or what a refusal leaves. */
static void expect_output(uint32_t recorded, uint32_t answer, jp_size size, uint32_t mark)
{
    expect(answer, recorded);
    expect(size, take());
    expect_entries(size, recorded == JP_DONE ? mark : left_by(recorded, mark), mark);
}

static void expect_work(uint32_t recorded, uint32_t mark)
{
    const struct run *work[] = {&pairs, &stack, &index_run, &map, &spare.variable, &spare.low, &spare.high};
    for (jp_size i = 0; i < sizeof work / sizeof *work; i++)
        expect_rest(work[i], 0, left_by(recorded, mark), mark);
}

static void make(uint32_t kind)
{
    uint32_t n = take(), answer;
    uint16_t options = (uint16_t)n;
    jp_size size;
    lend_set(&out, ENTRIES, MARK);
    if (kind == 1) {
        answer = jp_mk_false(options, LEND_SET(out), &size);
    } else if (kind == 2) {
        answer = jp_mk_true(options, LEND_SET(out), &size);
    } else {
        uint16_t v = (uint16_t)take();
        uint32_t value = take();
        answer = jp_mk_literal(options, v, value == 1, LEND_SET(out), &size);
    }
    expect_output(JP_DONE, answer, size, MARK);
}

/* The original writes any set: of a refused one the bytes are on the list, but not here. */
static void write_bytes(uint32_t kind)
{
    (void)kind;
    uint32_t recorded;
    jp_size written;
    take_set(&left);
    lend(&bytes, JP_FILE_LEN(ENTRIES), MARK);
    expect(jp_write_as_bytes(LEND_SET(left), as8(&bytes), bytes.len, &written), recorded = take());
    expect(written, recorded == JP_DONE ? JP_FILE_LEN(left.low.len) : 0);
    for (jp_size i = 0; i < JP_FILE_LEN(left.low.len); i++) {
        uint32_t byte = take();
        expect(get(&bytes, EDGE + i), recorded == JP_DONE ? byte : MARK);
    }
    expect_rest(&bytes, JP_FILE_LEN(left.low.len), MARK, MARK);
}

static void read_bytes(uint32_t kind)
{
    (void)kind;
    jp_size records, tail;
    take_run(&bytes, take_length(JP_FILE_LEN(ENTRIES)));
    lend_set(&out, ENTRIES, MARK);
    expect(jp_read_as_bytes(as8(&bytes), bytes.len, LEND_SET(out), &records, &tail), JP_DONE);
    expect(records, take());
    expect(tail, take());
    expect_entries(records, MARK, MARK);
}

static void negate(uint32_t kind)
{
    (void)kind;
    jp_size size;
    uint32_t answer;
    take_set(&left);
    lend_set(&out, ENTRIES, MARK);
    answer = jp_not(LEND_SET(left), LEND_SET(out), &size);
    expect_output(take(), answer, size, MARK);
}

/* A check's yes carries the set's n. */
static void expect_verdict(uint32_t verdict)
{
    uint32_t yes = left.variable.len ? get(&left.variable, EDGE) + 1 : 1;
    uint32_t recorded = take();
    expect(recorded <= 1, 1);
    expect(verdict, recorded ? yes : 0);
}

static void check(uint32_t kind)
{
    (void)kind;
    jp_size variables = take_length(ENTRIES), lows = take_length(ENTRIES), highs = take_length(ENTRIES);
    take_run(&left.variable, variables);
    take_run(&left.low, lows);
    take_run(&left.high, highs);
    expect_verdict(jp_check_ordered(LEND_SET(left)));
    expect_verdict(jp_check_tidy(LEND_SET(left)));
    expect_verdict(jp_check_signing(LEND_SET(left)));
}

static void ask_function(uint32_t kind)
{
    (void)kind;
    uint32_t p = take();
    uint8_t l = (uint8_t)take(), r = (uint8_t)take(), answer = 3;
    switch (p) {
    case JP_AND:
        answer = jp_op_and(l, r);
        break;
    case JP_OR:
        answer = jp_op_or(l, r);
        break;
    case JP_IMP:
        answer = jp_op_imp(l, r);
        break;
    case JP_IFF:
        answer = jp_op_iff(l, r);
        break;
    case JP_XOR:
        answer = jp_op_xor(l, r);
        break;
    case JP_AND_NOT:
        answer = jp_op_and_not(l, r);
        break;
    }
    expect(answer, take());
}

/* Recorded as number + 1, and none as 0. */
static uint32_t take_flip(void)
{
    uint32_t recorded = take();
    return recorded ? recorded - 1 : JP_NO_FLIP;
}

static jp_size take_limit(void)
{
    uint32_t recorded = take();
    return recorded ? (jp_size)recorded - 1 : JP_NO_LIMIT;
}

/* The rooms of a job; a run that it does not say anything of is not lent. */
static void lend_rooms(jp_size width, jp_size room, jp_size height, jp_size index_len, uint32_t mark)
{
    lend_set(&out, width, mark);
    lend(&pairs, JP_PAIRS_LEN(room), mark);
    lend(&stack, height, mark);
    lend(&index_run, index_len, mark);
    lend(&map, 0, mark);
    lend_set(&spare, 0, mark);
}

/* What an operator and its dry run are asked; the table stands in `bytes`. */
static struct {
    jp_size table_len, limit;
    uint32_t flip[3];
} job;

#define JOB                                                                                            \
    job.limit, as8(&bytes), job.table_len, LEND_SET(left), LEND_SET(right), job.flip[0], job.flip[1], job.flip[2]

static void expect_array(uint32_t recorded)
{
    jp_size size;
    uint32_t answer = jp_fused_binary_flip_op_with_limit(JOB, LEND_SET(out), LEND_WORK, &size);
    expect_output(recorded, answer, size, MARK);
}

/* The original's two numbers are on the list in a refusal too, where the library hands out 0. */
static void expect_count(uint32_t recorded)
{
    jp_size count_of_pairs;
    uint32_t holds, can_hold = take(), reached = take();
    expect(jp_check_fused_binary_flip_op(JOB, LEND_DRY_WORK, &holds, &count_of_pairs), recorded);
    expect(holds, recorded == JP_DONE ? can_hold : 0);
    expect(count_of_pairs, recorded == JP_DONE ? reached : 0);
}

/* Kind 9 is the operator, kind 10 its dry run, which has neither output nor index run. */
static void operate(uint32_t kind)
{
    jp_size width, room, height, index_len;
    uint32_t recorded;
    job.table_len = take_length(TABLE);
    take_run(&bytes, TABLE);
    for (jp_size i = 0; i < 3; i++)
        job.flip[i] = take_flip();
    job.limit = take_limit();
    width = kind == 9 ? take_length(ENTRIES) : 0;
    room = take_length(PAIRS);
    height = take_length(stack.most);
    index_len = kind == 9 ? take_length(ENTRIES) : 0;
    take_set(&left);
    take_set(&right);
    lend_rooms(width, room, height, index_len, MARK);
    recorded = take();
    if (kind == 9)
        expect_array(recorded);
    else
        expect_count(recorded);
    expect_work(recorded, MARK);
}

/* Jobs on one set; the operators and their dry run are 9 and 10. */
enum { EXISTS = 11, FOR_ALL, SELECT, VAR_RESTRICT, RESTRICT, VAR_PICK, PICK };

static uint32_t relation(uint32_t kind, uint16_t v, bool value, jp_size *size)
{
    switch (kind) {
    case EXISTS:
        return jp_var_exists(LEND_SET(left), v, LEND_SET(out), LEND_WORK, size);
    case FOR_ALL:
        return jp_var_for_all(LEND_SET(left), v, LEND_SET(out), LEND_WORK, size);
    case SELECT:
        return jp_var_select(LEND_SET(left), v, value, LEND_SET(out), LEND_WORK, size);
    case VAR_RESTRICT:
        return jp_var_restrict(LEND_SET(left), v, value, LEND_SET(out), LEND_MAP_WORK, size);
    case RESTRICT:
        return jp_restrict(LEND_SET(left), as8(&bytes), bytes.len, LEND_SET(out), LEND_MAP_WORK, size);
    case VAR_PICK:
        return jp_var_pick(LEND_SET(left), v, LEND_SET(out), LEND_WORK, LEND_SPARE, size);
    default:
        return jp_pick(LEND_SET(left), LEND16(picks), LEND_SET(out), LEND_WORK, LEND_SPARE, size);
    }
}

/* How many numbers a job's list has: an option, an option and its value, or any. */
static jp_size list_length(uint32_t kind, jp_size length)
{
    switch (kind) {
    case SELECT:
    case VAR_RESTRICT:
        return 2;
    case RESTRICT:
    case PICK:
        return length;
    default:
        return 1;
    }
}

/* The list of a job, as values and as options; the first two numbers of it are handed back. */
static void take_list(uint32_t kind, uint32_t first[2])
{
    jp_size length = take_length(picks.most);
    expect(length, list_length(kind, length));
    lend(&bytes, length, MARK);
    lend(&picks, length, MARK);
    first[0] = first[1] = 0;
    for (jp_size i = 0; i < length; i++) {
        uint32_t number = take();
        put(&bytes, EDGE + i, number);
        put(&picks, EDGE + i, number);
        if (i < 2)
            first[i] = number;
    }
}

static void relate(uint32_t kind)
{
    uint32_t first[2], answer, recorded, mark;
    jp_size width, room, height, index_len, last, size;
    take_list(kind, first);
    width = take_length(ENTRIES);
    room = take_length(PAIRS);
    height = take_length(stack.most);
    index_len = take_length(ENTRIES);
    /* The map of a restriction, or each spare run of a pick. */
    last = take_length(kind < VAR_PICK ? ENTRIES : SPARE);
    mark = take();
    take_set(&left);
    lend_rooms(width, room, height, index_len, mark);
    if (kind < VAR_PICK)
        lend(&map, last, mark);
    else
        lend_set(&spare, last, mark);
    answer = relation(kind, (uint16_t)first[0], first[1] == 1, &size);
    recorded = take();
    expect_output(recorded, answer, size, mark);
    expect_work(recorded, mark);
}

/* What a line asks for, by its kind; there is no kind 0. */
static void (*const kinds[])(uint32_t kind) = {
    NULL,   make,    make,    make,   write_bytes, read_bytes, negate, check, ask_function,
    operate, operate, relate, relate, relate,      relate,     relate, relate, relate};

static void run(void)
{
    uint32_t kind = take();
    if (kind == 0 || kind >= sizeof kinds / sizeof *kinds)
        agrees = 0;
    else
        kinds[kind](kind);
}

/* A line is how many numbers follow, and those. All of them must be taken. */
static int line_agrees(const char *line)
{
    char *end;
    unsigned long behind = strtoul(line, &end, 10);
    for (count = 0; *end == ' ' && count < NUMBERS; count++)
        numbers[count] = (uint32_t)strtoul(end + 1, &end, 10);
    taken = 0;
    agrees = *end == '\n' && count == behind;
    if (agrees)
        run();
    return agrees && taken == count;
}

static int replay(const char *name)
{
    static char line[16 * NUMBERS];
    unsigned long jobs = 0, agreed = 0;
    FILE *list = fopen(name, "r");
    if (!list) {
        perror(name);
        return 1;
    }
    while (fgets(line, sizeof line, list)) {
        jobs++;
        if (line_agrees(line))
            agreed++;
        else if (jobs - agreed <= 5)
            printf("%s: line %lu, kind %lu: not as recorded\n", name, jobs, (unsigned long)numbers[0]);
    }
    fclose(list);
    printf("%s: %lu of %lu recorded answers agree\n", name, agreed, jobs);
    return agreed != jobs || jobs == 0;
}

int main(int words, char **word)
{
    int failed = words < 2;
    for (int i = 1; i < words; i++)
        failed |= replay(word[i]);
    return failed;
}

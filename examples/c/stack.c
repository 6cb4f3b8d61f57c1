/* How much of the stack each call takes: it is run on a thread whose stack was painted, and the deepest byte that
 * is no longer paint tells. `./run stack` beside this file runs it; it exits 1 where a call takes more than
 * joistpetal.h says. The inputs are those that go deepest: sets over all options in which one path passes every
 * entry. Bytes that are set aside and never written do not show. */
#define _XOPEN_SOURCE 600
#include <pthread.h>
#include <stdio.h>
#include <string.h>

#include "joistpetal.h"

#define STACK_BYTES ((size_t)1 << 20)
#define PAINT 0xA5
#define ENTRIES (JP_MOST_OPTIONS + 2)
#define PAIRS JP_ENOUGH_PAIRS(ENTRIES, ENTRIES)

struct set {
    uint16_t variable[ENTRIES];
    uint32_t low[ENTRIES], high[ENTRIES];
};

/* Every option on; and the options on up to the first that is off, which is not the last. */
static struct set all, other, out;
static uint32_t pairs[JP_PAIRS_LEN(PAIRS)], stack_run[JP_STACK_LEN(JP_MOST_OPTIONS)], index_run[JP_INDEX_LEN(ENTRIES)];
static uint16_t spare_variable[JP_SPARE_LEN(JP_MOST_OPTIONS, ENTRIES)];
static uint32_t spare_low[JP_SPARE_LEN(JP_MOST_OPTIONS, ENTRIES)], spare_high[JP_SPARE_LEN(JP_MOST_OPTIONS, ENTRIES)];
static uint16_t picks[JP_MOST_OPTIONS];
static uint32_t map_run[JP_MAP_LEN(ENTRIES)], room[JP_COMPARE_ADVISED_LEN(ENTRIES, ENTRIES)];
static uint8_t table[JP_TABLE_ANSWERS], file[JP_FILE_LEN(ENTRIES)], setting[JP_SETTING], nothing[JP_MOST_OPTIONS];
static jp_size size, tail;
static uint32_t number, left;

#define SET(s) (s).variable, ENTRIES, (s).low, ENTRIES, (s).high, ENTRIES
#define DRY_WORK pairs, JP_PAIRS_LEN(PAIRS), stack_run, JP_STACK_LEN(JP_MOST_OPTIONS)
#define WORK DRY_WORK, index_run, JP_INDEX_LEN(ENTRIES), &size
#define SPARE_LEN JP_SPARE_LEN(JP_MOST_OPTIONS, ENTRIES)
#define PICK_WORK \
    DRY_WORK, index_run, JP_INDEX_LEN(ENTRIES), spare_variable, SPARE_LEN, spare_low, SPARE_LEN, spare_high, SPARE_LEN, &size
#define MAP_WORK \
    stack_run, JP_STACK_LEN(JP_MOST_OPTIONS), index_run, JP_INDEX_LEN(ENTRIES), map_run, JP_MAP_LEN(ENTRIES), &size

static uint32_t mk_false(void) { return jp_mk_false(JP_MOST_OPTIONS, SET(out), &size); }
static uint32_t mk_true(void) { return jp_mk_true(JP_MOST_OPTIONS, SET(out), &size); }
static uint32_t mk_literal(void) { return jp_mk_literal(JP_MOST_OPTIONS, 7, true, SET(out), &size); }
static uint32_t negation(void) { return jp_not(SET(all), SET(out), &size); }
static uint32_t one_record(void) { return jp_record(file, sizeof file, 1, &size) != JP_RECORD_BYTES; }
static uint32_t read_file(void) { return jp_read_as_bytes(file, sizeof file, SET(out), &size, &tail); }
static uint32_t write_file(void) { return jp_write_as_bytes(SET(all), file, sizeof file, &size); }
static uint32_t operator_(void) { return jp_operator(JP_AND, table); }
static uint32_t check_table(void) { return jp_check_table(table, sizeof table) != 1; }
static uint32_t op_and(void) { return jp_op_and(1, 2) != 2; }
static uint32_t ordered(void) { return jp_check_ordered(SET(all)) != JP_MOST_OPTIONS + 1; }
static uint32_t tidy(void) { return jp_check_tidy(SET(all)) != JP_MOST_OPTIONS + 1; }
static uint32_t signing(void) { return jp_check_signing(SET(all)) != JP_MOST_OPTIONS + 1; }
static uint32_t value_at(void) { return jp_value_at(SET(all), setting, JP_SETTING, &number); }
static uint32_t same(void)
{
    return jp_same(SET(all), SET(other), setting, room, sizeof room / sizeof *room, &number, &left);
}
static uint32_t by_table(void)
{
    return jp_fused_binary_flip_op_with_limit(
        ENTRIES, table, sizeof table, SET(all), SET(other), 1, 2, 3, SET(out), WORK);
}
static uint32_t by_number(void)
{
    return jp_numbered_flip_op_with_limit(ENTRIES, JP_OR, SET(all), SET(other), 1, 2, 3, SET(out), WORK);
}
/* Arrays that are too long: the pairs are counted on then, in a call below. */
static uint32_t over_limit(void)
{
    return jp_numbered_flip_op_with_limit(1, JP_OR, SET(all), SET(other), 1, 2, 3, SET(out), WORK) != JP_OVER_LIMIT;
}
static uint32_t no_room(void)
{
    return jp_var_select(SET(all), 7, true, out.variable, 2, out.low, 2, out.high, 2, WORK) != JP_NO_ROOM;
}
static uint32_t exists(void) { return jp_var_exists(SET(all), 7, SET(out), WORK); }
static uint32_t for_all(void) { return jp_var_for_all(SET(other), 7, SET(out), WORK); }
static uint32_t select_(void) { return jp_var_select(SET(all), 7, true, SET(out), WORK); }
static uint32_t var_pick(void) { return jp_var_pick(SET(all), 7, SET(out), PICK_WORK); }
static uint32_t pick(void) { return jp_pick(SET(all), picks, JP_MOST_OPTIONS, SET(out), PICK_WORK); }
static uint32_t restrict_(void) { return jp_restrict(SET(all), nothing, JP_MOST_OPTIONS, SET(out), MAP_WORK); }
static uint32_t var_restrict(void) { return jp_var_restrict(SET(all), 7, true, SET(out), MAP_WORK); }
static uint32_t dry(void)
{
    return jp_check_fused_binary_flip_op(
        PAIRS, table, sizeof table, SET(all), SET(other), 1, 2, 3, DRY_WORK, &number, &size);
}

static const struct {
    const char *name;
    uint32_t (*call)(void);
    size_t most;
} calls[] = {
    {"jp_operator", operator_, JP_STACK_BYTES},
    {"jp_check_table", check_table, JP_STACK_BYTES},
    {"jp_op_and", op_and, JP_STACK_BYTES},
    {"jp_mk_false", mk_false, JP_STACK_BYTES},
    {"jp_mk_true", mk_true, JP_STACK_BYTES},
    {"jp_mk_literal", mk_literal, JP_STACK_BYTES},
    {"jp_not", negation, JP_STACK_BYTES},
    {"jp_write_as_bytes", write_file, JP_STACK_BYTES},
    {"jp_read_as_bytes", read_file, JP_STACK_BYTES},
    {"jp_record", one_record, JP_STACK_BYTES},
    {"jp_check_ordered", ordered, JP_STACK_BYTES},
    {"jp_check_tidy", tidy, JP_CHECK_STACK_BYTES},
    {"jp_check_signing", signing, JP_CHECK_STACK_BYTES},
    {"jp_value_at", value_at, JP_STACK_BYTES},
    {"jp_same", same, JP_STACK_BYTES},
    {"jp_check_fused_binary_flip_op", dry, JP_STACK_BYTES},
    {"jp_fused_binary_flip_op_with_limit", by_table, JP_STACK_BYTES},
    {"jp_numbered_flip_op_with_limit", by_number, JP_STACK_BYTES},
    {"jp_numbered_flip_op_with_limit: 8", over_limit, JP_STACK_BYTES},
    {"jp_var_exists", exists, JP_STACK_BYTES},
    {"jp_var_for_all", for_all, JP_STACK_BYTES},
    {"jp_var_select", select_, JP_STACK_BYTES},
    {"jp_var_select: 9", no_room, JP_STACK_BYTES},
    {"jp_var_pick", var_pick, JP_STACK_BYTES},
    {"jp_pick", pick, JP_PICK_STACK_BYTES},
    {"jp_restrict", restrict_, JP_STACK_BYTES},
    {"jp_var_restrict", var_restrict, JP_STACK_BYTES},
};

struct run {
    uint32_t (*call)(void);
    unsigned char *top;
    uint32_t answer;
};

static void *start(void *given)
{
    struct run *run = given;
    unsigned char here;
    run->top = &here;
    run->answer = run->call();
    return NULL;
}

/* The bytes between the caller's frame and the deepest that was written. */
static size_t depth(struct run *run, unsigned char *painted)
{
    pthread_attr_t as;
    pthread_t thread;
    size_t at = 0;
    memset(painted, PAINT, STACK_BYTES);
    if (pthread_attr_init(&as) != 0 || pthread_attr_setstack(&as, painted, STACK_BYTES) != 0 ||
        pthread_create(&thread, &as, start, run) != 0 || pthread_join(thread, NULL) != 0)
        return STACK_BYTES;
    pthread_attr_destroy(&as);
    while (painted[at] == PAINT)
        at++;
    return (size_t)(run->top - (painted + at));
}

/* (0, ..) to (255, ..), each linked to the one before on its high side, the last option first. */
static void lay(struct set *s, uint32_t off)
{
    for (uint32_t i = 0; i < ENTRIES; i++) {
        s->variable[i] = (uint16_t)(i < 2 ? JP_MOST_OPTIONS : ENTRIES - 1 - i);
        s->low[i] = i < 2 ? i : off;
        s->high[i] = i < 3 ? i != 0 : i - 1;
    }
    s->low[2] = 0;
}

int main(void)
{
    static unsigned char painted[1 << 20] __attribute__((aligned(4096)));
    int over = 0;
    lay(&all, 0);
    lay(&other, 1);
    memset(nothing, JP_FREE, sizeof nothing);
    for (uint16_t v = 0; v < JP_MOST_OPTIONS; v++)
        picks[v] = v;
    for (size_t i = 0; i < sizeof calls / sizeof *calls; i++) {
        struct run run = {calls[i].call, NULL, 0};
        /* once before, so that the loader has found memset and memcpy */
        size_t took = (calls[i].call(), depth(&run, painted));
        int bad = run.answer != JP_DONE || took > calls[i].most;
        over += bad;
        printf("%-36s %7zu bytes, at most %zu%s\n", calls[i].name, took, calls[i].most, bad ? ": NOT SO" : "");
    }
    return over != 0;
}

/* sums SEED ROUNDS [SPOILED]: calls of every function of joistpetal.h, every small one and large ones by chance, and for each family
 * of them one sum over every answer, every number handed out and every number of every run, those that are only read and
 * the places around the runs too. Machines on which the library does the same print the same; what is right is for
 * oracle/scale to say, on x86-64. SPOILED is the number of a call after which one number is changed. */
#include <inttypes.h>
#include <stdio.h>
#include <stdlib.h>

#include "runs.h"

/* The most options that are picked of a large set. */
enum { ENTRIES = JP_MOST_ENTRIES + 1, PAIRS = 1 << 16, SMALL = 4, SMALL_SETS = 118, PICKS = 6 };

SET_ROOM(left, ENTRIES);
SET_ROOM(right, ENTRIES);
SET_ROOM(out, ENTRIES);
RUN(uint32_t, pairs, JP_PAIRS_LEN(PAIRS));
RUN(uint32_t, stack, JP_STACK_LEN(JP_MOST_OPTIONS) + 2);
RUN(uint32_t, index_run, ENTRIES);
RUN(uint32_t, map, ENTRIES);
RUN(uint32_t, room, JP_COMPARE_ADVISED_LEN(ENTRIES, ENTRIES));
RUN(uint8_t, bytes, JP_FILE_LEN(ENTRIES));
RUN(uint8_t, setting, JP_SETTING);
RUN(uint8_t, table, 12);
SET_ROOM(spare, 2 * JP_SPARE_LEN(PICKS, ENTRIES));
RUN(uint16_t, picks, PICKS + 1);

static struct run *const runs[] = {
    &left.variable, &left.low, &left.high, &right.variable, &right.low, &right.high, &out.variable, &out.low,
    &out.high, &pairs, &stack, &index_run, &map, &room, &bytes, &setting, &table, &spare.variable, &spare.low, &spare.high, &picks};

/* ---- Chance: the same numbers from the same seed on every machine. No two draws stand in one list of arguments, whose order
 * is the compiler's. ---- */

static uint64_t state;

static uint32_t chance(void)
{
    state += 0x9e3779b97f4a7c15u;
    uint64_t x = state;
    x = (x ^ (x >> 30)) * 0xbf58476d1ce4e5b9u;
    x = (x ^ (x >> 27)) * 0x94d049bb133111ebu;
    return (uint32_t)((x ^ (x >> 31)) >> 16);
}

static uint32_t below(uint32_t n)
{
    return n ? chance() % n : 0;
}

/* ---- Sums: any one number that is another gives another sum. ---- */

static uint64_t sum, calls, spoiled;

static void add(uint64_t x)
{
    sum = (sum ^ x) * 0x100000001b3u;
    sum = (sum << 29) | (sum >> 35);
}

/* One call is done: its answer, what it handed out, and all runs. */
static void told(uint32_t answer, uint64_t first, uint64_t second)
{
    calls++;
    if (calls == spoiled)
        put(&out.low, EDGE, get(&out.low, EDGE) ^ 1);
    add(answer);
    add(first);
    add(second);
    for (jp_size i = 0; i < sizeof runs / sizeof *runs; i++)
        for (jp_size k = 0; k < places(runs[i]); k++)
            add(get(runs[i], k));
}

/* ---- What is lent. ---- */

/* Full of old numbers: any, small ones that might be an earlier job's, all ones, or zeros. */
static void lend(struct run *run, jp_size length)
{
    uint32_t kind = below(4), fixed = kind == 2 ? UINT32_MAX : 0;
    run->len = length < run->most ? length : run->most;
    for (jp_size i = 0; i < places(run); i++)
        put(run, i, kind == 0 ? chance() : kind == 1 ? below(5) : fixed);
}

static void lend_set(struct set *set, jp_size length)
{
    lend(&set->variable, length);
    lend(&set->low, length);
    lend(&set->high, length);
}

/* Nothing but the two sets. */
static void lend_nothing(void)
{
    for (jp_size i = 6; i < sizeof runs / sizeof *runs; i++)
        runs[i]->len = 0;
}

static void enter(struct set *set, jp_size i, uint32_t variable, uint32_t low, uint32_t high)
{
    put(&set->variable, EDGE + i, variable);
    put(&set->low, EDGE + i, low);
    put(&set->high, EDGE + i, high);
}

/* n and L of the set, as its runs say. */
static uint32_t options(const struct set *set)
{
    return set->variable.len ? get(&set->variable, EDGE) : 0;
}

static jp_size entries(const struct set *set)
{
    return set->low.len;
}

/* An ordered set by chance: the variables fall as the entries go on, and each links to entries of greater ones, more often to near ones. */
static void ordered(struct set *set, uint32_t n, jp_size length)
{
    lend_set(set, n || length < 2 ? length : 2);
    for (jp_size i = 0; i < entries(set) && i < 2; i++)
        enter(set, i, n, (uint32_t)i, (uint32_t)i);
    for (jp_size i = 2, above = 2; i < entries(set); i++) {
        uint32_t variable = n - 1 - (uint32_t)((i - 2) * n / (entries(set) - 2));
        uint32_t low, high;
        if (i > 2 && variable != get(&set->variable, EDGE + i - 1))
            above = i;
        low = below(3) ? (uint32_t)above - 1 - below(above < 9 ? (uint32_t)above : 9) : below((uint32_t)above);
        high = below((uint32_t)above);
        enter(set, i, variable, low, high);
    }
}

/* One number replaced, or one run cut. */
static void damage(struct set *set)
{
    static const uint32_t odd[] = {0, 1, 2, 255, 256, 257, 65535, 65536, 2147483648u, UINT32_MAX};
    struct run *run = below(3) ? below(2) ? &set->low : &set->high : &set->variable;
    if (run->len == 0)
        return;
    if (below(6) == 0) {
        run->len -= 1 + below((uint32_t)run->len);
    } else {
        uint32_t place = below((uint32_t)run->len);
        put(run, EDGE + place, below(2) ? odd[below(10)] : below((uint32_t)run->len + 2));
    }
}

/* About a number: one less, the number, one more, twice as many, or none. */
static jp_size about(jp_size x)
{
    jp_size these[] = {x ? x - 1 : 0, x, x, x + 1, 2 * x, 0};
    return these[below(6)];
}

/* Rooms about what an array of `size` entries over the left set's options from `reached` pairs needs. */
static void lend_rooms(jp_size size, jp_size reached)
{
    jp_size width = about(size), wide = JP_INDEX_LEN(width);
    lend_set(&out, width);
    if (below(8) == 0)
        lend(&out.low, about(size));
    lend(&pairs, JP_PAIRS_LEN(about(reached ? reached : 1)) + below(4));
    lend(&stack, below(6) ? JP_STACK_LEN(options(&left)) : about(JP_STACK_LEN(options(&left))));
    lend(&index_run, below(6) ? wide : about(wide));
    lend(&map, below(6) ? entries(&left) : about(entries(&left)));
}

/* ---- The families. ---- */

static void functions(uint8_t l, uint8_t r)
{
    uint8_t (*const each[])(uint8_t, uint8_t) = {jp_op_and, jp_op_or, jp_op_imp, jp_op_iff, jp_op_xor, jp_op_and_not};
    for (jp_size i = 0; i < 6; i++)
        told(each[i](l, r), 0, 0);
}

static void tables(void)
{
    lend_nothing();
    for (uint32_t at = 0; at < 65536; at++)
        functions((uint8_t)(at >> 8), (uint8_t)at);
    for (uint32_t p = 0; p < 256; p++) {
        lend(&table, JP_TABLE_ANSWERS);
        told(jp_operator((uint8_t)p, as8(&table)), 0, 0);
    }
    for (uint32_t code = 0; code < 19683; code++) {
        lend(&table, JP_TABLE_ANSWERS);
        for (uint32_t i = 0, rest = code; i < JP_TABLE_ANSWERS; i++, rest /= 3)
            put(&table, EDGE + i, rest % 3);
        told(jp_check_table(as8(&table), table.len), 0, 0);
        lend(&table, below(12));
        told(jp_check_table(as8(&table), table.len), 0, 0);
    }
}

/* The makers over any n, options on both sides of it, and rooms on both sides of what they need. */
static void makers(void)
{
    lend_nothing();
    for (uint32_t n = 0; n < 260; n++)
        for (jp_size width = 0; width < 5; width++) {
            uint16_t v = (uint16_t)(below(2) ? below(n + 2) : chance());
            jp_size size;
            uint32_t answer;
            lend_set(&out, width);
            answer = jp_mk_false((uint16_t)n, LEND_SET(out), &size);
            told(answer, size, 0);
            lend_set(&out, width);
            answer = jp_mk_true((uint16_t)n, LEND_SET(out), &size);
            told(answer, size, 0);
            lend_set(&out, width);
            answer = jp_mk_literal((uint16_t)n, v, width % 2, LEND_SET(out), &size);
            told(answer, size, 0);
        }
}

/* The checks, bytes and negation of the left set. */
static void look(void)
{
    jp_size first, second;
    uint32_t answer, value;
    lend_rooms(entries(&left), 0);
    told(jp_check_ordered(LEND_SET(left)), 0, 0);
    told(jp_check_tidy(LEND_SET(left)), 0, 0);
    told(jp_check_signing(LEND_SET(left)), 0, 0);
    answer = jp_not(LEND_SET(left), LEND_SET(out), &first);
    told(answer, first, 0);
    lend(&bytes, about(JP_FILE_LEN(entries(&left))));
    answer = jp_write_as_bytes(LEND_SET(left), as8(&bytes), bytes.len, &first);
    told(answer, first, 0);
    first = jp_record(as8(&bytes), bytes.len, below(6), &second);
    told((uint32_t)first, second, 0);
    lend_rooms(bytes.len / JP_RECORD_BYTES, 0);
    answer = jp_read_as_bytes(as8(&bytes), bytes.len, LEND_SET(out), &first, &second);
    told(answer, first, second);
    lend(&setting, options(&left) + (below(8) == 0));
    for (jp_size i = 0; i < setting.len; i++)
        put(&setting, EDGE + i, below(40) ? below(2) : below(3));
    answer = jp_value_at(LEND_SET(left), as8(&setting), setting.len, &value);
    told(answer, value, 0);
    lend_nothing();
}

/* An option of n, seldom n or more. */
static uint16_t some_option(void)
{
    return (uint16_t)(below(12) ? below(options(&left)) : options(&left) + below(3));
}

static uint32_t quantified(uint32_t which, uint16_t v, bool value, jp_size *size)
{
    switch (which) {
    case 0:
        return jp_var_exists(LEND_SET(left), v, LEND_SET(out), LEND_WORK, size);
    case 1:
        return jp_var_for_all(LEND_SET(left), v, LEND_SET(out), LEND_WORK, size);
    case 2:
        return jp_var_select(LEND_SET(left), v, value, LEND_SET(out), LEND_WORK, size);
    case 3:
        return jp_var_restrict(LEND_SET(left), v, value, LEND_SET(out), LEND_MAP_WORK, size);
    case 4:
        return jp_restrict(LEND_SET(left), as8(&bytes), bytes.len, LEND_SET(out), LEND_MAP_WORK, size);
    case 5:
        return jp_var_pick(LEND_SET(left), v, LEND_SET(out), LEND_WORK, LEND_SPARE, size);
    default:
        return jp_pick(LEND_SET(left), LEND16(picks), LEND_SET(out), LEND_WORK, LEND_SPARE, size);
    }
}

/* The lists of the calls that have one: a restriction's values, and options that seldom repeat. */
static void lend_lists(uint32_t which)
{
    uint32_t n = options(&left), step = 1 + below(3), first = below(n);
    lend(&bytes, which == 4 ? n + (below(12) == 0) : 0);
    for (jp_size i = 0; i < bytes.len; i++)
        put(&bytes, EDGE + i, below(60) ? below(3) : 3);
    lend(&picks, which == 6 ? below((n < PICKS ? n : PICKS) + 1 + (below(12) == 0)) : 0);
    for (jp_size i = 0; i < picks.len; i++)
        put(&picks, EDGE + i, below(20) ? (first + (uint32_t)i * step) % (n ? n : 1) : some_option());
}

/* The spare runs of a pick: (k + 4) W. */
static void lend_spare(uint32_t which)
{
    jp_size width = out.low.len < out.high.len ? out.low.len : out.high.len;
    jp_size enough = which < 5 ? 0 : JP_SPARE_LEN(which == 5 ? 1 : picks.len, width);
    lend_set(&spare, below(6) ? enough : about(enough));
}

/* The quantifiers, selection, restriction and picking of the left set: with room, and with rooms about the S that came. */
static void relate(void)
{
    for (uint32_t which = 0; which < 7; which++) {
        uint16_t v = some_option();
        bool value = below(2);
        jp_size size;
        uint32_t answer;
        lend_lists(which);
        lend_rooms(2 * entries(&left) + 2, 2 * entries(&left));
        lend_spare(which);
        answer = quantified(which, v, value, &size);
        told(answer, size, 0);
        lend_rooms(size, 2 * size);
        lend_spare(which);
        answer = quantified(which, v, value, &size);
        told(answer, size, 0);
    }
    lend_nothing();
}

static uint32_t some_flip(void)
{
    return below(2) ? JP_NO_FLIP : some_option();
}

/* One operator of the two sets, by table and by number: counted, with room, and with rooms and a limit about what it needs. */
static void operate(uint8_t p)
{
    uint32_t flip[3], answer, holds;
    jp_size reached, size, most = JP_ENOUGH_PAIRS(entries(&left), entries(&right));
    jp_size limit;
    for (jp_size i = 0; i < 3; i++)
        flip[i] = some_flip();
    lend(&table, JP_TABLE_ANSWERS);
    jp_operator(p, as8(&table));
    if (below(20) == 0) {
        uint32_t place = below(JP_TABLE_ANSWERS);
        put(&table, EDGE + place, below(4));
    }
    lend_rooms(0, 0);
    lend(&stack, JP_STACK_LEN(options(&left)));
    lend(&pairs, JP_PAIRS_LEN(most < PAIRS ? most : PAIRS));
    limit = below(2) ? JP_NO_LIMIT : about(most);
    answer = jp_check_fused_binary_flip_op(
        limit, as8(&table), table.len, LEND_SET(left), LEND_SET(right), flip[0], flip[1], flip[2], LEND_DRY_WORK,
        &holds, &reached);
    told(answer, holds, reached);
    size = reached + 2 < JP_MOST_ENTRIES ? reached + 2 : JP_MOST_ENTRIES;
    lend_rooms(size, reached);
    answer = jp_fused_binary_flip_op_with_limit(
        JP_NO_LIMIT, as8(&table), table.len, LEND_SET(left), LEND_SET(right), flip[0], flip[1], flip[2], LEND_SET(out),
        LEND_WORK, &size);
    told(answer, size, 0);
    limit = about(size);
    lend_rooms(size, reached);
    answer = jp_numbered_flip_op_with_limit(
        limit, p, LEND_SET(left), LEND_SET(right), flip[0], flip[1], flip[2], LEND_SET(out), LEND_WORK, &size);
    told(answer, size, 0);
    lend_nothing();
}

/* How the two sets stand to each other, with room, and with about the least. */
static void compare(void)
{
    jp_size least = JP_COMPARE_LEN(entries(&left), entries(&right));
    for (int i = 0; i < 2; i++) {
        uint32_t standing, first, answer;
        lend(&setting, JP_SETTING);
        lend(&room, i ? about(least) : JP_COMPARE_ADVISED_LEN(entries(&left), entries(&right)));
        answer = jp_same(LEND_SET(left), LEND_SET(right), as8(&setting), LEND32(room), &standing, &first);
        told(answer, standing, first);
    }
    lend_nothing();
}

/* Every array of at most three entries with numbers up to 2. */
static void small_arrays(void)
{
    uint32_t most = 1;
    for (jp_size length = 0; length <= 3; length++, most *= 27)
        for (uint32_t code = 0; code < most; code++) {
            lend_set(&left, length);
            for (uint32_t i = 0, rest = code; i < length; i++, rest /= 27)
                enter(&left, i, rest % 3, rest / 3 % 3, rest / 9 % 3);
            look();
            relate();
        }
}

/* Every ordered set over at most two options with at most four entries. */
static struct small {
    jp_size size;
    uint32_t entry[SMALL][3];
} small[SMALL_SETS];
static jp_size small_sets;

static void lay(struct set *set, const struct small *from)
{
    lend_set(set, from->size);
    for (jp_size i = 0; i < from->size; i++)
        enter(set, i, from->entry[i][0], from->entry[i][1], from->entry[i][2]);
}

/* Those of a size that begin with the same entries: links below the entry's place, the order told by the library. */
static void gather(struct small *made, jp_size size)
{
    jp_size i = made->size;
    if (i == size) {
        lay(&left, made);
        if (jp_check_ordered(LEND_SET(left))) {
            if (small_sets < SMALL_SETS)
                small[small_sets] = *made;
            small_sets++;
        }
        return;
    }
    made->size++;
    for (uint32_t code = 0; code < made->entry[0][0] * i * i; code++) {
        uint32_t links = (uint32_t)(i * i);
        made->entry[i][0] = code / links;
        made->entry[i][1] = code % links / (uint32_t)i;
        made->entry[i][2] = code % (uint32_t)i;
        gather(made, size);
    }
    made->size--;
}

static void gather_all(void)
{
    for (uint32_t n = 0; n < 3; n++)
        for (jp_size size = 1; size <= SMALL; size++) {
            struct small made = {size < 2 ? 1 : 2, {{n, 0, 0}, {n, 1, 1}}};
            gather(&made, size);
        }
}

/* Every two of them over the same options under every operator; any other two under one. */
static void small_pairs(void)
{
    for (jp_size i = 0; i < small_sets; i++)
        for (jp_size j = 0; j < small_sets; j++) {
            int fit = small[i].entry[0][0] == small[j].entry[0][0];
            lay(&left, &small[i]);
            lay(&right, &small[j]);
            compare();
            for (uint8_t p = 0; p < (fit ? 16 : 1); p++)
                operate(fit ? p : (uint8_t)below(18));
        }
}

/* The left set becomes an operator's array of the two, so that sets in signing order come too; where it is refused, it stays. */
static void make_left(void)
{
    uint8_t p = (uint8_t)below(16);
    jp_size size;
    lend_rooms(0, 0);
    lend_set(&out, JP_MOST_ENTRIES);
    lend(&pairs, pairs.most);
    lend(&stack, stack.most);
    lend(&index_run, JP_MOST_ENTRIES);
    if (jp_numbered_op(p, LEND_SET(left), LEND_SET(right), LEND_SET(out), LEND_WORK, &size) == JP_DONE) {
        lend_set(&left, size);
        for (jp_size i = 0; i < size; i++)
            enter(&left, i, get(&out.variable, EDGE + i), get(&out.low, EDGE + i), get(&out.high, EDGE + i));
    }
    lend_nothing();
}

/* A set by chance: ordered or with one damage, over few or many options, small or large. */
static void some_set(struct set *set, uint32_t n)
{
    static const uint32_t most[] = {6, 12, 40, 200, 1000, JP_MOST_ENTRIES + 1};
    ordered(set, n, 1 + below(most[below(6) < 5 ? below(4) : below(6)]));
    if (below(10) == 0)
        damage(set);
}

/* One round: the set looked at, joined with another, the two compared; then what came of them likewise. */
static void by_chance(void)
{
    static const uint32_t many[] = {16, 64, 255, 256, 257};
    uint32_t n = below(4) ? below(10) : many[below(5)];
    some_set(&right, below(30) ? n : n + 1);
    some_set(&left, n);
    look();
    relate();
    operate((uint8_t)below(17));
    compare();
    make_left();
    look();
    relate();
    operate((uint8_t)below(17));
    compare();
}

static void tell(const char *family)
{
    static uint64_t before;
    printf("%-12s %8" PRIu64 " calls, sum %016" PRIx64 "\n", family, calls - before, sum);
    fflush(stdout);
    before = calls;
}

int main(int words, char **word)
{
    uint64_t rounds;
    if (words < 3)
        return 2;
    state = strtoull(word[1], NULL, 10);
    rounds = strtoull(word[2], NULL, 10);
    spoiled = words > 3 ? strtoull(word[3], NULL, 10) : 0;
    tables();
    tell("tables");
    makers();
    tell("makers");
    small_arrays();
    tell("small arrays");
    gather_all();
    if (small_sets != SMALL_SETS)
        return 1;
    small_pairs();
    tell("small pairs");
    for (uint64_t i = 0; i < rounds; i++)
        by_chance();
    tell("by chance");
    return 0;
}

/* The limit of the benchmark: an operator and a dry run as the library explores them, over the runs that the library is lent, in C
 * and without its checks. What the library takes longer is the price of its checks and of how it is compiled.
 *
 * It is no part of the library, and nothing is proved of it. It leaves out: whether the table is good, the sets are ordered and over
 * the same options, the flips are options, the stack and the index are long enough; a limit; and the bounds of every run that is read
 * or written. It tests only what ends its loops: that a chain is at its end, that the pair run or the array is full. So it may only
 * be asked what the library would not refuse.
 *
 * As the library it clears the places of the pair run, and the index, as it begins, and all its working runs as it ends. Where a
 * pair run of one pair or more, or the array, is too short it answers false and leaves the runs as they are.
 *
 * The working runs, of 32-bit numbers:
 *   pairs  of 4 R: a place to each of R numbers, the newest node of its chain (0 is none, k + 1 is node k); then R nodes of three
 *          numbers, in the order in which pairs are opened: the right entry; the node behind; the left entry above the result, 16
 *          bits each. Until the pair has its result the option that it asks stands there.
 *   index  of W: number k has the newest entry of the chain of place k above, the entry behind entry k + 2 below, 16 bits each;
 *          0 is none, k + 1 is entry k + 2.
 *   stack  two numbers to a frame: twice the node of an open pair, and 1 more where its first child is done; then its other child,
 *          which waits (left * 2^15 + right), or the first child's result.
 */
#include <stdbool.h>
#include <stddef.h>
#include <stdint.h>
#include <string.h>

/* A chain of so many nodes is full, and a search goes to so many places at the most. */
#define FULL 4
#define TRIES 8

/* The answer of a table that is not known yet. */
#define UNKNOWN 2

#define NO_ENTRY UINT32_MAX

struct set {
    const uint16_t *variable;
    const uint32_t *low, *high;
    size_t len;
};

struct output {
    uint16_t *variable;
    uint32_t *low, *high;
    size_t len;
};

struct run {
    uint32_t *at;
    size_t len;
};

/* An operator, or one with its flips, on two sets. */
struct ask {
    const uint8_t *table;
    struct set left, right;
    uint32_t flip_left, flip_right, flip_out;
};

static inline uint32_t min(uint32_t a, uint32_t b)
{
    return a < b ? a : b;
}

static inline void clear(uint32_t *at, size_t len)
{
    memset(at, 0, len * sizeof *at);
}

/* ---- Pairs. ---- */

struct pair {
    uint32_t left, right;
};

static inline struct pair root_of(const struct ask *ask)
{
    return (struct pair){ (uint32_t)ask->left.len - 1, (uint32_t)ask->right.len - 1 };
}

static inline uint32_t decide(const struct ask *ask, struct pair pair)
{
    return ask->table[3 * min(pair.left, 2) + min(pair.right, 2)];
}

/* What a pair asks, and its children where that option is off and on. */
struct children {
    uint32_t option;
    struct pair off, on;
};

static inline struct children expand(const struct ask *ask, struct pair pair)
{
    const struct set *a = &ask->left, *b = &ask->right;
    uint32_t l = pair.left, r = pair.right;
    uint32_t asked_left = a->variable[l], asked_right = b->variable[r], option = min(asked_left, asked_right);
    struct children children = { option, pair, pair };
    if (asked_left == option) {
        bool flip = ask->flip_left == option;
        children.off.left = flip ? a->high[l] : a->low[l];
        children.on.left = flip ? a->low[l] : a->high[l];
    }
    if (asked_right == option) {
        bool flip = ask->flip_right == option;
        children.off.right = flip ? b->high[r] : b->low[r];
        children.on.right = flip ? b->low[r] : b->high[r];
    }
    return children;
}

/* ---- The two maps by chains. ---- */

static inline uint32_t mix(uint32_t mixed, uint32_t by)
{
    return mixed * 0x3EC05657 + by * 0x6E1EF25B;
}

static inline size_t spread(uint32_t mixed, size_t places)
{
    return (size_t)((uint64_t)mixed * places >> 32);
}

/* The pair run, and how many of its nodes are taken. */
struct pairs {
    uint32_t *places, *nodes;
    size_t room, count;
};

static inline struct pairs begin_pairs(const struct run *run)
{
    size_t room = run->len / 4;
    clear(run->at, room);
    return (struct pairs){ run->at, run->at + room, room, 0 };
}

/* The node that has the pair, or the place to which it belongs. */
struct found {
    bool known;
    size_t at;
};

static inline struct found search(const struct pairs *pairs, struct pair pair)
{
    uint32_t mixed = pair.left;
    size_t place, met, tried = 0;
    do {
        mixed = mix(mixed, pair.right);
        place = spread(mixed, pairs->room);
        met = 0;
        for (size_t next = pairs->places[place]; next != 0; met++) {
            const uint32_t *node = pairs->nodes + 3 * (next - 1);
            if (node[0] == pair.right && node[2] >> 16 == pair.left)
                return (struct found){ true, next - 1 };
            next = node[1];
        }
        tried++;
    } while (FULL <= met && tried < TRIES);
    return (struct found){ false, place };
}

/* The next node takes the pair, and comes to the front of the chain of the place. */
static inline void add(struct pairs *pairs, size_t place, struct pair pair, uint32_t result)
{
    uint32_t *node = pairs->nodes + 3 * pairs->count++;
    node[0] = pair.right;
    node[1] = pairs->places[place];
    node[2] = pair.left << 16 | result;
    pairs->places[place] = (uint32_t)pairs->count;
}

/* The array that is made, its index, and the number of the next entry. */
struct array {
    struct output out;
    struct run index;
    size_t next;
};

/* The number of an entry, which is added unless it stands in the array; NO_ENTRY where the array is full. */
static inline uint32_t enter(struct array *made, uint32_t option, uint32_t low, uint32_t high)
{
    uint32_t *index = made->index.at;
    uint32_t mixed = (option << 20) + low;
    size_t place, met, tried = 0;
    if (low == high)
        return low;
    do {
        mixed = mix(mixed, high);
        place = spread(mixed, made->index.len);
        met = 0;
        for (size_t next = index[place] >> 16; next != 0; met++) {
            size_t entry = next + 1;
            if (made->out.low[entry] == low && made->out.high[entry] == high && made->out.variable[entry] == option)
                return (uint32_t)entry;
            next = index[next - 1] & 0xFFFF;
        }
        tried++;
    } while (FULL <= met && tried < TRIES);
    size_t entry = made->next;
    if (entry >= made->out.len)
        return NO_ENTRY;
    index[entry - 2] = (index[entry - 2] & 0xFFFF0000) | index[place] >> 16;
    index[place] = (uint32_t)(entry - 1) << 16 | (index[place] & 0xFFFF);
    made->out.variable[entry] = (uint16_t)option;
    made->out.low[entry] = low;
    made->out.high[entry] = high;
    made->next++;
    return (uint32_t)entry;
}

/* ---- The operator: depth first, the side that becomes high before the other, a frame to each open pair. ---- */

struct frames {
    uint32_t *stack;
    size_t height;
};

enum turn { GOES_ON, IS_DONE, IS_SHORT };

/* From a pair down the children that become high, opening each, until the value of one is known: by the table, or as it stands. */
static inline enum turn go_down(
    const struct ask *ask, struct pairs *pairs, struct frames *frames, struct pair pair, uint32_t *value)
{
    while ((*value = decide(ask, pair)) == UNKNOWN) {
        struct found found = search(pairs, pair);
        if (found.known) {
            *value = pairs->nodes[3 * found.at + 2] & 0xFFFF;
            break;
        }
        if (pairs->count == pairs->room)
            return IS_SHORT;
        struct children children = expand(ask, pair);
        bool flip = ask->flip_out == children.option;
        struct pair waits = flip ? children.on : children.off;
        frames->stack[frames->height++] = 2 * (uint32_t)pairs->count;
        frames->stack[frames->height++] = waits.left << 15 | waits.right;
        add(pairs, found.at, pair, children.option);
        pair = flip ? children.off : children.on;
    }
    return GOES_ON;
}

/* With a value up the frames whose first child is done, entering each pair's entry, until a child waits. */
static inline enum turn go_up(
    struct pairs *pairs, struct frames *frames, struct array *made, struct pair *waits, uint32_t *value)
{
    while (frames->height > 0) {
        uint32_t *frame = frames->stack + frames->height - 2;
        uint32_t second = frame[1];
        if (frame[0] % 2 == 0) {
            *waits = (struct pair){ second >> 15, second & 0x7FFF };
            frame[0]++;
            frame[1] = *value;
            return GOES_ON;
        }
        uint32_t *result = pairs->nodes + 3 * (size_t)(frame[0] / 2) + 2;
        *value = enter(made, *result & 0xFFFF, *value, second);
        if (*value == NO_ENTRY)
            return IS_SHORT;
        *result = (*result & 0xFFFF0000) | *value;
        frames->height -= 2;
    }
    return IS_DONE;
}

/* The terminals stand before what was entered; answers how many entries the array has. */
static inline size_t finish(struct array *made, uint16_t options, uint32_t root)
{
    size_t size = root == 0 ? 1 : made->next;
    for (uint32_t i = 0; i < min(2, (uint32_t)size); i++) {
        made->out.variable[i] = options;
        made->out.low[i] = made->out.high[i] = i;
    }
    return size;
}

/* An operator: true with the size of the array, or false where the pair run or the output is too short. */
bool limit_operator(
    const struct ask *asked, const struct output *out, const struct run *pair_run, const struct run *stack,
    const struct run *index, size_t *size)
{
    struct ask ask = *asked;
    struct pairs pairs = begin_pairs(pair_run);
    struct array made = { *out, *index, 2 };
    struct frames frames = { stack->at, 0 };
    struct pair pair = root_of(&ask);
    enum turn turn = GOES_ON;
    uint32_t value = 0;
    clear(index->at, index->len);
    while (turn == GOES_ON) {
        turn = go_down(&ask, &pairs, &frames, pair, &value);
        if (turn == GOES_ON)
            turn = go_up(&pairs, &frames, &made, &pair, &value);
    }
    if (turn == IS_SHORT)
        return false;
    clear(pair_run->at, pair_run->len);
    clear(stack->at, stack->len);
    clear(index->at, index->len);
    *size = finish(&made, ask.left.variable[0], value);
    return true;
}

/* ---- The dry run: the pair run is the queue, both children of every pair in it are noted. ---- */

/* Notes an undecided pair, or that a decided one is on; answers false where the pair run is full. */
static inline bool note(const struct ask *ask, struct pairs *pairs, struct pair pair, uint32_t *holds)
{
    uint32_t value = decide(ask, pair);
    if (value != UNKNOWN) {
        *holds |= value;
        return true;
    }
    struct found found = search(pairs, pair);
    if (found.known)
        return true;
    if (pairs->count == pairs->room)
        return false;
    add(pairs, found.at, pair, 0);
    return true;
}

/* A dry run: true with whether the operator can hold and how many pairs are undecided, or false where the pair run is too short. */
bool limit_dry(
    const struct ask *asked, const struct run *pair_run, const struct run *stack, uint32_t *holds, size_t *count)
{
    struct ask ask = *asked;
    struct pairs pairs = begin_pairs(pair_run);
    uint32_t on = 0;
    bool fits = note(&ask, &pairs, root_of(&ask), &on);
    for (size_t k = 0; fits && k < pairs.count; k++) {
        const uint32_t *node = pairs.nodes + 3 * k;
        struct children children = expand(&ask, (struct pair){ node[2] >> 16, node[0] });
        fits = note(&ask, &pairs, children.on, &on) && note(&ask, &pairs, children.off, &on);
    }
    if (!fits)
        return false;
    clear(pair_run->at, pair_run->len);
    clear(stack->at, stack->len);
    *holds = on;
    *count = pairs.count;
    return true;
}

/* Runs as a caller lends them, for the programs that look at every number: each has places before and behind it that
 * no call may touch, is filled before a call and read afterwards. */
#ifndef RUNS_H
#define RUNS_H

#include <stddef.h>
#include <stdint.h>

#include "joistpetal.h"

/* The places on either side. */
#define EDGE 3

struct run {
    void *all;    /* both edges, and between them room for the most numbers */
    jp_size bytes; /* to a number: 1, 2 or 4 */
    jp_size most;
    jp_size len; /* as many are lent */
};

#define RUN(type, name, longest)                  \
    static type name##_all[(longest) + 2 * EDGE]; \
    static struct run name = {name##_all, sizeof(type), longest, 0}

static inline jp_size places(const struct run *run)
{
    return run->len + 2 * EDGE;
}

/* Place i, the edges counted. */
static inline uint32_t get(const struct run *run, jp_size i)
{
    switch (run->bytes) {
    case 1:
        return ((const uint8_t *)run->all)[i];
    case 2:
        return ((const uint16_t *)run->all)[i];
    default:
        return ((const uint32_t *)run->all)[i];
    }
}

static inline void put(struct run *run, jp_size i, uint32_t x)
{
    switch (run->bytes) {
    case 1:
        ((uint8_t *)run->all)[i] = (uint8_t)x;
        break;
    case 2:
        ((uint16_t *)run->all)[i] = (uint16_t)x;
        break;
    default:
        ((uint32_t *)run->all)[i] = x;
    }
}

/* The lent numbers, as the functions take them. */
static inline uint8_t *as8(const struct run *run)
{
    return (uint8_t *)run->all + EDGE;
}

static inline uint16_t *as16(const struct run *run)
{
    return (uint16_t *)run->all + EDGE;
}

static inline uint32_t *as32(const struct run *run)
{
    return (uint32_t *)run->all + EDGE;
}

/* A set that is read, the output, and the working runs, in the order of the functions' lists. */
struct set {
    struct run variable, low, high;
};

#define SET_ROOM(name, longest)                                                                   \
    static uint16_t name##_v[(longest) + 2 * EDGE];                                               \
    static uint32_t name##_l[(longest) + 2 * EDGE], name##_h[(longest) + 2 * EDGE];               \
    static struct set name = {{name##_v, 2, longest, 0}, {name##_l, 4, longest, 0}, {name##_h, 4, longest, 0}}

#define LEND16(run) as16(&(run)), (run).len
#define LEND32(run) as32(&(run)), (run).len
#define LEND_SET(set) LEND16((set).variable), LEND32((set).low), LEND32((set).high)
#define LEND_DRY_WORK LEND32(pairs), LEND32(stack)
#define LEND_WORK LEND_DRY_WORK, LEND32(index_run)
#define LEND_MAP_WORK LEND32(stack), LEND32(index_run), LEND32(map)
#define LEND_SPARE LEND_SET(spare)

#endif

/* Obstacles inside the grid. */
#include "values.h"

#include <string.h>

static const uint64_t GRIDS[][2] = {{3, 2}, {2, 3}, {1, 1}, {7, 1}, {1, 7}, {2, 2}};

/* What the first entry holds; the next ones count on from it, so that no two are alike. A signalling NaN and a quiet one, both
 * with payloads, a number, and zero and subnormal numbers of both signs. */
static const uint64_t FIRST[] = {UINT64_C(0x7ff0000000000001), UINT64_C(0xfff8000000000001), UINT64_C(0x3ff0000000000000),
                                 UINT64_C(0x0000000000000000), UINT64_C(0x8000000000000000)};

static void hold_from(uint64_t first, size_t count) {
    uint64_t patterns[MOST];
    for (size_t k = 0; k < count; k++) {
        patterns[k] = first + k;
    }
    hold_patterns(F, patterns, count);
}

/* Obstacles in the cells whose bits are set, and what they throw back. */
static void put_obstacles(Call *call, size_t cells) {
    brothwagon_obstacle list[OBSTACLES];
    size_t count = 0;
    for (size_t c = 0; c < cells_of(&call->settings); c++) {
        if (cells >> c & 1) {
            list[count].x = c % call->settings.nx;
            list[count].y = c / call->settings.nx;
            count++;
            throw_back(&call->settings, given[F], wanted[F], c);
        }
    }
    set_list(call, list, count);
}

/* The first cell, behind the list. */
static void put_behind(Call *call) {
    const brothwagon_obstacle cell = {0, 0};
    for (size_t k = call->list_count; k < OBSTACLES; k++) {
        call->list[k] = cell;
    }
}

/* The call is done, and a second one undoes it. */
static void there_and_back(const Call *call) {
    double before[MOST];
    memcpy(before, given[F], sizeof before);
    done(&SET_NO_SLIP_BC, call);
    memcpy(given[F], wanted[F], sizeof before);
    memcpy(wanted[F], before, sizeof before);
    done(&SET_NO_SLIP_BC, call);
}

/* Every list that ascends. */
static void every_list(const uint64_t grid[2], uint64_t first) {
    for (size_t cells = 0; cells < (size_t)1 << grid[0] * grid[1]; cells++) {
        Call call = begin(grid[0], grid[1], "%u by %u, obstacles in the cells 0x%x, entries from 0x%016llx", (unsigned)grid[0],
                          (unsigned)grid[1], (unsigned)cells, (unsigned long long)first);
        hold_from(first, call.length[F]);
        put_obstacles(&call, cells);
        there_and_back(&call);
        /* Behind the list there may stand a cell as well. */
        hold_from(first, call.length[F]);
        put_obstacles(&call, cells);
        put_behind(&call);
        there_and_back(&call);
    }
}

/* The opposites, written out. */
static void by_hand(void) {
    const double opposite[DIRECTIONS] = {0, 3, 4, 1, 2, 7, 8, 5, 6};
    Call call = begin(1, 1, "each population is its direction");
    for (size_t i = 0; i < DIRECTIONS; i++) {
        given[F][i] = (double)i;
        wanted[F][i] = opposite[i];
    }
    there_and_back(&call);
}

void check_obstacles(void) {
    by_hand();
    for (size_t grid = 0; grid < COUNT(GRIDS); grid++) {
        for (size_t k = 0; k < COUNT(FIRST); k++) {
            every_list(GRIDS[grid], FIRST[k]);
        }
    }
}

/* The longest path on a ground of one row, from C: 0 flows east to 1, 3 west to 2 and on to 1, and 1 off to the south. */
#include "jinxbanyan.h"

#include <stdio.h>
#include <stdlib.h>

enum { ROWS = 1, COLS = 4, CELLS = ROWS * COLS };

/* By edition 1 of the standard a path may start at any cell, by edition 2 on the divide only. */
enum { ANYWHERE = 1, ON_DIVIDE = 2 };

static void print(const char *name, const uint32_t *numbers, size_t count) {
    printf("%s", name);
    for (size_t i = 0; i < count; i++) printf(" %u", (unsigned)numbers[i]);
    printf("\n");
}

/* Each function answers with a number; 0 is acceptance. */
static void expect_accepted(const char *what, uint32_t number) {
    if (number == 0) return;
    printf("%s refused %u\n", what, (unsigned)number);
    exit(1);
}

int main(void) {
    const uint8_t codes[CELLS] = {1, 4, 16, 16};
    const uint32_t outlets[1] = {1};
    const size_t place = 0;
    uint32_t accumulation[CELLS], subaccumulation[CELLS];

    expect_accepted("accumulate", jb_accumulate(ROWS, COLS, codes, CELLS, accumulation, CELLS));
    print("accumulation", accumulation, CELLS);
    expect_accepted("check", jb_check_accumulation(ROWS, COLS, codes, CELLS, accumulation, CELLS));
    expect_accepted("subaccumulate", jb_subaccumulate(ROWS, COLS, codes, CELLS, accumulation, CELLS, outlets, 1,
                                                      subaccumulation, CELLS));

    /* No outlet has more starts than cells; the working space takes three numbers for each cell. */
    uint32_t starts[CELLS], work[3 * CELLS], results[5];
    expect_accepted("trace by stack", jb_trace_by_stack(ANYWHERE, ROWS, COLS, codes, CELLS, accumulation, CELLS, outlets,
                                                        1, place, 1, subaccumulation, CELLS, starts, CELLS, work,
                                                        3 * CELLS, results));
    printf("cells %u straight %u diagonal %u paths %u visited %u dropped %u\n",
           (unsigned)subaccumulation[outlets[place]], (unsigned)results[0], (unsigned)results[1], (unsigned)results[2],
           (unsigned)results[3], (unsigned)results[4]);
    print("starts", starts, results[2]);

    uint32_t starts_again[CELLS], results_again[5];
    expect_accepted("trace by recursion", jb_trace_by_recursion(ANYWHERE, ROWS, COLS, codes, CELLS, accumulation, CELLS,
                                                                outlets, 1, place, 1, subaccumulation, CELLS,
                                                                starts_again, CELLS, results_again));
    print("by recursion", starts_again, results_again[2]);

    /* A path has a cell more than steps. */
    uint32_t path[CELLS], drawn[1];
    expect_accepted("draw", jb_draw(ROWS, COLS, codes, CELLS, accumulation, CELLS, outlets, 1, place, starts[0], path,
                                    CELLS, drawn));
    print("path", path, drawn[0]);

    /* Two outlets by one call: the upper one's cells are its own. The starts of each are a part of the list. */
    const uint32_t both[2] = {1, 2};
    uint32_t counts[2], sums[2];
    expect_accepted("trace all", jb_trace_all(ANYWHERE, ROWS, COLS, codes, CELLS, accumulation, CELLS, both, 2,
                                              subaccumulation, CELLS, starts, CELLS, counts, 2, work, 3 * CELLS, sums));
    printf("both outlets visited %u dropped %u\n", (unsigned)sums[0], (unsigned)sums[1]);
    for (size_t choice = 0; choice < 2; choice++) {
        size_t part[2];
        jb_starts_of(starts, CELLS, counts, 2, choice, part);
        printf("outlet %u ", (unsigned)both[choice]);
        print("starts", starts + part[0], part[1]);
    }

    /* A snail of three rows: from its middle, 4, the walk goes around to 2. All cells around 4 are the outlet's own, so 4
       is not on the divide; 5, one step on, is. */
    const uint8_t snail[9] = {1, 1, 64, 64, 1, 4, 64, 16, 16};
    const uint32_t mouth[1] = {2};
    uint32_t above[9], grid[9], start[1];
    expect_accepted("accumulate", jb_accumulate(3, 3, snail, 9, above, 9));
    for (uint32_t edition = ANYWHERE; edition <= ON_DIVIDE; edition++) {
        expect_accepted("trace the snail", jb_trace_by_recursion(edition, 3, 3, snail, 9, above, 9, mouth, 1, 0, 1, grid,
                                                                 9, start, 1, results));
        printf("snail by edition %u straight %u ", (unsigned)edition, (unsigned)results[0]);
        print("starts", start, results[2]);
    }

    /* A refusal: the first ground with an accumulation that does not agree. */
    accumulation[3] = 2;
    uint32_t number = jb_check_accumulation(ROWS, COLS, codes, CELLS, accumulation, CELLS);
    printf("changed accumulation %u\n", (unsigned)number);
    return number == 14 ? 0 : 1;
}

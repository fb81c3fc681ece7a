/* The same work in plain C: no proofs, no checks of the call beyond codes and accumulation, lengths compared in doubles. */
#ifndef JINXBANYAN_BASELINES_H
#define JINXBANYAN_BASELINES_H

#include <stddef.h>
#include <stdint.h>

struct plain_found {
    uint32_t straight, diagonal, paths, visited, dropped;
};

/* Each cell is summed up from its neighbours once they are known; a mask tells which flow in. 0, 12, or 13 with zeros
   left. */
uint32_t plain_look_around(size_t rows, size_t cols, const uint8_t *codes, uint32_t *accumulation);

/* Inflows are counted in the upper bits of the same grid, and cells that wait for none are passed down. 0, 12, or 13
   with zeros left. */
uint32_t plain_inflow_count(size_t rows, size_t cols, const uint8_t *codes, uint32_t *accumulation);

/* The equation at each cell; a mask tells which neighbours flow in. 0, 12 or 14. */
uint32_t plain_equation(size_t rows, size_t cols, const uint8_t *codes, const uint32_t *accumulation);

/* The codes of one table as codes of another, by a look-up of 256 bytes and without judging them. Tables are 1 to 3. */
void plain_convert(uint32_t from, uint32_t to, size_t rows, size_t cols, const uint8_t *codes, uint8_t *converted);

/* All codes are judged by the look-up, then written as by plain_convert. 0, or 12 with nothing written. */
uint32_t plain_convert_judged(uint32_t from, uint32_t to, size_t rows, size_t cols, const uint8_t *codes,
                              uint8_t *converted);

/* The equation, then the inflow count, with outlets flowing nowhere. marks has a place for each cell. 0, 12 or 14. */
uint32_t plain_subaccumulate(size_t rows, size_t cols, const uint8_t *codes, const uint32_t *accumulation,
                             const uint32_t *outlets, size_t count, uint32_t *subaccumulation, uint8_t *marks);

/* The equation, then each subwatershed without a stack: from a cell into the inflow that comes next, and down by the code
   when none is left. A cell gets its downstream length on the way up and gives the one below its upstream length on the
   way down. Cells of no subwatershed get 0. 0, 12 or 14. */
uint32_t plain_flow_lengths(size_t rows, size_t cols, const uint8_t *codes, const uint32_t *accumulation,
                            const uint32_t *outlets, size_t count, uint32_t *down_straight, uint32_t *down_diagonal,
                            uint32_t *up_straight, uint32_t *up_diagonal);

/* Which neighbours of n cells a search drops, from a cell at length d: none, or those whose limit is below the greatest
   length met. The first limit is d + n√2, the tight one d, the step and (n − 1)√2. */
enum plain_rule { PLAIN_NONE, PLAIN_FIRST, PLAIN_TIGHT };

/* The longest paths to an outlet, from pending cells; the subaccumulation and the marks are those of
   plain_subaccumulate. work has three numbers for each of the outlet's cells, which are left 0. */
struct plain_found plain_search(size_t rows, size_t cols, const uint8_t *codes, const uint32_t *subaccumulation,
                                const uint8_t *marks, uint32_t outlet, enum plain_rule rule, uint32_t *starts,
                                size_t places, uint32_t *work);

/* The cells from a start to an outlet; their number, or 0 where the walk misses it. */
size_t plain_draw(size_t rows, size_t cols, const uint8_t *codes, uint32_t outlet, uint32_t start, uint32_t *places);

#endif

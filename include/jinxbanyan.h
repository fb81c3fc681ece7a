/* Jinxbanyan for C: flow paths on a D8 grid.

   Each function but jb_starts_of, which refuses no call, returns the refusal number: 0 is acceptance. A slice is a pointer
   and a count of elements; slices of one call must not overlap, and a pointer must not be null even where the count is 0.
   Refusals change nothing lent, but where a comment says otherwise, and places beyond those an answer needs keep their
   contents. A place for results (results, sums, part, drawn, shape, size) is no such slice: it is written on every call,
   with values handed back.

   10 rows or columns not 1 to 4,096       18 the place is beyond the list of outlets
   11 a lent grid too short                19 more than 4,096 cells, by recursion
   12 a code not among the ten             20 the working space too small
   13 a ring                               21 the list too short for the longest paths
   14 the accumulation does not agree      22 the start is not in the outlet's subwatershed
   15 no outlet, or more than 256          23 the lent places too few
   16 an outlet beyond the grid or null    24 a table number not 1 to 3
   17 an outlet twice                      25 an edition not 1 or 2
   1 to 9 are a sheet's: see jb_read_sheet.

   The ten codes of a cell are 0 (null, no ground), 255 (a pond: ground that drains nowhere; a walk ends at it) and those of
   the eight directions, of which jb_convert has a table. */
#ifndef JINXBANYAN_H
#define JINXBANYAN_H

#include <stddef.h>
#include <stdint.h>

#ifdef __cplusplus
extern "C" {
#endif

/* 10, 11, 12, 13. Writes the accumulation in the first rows x cols places; 13 leaves zeros there. */
uint32_t jb_accumulate(size_t rows, size_t cols, const uint8_t *codes, size_t codes_count, uint32_t *accumulation,
                       size_t accumulation_count);

/* 10, 11, 12, 14. Writes nothing. */
uint32_t jb_check_accumulation(size_t rows, size_t cols, const uint8_t *codes, size_t codes_count,
                               const uint32_t *accumulation, size_t accumulation_count);

/* 10, 11, 12, 14 to 17. Writes the subaccumulation in the first rows x cols places. An outlet is its cell number. */
uint32_t jb_subaccumulate(size_t rows, size_t cols, const uint8_t *codes, size_t codes_count,
                          const uint32_t *accumulation, size_t accumulation_count, const uint32_t *outlets,
                          size_t outlets_count, uint32_t *subaccumulation, size_t subaccumulation_count);

/* 10, 11, 12, 14 to 17. Writes two lengths of each cell in the first rows x cols places of four grids, as straight and
   diagonal steps: down its walk to its outlet, the first on it, and up to the farthest cell of the same subwatershed above
   it. A cell of no subwatershed has 0 in all four. */
uint32_t jb_flow_lengths(size_t rows, size_t cols, const uint8_t *codes, size_t codes_count,
                         const uint32_t *accumulation, size_t accumulation_count, const uint32_t *outlets,
                         size_t outlets_count, uint32_t *down_straight, size_t down_straight_count,
                         uint32_t *down_diagonal, size_t down_diagonal_count, uint32_t *up_straight,
                         size_t up_straight_count, uint32_t *up_diagonal, size_t up_diagonal_count);

/* 24, 10, 11, 12. Writes the codes of a grid as codes of another table in the first rows x cols places of converted: each
   cell keeps its direction, or stays null or a pond. from is the number of the table that codes are of, to that of the
   table that converted gets; they may be the same. 24 tells that one of the two is not 1 to 3, 12 that a code is not in
   table from. Every refusal leaves converted as it was. The two grids must not overlap, so none is converted in place.

   table                                    E   SE    S   SW    W   NW    N   NE  null  pond
   1 ArcGIS: powers of two, clockwise       1    2    4    8   16   32   64  128     0   255
   2 GRASS: counter-clockwise from NE       8    7    6    5    4    3    2    1     0   255
   3 RichDEM and PFA: clockwise from W      5    6    7    8    1    2    3    4     0   255

   Every other function takes and writes codes of table 1, and so are those of a sheet. */
uint32_t jb_convert(uint32_t from, uint32_t to, size_t rows, size_t cols, const uint8_t *codes, size_t codes_count,
                    uint8_t *converted, size_t converted_count);

/* 25, 10, 11, 12, 14 to 18, 20, 21. Traces all longest paths to the outlet at a place of the list, counted from 0.
   edition is that of the standard, 1 or 2, and says where a path may start: by 1 at any cell, which for a longest path is
   a headwater; by 2 on the divide only, at a cell that has, among its eight neighbours, one off the grid, null, or outside
   the outlet's subwatershed, as an upper outlet and its cells are. Such a start need not be a headwater, and only walks
   from the divide are compared.
   Dropping is 0 or not: with it a side valley is left out in which every walk must be shorter than one met before, and
   only visited and dropped differ. Writes the subaccumulation, and the starts in order. The working space takes three
   numbers for each of the outlet's cells. results: straight, diagonal, paths, visited, dropped.
   20 leaves the subaccumulation written. 21 leaves it too, fills the list with the first starts, and tells 0, 0, the true
   number of paths, visited and dropped; any other refusal tells five zeros. On acceptance and 21 the working numbers that
   are asked for are 0. */
uint32_t jb_trace_by_stack(uint32_t edition, size_t rows, size_t cols, const uint8_t *codes, size_t codes_count,
                           const uint32_t *accumulation, size_t accumulation_count, const uint32_t *outlets,
                           size_t outlets_count, size_t place, uint32_t dropping, uint32_t *subaccumulation,
                           size_t subaccumulation_count, uint32_t *starts, size_t starts_count, uint32_t *work,
                           size_t work_count, uint32_t results[5]);

/* The same by recursion, without working space: 19 in place of 20. It takes up to 2 MiB of stack. */
uint32_t jb_trace_by_recursion(uint32_t edition, size_t rows, size_t cols, const uint8_t *codes, size_t codes_count,
                               const uint32_t *accumulation, size_t accumulation_count, const uint32_t *outlets,
                               size_t outlets_count, size_t place, uint32_t dropping, uint32_t *subaccumulation,
                               size_t subaccumulation_count, uint32_t *starts, size_t starts_count,
                               uint32_t results[5]);

/* 25, 10, 11, 12, 14 to 17, 20, 23, 21. Traces all longest paths to every outlet of the list, in its order, as
   jb_trace_by_stack does by that edition with dropping, and tests the accumulation once for all. Writes the
   subaccumulation, the starts of all outlets run together, and how many each outlet has, a count for each: jb_starts_of
   finds those of one. The working space takes three numbers for each cell of the listed outlet that has the most. sums:
   the cells visited and those dropped, over all outlets.
   23 is for fewer count places than outlets, 21 for fewer list places than all outlets have starts. 20 and 23 leave the
   subaccumulation written. 21 leaves it too and tells the sums, but the list and the counts stay as they were; any other
   refusal tells two zeros. On acceptance and 21 the working numbers that are asked for are 0. */
uint32_t jb_trace_all(uint32_t edition, size_t rows, size_t cols, const uint8_t *codes, size_t codes_count,
                      const uint32_t *accumulation, size_t accumulation_count, const uint32_t *outlets,
                      size_t outlets_count, uint32_t *subaccumulation, size_t subaccumulation_count, uint32_t *starts,
                      size_t starts_count, uint32_t *counts, size_t counts_count, uint32_t *work, size_t work_count,
                      uint32_t sums[2]);

/* The part of a list of starts that is one outlet's, by the counts that jb_trace_all wrote. choice is the outlet's place in
   the list of outlets, counted from 0. part: where it begins in starts, and how many it has. Both are 0 where it is empty:
   where choice is not below counts_count, where its own count is 0, and where the counts up to and with its own add up to
   more than starts_count. Counts may be any numbers, and as many as you like. Writes nothing else. */
void jb_starts_of(const uint32_t *starts, size_t starts_count, const uint32_t *counts, size_t counts_count, size_t choice,
                  size_t part[2]);

/* 10, 11, 12, 14 to 18, 22, 23. Writes the cells of a path, from its start to the outlet; drawn is how many, 0 on refusal. */
uint32_t jb_draw(size_t rows, size_t cols, const uint8_t *codes, size_t codes_count, const uint32_t *accumulation,
                 size_t accumulation_count, const uint32_t *outlets, size_t outlets_count, size_t place, uint32_t start,
                 uint32_t *path, size_t path_count, uint32_t drawn[1]);

/* 1 no whole header; 2 rows or columns not 1 to 64; 3 fewer code places than cells, or fewer outlet places than 256; 4 a row
   record not whole or not in turn; 5 a code not among the ten; 6 no whole outlet or end record; 7 an outlet outside the
   grid; 8 more than 256 outlets; 9 bytes after the end. shape: rows, columns, outlets, all 0 on refusal. */
uint32_t jb_read_sheet(const uint8_t *file, size_t file_count, uint8_t *codes, size_t codes_count, uint32_t *outlets,
                       size_t outlets_count, uint32_t shape[3]);

/* 2, 3 (codes only), 5, 8, 7, 23. Writes the sheet; size is how many bytes it has, 0 on refusal. */
uint32_t jb_write_sheet(size_t rows, size_t cols, const uint8_t *codes, size_t codes_count, const uint32_t *outlets,
                        size_t outlets_count, uint8_t *file, size_t file_count, uint32_t size[1]);

#ifdef __cplusplus
}
#endif
#endif

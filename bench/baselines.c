#include "baselines.h"

#include <string.h>

/* Neighbours E, SE, S, SW, W, NW, N, NE: code 1 << k goes to neighbour k, and BACK[k] comes back from it. */
static const int DOWN[8] = {0, 1, 1, 1, 0, -1, -1, -1};
static const int RIGHT[8] = {1, 1, 0, -1, -1, -1, 0, 1};
static const uint8_t BACK[8] = {16, 32, 64, 128, 1, 2, 4, 8};

static const double ROOT = 1.41421356237309504880;

/* ground that drains nowhere, in every table */
enum { POND = 255 };

/* of a code that has a direction */
static int way(uint8_t code) { return __builtin_ctz(code); }

static int inside(size_t rows, size_t cols, long row, long col) {
    return row >= 0 && col >= 0 && row < (long)rows && col < (long)cols;
}

static int codes_good(size_t cells, const uint8_t *codes) {
    uint8_t bad = 0;
    for (size_t i = 0; i < cells; i++) bad |= codes[i] == POND ? 0 : codes[i] & (codes[i] - 1);
    return bad == 0;
}

/* what a step to each neighbour adds to a cell's number */
static void offsets(size_t cols, long to[8]) {
    for (int k = 0; k < 8; k++) to[k] = DOWN[k] * (long)cols + RIGHT[k];
}

/* bit k: does neighbour k flow in? Of an inner cell by eight comparisons, of another neighbour by neighbour. */
static inline unsigned inflow_mask(size_t rows, size_t cols, const uint8_t *codes, size_t row, size_t col) {
    if (row > 0 && col > 0 && row + 1 < rows && col + 1 < cols) {
        const uint8_t *here = codes + row * cols + col, *above = here - cols, *below = here + cols;
        return (here[1] == 16) | (below[1] == 32) << 1 | (below[0] == 64) << 2 | (below[-1] == 128) << 3 |
               (here[-1] == 1) << 4 | (above[-1] == 2) << 5 | (above[0] == 4) << 6 | (above[1] == 8) << 7;
    }
    unsigned mask = 0;
    for (int k = 0; k < 8; k++) {
        long r = (long)row + DOWN[k], c = (long)col + RIGHT[k];
        if (inside(rows, cols, r, c) && codes[(size_t)r * cols + (size_t)c] == BACK[k]) mask |= 1u << k;
    }
    return mask;
}

/* 1 and the sum over inflows, or 0 if one of them is not known yet */
static inline uint32_t known_sum(unsigned mask, const long to[8], const uint32_t *here) {
    uint32_t sum = 1;
    for (; mask != 0; mask &= mask - 1) {
        uint32_t inflow = here[to[__builtin_ctz(mask)]];
        if (inflow == 0) return 0;
        sum += inflow;
    }
    return sum;
}

uint32_t plain_look_around(size_t rows, size_t cols, const uint8_t *codes, uint32_t *accumulation) {
    size_t cells = rows * cols;
    long to[8];
    if (!codes_good(cells, codes)) return 12;
    offsets(cols, to);
    memset(accumulation, 0, cells * sizeof *accumulation);
    for (size_t row = 0; row < rows; row++)
        for (size_t col = 0; col < cols; col++) {
            long r = (long)row, c = (long)col;
            size_t at = row * cols + col;
            while (inside(rows, cols, r, c) && codes[at] != 0 && accumulation[at] == 0) {
                unsigned mask = inflow_mask(rows, cols, codes, (size_t)r, (size_t)c);
                uint32_t sum = known_sum(mask, to, accumulation + at);
                if (sum == 0) break;
                accumulation[at] = sum;
                if (codes[at] == POND) break;
                int k = way(codes[at]);
                r += DOWN[k];
                c += RIGHT[k];
                at += (size_t)to[k];
            }
        }
    for (size_t i = 0; i < cells; i++)
        if (codes[i] != 0 && accumulation[i] == 0) {
            memset(accumulation, 0, cells * sizeof *accumulation);
            return 13;
        }
    return 0;
}

enum { INFLOW = 1 << 25 };

/* A word is 1 and what has arrived, and INFLOW for each inflow that has not. Marked cells flow nowhere. */
static inline uint32_t count_and_pass(size_t rows, size_t cols, const uint8_t *codes, const uint8_t *marks,
                                      uint32_t *words) {
    size_t cells = rows * cols;
    long to[8];
    offsets(cols, to);
    memset(words, 0, cells * sizeof *words);
    for (size_t row = 0; row < rows; row++)
        for (size_t col = 0; col < cols; col++) {
            size_t at = row * cols + col;
            if (codes[at] == 0) continue;
            words[at]++;
            if (codes[at] == POND || (marks && marks[at])) continue;
            int k = way(codes[at]);
            if (!inside(rows, cols, (long)row + DOWN[k], (long)col + RIGHT[k])) continue;
            size_t below = at + (size_t)to[k];
            if (codes[below] != 0) words[below] += INFLOW;
        }
    for (size_t row = 0; row < rows; row++)
        for (size_t col = 0; col < cols; col++) {
            size_t at = row * cols + col;
            if (words[at] != 1) continue;
            long r = (long)row, c = (long)col;
            uint32_t word = 1;
            while (word < INFLOW && codes[at] != POND && !(marks && marks[at])) {
                int k = way(codes[at]);
                r += DOWN[k];
                c += RIGHT[k];
                if (!inside(rows, cols, r, c)) break;
                at += (size_t)to[k];
                if (codes[at] == 0) break;
                word = words[at] += word - INFLOW;
            }
        }
    for (size_t i = 0; i < cells; i++)
        if (words[i] >= INFLOW) {
            memset(words, 0, cells * sizeof *words);
            return 13;
        }
    return 0;
}

uint32_t plain_inflow_count(size_t rows, size_t cols, const uint8_t *codes, uint32_t *accumulation) {
    if (!codes_good(rows * cols, codes)) return 12;
    return count_and_pass(rows, cols, codes, NULL, accumulation);
}

uint32_t plain_equation(size_t rows, size_t cols, const uint8_t *codes, const uint32_t *accumulation) {
    long to[8];
    if (!codes_good(rows * cols, codes)) return 12;
    offsets(cols, to);
    for (size_t row = 0; row < rows; row++)
        for (size_t col = 0; col < cols; col++) {
            const uint32_t *here = accumulation + row * cols + col;
            if (codes[row * cols + col] == 0) {
                if (*here != 0) return 14;
                continue;
            }
            uint64_t sum = 1;
            for (unsigned mask = inflow_mask(rows, cols, codes, row, col); mask != 0; mask &= mask - 1)
                sum += here[to[__builtin_ctz(mask)]];
            if (*here != sum) return 14;
        }
    return 0;
}

/* The codes of E, SE, S, SW, W, NW, N, NE in each table; null is 0 and a pond POND. */
static const uint8_t TABLES[3][8] = {
    {1, 2, 4, 8, 16, 32, 64, 128},
    {8, 7, 6, 5, 4, 3, 2, 1},
    {5, 6, 7, 8, 1, 2, 3, 4},
};

/* what the look-up has for bytes that are no codes; itself a code of no table */
enum { NO_CODE = 9 };

static void look_up(uint32_t from, uint32_t to, uint8_t becomes[256]) {
    memset(becomes, NO_CODE, 256);
    becomes[0] = 0;
    becomes[POND] = POND;
    for (int k = 0; k < 8; k++) becomes[TABLES[from - 1][k]] = TABLES[to - 1][k];
}

static int all_become(const uint8_t becomes[256], size_t cells, const uint8_t *codes) {
    for (size_t i = 0; i < cells; i++)
        if (becomes[codes[i]] == NO_CODE) return 0;
    return 1;
}

/* Not inlined: where gcc sees that the look-up and the grid do not overlap, it puts 16 bytes together for each write,
   which takes longer than byte by byte. */
__attribute__((noinline)) static void write_all(const uint8_t becomes[256], size_t cells, const uint8_t *codes,
                                                uint8_t *converted) {
    for (size_t i = 0; i < cells; i++) converted[i] = becomes[codes[i]];
}

void plain_convert(uint32_t from, uint32_t to, size_t rows, size_t cols, const uint8_t *codes, uint8_t *converted) {
    uint8_t becomes[256];
    look_up(from, to, becomes);
    write_all(becomes, rows * cols, codes, converted);
}

uint32_t plain_convert_judged(uint32_t from, uint32_t to, size_t rows, size_t cols, const uint8_t *codes,
                              uint8_t *converted) {
    uint8_t becomes[256];
    look_up(from, to, becomes);
    if (!all_become(becomes, rows * cols, codes)) return 12;
    write_all(becomes, rows * cols, codes, converted);
    return 0;
}

uint32_t plain_subaccumulate(size_t rows, size_t cols, const uint8_t *codes, const uint32_t *accumulation,
                             const uint32_t *outlets, size_t count, uint32_t *subaccumulation, uint8_t *marks) {
    uint32_t number = plain_equation(rows, cols, codes, accumulation);
    if (number != 0) return number;
    memset(marks, 0, rows * cols);
    for (size_t i = 0; i < count; i++) marks[outlets[i]] = 1;
    return count_and_pass(rows, cols, codes, marks, subaccumulation);
}

/* bit of a cell's straight steps down while at work: an outlet, which is not entered from below */
static const uint32_t OUTLET = 1u << 31;

static void traverse(size_t rows, size_t cols, const uint8_t *codes, size_t outlet, uint32_t *down_straight,
                     uint32_t *down_diagonal, uint32_t *up_straight, uint32_t *up_diagonal) {
    size_t at = outlet, row = outlet / cols, col = outlet % cols;
    uint32_t steps[2] = {0, 0}; /* straight and diagonal, from the cell down to the outlet */
    unsigned later = 0xFF;      /* the neighbours that are not looked at yet */
    long to[8];
    offsets(cols, to);
    for (;;) {
        unsigned mask = inflow_mask(rows, cols, codes, row, col) & later;
        while (mask != 0 && down_straight[at + (size_t)to[__builtin_ctz(mask)]] & OUTLET) mask &= mask - 1;
        int k;
        if (mask != 0) {
            k = __builtin_ctz(mask);
            at += (size_t)to[k];
            steps[k & 1]++;
            down_straight[at] = steps[0];
            down_diagonal[at] = steps[1];
            later = 0xFF;
        } else {
            if (at == outlet) return;
            k = way(codes[at]);
            uint32_t a = up_straight[at] + !(k & 1), b = up_diagonal[at] + (k & 1);
            at += (size_t)to[k];
            steps[k & 1]--;
            if (a + b * ROOT > up_straight[at] + up_diagonal[at] * ROOT) {
                up_straight[at] = a;
                up_diagonal[at] = b;
            }
            later = 0xFFu << (((k + 4) & 7) + 1);
        }
        row += (size_t)DOWN[k];
        col += (size_t)RIGHT[k];
    }
}

uint32_t plain_flow_lengths(size_t rows, size_t cols, const uint8_t *codes, const uint32_t *accumulation,
                            const uint32_t *outlets, size_t count, uint32_t *down_straight, uint32_t *down_diagonal,
                            uint32_t *up_straight, uint32_t *up_diagonal) {
    uint32_t number = plain_equation(rows, cols, codes, accumulation);
    if (number != 0) return number;
    uint32_t *grids[4] = {down_straight, down_diagonal, up_straight, up_diagonal};
    for (int i = 0; i < 4; i++) memset(grids[i], 0, rows * cols * sizeof **grids);
    for (size_t i = 0; i < count; i++) down_straight[outlets[i]] = OUTLET;
    for (size_t i = 0; i < count; i++)
        traverse(rows, cols, codes, outlets[i], down_straight, down_diagonal, up_straight, up_diagonal);
    for (size_t i = 0; i < count; i++) down_straight[outlets[i]] = 0;
    return 0;
}

/* Inlined for each rule by itself. A pending cell stands with its own length, by the first limit with that of the cell
   below it. */
static inline struct plain_found search(size_t rows, size_t cols, const uint8_t *codes, const uint32_t *subaccumulation,
                                        const uint8_t *marks, uint32_t outlet, const enum plain_rule rule,
                                        uint32_t *starts, size_t places, uint32_t *work) {
    struct plain_found found = {0, 0, 0, 0, 0};
    double greatest = -1;
    size_t pending = 1;
    work[0] = outlet;
    work[1] = 0;
    work[2] = 0;
    while (pending > 0) {
        pending--;
        uint32_t here = work[3 * pending], a = work[3 * pending + 1], b = work[3 * pending + 2];
        uint32_t cells = subaccumulation[here];
        double steps = (double)b + cells - (rule == PLAIN_TIGHT);
        if (rule != PLAIN_NONE && a + steps * ROOT < greatest) {
            found.dropped += cells;
            continue;
        }
        if (rule == PLAIN_FIRST && here != outlet) {
            if (way(codes[here]) & 1)
                b++;
            else
                a++;
        }
        found.visited++;
        if (cells == 1) {
            double length = a + b * ROOT;
            if (length > greatest) {
                greatest = length;
                found.straight = a;
                found.diagonal = b;
                found.paths = 0;
            }
            if (length == greatest) {
                if (found.paths < places) starts[found.paths] = here;
                found.paths++;
            }
            continue;
        }
        long row = here / (uint32_t)cols, col = here % (uint32_t)cols;
        for (int k = 7; k >= 0; k--) {
            long r = row + DOWN[k], c = col + RIGHT[k];
            if (!inside(rows, cols, r, c)) continue;
            size_t at = (size_t)r * cols + (size_t)c;
            if (codes[at] != BACK[k] || marks[at]) continue;
            int own = rule != PLAIN_FIRST;
            work[3 * pending] = (uint32_t)at;
            work[3 * pending + 1] = a + (own & ~k & 1);
            work[3 * pending + 2] = b + (own & k & 1);
            pending++;
        }
    }
    memset(work, 0, 3 * (size_t)subaccumulation[outlet] * sizeof *work);
    return found;
}

struct plain_found plain_search(size_t rows, size_t cols, const uint8_t *codes, const uint32_t *subaccumulation,
                                const uint8_t *marks, uint32_t outlet, enum plain_rule rule, uint32_t *starts,
                                size_t places, uint32_t *work) {
    switch (rule) {
    case PLAIN_NONE:
        return search(rows, cols, codes, subaccumulation, marks, outlet, PLAIN_NONE, starts, places, work);
    case PLAIN_FIRST:
        return search(rows, cols, codes, subaccumulation, marks, outlet, PLAIN_FIRST, starts, places, work);
    default:
        return search(rows, cols, codes, subaccumulation, marks, outlet, PLAIN_TIGHT, starts, places, work);
    }
}

size_t plain_draw(size_t rows, size_t cols, const uint8_t *codes, uint32_t outlet, uint32_t start, uint32_t *places) {
    size_t n = 0;
    long r = start / (uint32_t)cols, c = start % (uint32_t)cols;
    while (inside(rows, cols, r, c)) {
        size_t at = (size_t)r * cols + (size_t)c;
        if (codes[at] == 0) return 0;
        places[n++] = (uint32_t)at;
        if (at == outlet) return n;
        if (codes[at] == POND) return 0;
        int k = way(codes[at]);
        r += DOWN[k];
        c += RIGHT[k];
    }
    return 0;
}

"""The marked cases M1 to M11 of the scope paper, each way of tracing."""

import unittest
from array import array
from dataclasses import dataclass

from jinxbanyan import Cell, Grid, Length, Tracing, accumulate, subaccumulate, trace
from jinxbanyan.library import call, numbers, results

from .helper import Case, grid_of

M2 = "1 4 16"
M4 = "2 4 8 / 1 4 16 / 1 4 16"


@dataclass(frozen=True)
class Marked:
    """A marked case: codes and outlets, and for each outlet the length, the starts and the cells. Cells by number."""

    codes: str
    outlets: tuple[int, ...]
    lengths: tuple[tuple[int, int], ...]
    starts: tuple[tuple[int, ...], ...]
    cells: tuple[int, ...]

    @property
    def grid(self) -> Grid:
        return grid_of(self.codes)

    @property
    def at(self) -> list[Cell]:
        """The outlets as cells."""
        return [self.grid.cell(number) for number in self.outlets]


CASES = {
    "M1": Marked("1", (0,), ((0, 0),), ((0,),), (1,)),
    "M2": Marked(M2, (1,), ((1, 0),), ((2, 0),), (3,)),
    "M3": Marked("1 4 16 16", (1,), ((2, 0),), ((3,),), (4,)),
    "M4": Marked(M4, (7,), ((1, 1),), ((0, 2),), (9,)),
    "M5": Marked(M4, (7, 4), ((1, 0), (0, 1)), ((8, 6), (0, 2)), (3, 6)),
}

# Two arms to one outlet, one of straight and one of diagonal steps, by the codes of their cells.
ARMS_EITHER_ORDER = ((16, 32), (64, 32))


def two_arms(straight: int, diagonal: int, codes: tuple[int, int]) -> Grid:
    """A grid with an outlet in its north-west corner and two arms: east or south, and south-east."""
    side = max(straight, diagonal) + 1
    grid = [[0] * side for _ in range(side)]
    grid[0][0] = 64
    for step in range(1, straight + 1):
        row, column = (0, step) if codes[0] == 16 else (step, 0)
        grid[row][column] = codes[0]
    for step in range(1, diagonal + 1):
        grid[step][step] = codes[1]
    return Grid.of(grid)


class MarkedCases(Case):
    """M1 to M11."""

    def ways(self, case: Marked) -> dict[str, Tracing]:
        """A case traced each way: outlet by outlet and all, with dropping and without."""
        ways = {
            f"outlet {place}, dropping {dropping}": trace(case.grid, case.at, place, dropping=dropping)
            for place in range(len(case.outlets))
            for dropping in (True, False)
        }
        for dropping in (True, False):
            ways[f"all, dropping {dropping}"] = trace(case.grid, case.at, dropping=dropping)
        return ways

    def test_traced_each_way(self) -> None:
        for name, case in CASES.items():
            for way, tracing in self.ways(case).items():
                for traced in tracing.outlets:
                    with self.subTest(name, way=way, outlet=traced.place):
                        at = traced.place
                        self.assertEqual(traced.outlet, case.at[at])
                        self.assertEqual(traced.length, Length(*case.lengths[at]))
                        self.assertEqual(traced.starts, tuple(map(case.grid.cell, case.starts[at])))
                        self.assertEqual((traced.cells, traced.paths), (case.cells[at], len(case.starts[at])))

    def test_all_ways_tell_all_outlets(self) -> None:
        m5 = CASES["M5"]
        for dropping in (True, False):
            tracing = trace(m5.grid, m5.at, dropping=dropping)
            self.assertEqual([traced.place for traced in tracing.outlets], [0, 1])
        self.assertEqual([one.place for one in trace(m5.grid, m5.at, 1).outlets], [1])

    def test_visited_and_dropped(self) -> None:
        counted = {"M2": {True: (3, 0), False: (3, 0)}, "M3": {True: (3, 1), False: (4, 0)}}
        for name, by_dropping in counted.items():
            case = CASES[name]
            for dropping, due in by_dropping.items():
                for place in (0, None):
                    with self.subTest(name, dropping=dropping, place=place):
                        tracing = trace(case.grid, case.at, place, dropping=dropping)
                        self.assertEqual((tracing.visited, tracing.dropped), due)

    def test_accumulation(self) -> None:
        due = {M2: [1, 3, 1], M4: [1, 1, 1, 1, 6, 1, 1, 9, 1], "1 0": [1, 0]}
        for codes, numbers_due in due.items():
            with self.subTest(codes):
                self.assertEqual(list(accumulate(grid_of(codes)).numbers), numbers_due)

    def test_m5_subaccumulation(self) -> None:
        m5 = CASES["M5"]
        found = subaccumulate(m5.grid, m5.at)
        self.assertEqual([found[outlet] for outlet in m5.at], [3, 6])
        self.assertEqual(list(found.numbers), [1, 1, 1, 1, 6, 1, 1, 3, 1])
        for way, tracing in self.ways(m5).items():
            self.assertEqual(tracing.subaccumulation, found, way)

    def test_m6_a_ring(self) -> None:
        self.refused(13, accumulate, grid_of("1 16"))

    def test_m8_straight_is_shorter(self) -> None:
        for codes in ARMS_EITHER_ORDER:
            self.assert_longest(two_arms(7, 5, codes), Length(0, 5), Cell(5, 5))

    def test_m9_straight_is_longer(self) -> None:
        for codes in ARMS_EITHER_ORDER:
            end = Cell(0, 17) if codes[0] == 16 else Cell(17, 0)
            self.assert_longest(two_arms(17, 12, codes), Length(17, 0), end)

    def assert_longest(self, grid: Grid, length: Length, start: Cell) -> None:
        """The one longest path to the north-west corner, each way of tracing."""
        for place in (0, None):
            for dropping in (True, False):
                traced = trace(grid, [(0, 0)], place, dropping=dropping).outlets[0]
                self.assertEqual((traced.length, traced.starts), (length, (start,)))

    def test_m10_another_accumulation(self) -> None:
        for place in (0, None):
            self.refused(14, trace, grid_of(M2), [(0, 1)], place, accumulation=[1, 3, 2])

    def test_m11_one_place_in_the_list(self) -> None:
        grid, subaccumulation, starts, found = grid_of(M2), numbers(3), numbers(1), results(5)
        lent = (1, 1, 3, grid.codes, array("I", [1, 3, 1]), array("I", [1]), 0, 1, subaccumulation, starts)
        for name, work in (("jb_trace_by_stack", (numbers(9),)), ("jb_trace_by_recursion", ())):
            with self.subTest(name):
                starts[0] = 9
                self.assertEqual(call(name, *lent, *work, found), 21)
                self.assertEqual(list(starts), [2])
                self.assertEqual(list(found), [0, 0, 2, 3, 0])


if __name__ == "__main__":
    unittest.main()

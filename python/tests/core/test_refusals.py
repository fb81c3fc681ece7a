"""What is refused: each number comes from a call, and each has its words."""

import re
import unittest
from array import array
from collections.abc import Callable, Iterable
from functools import partial
from pickle import dumps, loads
from typing import Any

from jinxbanyan import Cell, Grid, Place, Refused, Sheet, accumulate, convert, draw, read_sheet, trace, write_sheet
from jinxbanyan.library import call, numbers, results
from jinxbanyan.refusals import WORDS
from tests.samples import ROOT

from .helper import OF_A_GRID, WITH_OUTLETS, Case, Function, grid_of

# A grid with an outlet, and the records of its sheet.
M2, OUTLET = grid_of("1 4 16"), (0, 1)
HEAD, ROW, OUT, END = "4438 0100 0300", "5257 0000 010410", "4F54 0000 0100", "454E"

Call = Callable[[], object]


def reading(*records: str) -> Call:
    """The reading of a file, by its records in hexadecimal."""
    return partial(read_sheet, bytes.fromhex("".join(records)))


def writing(grid: Grid, *outlets: tuple[int, int]) -> Call:
    """The writing of a sheet."""
    return partial(write_sheet, Sheet(grid, tuple(Cell(*outlet) for outlet in outlets)))


def calls(functions: Iterable[Function], *given: Any, **named: Any) -> list[Call]:
    """A call of each function with the same arguments."""
    return [partial(function, *given, **named) for function in functions]


def with_outlets(grid: Grid, *outlets: tuple[int, int], accumulation: list[int] | None = None) -> list[Call]:
    """A call of each function that takes outlets."""
    return calls(WITH_OUTLETS, grid, outlets, accumulation=accumulation)


NO_SIZE = [Grid(0, 3, b""), Grid(3, 0, b""), Grid(4097, 1, bytes(4097)), Grid(1, 4097, bytes(4097)), Grid(-1, 3, b"")]
SHORT, UNKNOWN, ROUND = Grid(1, 3, b"\1\4"), grid_of("1 3 16"), grid_of("1 16")

BY_THE_PACKAGE: dict[int, list[Call]] = {
    1: [reading(), reading("4438 0100 03"), reading("4439 0100 0300")],
    2: [reading("4438 0000 0300"), reading("4438 0100 4100"), *(writing(Grid(n, 1, bytes(n))) for n in (0, 65))],
    3: [writing(SHORT)],
    4: [reading(HEAD), reading(HEAD, ROW[:-2]), reading(HEAD, "5257 0100 010410"), reading(HEAD, END)],
    5: [reading(HEAD, "5257 0000 010310"), writing(UNKNOWN, OUTLET)],
    6: [reading(HEAD, ROW), reading(HEAD, ROW, OUT), reading(HEAD, ROW, OUT[:-2])],
    7: [reading(HEAD, ROW, "4F54 0000 0300", END), writing(M2, (0, 3)), writing(M2, (0, -1))],
    8: [reading(HEAD, ROW, *[OUT] * 257, END), writing(M2, *[OUTLET] * 257)],
    9: [reading(HEAD, ROW, OUT, END, "00")],
    10: [one for grid in NO_SIZE for one in (*calls(OF_A_GRID, grid), *with_outlets(grid, OUTLET))],
    11: [*calls(OF_A_GRID, SHORT), *with_outlets(SHORT, OUTLET), *with_outlets(M2, OUTLET, accumulation=[1, 3])],
    12: [*calls(OF_A_GRID, UNKNOWN), *with_outlets(UNKNOWN, OUTLET, accumulation=[1, 3, 1])],
    13: [*calls([accumulate], ROUND), *with_outlets(ROUND, OUTLET)],
    14: with_outlets(M2, OUTLET, accumulation=[1, 3, 2]),
    15: [*with_outlets(M2), *with_outlets(M2, *[OUTLET] * 257)],
    16: [*with_outlets(M2, OUTLET, (0, 3)), *with_outlets(grid_of("1 0"), OUTLET)],
    17: with_outlets(M2, OUTLET, (0, 2), OUTLET),
    18: [one for n in (1, 256, -1) for one in calls([trace, partial(draw, start=OUTLET)], M2, [OUTLET], place=n)],
    22: [partial(draw, M2, [OUTLET, (0, 2)], 0, start) for start in ((0, 2), (1, 0), (0, -1), (0, 3))],
    24: [*(partial(convert, M2, n) for n in (0, 4, -1)), *calls(OF_A_GRID, Grid(1, 1, b"\1", 4))],
    25: [partial(trace, M2, [OUTLET], place, edition) for place in (0, None) for edition in (0, 3, -1)],
}


# From here to by_short_slices: calls with slices shorter than the package lends. Each gives the number.
def ground(grid: Grid, outlet: int) -> tuple[Any, ...]:
    """A grid, its accumulation and one outlet, as the library takes them."""
    return grid.rows, grid.columns, grid.codes, accumulate(grid).numbers, array("I", [outlet])


def recurse(columns: int) -> int:
    """By recursion down two rows: east along the first, back west along the second."""
    grid = Grid(2, columns, b"\1" * (columns - 1) + b"\4" + b"\x10" * columns)
    lent = numbers(2 * columns), numbers(1), results(5)
    return call("jb_trace_by_recursion", 1, *ground(grid, columns), 0, 1, *lent)


def trace_m2(starts: int, work: int) -> int:
    lent = numbers(3), numbers(starts), numbers(work), results(5)
    return call("jb_trace_by_stack", 1, *ground(M2, 1), 0, 1, *lent)


def trace_all_m2(starts: int, counts: int, work: int) -> int:
    lent = numbers(3), numbers(starts), numbers(counts), numbers(work), results(2)
    return call("jb_trace_all", 1, *ground(M2, 1), *lent)


def draw_m2(path: int) -> int:
    return call("jb_draw", *ground(M2, 1), 0, 2, numbers(path), results(1))


def read_m2(codes: int, outlets: int) -> int:
    file = bytes.fromhex(HEAD + ROW + OUT + END)
    return call("jb_read_sheet", file, bytearray(codes), numbers(outlets), results(3))


def write_m2(file: int) -> int:
    return call("jb_write_sheet", 1, 3, M2.codes, array("I", [1]), bytearray(file), results(1))


def by_short_slices() -> dict[int, list[int]]:
    """What each such call answers, by the number that is due."""
    return {
        3: [read_m2(2, 256), read_m2(3, 255)],
        19: [recurse(2049)],
        20: [trace_m2(2, 8), trace_all_m2(2, 1, 8)],
        21: [trace_m2(1, 9), trace_all_m2(1, 1, 9)],
        23: [trace_all_m2(2, 0, 9), draw_m2(1), write_m2(20)],
    }


class Numbers(Case):
    """The numbers 1 to 25."""

    def test_words_for_the_numbers_of_readme(self) -> None:
        table = (ROOT / "README.md").read_text().split("\n## The numbers\n")[1].split("\n## ")[0]
        self.assertEqual([int(number) for number in re.findall(r"^\| (\d+) \|", table, re.MULTILINE)], list(WORDS))
        self.assertEqual(list(WORDS), list(range(1, 26)))

    def test_every_number_comes(self) -> None:
        came = set()
        for number, refused in BY_THE_PACKAGE.items():
            for at, one in enumerate(refused):
                with self.subTest(number=number, call=at):
                    self.refused(number, one)
                    came.add(number)
        for number, answers in by_short_slices().items():
            self.assertEqual(answers, [number] * len(answers))
            came.add(number)
        self.assertEqual(came, set(WORDS))

    def test_one_place_more_is_enough(self) -> None:
        for answer in (read_m2(3, 256), recurse(2048), trace_m2(2, 9), trace_all_m2(2, 1, 9), draw_m2(2), write_m2(21)):
            self.assertEqual(answer, 0)

    def test_the_first_fault_tells(self) -> None:
        self.refused(25, trace, Grid(1, 2, b"\3"), [], edition=3, accumulation=[])
        self.refused(11, trace, Grid(1, 2, b"\3"), [], accumulation=[1, 1])
        self.refused(12, trace, grid_of("3 1 16"), [], accumulation=[0, 0, 0])
        self.refused(14, trace, grid_of("1 16"), [], accumulation=[0, 0])
        self.refused(15, trace, M2, [], 1)
        self.refused(16, trace, M2, [(0, 3), (0, 3)], 2)

    def test_numbers_that_the_library_cannot_hold(self) -> None:
        grid = grid_of("1 4 16")
        for far in (2**32 + 1, 2**64 + 1, -(2**32) + 1):
            self.refused(25, trace, grid, [(0, 1)], edition=far)
            self.refused(24, convert, grid, far)
            self.refused(18, trace, grid, [(0, 1)], far - 1)
            self.refused(16, trace, grid, [(0, far)])

    def test_one_line_with_number_and_words(self) -> None:
        for number, words in WORDS.items():
            long_ring = Place(tuple(Cell(0, column) for column in range(20)))
            for place in (None, Place((Cell(2, 3),), 0, 4, 5), long_ring):
                line = str(Refused(number, place))
                self.assertEqual(line.splitlines(), [line])
                self.assertTrue(line.startswith(f"refused {number}: {words}"))
                self.assertEqual(line == f"refused {number}: {words}", place is None)

    def test_pickled(self) -> None:
        refused = Refused(12, Place((Cell(0, 1),), found=3))
        again = loads(dumps(refused))
        self.assertEqual((again.number, again.words, again.place), (12, WORDS[12], refused.place))


if __name__ == "__main__":
    unittest.main()

"""Grids, grids of numbers, lengths, and the tables of codes."""

import operator
import unittest
from array import array
from collections.abc import Iterable
from functools import partial

from jinxbanyan import Cell, Grid, Length, NumberGrid, Place, accumulate, convert, draw, rings, trace
from jinxbanyan.compass import DIRECTIONS

from .helper import MOVES, NULL, POND, TABLES, WITH_OUTLETS, Case, Function, cells_of, grid_of, next_cell, ring_free


class Grids(Case):
    """A grid and what it is made of."""

    def test_of_rows(self) -> None:
        due = Grid(2, 3, bytes([1, 4, 16, 0, 255, 128]))
        rows = [[1, 4, 16], [0, 255, 128]]
        ways: list[Iterable[Iterable[int]]] = [rows, tuple(rows), map(iter, rows), [bytes(row) for row in rows]]
        for given in ways:
            self.assertEqual(Grid.of(given), due)
        self.assertEqual(Grid.of([[1.0, 4.0, 16.0], [0.0, 255.0, 128.0]]), due)
        self.assertEqual(due.table, 1)
        self.assertEqual(Grid.of([[1]], 3), Grid(1, 1, b"\1", 3))

    def test_codes_are_kept(self) -> None:
        codes = bytearray(b"\1\4\x10")
        grid = Grid(1, 3, codes)
        codes[0] = 2
        self.assertEqual(grid.codes, b"\1\4\x10")
        self.assertIsInstance(grid.codes, bytes)
        self.assertEqual(len({grid, Grid(1, 3, b"\1\4\x10")}), 1)

    def test_too_many_codes(self) -> None:
        for rows, columns, count in ((1, 3, 4), (0, 0, 1), (0, 3, 1), (-1, 3, 1)):
            with self.subTest(rows=rows, columns=columns):
                self.assertRaises(ValueError, Grid, rows, columns, bytes(count))

    def test_codes_that_are_no_bytes(self) -> None:
        for codes in (2, array("I", [1, 16])):
            with self.subTest(codes=codes), self.assertRaises(TypeError):
                Grid(1, 8, codes)  # type: ignore[arg-type]

    def test_sides_that_are_no_whole_numbers(self) -> None:
        for sides in ((1.0, 1), (1, "1")):
            with self.subTest(sides=sides), self.assertRaises(TypeError):
                Grid(*sides, b"\1")  # type: ignore[arg-type]

    def test_sides_that_no_number_of_the_library_holds(self) -> None:
        for rows, columns in ((2**64 + 1, 1), (1, 2**32 + 1), (-1, -1)):
            self.refused(10, accumulate, Grid(rows, columns, b"\1"))

    def test_unequal_rows(self) -> None:
        for rows in ([[1, 2], [1]], [[1], [1, 2]], [[], [1]]):
            self.assertRaises(ValueError, Grid.of, rows)

    def test_no_byte(self) -> None:
        for value in (256, -1, 2.5, 2**40, float("inf")):
            with self.subTest(value):
                place = self.place(12, Grid.of, [[1, 4], [1, value], [300, 1]])
                self.assertEqual(place, Place((Cell(1, 1),), found=value))

    def test_bytes_are_not_judged_yet(self) -> None:
        self.assertEqual(Grid.of([range(256)]).codes, bytes(range(256)))

    def test_empty(self) -> None:
        for rows in range(3):
            self.refused(10, accumulate, Grid.of([[]] * rows))

    def test_largest_sides(self) -> None:
        self.assertEqual(accumulate(Grid(1, 4096, b"\1" * 4096))[0, 4095], 4096)
        self.assertEqual(accumulate(Grid(4096, 1, b"\4" * 4096))[4095, 0], 4096)

    def test_numbers_of_cells(self) -> None:
        grid = Grid(3, 4, bytes(12))
        self.assertEqual([grid.number(cell) for cell in cells_of(grid)], list(range(12)))
        self.assertEqual([grid.cell(number) for number in range(12)], cells_of(grid))
        for outside in ((-1, 0), (0, -1), (3, 0), (0, 4)):
            self.assertGreaterEqual(grid.number(outside), 2**24)


class Numbers(unittest.TestCase):
    """A grid of numbers."""

    grid = NumberGrid(2, 3, array("I", [1, 2, 3, 4, 5, 2**32 - 1]))

    def test_numbers_of_another_type(self) -> None:
        for numbers in (array("H", [1]), array("L", [1]), [1]):
            with self.subTest(numbers=numbers), self.assertRaises(TypeError):
                NumberGrid(1, 1, numbers)  # type: ignore[arg-type]

    def test_by_cell(self) -> None:
        found = [self.grid[row, column] for row in range(2) for column in range(3)]
        self.assertEqual(found, [1, 2, 3, 4, 5, 2**32 - 1])
        self.assertEqual(self.grid[Cell(1, 0)], 4)

    def test_outside(self) -> None:
        for outside in ((-1, 0), (0, -1), (2, 0), (0, 3)):
            with self.subTest(outside):
                self.assertRaises(IndexError, self.grid.__getitem__, outside)

    def test_by_rows(self) -> None:
        self.assertEqual([list(row) for row in self.grid], [[1, 2, 3], [4, 5, 2**32 - 1]])

    def test_equal(self) -> None:
        self.assertEqual(self.grid, NumberGrid(2, 3, array("I", self.grid.numbers)))
        self.assertNotEqual(self.grid, NumberGrid(3, 2, array("I", self.grid.numbers)))
        self.assertNotEqual(self.grid, NumberGrid(2, 3, array("I", [1, 2, 3, 4, 5, 6])))


class Lengths(unittest.TestCase):
    """A length is a pair of counts."""

    def test_shown(self) -> None:
        self.assertEqual(Length(0, 0).shown(), 0)
        self.assertEqual(Length(7, 0).shown(), 7)
        self.assertAlmostEqual(Length(0, 5).shown(), 7.0710678118654755)
        self.assertAlmostEqual(Length(3, 2).shown(10), 58.284271247461902)

    def test_no_order(self) -> None:
        for compare in (operator.lt, operator.le, operator.gt, operator.ge, lambda one, other: max(one, other)):
            self.assertRaises(TypeError, compare, Length(7, 0), Length(0, 5))

    def test_equal(self) -> None:
        self.assertEqual(Length(3, 4), Length(3, 4))
        self.assertNotEqual(Length(3, 4), Length(4, 3))


class Tables(Case):
    """The three tables of codes."""

    def test_the_compass(self) -> None:
        self.assertEqual([(one.code, (one.south, one.east)) for one in DIRECTIONS], list(MOVES.items()))
        self.assertEqual(TABLES[1], (*MOVES, NULL, POND))

    def test_from_each_to_each_and_back(self) -> None:
        for source, codes in TABLES.items():
            grid = Grid(2, 5, bytes(codes), source)
            for target, due in TABLES.items():
                with self.subTest(source=source, target=target):
                    converted = convert(grid, target)
                    self.assertEqual(converted, Grid(2, 5, bytes(due), target))
                    self.assertEqual(convert(converted, source), grid)

    def test_no_other_code(self) -> None:
        for table, codes in TABLES.items():
            for code in set(range(256)) - set(codes):
                self.assertEqual(self.place(12, convert, Grid(1, 1, bytes([code]), table), 1).found, code)

    def test_same_results(self) -> None:
        grid = ring_free(12, 17, seed=5)
        outlets = [cell for cell in cells_of(grid) if next_cell(grid, cell)][::40]
        start = trace(grid, outlets).outlets[0].starts[0]
        functions: list[Function] = [*WITH_OUTLETS[:-1], partial(trace, edition=2), partial(draw, place=0, start=start)]
        for table in (2, 3):
            same = convert(grid, table)
            self.assertNotEqual(same.codes, grid.codes)
            for function in functions:
                self.assertEqual(function(same, outlets), function(grid, outlets))
            self.assertEqual(accumulate(same), accumulate(grid))

    def test_same_rings(self) -> None:
        grid = grid_of("1 16 0 / 1 4 0 / 64 16 8")
        self.assertEqual(len(rings(grid)), 2)
        for table in (2, 3):
            self.assertEqual(rings(convert(grid, table)), rings(grid))


if __name__ == "__main__":
    unittest.main()

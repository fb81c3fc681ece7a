"""Paths drawn in windows of a large grid are those drawn on the whole of it."""

import random
import unittest
from unittest.mock import patch

from jinxbanyan import Cell, Grid, accumulate, draw, rings, trace
from jinxbanyan.compass import DIRECTIONS, POND
from jinxbanyan.paths import Window, draw_path, draw_paths, trace_outlets, window_of
from tests.samples import SNAIL


def rough_grid(chance: random.Random, rows: int, columns: int) -> Grid:
    """A grid of random directions without rings: each ring has a pond for one of its cells."""
    codes = bytearray(chance.choices([direction.code for direction in DIRECTIONS], k=rows * columns))
    for ring in rings(Grid(rows, columns, bytes(codes))):
        codes[ring.cells[0].row * columns + ring.cells[0].column] = POND
    return Grid(rows, columns, bytes(codes))


def slope(rows: int, columns: int) -> Grid:
    """A grid whose rows flow east, and whose last column flows south."""
    return Grid.of([[1] * (columns - 1) + [4]] * rows)


class Paths(unittest.TestCase):
    def test_windows_change_no_path(self) -> None:
        chance = random.Random(5)
        in_windows = on_whole = 0
        for grid in (*(rough_grid(chance, 30, 40) for _ in range(6)), slope(4, 5), slope(30, 2)):
            accumulation = accumulate(grid)
            most = sorted(range(len(grid.codes)), key=lambda number: accumulation.numbers[number])[-8:]
            outlets = [grid.cell(number) for number in most]
            tracing = trace(grid, outlets, accumulation=accumulation)
            due = [
                (traced, draw(grid, outlets, traced.place, start, accumulation))
                for traced in tracing.outlets
                for start in traced.starts
            ]
            self.assertEqual(list(draw_paths(grid, accumulation, tracing.outlets)), due)
            for traced, path in due:
                window = window_of(grid, path.cells[0], traced.outlet, len(path.cells) - 1)
                if 4 * window.cells > len(grid.codes):
                    on_whole += 1
                else:
                    in_windows += 1
        self.assertGreater(in_windows, 20)
        self.assertGreater(on_whole, 5)

    def test_what_is_lent(self) -> None:
        """A window without its accumulation, and from a quarter of the grid on the whole grid with it."""
        grid = slope(20, 20)
        accumulation = accumulate(grid)
        for outlet, lent in ((Cell(10, 9), (10, 10, None)), (Cell(10, 10), (20, 20, accumulation))):
            traced = trace(grid, [outlet]).outlets[0]
            with patch("jinxbanyan.paths.draw", wraps=draw) as drawing:
                path = draw_path(grid, accumulation, traced, traced.starts[0])
            self.assertEqual(path.cells, tuple(Cell(10, column) for column in range(outlet.column + 1)))
            used, *others = drawing.call_args.args
            self.assertEqual((used.rows, used.columns, others[3] if len(others) > 3 else None), lent)

    def test_what_a_path_can_reach(self) -> None:
        grid = slope(100, 200)
        self.assertEqual(window_of(grid, Cell(50, 60), Cell(50, 60), 0), Window(50, 60, 51, 61))
        self.assertEqual(window_of(grid, Cell(50, 60), Cell(50, 70), 10), Window(45, 60, 56, 71))
        self.assertEqual(window_of(grid, Cell(50, 60), Cell(51, 70), 11), Window(45, 59, 57, 71))
        self.assertEqual(window_of(grid, Cell(2, 197), Cell(90, 199), 300), Window(0, 48, 100, 200))

    def test_a_window_shows_a_part_of_the_grid(self) -> None:
        grid = Grid.of([[1, 2, 4], [8, 16, 32], [64, 128, 1]])
        window = Window(1, 1, 3, 3)
        self.assertEqual(window.cut(grid), Grid.of([[16, 32], [128, 1]]))
        self.assertEqual(window.cells, 4)
        self.assertEqual(window.inside(Cell(2, 1)), Cell(1, 0))
        self.assertEqual(window.outside(Cell(1, 0)), Cell(2, 1))

    def test_outlets_are_traced_alike_in_one_call_and_in_many(self) -> None:
        many = [Cell(row, column) for row in (3, 15, 27) for column in (4, 20, 36)]
        for grid, outlets in ((rough_grid(random.Random(6), 30, 40), many), (Grid.of(SNAIL), [Cell(2, 2)])):
            accumulation = accumulate(grid)
            for edition in (1, 2):
                due = trace(grid, outlets, edition=edition).outlets
                self.assertEqual(trace_outlets(grid, outlets, edition, True, accumulation), due)
                self.assertEqual(trace_outlets(grid, outlets, edition, False, accumulation), due)

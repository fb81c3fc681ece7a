"""Rings: every one of a grid, and no other."""

import unittest
from unittest.mock import patch

from jinxbanyan import Cell, Grid, Ring, accumulate, convert, downhill, rings

from .helper import POND, Case, cells_of, grid_of, next_cell, random_codes, ring_free


def long_ring(rows: int, columns: int) -> Grid:
    """A ring along the border of a grid, clockwise, with ponds inside."""
    codes = [[POND] * columns for _ in range(rows)]
    codes[0] = [1] * columns
    codes[-1] = [16] * columns
    for row in range(rows):
        codes[row][0] = 64 if row else 1
        codes[row][-1] = 4 if row < rows - 1 else 16
    return Grid.of(codes)


def on_rings(grid: Grid) -> set[Cell]:
    """The cells on rings: those at which a walk still is after as many steps as there are cells."""
    below = {cell: next_cell(grid, cell) for cell in cells_of(grid)}
    found = set()
    for start in below:
        at: Cell | None = start
        for _ in below:
            if at is None:
                break
            at = below[at]
        if at is not None:
            found.add(at)
    return found


class Rings(Case):
    """rings() of small and random grids."""

    def found(self, grid: Grid) -> list[Ring]:
        """The rings of a grid of table 1, each held to the compass, and no cell on two of them."""
        found = list(rings(grid))
        for ring in found:
            self.assert_ring(grid, ring.cells)
        cells = [cell for ring in found for cell in ring.cells]
        self.assertEqual(len(cells), len(set(cells)))
        return found

    def test_none(self) -> None:
        for codes in ("1", "0", "255", "1 4 16", "2 4 8 / 1 4 16 / 1 4 16", "1 1 / 1 1"):
            with self.subTest(codes):
                self.assertEqual(rings(grid_of(codes)), ())

    def test_none_on_random_ground(self) -> None:
        for seed in range(5):
            self.assertEqual(rings(ring_free(20, 25, seed)), ())

    def test_two_cells_each_direction(self) -> None:
        due = {
            "1 16": (Cell(0, 0), Cell(0, 1)),
            "4 / 64": (Cell(0, 0), Cell(1, 0)),
            "2 0 / 0 32": (Cell(0, 0), Cell(1, 1)),
            "0 8 / 128 0": (Cell(0, 1), Cell(1, 0)),
        }
        for codes, cells in due.items():
            with self.subTest(codes):
                self.assertEqual(self.found(grid_of(codes)), [Ring(cells)])

    def test_several(self) -> None:
        found = self.found(grid_of("1 16 0 4 / 0 1 4 64 / 1 64 16 0 / 2 0 4 8 / 0 32 128 0"))
        self.assertEqual([len(ring.cells) for ring in found], [2, 2, 4, 2, 2])

    def test_in_the_order_of_the_first_cell_that_drains_to_each(self) -> None:
        found = self.found(grid_of("4 1 16 / 4 0 0 / 1 1 16"))
        self.assertEqual(found, [Ring((Cell(2, 1), Cell(2, 2))), Ring((Cell(0, 1), Cell(0, 2)))])

    def test_long(self) -> None:
        for rows, columns in ((2, 2), (2, 300), (300, 2), (40, 60)):
            (ring,) = self.found(long_ring(rows, columns))
            self.assertEqual(len(ring.cells), 2 * (rows + columns) - 4)
            self.assertEqual(ring.cells[:2], (Cell(0, 0), Cell(0, 1)))

    def test_in_other_tables(self) -> None:
        for grid in (grid_of("1 16 4 / 1 1 64"), long_ring(5, 6), random_codes(30, 30, seed=9)):
            self.assertGreater(len(rings(grid)), 0)
            for table in (2, 3):
                self.assertEqual(rings(convert(grid, table)), rings(grid))

    def test_random_codes(self) -> None:
        for seed in range(4):
            with self.subTest(seed=seed):
                grid = random_codes(30, 30, seed)
                cells = {cell for ring in self.found(grid) for cell in ring.cells}
                self.assertEqual(cells, on_rings(grid))
                self.assertGreater(len(cells), 50)

    def test_the_border_does_not_wrap(self) -> None:
        # Each has a code that points off the grid, and would have a ring if rows ran on into one another.
        for codes in (
            "0 1 / 128 0",
            "0 2 / 0 64 / 128 0",
            "8 16",
            "0 8 / 16 0",
            "0 4 / 0 8 / 32 0",
            "0 0 / 1 128",
            "64 / 64",
            "16 16",
            "4 / 4",
        ):
            with self.subTest(codes):
                grid = grid_of(codes)
                accumulate(grid)
                self.assertEqual(rings(grid), ())

    def test_reports(self) -> None:
        told: list[int] = []
        grid = ring_free(40, 25, seed=3)
        rings(grid, told.append)
        self.assertEqual(told, [])
        with patch.object(downhill, "_REPORT_EVERY", 100):
            rings(grid, report=told.append)
        self.assertIn(len(told), range(5, 11))
        self.assertTrue(all(later - earlier >= 100 for earlier, later in zip(told, told[1:])))

    def test_refused(self) -> None:
        self.refused(12, rings, grid_of("1 3"))
        self.refused(10, rings, Grid(0, 0, b""))
        self.refused(11, rings, Grid(2, 2, b"\1"))


if __name__ == "__main__":
    unittest.main()

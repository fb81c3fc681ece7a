"""Tracing, flow lengths and drawing, beside a plain walk from every cell."""

import unittest
from array import array
from collections.abc import Iterable
from decimal import Decimal, localcontext
from typing import Any
from unittest.mock import patch

from jinxbanyan import Cell, Grid, Length, accumulate, draw, flow_lengths, subaccumulate, trace, tracing
from jinxbanyan.downhill import follow

from .helper import NULL, WITH_OUTLETS, Case, cells_of, code_at, grid_of, next_cell, ring_free, to_outlet, tree_of_ties

M4 = grid_of("2 4 8 / 1 4 16 / 1 4 16")

# A path that winds out of the middle, where no cell of the divide is: east, round by north, west and south to (2, 2).
SPIRAL = grid_of("4 16 16 / 4 1 64 / 1 1 1")


def exact(length: Length) -> Decimal:
    """A length of a small grid, to more places than a comparison can need."""
    with localcontext() as context:
        context.prec = 60
        return length.straight + length.diagonal * Decimal(2).sqrt()


def added(one: Length, other: Length) -> Length:
    """Two lengths one after the other."""
    return Length(one.straight + other.straight, one.diagonal + other.diagonal)


class RandomGround(Case):
    """A random grid without rings and with a few outlets."""

    grid: Grid
    outlets: list[Cell]

    @classmethod
    def setUpClass(cls) -> None:
        cls.grid = ring_free(20, 20, seed=2)
        ground = [cell for cell in cells_of(cls.grid) if code_at(cls.grid, cell) != NULL]
        drained = accumulate(cls.grid)
        most_drained = sorted(ground, key=lambda cell: -drained[cell])
        cls.outlets = list(dict.fromkeys([*most_drained[:40:8], *ground[::90]]))

    def lengths(self, place: int) -> dict[Cell, Length]:
        """The cells of an outlet's subwatershed and the length of the walk of each."""
        each = {cell: to_outlet(self.grid, cell, self.outlets) for cell in cells_of(self.grid)}
        return {cell: there[1] for cell, there in each.items() if there and there[0] == place}

    def test_the_ground_has_something_to_find(self) -> None:
        traced = trace(self.grid, self.outlets).outlets
        self.assertGreater(max(one.cells for one in traced), 50)
        self.assertGreater(max(one.paths for one in traced), 1)
        self.assertGreater(trace(self.grid, self.outlets).dropped, 0)

    def test_longest(self) -> None:
        for dropping in (True, False):
            for one in trace(self.grid, self.outlets, dropping=dropping).outlets:
                with self.subTest(outlet=one.outlet, dropping=dropping):
                    lengths = self.lengths(one.place)
                    longest = max(lengths.values(), key=exact)
                    self.assertEqual((one.length, one.cells), (longest, len(lengths)))
                    self.assertEqual(set(one.starts), {cell for cell in lengths if lengths[cell] == longest})
                    self.assertEqual(len(set(one.starts)), one.paths)

    def test_downstream(self) -> None:
        found = flow_lengths(self.grid, self.outlets)
        for cell in cells_of(self.grid):
            there = to_outlet(self.grid, cell, self.outlets)
            self.assertEqual(found.downstream(cell), there[1] if there else Length(0, 0))

    def test_which_outlet(self) -> None:
        followed = follow(self.grid, self.outlets)
        for cell in cells_of(self.grid):
            there = to_outlet(self.grid, cell, self.outlets)
            self.assertEqual(followed.outlet_of(cell), there[0] if there else None)
        self.assertEqual(followed.rings, [])

    def test_smith(self) -> None:
        found = flow_lengths(self.grid, self.outlets)
        for one in trace(self.grid, self.outlets).outlets:
            on_paths = {cell for start in one.starts for cell in draw(self.grid, self.outlets, one.place, start).cells}
            adds_up = {
                cell
                for cell in self.lengths(one.place)
                if added(found.downstream(cell), found.upstream(cell)) == one.length
            }
            self.assertEqual(adds_up, on_paths)
            self.assertEqual(found.upstream(one.outlet), one.length)

    def test_drawn(self) -> None:
        for one in trace(self.grid, self.outlets).outlets:
            for start in one.starts:
                cells = draw(self.grid, self.outlets, one.place, start).cells
                self.assertEqual((cells[0], cells[-1]), (start, one.outlet))
                self.assertEqual([next_cell(self.grid, cell) for cell in cells[:-1]], list(cells[1:]))
                self.assertEqual(len(cells), one.length.straight + one.length.diagonal + 1)

    def test_subaccumulation(self) -> None:
        found = subaccumulate(self.grid, self.outlets)
        self.assertEqual(
            [found[one.outlet] for one in trace(self.grid, self.outlets).outlets],
            [len(self.lengths(place)) for place in range(len(self.outlets))],
        )


class SmallGrids(Case):
    """By hand."""

    def test_flow_lengths(self) -> None:
        found = flow_lengths(M4, [(2, 1)])
        self.assertEqual([list(row) for row in found.down_straight], [[1, 2, 1], [2, 1, 2], [1, 0, 1]])
        self.assertEqual([list(row) for row in found.down_diagonal], [[1, 0, 1], [0, 0, 0], [0, 0, 0]])
        self.assertEqual([list(row) for row in found.up_straight], [[0, 0, 0], [0, 0, 0], [0, 1, 0]])
        self.assertEqual([list(row) for row in found.up_diagonal], [[0, 0, 0], [0, 1, 0], [0, 1, 0]])
        self.assertEqual(found.downstream((0, 0)), Length(1, 1))
        self.assertEqual(found.upstream((1, 1)), Length(0, 1))

    def test_flow_lengths_outside_subwatersheds(self) -> None:
        found = flow_lengths(grid_of("1 1 1 1 0 1"), [(0, 1)])
        self.assertEqual([found.downstream((0, column)).straight for column in range(6)], [1, 0, 0, 0, 0, 0])
        self.assertEqual([found.upstream((0, column)).straight for column in range(6)], [0, 1, 0, 0, 0, 0])

    def test_drawn_of_any_start(self) -> None:
        self.assertEqual(draw(M4, [(2, 1)], 0, (0, 2)).cells, (Cell(0, 2), Cell(1, 1), Cell(2, 1)))
        self.assertEqual(draw(M4, [(2, 1)], 0, (2, 1)).cells, (Cell(2, 1),))
        self.assertEqual(draw(M4, [(2, 1), (1, 1)], 1, (0, 2)).cells, (Cell(0, 2), Cell(1, 1)))

    def test_editions(self) -> None:
        due = {1: (Length(8, 0), (Cell(1, 1),)), 2: (Length(7, 0), (Cell(1, 2),))}
        for edition, (length, starts) in due.items():
            for place in (0, None):
                for dropping in (True, False):
                    with self.subTest(edition=edition, place=place, dropping=dropping):
                        found = trace(SPIRAL, [(2, 2)], place, edition, dropping)
                        self.assertEqual((found.edition, found.visited), (edition, 9))
                        self.assertEqual((found.outlets[0].length, found.outlets[0].starts), (length, starts))
                        self.assertEqual(found.subaccumulation, accumulate(SPIRAL))

    def test_outlets_as_they_are_given(self) -> None:
        due = trace(M4, [Cell(2, 1), Cell(1, 1)])
        self.assertEqual(due.outlets[1].outlet, Cell(1, 1))
        self.assertIsInstance(trace(M4, [(2, 1)]).outlets[0].outlet, Cell)
        pairs = [(2, 1), (1, 1)]
        ways: list[Iterable[tuple[int, int]]] = [pairs, tuple(pairs), iter(pairs)]
        for outlets in ways:
            self.assertEqual(trace(M4, outlets), due)

    def test_lent_accumulation(self) -> None:
        made, outlets = accumulate(M4), [(2, 1)]
        ways: list[Any] = [made, made.numbers, list(made.numbers), array("Q", made.numbers), [*made.numbers, 77]]
        for lent in ways:
            for function in WITH_OUTLETS:
                self.assertEqual(function(M4, outlets, accumulation=lent), function(M4, outlets))
        self.assertEqual(trace(M4, outlets, accumulation=iter(made.numbers)), trace(M4, outlets))
        self.assertEqual(made, accumulate(M4))

    def test_lent_numbers_that_are_none(self) -> None:
        for lent in ([-1] * 9, [2**32] * 9):
            self.assertRaises(OverflowError, trace, M4, [(2, 1)], accumulation=lent)


class ManyStarts(Case):
    """More longest paths than the list that is lent first has places."""

    def test_more_than_the_first_list_has_places(self) -> None:
        grid, outlet = tree_of_ties()
        one, all_of_them = (trace(grid, [outlet], place).outlets[0] for place in (0, None))
        self.assertEqual(one, all_of_them)
        self.assertGreater(one.paths, tracing._FEW_STARTS)
        self.assertEqual((one.paths, len(set(one.starts)), one.length), (8192, 8192, Length(190, 0)))
        self.assertEqual(len(draw(grid, [outlet], 0, one.starts[-1]).cells), 191)

    def test_a_first_list_of_one_place(self) -> None:
        outlets = [(2, 1), (1, 1)]
        for place in (0, 1, None):
            for edition in (1, 2):
                for dropping in (True, False):
                    due = trace(M4, outlets, place, edition, dropping)
                    with patch.object(tracing, "_FEW_STARTS", 1):
                        self.assertEqual(trace(M4, outlets, place, edition, dropping), due)


if __name__ == "__main__":
    unittest.main()

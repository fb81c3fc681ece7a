"""What the tests share: files, functions, grids as the scope paper writes them, and a plain walk down a grid."""

import random
import unittest
from collections.abc import Callable, Iterator, Sequence
from functools import partial
from typing import Any

from jinxbanyan import Cell, Grid, Length, Place, Refused, accumulate, convert, draw, flow_lengths, rings
from jinxbanyan import subaccumulate, trace

NULL, POND = 0, 255

# Where each code of table 1 leads: rows to the south, columns to the east.
MOVES = {1: (0, 1), 2: (1, 1), 4: (1, 0), 8: (1, -1), 16: (0, -1), 32: (-1, -1), 64: (-1, 0), 128: (-1, 1)}

# The ten codes of each table in the header's order: E, SE, S, SW, W, NW, N, NE, null, pond.
TABLES = {
    1: (1, 2, 4, 8, 16, 32, 64, 128, 0, 255),
    2: (8, 7, 6, 5, 4, 3, 2, 1, 0, 255),
    3: (5, 6, 7, 8, 1, 2, 3, 4, 0, 255),
}

Function = Callable[..., Any]

# Every function of a grid alone, and every function of a grid, outlets and an accumulation.
OF_A_GRID: tuple[Function, ...] = (accumulate, rings, partial(convert, table=2))
WITH_OUTLETS: tuple[Function, ...] = (
    subaccumulate,
    flow_lengths,
    trace,
    partial(trace, dropping=False),
    partial(trace, place=0),
    partial(draw, place=0, start=(0, 1)),
)


class Case(unittest.TestCase):
    """A test that looks for refusals."""

    def refused(self, number: int, function: Function, *given: Any, **named: Any) -> Refused:
        """The refusal of a call, which must have this number."""
        with self.assertRaises(Refused) as caught:
            function(*given, **named)
        self.assertEqual(caught.exception.number, number)
        return caught.exception

    def place(self, number: int, function: Function, *given: Any, **named: Any) -> Place:
        """The place of a refusal, which must have one."""
        place = self.refused(number, function, *given, **named).place
        assert place is not None, "the refusal has no place"
        return place

    def assert_ring(self, grid: Grid, cells: Sequence[Cell]) -> None:
        """Each cell is another, and flows into the next; the last flows into the first."""
        self.assertEqual(len(set(cells)), len(cells))
        self.assertGreater(len(cells), 1)
        for cell, below in zip(cells, (*cells[1:], cells[0])):
            self.assertEqual(next_cell(grid, cell), below)


def grid_of(codes: str, table: int = 1) -> Grid:
    """A grid from its codes by row, with a stroke between rows: `1 4 16 / 1 4 16`."""
    return Grid.of([map(int, row.split()) for row in codes.split("/")], table)


def cells_of(grid: Grid) -> list[Cell]:
    """Every cell of a grid, row by row."""
    return [Cell(row, column) for row in range(grid.rows) for column in range(grid.columns)]


def code_at(grid: Grid, cell: Cell) -> int:
    """The code of a cell."""
    return grid.codes[cell.row * grid.columns + cell.column]


def next_cell(grid: Grid, cell: Cell) -> Cell | None:
    """The cell that a cell of table 1 flows into; None where its walk ends."""
    code = code_at(grid, cell)
    if code not in MOVES:
        return None
    south, east = MOVES[code]
    below = Cell(cell.row + south, cell.column + east)
    inside = 0 <= below.row < grid.rows and 0 <= below.column < grid.columns
    return below if inside and code_at(grid, below) != NULL else None


def walk(grid: Grid, start: Cell) -> Iterator[Cell]:
    """The cells of a walk, its start first. On a ring it does not end."""
    at: Cell | None = start
    while at is not None:
        yield at
        at = next_cell(grid, at)


def to_outlet(grid: Grid, start: Cell, outlets: Sequence[Cell]) -> tuple[int, Length] | None:
    """The place of the first outlet on a walk and the length to it; None where it meets none."""
    straight = diagonal = 0
    for cell in walk(grid, start) if code_at(grid, start) != NULL else ():
        if cell in outlets:
            return outlets.index(cell), Length(straight, diagonal)
        if all(MOVES.get(code_at(grid, cell), (0, 0))):
            diagonal += 1
        else:
            straight += 1
    return None


def random_codes(rows: int, columns: int, seed: int) -> Grid:
    """Random codes of table 1, about one in twenty null or a pond. Such a grid has rings."""
    chance = random.Random(seed)
    weights = [20] * len(MOVES) + [4, 4]
    return Grid(rows, columns, bytes(chance.choices((*MOVES, NULL, POND), weights, k=rows * columns)))


def ring_free(rows: int, columns: int, seed: int) -> Grid:
    """Random codes without a ring: a cell flows to a lower one, or off the grid, or is a pond; a few are null."""
    chance = random.Random(seed)
    heights = {(row, column): row + column + 3 * chance.random() for row in range(rows) for column in range(columns)}
    codes = bytearray()
    for (row, column), height in heights.items():
        near = {code: heights.get((row + south, column + east)) for code, (south, east) in MOVES.items()}
        lower = [code for code, there in near.items() if there is not None and there < height]
        beyond = [code for code, there in near.items() if there is None]
        codes.append(NULL if chance.random() < 0.05 else chance.choice(lower or beyond or [POND]))
    return Grid(rows, columns, bytes(codes))


def tree_of_ties() -> tuple[Grid, Cell]:
    """A grid with an outlet and 8,192 longest paths to it: two trees whose branches fork alike, four by four."""
    half, arm = 2**6 - 1, 2**6
    codes = [[NULL] * (2 * half + 1) for _ in range(4 * half + 3)]
    outlet = Cell(2 * half + 1, half)
    codes[outlet.row][outlet.column] = POND

    def lay(row: int, column: int, code: int, steps: int) -> tuple[int, int]:
        """Lays a branch of cells with one code from a cell up, and gives the cell at its upper end."""
        south, east = MOVES[code]
        for _ in range(steps):
            row, column = row - south, column - east
            codes[row][column] = code
        return row, column

    def fork(row: int, column: int, reach: int) -> None:
        for across in (1, 16):
            turn = lay(row, column, across, reach)
            for along in (4, 64):
                end = lay(*turn, along, reach)
                if reach > 1:
                    fork(*end, reach // 2)

    for along in (4, 64):
        fork(*lay(*outlet, along, arm), arm // 2)
    return Grid.of(codes), outlet

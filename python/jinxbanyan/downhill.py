"""Flow followed from cell to cell: to the first outlet on the way, to where it ends, or round in a ring.

The library answers that a grid has a ring, not where; and it counts the cells of a subwatershed without naming them.
Both are found here, by following each cell's code until it comes to a cell that was followed before.
"""

from array import array
from collections.abc import Callable, Sequence
from dataclasses import dataclass

from .compass import DIRECTIONS, NULL, POND
from .grid import Grid
from .refusals import Cell

NO_OUTLET = 1
_FIRST_OUTLET = 2
_ON_THE_WAY = 2**16 - 1
_REPORT_EVERY = 2**20

_ENDS = bytes(NO_OUTLET if code in (NULL, POND) else 0 for code in range(256))


@dataclass(frozen=True)
class Followed:
    """Where the flow of each cell goes.

    names: 1 where it meets no outlet, 2 where it meets the first of the list, 3 the second, and so on, in rows that are
    wider than the grid's by one column and with one row more above and below, all of them 1.
    rings: the cells of each ring, each flowing into the next and the last into the first.
    """

    rows: int
    columns: int
    names: "array[int]"
    rings: list[tuple[Cell, ...]]

    def outlet_of(self, cell: tuple[int, int]) -> int | None:
        """The place, counted from 0, of the outlet to which a cell drains; None where there is none."""
        name = self.names[(cell[0] + 1) * (self.columns + 1) + cell[1]]
        return name - _FIRST_OUTLET if name >= _FIRST_OUTLET else None


def follow(
    grid: Grid,
    outlets: Sequence[Cell] = (),
    one_ring: bool = False,
    report: Callable[[int], None] = lambda cells: None,
) -> Followed:
    """Follows the flow of every cell of a grid of table 1, to the first ring alone where one is enough.

    report is told now and then how many cells have been gone through.
    """
    width = grid.columns + 1
    codes, moves = _bordered(grid), _moves(width)
    names = array("H", _spread(codes.translate(_ENDS)))
    for place, outlet in enumerate(outlets):
        names[(outlet.row + 1) * width + outlet.column] = place + _FIRST_OUTLET

    rings: list[tuple[Cell, ...]] = []
    reported = start = 0
    while not (one_ring and rings):
        try:
            start = names.index(0, start)
        except ValueError:
            break
        if start - reported >= _REPORT_EVERY:
            reported = start
            report(min(start, len(grid.codes)))
        trail = []
        at = start
        while not names[at]:
            names[at] = _ON_THE_WAY
            trail.append(at)
            at += moves[codes[at]]
        met = names[at]
        if met == _ON_THE_WAY:
            met = NO_OUTLET
            round_ring = trail[trail.index(at) :]
            rings.append(tuple(Cell(number // width - 1, number % width) for number in round_ring))
        for passed in trail:
            names[passed] = met
    return Followed(grid.rows, grid.columns, names, rings)


def _moves(width: int) -> list[int]:
    """How far on each code leads in rows of a width; a code of no direction leads nowhere."""
    moves = [0] * 256
    for direction in DIRECTIONS:
        moves[direction.code] = direction.south * width + direction.east
    return moves


def _bordered(grid: Grid) -> bytes:
    """The codes with a null column after each row, and a null row above and below: no step leads out of them."""
    columns = grid.columns
    border = bytes(columns + 1)
    return b"".join(
        (border, *(grid.codes[at : at + columns] + b"\0" for at in range(0, grid.rows * columns, columns)), border)
    )


def _spread(small: bytes) -> bytes:
    """Bytes as 16-bit numbers of this machine."""
    wide = bytearray(2 * len(small))
    low = array("H", [1]).tobytes().index(1)
    wide[low::2] = small
    return bytes(wide)

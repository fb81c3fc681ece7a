"""Every ring of a grid: where the flow goes round and never comes to an end."""

from collections.abc import Callable
from dataclasses import dataclass

from .compass import POND
from .downhill import follow
from .entries import convert
from .grid import Grid
from .library import call, numbers
from .refusals import Cell


@dataclass(frozen=True)
class Ring:
    """The cells of a ring: each flows into the next, and the last into the first."""

    cells: tuple[Cell, ...]


def rings(grid: Grid, report: Callable[[int], None] = lambda cells: None) -> tuple[Ring, ...]:
    """Every ring of a grid, in the order of the first cell that drains to each.

    The library confirms that none is left: with one cell of each ring made a pond, it accumulates the grid. report is
    told now and then how many cells have been gone through.
    """
    ours = convert(grid, 1)
    found = follow(ours, report=report).rings
    cut = bytearray(ours.codes)
    for cells in found:
        cut[ours.number(cells[0])] = POND
    if call("jb_accumulate", ours.rows, ours.columns, bytes(cut), numbers(len(cut))):
        raise AssertionError("a ring was overlooked")
    return tuple(map(Ring, found))

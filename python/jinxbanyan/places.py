"""Where a refusal has its cause: looked for only after the library has refused."""

from array import array
from collections.abc import Sequence
from functools import cache

from .compass import NULL
from .downhill import follow
from .grid import Grid
from .library import call, numbers
from .refusals import Cell, Place, Refused


def refusal(
    number: int,
    grid: Grid,
    outlets: Sequence[tuple[int, int]] = (),
    accumulation: "array[int] | None" = None,
    start: tuple[int, int] | None = None,
) -> Refused:
    """The refusal of a call with this grid, these outlets, this accumulation and this start, with its place."""
    place = None
    if number in (5, 12):
        place = _unknown_code(grid)
    elif number == 13:
        place = Place(follow(grid, one_ring=True).rings[0])
    elif number == 14 and accumulation is not None:
        place = _disagreement(grid, accumulation)
    elif number in (7, 16):
        place = _outlet_off_ground(grid, outlets, number)
    elif number == 17:
        place = _outlet_again(outlets)
    elif number == 22 and start is not None:
        place = Place((Cell(*start),))
    return Refused(number, place)


@cache
def _codes_of(table: int) -> bytes:
    """The bytes that the library takes as codes of a table."""
    return bytes(code for code in range(256) if call("jb_convert", table, 1, 1, 1, bytes([code]), bytearray(1)) == 0)


def _unknown_code(grid: Grid) -> Place:
    unknown = grid.codes.translate(None, _codes_of(grid.table))[0]
    return Place((grid.cell(grid.codes.index(unknown)),), found=unknown)


def _disagreement(grid: Grid, given: "array[int]") -> Place:
    """The first cell whose accumulation is not what was given; where there is a ring and so none at all, the ring."""
    due = numbers(len(grid.codes))
    if call("jb_accumulate", grid.rows, grid.columns, grid.codes, due) == 13:
        return Place(follow(grid, one_ring=True).rings[0])
    first = next(number for number, (one, other) in enumerate(zip(given, due)) if one != other)
    return Place((grid.cell(first),), found=given[first], due=due[first])


def _outlet_off_ground(grid: Grid, outlets: Sequence[tuple[int, int]], number: int) -> Place:
    """The first outlet outside the grid or, with 16, on a null cell."""
    for place, outlet in enumerate(outlets):
        at = grid.number(outlet)
        if at >= len(grid.codes) or (number == 16 and grid.codes[at] == NULL):
            return Place((Cell(*outlet),), outlet=place)
    raise AssertionError("every outlet is on the ground")


def _outlet_again(outlets: Sequence[tuple[int, int]]) -> Place:
    """The first outlet that stands in the list before."""
    place = next(place for place, outlet in enumerate(outlets) if outlet in outlets[:place])
    return Place((Cell(*outlets[place]),), outlet=place)

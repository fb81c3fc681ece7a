"""Sheets: the small files that the desk program reads, with up to 64 rows and columns and up to 256 outlets."""

from array import array
from dataclasses import dataclass

from .entries import convert
from .grid import Grid
from .library import call, numbers, results
from .places import refusal
from .refusals import Cell, Refused

_CELLS, _OUTLETS = 64 * 64, 256

# The longest file has a header, 64 rows of 64 codes, 256 outlets and an end.
_LONGEST = 6 + 64 * (4 + 64) + _OUTLETS * 6 + 2


@dataclass(frozen=True)
class Sheet:
    """A grid and the outlets on it, in order."""

    grid: Grid
    outlets: tuple[Cell, ...]


def read_sheet(file: bytes) -> Sheet:
    """The sheet that a file holds. Raises Refused with 1 to 9."""
    codes, outlets, shape = bytearray(_CELLS), numbers(_OUTLETS), results(3)
    number = call("jb_read_sheet", bytes(memoryview(file)), codes, outlets, shape)
    if number:
        raise Refused(number)
    rows, columns, count = shape
    grid = Grid(rows, columns, bytes(codes[: rows * columns]))
    return Sheet(grid, tuple(map(grid.cell, outlets[:count])))


def write_sheet(sheet: Sheet) -> bytes:
    """The file that holds a sheet. Raises Refused with 2, 3, 5, 8 or 7; a grid of table 2 or 3 is converted first."""
    grid = sheet.grid if sheet.grid.table == 1 else convert(sheet.grid, 1)
    file, size = bytearray(_LONGEST), results(1)
    outlets = array("I", map(grid.number, sheet.outlets))
    number = call("jb_write_sheet", grid.rows, grid.columns, grid.codes, outlets, file, size)
    if number:
        raise refusal(number, grid, sheet.outlets)
    return bytes(file[: size[0]])

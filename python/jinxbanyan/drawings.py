"""Sheets as text that can be typed: a line for each row of cells, a sign for each cell.

A direction is an arrow (→ ↘ ↓ ↙ ← ↖ ↑ ↗) or its letters (E SE S SW W NW N NE), null (no ground) is a point, a pond is
~, and a star after a cell marks an outlet. Letters stand apart from what is beside them; arrows and other signs need no
space between them. Outlets that are marked are taken row by row; instead they can be listed below the rows, each on a
line `outlet 2 5` of its row and column, counted from 0. Empty lines and lines that begin with # are passed over.
"""

import re
from collections.abc import Iterator

from .compass import DIRECTIONS, NULL, POND
from .faults import Unfit
from .grid import Grid
from .refusals import Cell
from .sheets import Sheet

OUTLET_MARK = "*"
_NULL_SIGN, _POND_SIGN = ".", "~"
_SIGNS = {direction.arrow: direction.code for direction in DIRECTIONS} | {_NULL_SIGN: NULL, _POND_SIGN: POND}
_LETTERS = {direction.name: direction.code for direction in DIRECTIONS}
_SIGN_OF = {code: sign for sign, code in _SIGNS.items()}
_READ = _SIGNS | _LETTERS
_LETTERS_OF = _SIGN_OF | {code: letters for letters, code in _LETTERS.items()}

# What an editor or a telephone may put in a text: marks that are not seen, and straight arrows of its own.
_ODD_SIGNS = dict.fromkeys(map(ord, "\ufeff\ufe0e\ufe0f\u200b\u200d")) | str.maketrans("➡⬇⬅⬆", "→↓←↑")

# A cell in a line: letters to the end of their word, or any other sign, and the mark of an outlet.
_CELL = re.compile(r"\s*([A-Za-z]+|\S)(\*?)")
_OUTLET = re.compile(r"outlet\s+(\d{1,9})\s+(\d{1,9})\s*")


def read_drawing(text: str) -> Sheet:
    """The sheet that a text draws. Raises Unfit, with the line, where a line cannot be read."""
    codes: list[bytes] = []
    marked: list[Cell] = []
    listed: list[Cell] = []
    for number, line in enumerate(text.translate(_ODD_SIGNS).splitlines(), 1):
        line = line.strip()
        if not line or line.startswith("#"):
            continue
        if line.lower().startswith("outlet"):
            listed.append(_listed_outlet(number, line.lower()))
            continue
        if listed:
            raise Unfit(f"line {number}: a row of cells after the list of outlets")
        cells = list(_cells_in(number, line))
        if codes and len(cells) != len(codes[0]):
            raise Unfit(f"line {number}: the number of cells is {len(cells)}, in the rows above {len(codes[0])}")
        marked += [Cell(len(codes), column) for column, (_, outlet) in enumerate(cells) if outlet]
        codes.append(bytes(code for code, _ in cells))
    if not codes:
        raise Unfit("the drawing has no row of cells")
    if marked and listed:
        raise Unfit("outlets are both marked and listed: the order would not be clear")
    return Sheet(Grid(len(codes), len(codes[0]), b"".join(codes)), tuple(_inside(codes, marked or listed)))


def write_drawing(sheet: Sheet, letters: bool = False) -> str:
    """The text that draws a sheet. Outlets are marked where row by row is their order, and else listed."""
    signs = _LETTERS_OF if letters else _SIGN_OF
    width = max(map(len, signs.values())) + (1 if letters else 0)
    in_order = list(sheet.outlets) == sorted(set(sheet.outlets))
    marked = set(sheet.outlets) if in_order else set()
    lines = []
    for row in range(sheet.grid.rows):
        cells = ""
        for column in range(sheet.grid.columns):
            sign = signs[sheet.grid.codes[sheet.grid.number((row, column))]]
            cells += (sign + (OUTLET_MARK if (row, column) in marked else "")).ljust(width + 1)
        lines.append(cells.rstrip())
    if not in_order:
        lines += [f"outlet {outlet.row} {outlet.column}" for outlet in sheet.outlets]
    return "".join(line + "\n" for line in lines)


def _cells_in(number: int, line: str) -> Iterator[tuple[int, bool]]:
    """The code of each cell in a line, and whether it is marked as an outlet."""
    for sign, mark in _CELL.findall(line):
        code = _READ.get(sign.upper())
        if code is None:
            hint = ", and letters of two cells need a space between them" if len(sign) > 1 else ""
            hint = hint or ("; it stands right after its cell" if sign == OUTLET_MARK else "")
            raise Unfit(f"line {number}: {sign} is neither a direction nor null nor a pond{hint}")
        yield code, bool(mark)


def _listed_outlet(number: int, line: str) -> Cell:
    found = _OUTLET.fullmatch(line)
    if not found:
        raise Unfit(f"line {number}: an outlet is listed as `outlet ROW COLUMN`, both counted from 0")
    return Cell(int(found[1]), int(found[2]))


def _inside(codes: list[bytes], outlets: list[Cell]) -> Iterator[Cell]:
    for place, outlet in enumerate(outlets, 1):
        if outlet.row >= len(codes) or outlet.column >= len(codes[0]):
            raise Unfit(f"outlet {place} at {outlet} is outside the {len(codes)} rows of {len(codes[0])} cells")
        yield outlet

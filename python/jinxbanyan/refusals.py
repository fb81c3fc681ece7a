"""Cells, and what the library refuses: in words, and where on the grid the fault is."""

from dataclasses import dataclass
from typing import NamedTuple


class Cell(NamedTuple):
    """A cell of a grid: its row from the north and its column from the west, both counted from 0."""

    row: int
    column: int

    def __str__(self) -> str:
        return f"row {self.row} column {self.column}"


WORDS = {
    1: "the file does not begin as a sheet does",
    2: "a sheet has 1 to 64 rows and 1 to 64 columns",
    3: "not enough room for the codes or the outlets of a sheet",
    4: "a row of the sheet is cut short or out of turn",
    5: "a code of the sheet is neither a flow direction nor null nor a pond",
    6: "after the rows of the sheet comes neither a whole outlet nor its end",
    7: "an outlet is outside the grid",
    8: "a sheet has at most 256 outlets",
    9: "something follows the end of the sheet",
    10: "a grid has 1 to 4,096 rows and 1 to 4,096 columns",
    11: "a grid has fewer values than cells",
    12: "a code of the grid is neither a flow direction nor null nor a pond of its table",
    13: "the flow comes back to a cell",
    14: "the flow accumulation given is not that of the grid",
    15: "there must be 1 to 256 outlets",
    16: "an outlet is outside the grid or on a null cell",
    17: "two outlets are in the same cell",
    18: "the list of outlets has no such place",
    19: "more than 4,096 cells drain to the outlet, too many for recursion",
    20: "the working space is too small",
    21: "the list is too short for the longest flow paths",
    22: "the start is not in the outlet's subwatershed",
    23: "not enough room for the flow path, the sheet or the counts",
    24: "the table of codes must be 1, 2 or 3",
    25: "the edition must be 1 or 2",
}
"""What is wrong, by the number that the library answers."""

_SHOWN = 6


@dataclass(frozen=True)
class Place:
    """Where a refusal has its cause.

    cells: the cell at fault, or the cells of a ring, each flowing into the next and the last into the first.
    outlet: the place of the outlet at fault in the list of outlets, counted from 0.
    found: what stands there: with 5 and 12 the code, with 14 the accumulation that was given.
    due: with 14, the grid's own accumulation there.
    """

    cells: tuple[Cell, ...] = ()
    outlet: int | None = None
    found: float | None = None
    due: int | None = None

    def __str__(self) -> str:
        text = ", ".join(str(cell) for cell in self.cells[:_SHOWN])
        if len(self.cells) > _SHOWN:
            text += f" and {len(self.cells) - _SHOWN} more"
        if len(self.cells) > 1:
            text = f"a ring of {len(self.cells)} cells, {text}"
        if self.outlet is not None:
            text = f"outlet {self.outlet + 1}" + (f" at {text}" if text else "")
        if self.found is not None:
            text += f" has {self.found}"
        if self.due is not None:
            text += f" instead of {self.due}"
        return text


class Refused(Exception):
    """A call was refused: number, words, and where the fault is, as far as it has a place on the grid."""

    def __init__(self, number: int, place: Place | None = None) -> None:
        self.number = number
        self.words = WORDS[number]
        self.place = place
        super().__init__(number, place)

    def __str__(self) -> str:
        where = f": {self.place}" if self.place else ""
        return f"refused {self.number}: {self.words}{where}"

"""The library's functions over a grid and its outlets. Each raises Refused where the library refuses."""

from array import array
from collections.abc import Iterable
from dataclasses import dataclass
from operator import index
from typing import TYPE_CHECKING, Any, Union

from .grid import Grid, Length, NumberGrid
from .library import call, numbers, results
from .places import refusal
from .refusals import Cell

if TYPE_CHECKING:
    from .grid import NumpyArray

Numbers = Union[NumberGrid, "array[int]", Iterable[int], "NumpyArray"]
"""Numbers of the cells of a grid, row by row: a grid of them, a numpy array, or any list."""


@dataclass(frozen=True)
class FlowLengths:
    """Two lengths of each cell: down to its outlet, and up to the farthest cell of the same subwatershed above it.

    Each is a grid of straight and one of diagonal steps. A cell of no subwatershed has 0 in all four.
    """

    down_straight: NumberGrid
    down_diagonal: NumberGrid
    up_straight: NumberGrid
    up_diagonal: NumberGrid

    def downstream(self, cell: tuple[int, int]) -> Length:
        """The length from a cell down to its outlet."""
        return Length(self.down_straight[cell], self.down_diagonal[cell])

    def upstream(self, cell: tuple[int, int]) -> Length:
        """The length from the farthest cell above, in the same subwatershed, down to this one."""
        return Length(self.up_straight[cell], self.up_diagonal[cell])


@dataclass(frozen=True)
class FlowPath:
    """The cells of a flow path, from its start down to the outlet."""

    cells: tuple[Cell, ...]


@dataclass(frozen=True)
class Ground:
    """A grid in table 1, its accumulation and the outlets on it, as the library takes them."""

    grid: Grid
    accumulation: "array[int]"
    outlets: tuple[Cell, ...]

    def call(self, name: str, *others: Any, first: tuple[Any, ...] = (), start: Cell | None = None) -> None:
        """Calls a function of the library with its first arguments, the ground and the others. Raises Refused."""
        grid = self.grid
        outlets = array("I", map(grid.number, self.outlets))
        number = call(name, *first, grid.rows, grid.columns, grid.codes, self.accumulation, outlets, *others)
        if number:
            raise refusal(number, grid, self.outlets, self.accumulation, start)

    def places(self) -> "array[int]":
        """A number for each cell, all 0."""
        return numbers(len(self.grid.codes))

    def most_cells(self, outlets: Iterable[Cell]) -> int:
        """As many cells as any of these outlets can have: those that drain to it, by way of other outlets too."""
        at = [self.grid.number(outlet) for outlet in outlets]
        drained = [self.accumulation[number] for number in at if number < len(self.accumulation)]
        return min(max(drained, default=0), len(self.grid.codes))

    def with_numbers(self, of_cells: "array[int]") -> NumberGrid:
        """Numbers of the cells as a grid."""
        return NumberGrid(self.grid.rows, self.grid.columns, of_cells)


def ground(grid: Grid, outlets: Iterable[tuple[int, int]], accumulation: Numbers | None) -> Ground:
    """What every function with outlets takes. The accumulation is made where none is given, and a ring refused then."""
    ours = _in_table_1(grid)
    made = accumulate(ours) if accumulation is None else accumulation
    return Ground(ours, _as_numbers(made), tuple(Cell(*map(index, outlet)) for outlet in outlets))


def _in_table_1(grid: Grid) -> Grid:
    return grid if grid.table == 1 else convert(grid, 1)


def _as_numbers(given: Numbers) -> "array[int]":
    if isinstance(given, NumberGrid):
        return given.numbers
    if isinstance(given, array) and given.typecode == "I":
        return given
    if not hasattr(given, "__array_interface__"):
        return array("I", given)
    import numpy

    wanted = numpy.asarray(given)
    with numpy.errstate(invalid="ignore"):
        as_numbers = wanted.astype(numpy.uint32)
    if (as_numbers != wanted).any():
        raise OverflowError("an accumulation has whole numbers of 32 bits")
    return array("I", as_numbers.tobytes())


def convert(grid: Grid, table: int) -> Grid:
    """The same directions as codes of another table: 1 ArcGIS, 2 GRASS, 3 RichDEM."""
    converted = bytearray(len(grid.codes))
    number = call("jb_convert", grid.table, table, grid.rows, grid.columns, grid.codes, converted)
    if number:
        raise refusal(number, grid)
    return Grid(grid.rows, grid.columns, bytes(converted), table)


def accumulate(grid: Grid) -> NumberGrid:
    """The flow accumulation: how many cells drain to each cell, itself counted; 0 at a null cell."""
    ours = _in_table_1(grid)
    accumulation = numbers(len(ours.codes))
    number = call("jb_accumulate", ours.rows, ours.columns, ours.codes, accumulation)
    if number:
        raise refusal(number, ours)
    return NumberGrid(ours.rows, ours.columns, accumulation)


def subaccumulate(grid: Grid, outlets: Iterable[tuple[int, int]], accumulation: Numbers | None = None) -> NumberGrid:
    """The accumulation without the cells above other outlets. At an outlet it is the size of its subwatershed."""
    on = ground(grid, outlets, accumulation)
    subaccumulation = on.places()
    on.call("jb_subaccumulate", subaccumulation)
    return on.with_numbers(subaccumulation)


def flow_lengths(grid: Grid, outlets: Iterable[tuple[int, int]], accumulation: Numbers | None = None) -> FlowLengths:
    """The downstream and the upstream length of every cell."""
    on = ground(grid, outlets, accumulation)
    four = [on.places() for _ in range(4)]
    on.call("jb_flow_lengths", *four)
    return FlowLengths(*map(on.with_numbers, four))


def draw(
    grid: Grid,
    outlets: Iterable[tuple[int, int]],
    place: int,
    start: tuple[int, int],
    accumulation: Numbers | None = None,
) -> FlowPath:
    """The flow path from a start to the outlet at a place of the list, counted from 0."""
    on = ground(grid, outlets, accumulation)
    path, drawn = numbers(on.most_cells(on.outlets[place : place + 1])), results(1)
    on.call("jb_draw", place, on.grid.number(start), path, drawn, start=Cell(*start))
    return FlowPath(tuple(map(on.grid.cell, path[: drawn[0]])))

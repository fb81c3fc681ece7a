"""The longest flow paths of a large grid: traced outlet by outlet, and drawn in windows of the grid."""

from collections.abc import Iterator, Sequence
from dataclasses import dataclass

from .entries import FlowPath, draw
from .grid import Grid, NumberGrid
from .progress import counter, stage
from .refusals import Cell
from .tracing import OutletTraced, trace


@dataclass(frozen=True)
class Window:
    """Some rows and columns of a grid, from the first to before the last."""

    top: int
    left: int
    bottom: int
    right: int

    @property
    def cells(self) -> int:
        """How many cells it has."""
        return (self.bottom - self.top) * (self.right - self.left)

    def cut(self, grid: Grid) -> Grid:
        """The part of a grid that it shows."""
        firsts = range(self.top * grid.columns, self.bottom * grid.columns, grid.columns)
        codes = b"".join(grid.codes[first + self.left : first + self.right] for first in firsts)
        return Grid(self.bottom - self.top, self.right - self.left, codes, grid.table)

    def inside(self, cell: Cell) -> Cell:
        """A cell of the grid by its row and column in the window."""
        return Cell(cell.row - self.top, cell.column - self.left)

    def outside(self, cell: Cell) -> Cell:
        """A cell of the window by its row and column in the grid."""
        return Cell(cell.row + self.top, cell.column + self.left)


def window_of(grid: Grid, start: Cell, outlet: Cell, steps: int) -> Window:
    """What a path of so many steps can reach between start and outlet: each moves a row and a column at most."""

    def reach(one: int, other: int, end: int) -> tuple[int, int]:
        return max((one + other - steps) // 2, 0), min((one + other + steps) // 2 + 1, end)

    top, bottom = reach(start.row, outlet.row, grid.rows)
    left, right = reach(start.column, outlet.column, grid.columns)
    return Window(top, left, bottom, right)


def draw_path(grid: Grid, accumulation: NumberGrid, traced: OutletTraced, start: Cell) -> FlowPath:
    """A longest path of an outlet.

    The library tests every cell that it is given, so it is given a window that the path cannot leave; other flow may
    end at its border. The path meets no outlet before this one, which is therefore listed alone. A window of more than
    a quarter of the grid saves no time: then the whole grid is given, with its accumulation.
    """
    window = window_of(grid, start, traced.outlet, traced.length.straight + traced.length.diagonal)
    if 4 * window.cells > grid.rows * grid.columns:
        return draw(grid, [traced.outlet], 0, start, accumulation)
    drawn = draw(window.cut(grid), [window.inside(traced.outlet)], 0, window.inside(start))
    return FlowPath(tuple(map(window.outside, drawn.cells)))


def draw_paths(
    grid: Grid, accumulation: NumberGrid, outlets: Sequence[OutletTraced]
) -> Iterator[tuple[OutletTraced, FlowPath]]:
    """Every longest path of every outlet, each drawn when it is asked for."""
    tell = counter("drawing paths", sum(traced.paths for traced in outlets))
    drawn = 0
    for traced in outlets:
        for start in traced.starts:
            yield traced, draw_path(grid, accumulation, traced, start)
            drawn += 1
            tell(drawn)


def trace_outlets(
    grid: Grid, outlets: Sequence[Cell], edition: int, dropping: bool, accumulation: NumberGrid
) -> tuple[OutletTraced, ...]:
    """Traces every outlet: in one call, or without dropping in a call for each, to tell how many are done."""
    if dropping or not outlets:
        with stage("tracing"):
            return trace(grid, outlets, None, edition, dropping, accumulation).outlets
    tell = counter("tracing outlets", len(outlets))
    traced: list[OutletTraced] = []
    for place in range(len(outlets)):
        traced += trace(grid, outlets, place, edition, dropping, accumulation).outlets
        tell(place + 1)
    return tuple(traced)

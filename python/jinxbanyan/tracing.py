"""All longest flow paths to one outlet or to all, ties included."""

from array import array
from collections.abc import Callable, Iterable
from ctypes import c_size_t
from dataclasses import dataclass

from .entries import Ground, Numbers, flow_lengths, ground
from .grid import Grid, Length, NumberGrid
from .library import call, numbers, results
from .refusals import Cell, Refused

_WORK_EACH = 3
_FEW_STARTS = 2**12


@dataclass(frozen=True)
class OutletTraced:
    """What drains to one outlet, and its longest flow paths.

    place: that of the outlet in the list, counted from 0.
    cells: how many cells its subwatershed has.
    length: that of each longest path, in straight and diagonal steps.
    starts: where the longest paths start, all of them, in the order in which their paths part above the outlet.
    """

    place: int
    outlet: Cell
    cells: int
    length: Length
    starts: tuple[Cell, ...]

    @property
    def paths(self) -> int:
        """How many longest paths there are: more than one where paths tie."""
        return len(self.starts)


@dataclass(frozen=True)
class Tracing:
    """What was traced, outlet by outlet, and how many cells the search visited and dropped over all of them."""

    edition: int
    subaccumulation: NumberGrid
    outlets: tuple[OutletTraced, ...]
    visited: int
    dropped: int


def trace(
    grid: Grid,
    outlets: Iterable[tuple[int, int]],
    place: int | None = None,
    edition: int = 1,
    dropping: bool = True,
    accumulation: Numbers | None = None,
) -> Tracing:
    """Traces all longest flow paths to the outlet at a place of the list, counted from 0, or to every outlet.

    By edition 1 a path may start at any cell, by edition 2 on the divide alone. With dropping, side valleys that cannot
    hold a longest path are left out: the paths are the same, and fewer cells are visited. Where no accumulation is
    given it is made, so that a ring is refused before the edition is.
    """
    on = ground(grid, outlets, accumulation)
    if place is not None:
        return _trace_one(on, on.places(), place, edition, dropping)
    if dropping:
        return _trace_all(on, edition)
    # Without an outlet the library is asked for the first all the same, and refuses.
    subaccumulation = on.places()
    each = [_trace_one(on, subaccumulation, at, edition, dropping) for at in range(len(on.outlets) or 1)]
    return Tracing(
        edition,
        on.with_numbers(subaccumulation),
        tuple(one.outlets[0] for one in each),
        sum(one.visited for one in each),
        sum(one.dropped for one in each),
    )


def _trace_one(on: Ground, subaccumulation: "array[int]", place: int, edition: int, dropping: bool) -> Tracing:
    found = results(5)
    work = numbers(_WORK_EACH * on.most_cells(on.outlets[place : place + 1]))

    def list_starts(starts: "array[int]") -> None:
        on.call("jb_trace_by_stack", place, dropping, subaccumulation, starts, work, found, first=(edition,))

    starts = _with_room(list_starts, lambda: found[2])
    straight, diagonal, paths, visited, dropped = found
    traced = _traced(on, place, subaccumulation, Length(straight, diagonal), starts[:paths])
    return Tracing(edition, on.with_numbers(subaccumulation), (traced,), visited, dropped)


def _trace_all(on: Ground, edition: int) -> Tracing:
    subaccumulation, counts, sums = on.places(), numbers(len(on.outlets)), results(2)
    work = numbers(_WORK_EACH * on.most_cells(on.outlets))

    def list_starts(starts: "array[int]") -> None:
        on.call("jb_trace_all", subaccumulation, starts, counts, work, sums, first=(edition,))

    starts = _with_room(list_starts, lambda: len(on.grid.codes))
    lengths = flow_lengths(on.grid, on.outlets, on.accumulation)
    traced = []
    for place in range(len(on.outlets)):
        part = (c_size_t * 2)()
        call("jb_starts_of", starts, counts, place, part)
        own = starts[part[0] : part[0] + part[1]]
        traced.append(_traced(on, place, subaccumulation, lengths.downstream(on.grid.cell(own[0])), own))
    return Tracing(edition, on.with_numbers(subaccumulation), tuple(traced), *sums)


def _with_room(list_starts: "Callable[[array[int]], None]", enough: Callable[[], int]) -> "array[int]":
    """The starts that a call lists: in a few places first and, where these are too few, in enough."""
    starts = numbers(_FEW_STARTS)
    try:
        list_starts(starts)
    except Refused as refused:
        if refused.number != 21:
            raise
        starts = numbers(enough())
        list_starts(starts)
    return starts


def _traced(
    on: Ground, place: int, subaccumulation: "array[int]", length: Length, starts: "array[int]"
) -> OutletTraced:
    outlet = on.outlets[place]
    cells = subaccumulation[on.grid.number(outlet)]
    return OutletTraced(place, outlet, cells, length, tuple(map(on.grid.cell, starts)))

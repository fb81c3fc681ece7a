"""Outlets on a raster: the cells that hold points of the map."""

from math import inf, isfinite
from typing import Any

from .faults import Unfit, Unready
from .points import Point, Points
from .rasters import Raster, needed, position, rasterio_at_work
from .refusals import Cell


def outlets_at(points: Points, raster: Raster, named: str | None = None) -> tuple[Cell, ...]:
    """The cells that hold the points.

    named is the coordinate system of the points. Without it they are in the system that their file names and, where it
    names none, in the raster's.
    """
    moved = points.points
    if named is not None or points.crs is not None:
        moved = _moved(points, raster, named)
    cells = []
    for number, (point, at) in enumerate(zip(points.points, moved), 1):
        cell = raster.cell_at(at.x, at.y)
        if cell is None:
            raise Unfit(_outside(_in_words(number, point), point, at, raster))
        cells.append(cell)
    return tuple(cells)


def _in_words(number: int, point: Point) -> str:
    name = "" if point.name is None else f" ({point.name})"
    return f"outlet {number}{name} at {position(point.x, point.y)}"


def _outside(outlet: str, point: Point, at: Point, raster: Raster) -> str:
    west, south, east, north = raster.extent
    if at is point:
        advice = "; --outlets-crs names the coordinate system of outlets that are in another one"
    else:
        outlet, advice = f"{outlet}, in the raster's coordinates {position(at.x, at.y)},", ""
    extent = f"x from {west:.12g} to below {east:.12g} and y from {north:.12g} to above {south:.12g}"
    return f"{outlet} is outside the raster, which has {extent}{advice}"


def _moved(points: Points, raster: Raster, named: str | None) -> tuple[Point, ...]:
    """The points in the raster's coordinates."""
    with rasterio_at_work():
        system = _system(named, points.crs)
        if raster.crs is None:
            raise Unfit(f"the outlets are in {system}, and the raster names no coordinate system: give it one first")
        if system == raster.crs:
            return points.points
        return tuple(_in_system(number, point, system, raster.crs) for number, point in enumerate(points.points, 1))


def _system(named: str | None, of_file: str | None) -> Any:
    crs_error = needed("rasterio.errors").CRSError
    try:
        return needed("rasterio.crs").CRS.from_user_input(of_file if named is None else named)
    except crs_error as fault:
        if named is not None:
            raise Unready(f"--outlets-crs {named} is no coordinate system that is known here") from fault
        raise Unfit(f"the outlets are in {of_file}, a coordinate system that is not known here") from fault


def _in_system(number: int, point: Point, old: Any, new: Any) -> Point:
    transform = needed("rasterio.warp").transform
    try:
        (x,), (y,) = transform(old, new, [point.x], [point.y])
    except Exception:  # rasterio has no public class for what PROJ refuses
        x = y = inf
    if not (isfinite(x) and isfinite(y)):
        raise Unfit(f"{_in_words(number, point)} has no place in the raster's coordinate system")
    return Point(x, y, point.name)

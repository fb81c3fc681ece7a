"""The parts of the command that are about rasters: trace and rings."""

import argparse
from collections.abc import Iterator, Sequence
from typing import Any

from .entries import accumulate, flow_lengths
from .faults import Unready
from .grid import Grid, NumberGrid
from .maps import Line, path_line, ring_line, write_lines
from .outlets import outlets_at
from .outputs import check_outputs
from .paths import draw_paths, trace_outlets
from .plot import Picture
from .points import Points, read_points
from .progress import counter, say, stage
from .rasters import Raster, check_square, needed, on_map, position, read_raster, write_raster
from .refusals import Cell
from .rings import rings
from .sheet_parts import add_edition_to
from .sheets import read_sheet
from .tracing import OutletTraced

_LENGTHS = ("down_straight", "down_diagonal", "up_straight", "up_diagonal")
_SHEET = b"D8"
_MORE_THAN_A_SHEET = 2**16

_DIRECTIONS = """flow directions: the first band of a GeoTIFF, an ESRI ASCII grid or another raster that GDAL reads,
north up, at most 4,096 rows and columns; cells without data are null"""
_TABLE = """the table of the codes: 1 ArcGIS, powers of two clockwise from east; 2 GRASS, 1 to 8 counter-clockwise from
north-east; 3 RichDEM, 1 to 8 clockwise from west; 0 is null and 255 a closed pond in each"""
_TRACE = """For each outlet: how many cells its subwatershed has, and all its longest flow paths, ties included. A line
is printed for each outlet, counted from 1, with its row and column, counted from 0; and each longest flow path is
written as a line of GeoJSON through the centres of its cells."""
_RINGS = """Every ring of the flow directions, where the flow goes round and comes to no end: its cells by row and
column, counted from 0, and on the map. Each cell flows into the next and the last into the first. The exit status is 0
whether there are rings or not."""


def add_to(parts: "argparse._SubParsersAction[Any]") -> None:
    """Adds trace and rings."""
    _add_trace(parts)
    _add_rings(parts)


def _add_trace(parts: "argparse._SubParsersAction[Any]") -> None:
    part = parts.add_parser("trace", help="all longest flow paths to the outlets of a raster", description=_TRACE)
    part.set_defaults(carry_out=_trace)
    part.add_argument("directions", metavar="DIRECTIONS", help=f"{_DIRECTIONS}; cells must be square")
    part.add_argument(
        "--outlets",
        metavar="POINTS",
        required=True,
        help="points of GeoJSON, or a table (CSV) with columns x and y, easting and northing, or lon and lat, and"
        " perhaps name; in the raster's coordinates, unless the GeoJSON names others",
    )
    part.add_argument("--table", metavar="N", type=int, choices=(1, 2, 3), required=True, help=_TABLE)
    part.add_argument("--out", metavar="PATHS.geojson", required=True, help="where the longest flow paths are written")
    add_edition_to(part)
    part.add_argument(
        "--no-dropping",
        dest="dropping",
        action="store_false",
        help="search the side valleys too that cannot hold a longest path: slower, with the same paths",
    )
    part.add_argument(
        "--outlets-crs",
        metavar="CRS",
        help="the coordinate system of the outlets where it is not the raster's, such as EPSG:4326",
    )
    files = ", ".join(f"PREFIX_{name}.tif" for name in _LENGTHS)
    part.add_argument(
        "--lengths",
        metavar="PREFIX",
        help=f"write the flow lengths of every cell, in steps, 0 where it drains to no outlet, to {files}",
    )
    part.add_argument("--picture", metavar="FILE.png", help="draw the subwatersheds and the longest flow paths")


def _add_rings(parts: "argparse._SubParsersAction[Any]") -> None:
    part = parts.add_parser("rings", help="every ring of a raster or of a sheet", description=_RINGS)
    part.set_defaults(carry_out=_rings)
    part.add_argument("directions", metavar="DIRECTIONS", help=f"a sheet, or {_DIRECTIONS}")
    table = f"needed for a raster, {_TABLE}"
    part.add_argument("--table", metavar="N", type=int, choices=(1, 2, 3), help=table)
    part.add_argument("--out", metavar="RINGS.geojson", help="write the rings of a raster as closed lines of GeoJSON")


def _read(given: argparse.Namespace, outputs: Sequence[str]) -> Raster:
    """The directions, of whose files none is to be written: a virtual raster has others than the one that is named."""
    with stage("reading"):
        raster = read_raster(given.directions, given.table)
    check_outputs(raster.files, outputs)
    return raster


def _trace(given: argparse.Namespace) -> None:
    lengths = {} if given.lengths is None else {name: f"{given.lengths}_{name}.tif" for name in _LENGTHS}
    pictures = [] if given.picture is None else [given.picture]
    outputs = [given.out, *lengths.values(), *pictures]
    check_outputs([given.directions, given.outlets], outputs)
    if not all(picture.lower().endswith(".png") for picture in pictures):
        raise Unready(f"{given.picture} is to be a PNG: give it a name that ends so")
    if pictures:
        needed("matplotlib")
    points = read_points(given.outlets)
    raster = _read(given, outputs)
    check_square(given.directions, raster)
    if raster.crs and raster.crs.is_geographic:
        say("warning: the raster is in degrees and so are the lengths: project it first to have them on the ground")
    outlets = outlets_at(points, raster, given.outlets_crs)
    with on_map(raster.transform):
        with stage("accumulating"):
            accumulation = accumulate(raster.grid)
        traced = trace_outlets(raster.grid, outlets, given.edition, given.dropping, accumulation)

    picture = Picture(raster) if pictures else None
    with stage("drawing paths"):
        write_lines(given.out, raster, _path_lines(raster, accumulation, points, traced, picture))
    if lengths:
        _write_lengths(raster, outlets, accumulation, lengths)
    if picture:
        with stage("making the picture"):
            picture.write(given.picture, traced)
    for one in traced:
        print(_outlet_line(one))


def _path_lines(
    raster: Raster, accumulation: NumberGrid, points: Points, traced: Sequence[OutletTraced], picture: Picture | None
) -> Iterator[Line]:
    """Each longest path, which is put in the picture too if there is one."""
    for one, path in draw_paths(raster.grid, accumulation, traced):
        if picture:
            picture.add(one, path)
        yield path_line(one, points.points[one.place].name, path, raster.side)


def _write_lengths(raster: Raster, outlets: Sequence[Cell], accumulation: NumberGrid, files: dict[str, str]) -> None:
    with stage("measuring every cell"):
        lengths = flow_lengths(raster.grid, outlets, accumulation)
    with stage("writing lengths"):
        for name, file in files.items():
            write_raster(file, raster, getattr(lengths, name))


def _outlet_line(traced: OutletTraced) -> str:
    length = f"straight {traced.length.straight} diagonal {traced.length.diagonal}"
    at = f"{traced.outlet.row} {traced.outlet.column}"
    return f"outlet {traced.place + 1} at {at} cells {traced.cells} {length} paths {traced.paths}"


def _rings(given: argparse.Namespace) -> None:
    raster = None
    grid = _grid_of_sheet(given)
    if grid is None:
        raster = _raster_for_rings(given)
        grid = raster.grid
    found = rings(grid, counter("following cells", grid.rows * grid.columns))
    if raster and given.out is not None:
        with stage("writing rings"):
            write_lines(given.out, raster, (ring_line(*numbered) for numbered in enumerate(found, 1)))
    print(f"rings {len(found)}")
    for number, ring in enumerate(found, 1):
        print(f"ring {number} cells {len(ring.cells)}")
        for cell in ring.cells:
            at = f" at {position(*raster.centre(cell))}" if raster else ""
            print(f"cell {cell.row} {cell.column}{at}")


def _grid_of_sheet(given: argparse.Namespace) -> Grid | None:
    """The grid of a sheet; None where the file does not begin as a sheet does."""
    try:
        with open(given.directions, "rb") as opened:
            file = opened.read(_MORE_THAN_A_SHEET)
    except OSError:
        return None
    if not file.startswith(_SHEET):
        return None
    if given.table not in (None, 1):
        raise Unready(f"{given.directions} is a sheet, and a sheet has table 1")
    if given.out is not None:
        raise Unready(f"{given.directions} is a sheet, which has no place on the map: --out is for rasters")
    return read_sheet(file).grid


def _raster_for_rings(given: argparse.Namespace) -> Raster:
    outputs = [] if given.out is None else [given.out]
    check_outputs([given.directions], outputs)
    if given.table is None:
        raise Unready(
            "a raster needs --table 1, 2 or 3: the tables share codes, so that none can be told from the file"
        )
    return _read(given, outputs)

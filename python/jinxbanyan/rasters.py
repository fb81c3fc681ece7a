"""Rasters of flow directions on the map, read by rasterio, and grids of numbers written as GeoTIFF."""

import os
import sys
import warnings
from collections.abc import Iterator
from contextlib import contextmanager
from dataclasses import dataclass
from importlib import import_module
from math import isclose, isfinite
from typing import Any

from .compass import NULL
from .entries import convert
from .faults import Unfit, Unready
from .grid import Grid, NumberGrid
from .library import call, numbers
from .outputs import whole
from .progress import say
from .refusals import Cell, Refused

Transform = tuple[float, float, float, float, float, float]
"""The place on the map: x is a * column + b * row + c, and y is d * column + e * row + f."""

_UNPLACED: Transform = (1.0, 0.0, 0.0, 0.0, 1.0, 0.0)
_SQUARE = _EDGE = 1e-6
_INSTALL = "install Debian's python3-rasterio python3-numpy python3-matplotlib, or run pip install rasterio matplotlib"


@dataclass(frozen=True)
class Raster:
    """Flow directions on the map, north up.

    grid: the directions in table 1.
    crs: the coordinate system as rasterio has it; None where the file names none.
    files: the files that it was read from.
    """

    grid: Grid
    transform: Transform
    crs: Any | None
    files: tuple[str, ...] = ()

    @property
    def side(self) -> float:
        """The side of a cell in map units, where cells are square."""
        return self.transform[0]

    @property
    def extent(self) -> tuple[float, float, float, float]:
        """The western, southern, eastern and northern edge."""
        width, _, west, _, height, north = self.transform
        return west, north + self.grid.rows * height, west + self.grid.columns * width, north

    def centre(self, cell: tuple[int, int]) -> tuple[float, float]:
        """The x and y of a cell's centre."""
        return _centre(self.transform, cell)

    def cell_at(self, x: float, y: float) -> Cell | None:
        """The cell that holds a point, its western and northern edge counted; None outside the raster.

        A point within a millionth of a cell from an edge is on it, since edges are seldom exact in decimals.
        """
        width, _, west, _, height, north = self.transform
        row, column = _on_edge((y - north) / height), _on_edge((x - west) / width)
        inside = 0 <= row < self.grid.rows and 0 <= column < self.grid.columns
        return Cell(int(row), int(column)) if inside else None


def position(x: float, y: float) -> str:
    """A place on the map in words."""
    return f"{x:.12g} {y:.12g}"


def needed(module: str) -> Any:
    """A module that is imported only where it is needed. Raises Unready."""
    try:
        return import_module(module)
    except ImportError as missing:
        name = module.partition(".")[0]
        raise Unready(f"this needs {name}, which {sys.executable} has not: {_INSTALL}") from missing


@contextmanager
def rasterio_at_work(**settings: Any) -> Iterator[Any]:
    """rasterio, with what GDAL would write on standard error held back: faults are raised besides."""
    rasterio = needed("rasterio")
    with rasterio.Env(**settings), warnings.catch_warnings():
        warnings.simplefilter("ignore", rasterio.errors.NotGeoreferencedWarning)
        yield rasterio


@contextmanager
def on_map(transform: Transform) -> Iterator[None]:
    """A refusal that has a place on the grid tells its place on the map too."""
    try:
        yield
    except Refused as refused:
        if refused.place is None or not refused.place.cells or transform == _UNPLACED:
            raise
        first = refused.place.cells[0]
        advice = "; jinxbanyan rings lists every ring" if refused.number == 13 else ""
        raise Unfit(f"{refused}; {first} is at {position(*_centre(transform, first))} on the map{advice}") from refused


def read_raster(path: str, table: int) -> Raster:
    """The flow directions in the first band of a raster file, in the codes of a table. Cells without data are null."""
    with rasterio_at_work() as rasterio, _opened(rasterio, path) as dataset:
        if not dataset.count:
            inside = "".join(f"; it holds rasters, such as {name}" for name in dataset.subdatasets[:1])
            raise Unfit(f"{path} has no band of its own{inside}")
        if call("jb_accumulate", dataset.height, dataset.width, b"", numbers(0)) == 10:
            raise Refused(10)
        a, b, c, d, e, f = dataset.transform[:6]
        transform = (a, b, c, d, e, f)
        crs, files = dataset.crs or None, tuple(dataset.files)
        band = dataset.read(1, masked=True)
    if band.dtype.kind == "c":
        raise Unfit(f"{path} has complex numbers in place of codes")
    with on_map(transform):
        grid = convert(Grid.of(band.filled(NULL), table), 1)
    _check_north_up(path, transform)
    return Raster(grid, transform, crs, files)


@contextmanager
def _opened(rasterio: Any, path: str) -> Iterator[Any]:
    """A raster file. One that is there and cannot be read is unfit."""
    try:
        with rasterio.open(path) as dataset:
            yield dataset
    except rasterio.errors.RasterioIOError as fault:
        if not os.access(path, os.R_OK):
            raise
        raise Unfit(f"{path} cannot be read as a raster: {fault}") from fault


def check_square(path: str, raster: Raster) -> None:
    """Lengths are measured on square cells alone. Raises Unfit."""
    width, _, _, _, height, _ = raster.transform
    if not isclose(width, -height, rel_tol=_SQUARE):
        cells = f"{width:.12g} by {-height:.12g} map units"
        raise Unfit(f"the cells of {path} are {cells}, and only square cells can be measured so far")


def write_raster(path: str, raster: Raster, of_cells: NumberGrid) -> None:
    """Writes a number for each cell of a raster as GeoTIFF. It is made in memory, since GDAL tells of no full disk."""
    with rasterio_at_work(GDAL_PAM_ENABLED=False) as rasterio, rasterio.MemoryFile() as memory:
        profile = {
            "driver": "GTiff",
            "height": of_cells.rows,
            "width": of_cells.columns,
            "count": 1,
            "dtype": "uint32",
            "transform": rasterio.Affine(*raster.transform),
            "crs": raster.crs,
            "compress": "deflate",
            "predictor": 2,
            "num_threads": "all_cpus",
        }
        with memory.open(**profile) as dataset:
            dataset.write(of_cells.numpy(), 1)
        with memory.open() as written:
            if raster.crs and written.crs != raster.crs:
                say(f"warning: {path} cannot name the coordinate system of the raster as GeoTIFF")
        with whole(path) as part:
            part.write_bytes(memory.getbuffer())


def _on_edge(place: float) -> float:
    near = round(place) if isfinite(place) else place
    return near if abs(place - near) < _EDGE else place


def _centre(transform: Transform, cell: tuple[int, int]) -> tuple[float, float]:
    a, b, c, d, e, f = transform
    row, column = cell[0] + 0.5, cell[1] + 0.5
    return a * column + b * row + c, d * column + e * row + f


def _check_north_up(path: str, transform: Transform) -> None:
    width, turned_x, _, turned_y, height, _ = transform
    if transform == _UNPLACED or not all(map(isfinite, transform)) or not width or not height:
        raise Unfit(f"{path} has no place on the map: it has no georeference")
    if not (width > 0 > height and turned_x == 0 == turned_y):
        raise Unfit(f"{path} is turned or mirrored: warp it north-up first")

"""Longest flow paths and rings as lines of GeoJSON, in the coordinates of the raster."""

import json
from collections.abc import Iterable
from dataclasses import dataclass
from typing import Any, TextIO

from .entries import FlowPath
from .outputs import whole
from .progress import say
from .rasters import Raster, rasterio_at_work
from .refusals import Cell
from .rings import Ring
from .tracing import OutletTraced

_WGS_84 = 4326


@dataclass(frozen=True)
class Line:
    """A line through the centres of cells, and its properties."""

    cells: tuple[Cell, ...]
    properties: dict[str, Any]


def path_line(traced: OutletTraced, name: str | None, path: FlowPath, side: float) -> Line:
    """A longest path, from its start to the outlet, on cells of a side. A path of one cell has its centre twice."""
    named = {} if name is None else {"name": name}
    counts = {"cells": traced.cells, "straight": traced.length.straight, "diagonal": traced.length.diagonal}
    length = {"length": traced.length.shown(side), "paths": traced.paths}
    cells = path.cells if len(path.cells) > 1 else path.cells * 2
    return Line(cells, {"outlet": traced.place + 1, **named, **counts, **length})


def ring_line(number: int, ring: Ring) -> Line:
    """A ring, closed."""
    return Line(ring.cells + ring.cells[:1], {"ring": number, "cells": len(ring.cells)})


def write_lines(path: str, raster: Raster, lines: Iterable[Line]) -> None:
    """Writes lines as a FeatureCollection that names the raster's coordinate system."""
    named = _crs_member(raster)
    if named is None:
        system = "has no EPSG code" if raster.crs else "is not known"
        unnamed = f"so {path} names none, and programs take it for WGS 84 until they are told another"
        say(f"warning: the coordinate system of the raster {system}, {unnamed}")
    with whole(path) as part, part.open("w", encoding="ascii") as file:
        crs = "" if named is None else f'"crs": {json.dumps(named)},\n'
        file.write('{"type": "FeatureCollection",\n' + crs + '"features": [')
        for number, line in enumerate(lines):
            file.write(",\n" if number else "\n")
            _write_line(file, raster, line)
        file.write("\n]}\n")


def _write_line(file: TextIO, raster: Raster, line: Line) -> None:
    """Writes a feature, position by position, since a path may have millions of cells."""
    file.write(f'{{"type": "Feature", "properties": {json.dumps(line.properties)},\n')
    file.write('"geometry": {"type": "LineString", "coordinates": [')
    separator = ""
    for cell in line.cells:
        x, y = raster.centre(cell)
        file.write(f"{separator}[{x}, {y}]")
        separator = ", "
    file.write("]}}")


def _crs_member(raster: Raster) -> dict[str, Any] | None:
    """The member that names the coordinate system; x comes first, so that longitude and latitude are CRS84."""
    with rasterio_at_work():
        code = raster.crs.to_epsg() if raster.crs else None
    if code is None:
        return None
    name = "OGC:1.3:CRS84" if code == _WGS_84 else f"EPSG::{code}"
    return {"type": "name", "properties": {"name": f"urn:ogc:def:crs:{name}"}}

"""Points on the map, read from GeoJSON or from a table of text (CSV)."""

import csv
import json
import re
from collections.abc import Iterator
from dataclasses import dataclass
from io import StringIO
from math import isfinite
from pathlib import Path
from typing import Any

from .faults import Unfit

_TABLE_SUFFIXES = {".csv", ".txt", ".tsv"}
_GEOJSON_SUFFIXES = {".geojson", ".json"}
_DELIMITERS = "\t;,"
_QUOTED = re.compile(r'"[^"]*"')
_X_AND_Y = (("x", "y"), ("easting", "northing"), ("e", "n"), ("lon", "lat"), ("longitude", "latitude"))
_NAMES = ("name", "id")
_NO_COLUMNS = (
    "it begins neither with two numbers nor with a header that names the columns x and y, easting and northing, "
    "e and n, lon and lat, or longitude and latitude"
)


@dataclass(frozen=True)
class Point:
    """A point, and its name if it has one."""

    x: float
    y: float
    name: str | None = None


@dataclass(frozen=True)
class Points:
    """Points in the order of their file, and the coordinate system that the file names, if it names one."""

    points: tuple[Point, ...]
    crs: str | None = None


@dataclass(frozen=True)
class _Columns:
    """Where a table has x, y and, if anywhere, the name."""

    x: int
    y: int
    name: int | None


def read_points(path: str) -> Points:
    """The points that a file holds. Raises Unfit with the line or the feature at fault."""
    file = Path(path)
    try:
        text = file.read_text(encoding="utf-8-sig")
        if file.suffix.lower() in _TABLE_SUFFIXES:
            return _of_table(text)
        if file.suffix.lower() in _GEOJSON_SUFFIXES or text.lstrip().startswith("{"):
            return _of_geojson(text)
        return _of_table(text)
    except UnicodeDecodeError as fault:
        raise Unfit(f"{path} is not text in UTF-8") from fault
    except Unfit as fault:
        raise Unfit(f"{path}: {fault}") from fault


def _of_table(text: str) -> Points:
    first = _QUOTED.sub("", text.strip().partition("\n")[0])
    delimiter = next((mark for mark in _DELIMITERS if mark in first), ",")
    rows = csv.reader(StringIO(text), delimiter=delimiter, skipinitialspace=True, strict=True)
    try:
        return Points(tuple(_points_of_rows(rows, "." if delimiter == "," else ",")))
    except (csv.Error, Unfit) as fault:
        raise Unfit(f"line {rows.line_num}: {fault}") from fault


def _points_of_rows(rows: Iterator[list[str]], decimal: str) -> Iterator[Point]:
    """The points of a table's rows. decimal is the sign that may stand for a decimal point."""
    columns = None
    for row in rows:
        fields = [field.strip() for field in row]
        if not any(fields):
            continue
        if columns is None:
            columns = _header(fields)
            if columns is not None:
                continue
            columns = _Columns(0, 1, 2)
            if any(_number(field, decimal) is None for field in (fields + [""])[:2]):
                raise Unfit(_NO_COLUMNS)
        yield _point_of(fields, columns, decimal)


def _header(fields: list[str]) -> _Columns | None:
    """The columns that a header names; None where it names no x and y."""
    titles = [field.casefold() for field in fields]
    for x, y in _X_AND_Y:
        if x in titles and y in titles:
            name = next((titles.index(name) for name in _NAMES if name in titles), None)
            return _Columns(titles.index(x), titles.index(y), name)
    return None


def _point_of(fields: list[str], columns: _Columns, decimal: str) -> Point:
    if len(fields) <= max(columns.x, columns.y):
        raise Unfit("a point has two coordinates")
    x, y = (_coordinate(fields[at], decimal) for at in (columns.x, columns.y))
    name = "" if columns.name is None else "".join(fields[columns.name : columns.name + 1])
    return Point(x, y, name or None)


def _coordinate(value: Any, decimal: str = ".") -> float:
    number = _number(value, decimal)
    if number is None:
        raise Unfit(f"{value!r} is not a number")
    return number


def _number(value: str | float, decimal: str) -> float | None:
    """A number in decimal digits; None where it is none, or has no end."""
    try:
        number = float(str(value).replace(decimal, "."))
    except ValueError:
        return None
    return number if isfinite(number) and "_" not in str(value) else None


def _of_geojson(text: str) -> Points:
    try:
        whole = json.loads(text)
    except (ValueError, RecursionError) as fault:
        raise Unfit(f"this is not JSON: {fault}") from fault
    if not isinstance(whole, dict):
        raise Unfit("this is not GeoJSON")
    kind = whole.get("type")
    if kind == "FeatureCollection":
        features = whole.get("features")
    else:
        features = [whole if kind == "Feature" else {"type": "Feature", "geometry": whole}]
    if not isinstance(features, list):
        raise Unfit("the FeatureCollection has no features")
    points: list[Point] = []
    for number, feature in enumerate(features, 1):
        try:
            points.extend(_points_of_feature(feature))
        except Unfit as fault:
            raise Unfit(f"feature {number}: {fault}") from fault
    return Points(tuple(points), _crs_of(whole))


def _crs_of(whole: dict[str, Any]) -> str | None:
    member = whole.get("crs")
    if member is None:
        return None
    properties = member.get("properties") if isinstance(member, dict) else None
    name = properties.get("name") if isinstance(properties, dict) else None
    if not isinstance(name, str):
        raise Unfit("its crs names no coordinate system")
    return name


def _points_of_feature(feature: Any) -> list[Point]:
    if not isinstance(feature, dict) or feature.get("type") != "Feature":
        raise Unfit("it is not a Feature")
    geometry = feature.get("geometry")
    kind = geometry.get("type") if isinstance(geometry, dict) else None
    if kind not in ("Point", "MultiPoint"):
        raise Unfit("its geometry is neither a Point nor a MultiPoint")
    coordinates = geometry.get("coordinates") if isinstance(geometry, dict) else None
    positions = [coordinates] if kind == "Point" else coordinates
    if not isinstance(positions, list):
        raise Unfit("it has no coordinates")
    name = _name_of(feature)
    return [Point(*_x_and_y(position), name) for position in positions]


def _name_of(feature: dict[str, Any]) -> str | None:
    properties = feature.get("properties")
    named = properties.get("name") if isinstance(properties, dict) else None
    name = feature.get("id") if named in (None, "") else named
    return None if name is None else str(name)


def _x_and_y(position: Any) -> tuple[float, float]:
    if not isinstance(position, list) or len(position) < 2:
        raise Unfit("a point has two coordinates")
    for value in position[:2]:
        if isinstance(value, bool) or not isinstance(value, (int, float)):
            raise Unfit(f"{value!r} is not a number")
    return _coordinate(position[0]), _coordinate(position[1])

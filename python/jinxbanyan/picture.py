"""A picture of a sheet as SVG: arrows, subwatersheds coloured, each longest flow path lit, counts at the outlets."""

from collections.abc import Iterable
from itertools import groupby
from math import hypot
from xml.etree.ElementTree import Element, SubElement, indent, tostring

from .colours import dark, pale, shade
from .compass import DIRECTIONS, NULL, POND, Direction
from .downhill import follow
from .entries import accumulate, draw
from .refusals import Cell
from .sheets import Sheet
from .tracing import OutletTraced, Tracing, trace

_SIDE = 32
_LEFT, _TOP, _RIGHT, _LINE = 30, 26, 14, 22
_NO_SUBWATERSHED = "#f1f1ef"
_WIDEST, _NARROWEST = 9.0, 2.5
_FONT = "DejaVu Sans, Verdana, sans-serif"


def picture(sheet: Sheet, edition: int = 1) -> str:
    """The picture of a sheet, with its longest flow paths by an edition. Raises Refused where it cannot be traced."""
    accumulation = accumulate(sheet.grid)
    tracing = trace(sheet.grid, sheet.outlets, edition=edition, accumulation=accumulation)
    rows, columns = sheet.grid.rows, sheet.grid.columns
    legend = [_legend_line(traced) for traced in tracing.outlets]
    width = max(_LEFT + columns * _SIDE + _RIGHT, _LEFT + 20 + max(map(len, legend)) * 7)
    height = _TOP + rows * _SIDE + 14 + len(legend) * _LINE

    svg = Element("svg", xmlns="http://www.w3.org/2000/svg", width=str(width), height=str(height))
    svg.attrib |= {"viewBox": f"0 0 {width} {height}", "font-family": _FONT}
    SubElement(svg, "title").text = f"All longest flow paths on a grid of {rows} rows and {columns} columns"
    SubElement(svg, "rect", width=str(width), height=str(height), fill="#ffffff")
    _colour_cells(svg, sheet)
    _draw_lines(svg, rows, columns)
    _draw_arrows(svg, sheet)
    for traced in tracing.outlets:
        paths = (draw(sheet.grid, sheet.outlets, traced.place, start, accumulation).cells for start in traced.starts)
        _light(svg, traced, paths)
    for traced in tracing.outlets:
        _mark_outlet(svg, traced)
    _write_legend(svg, tracing, legend, _TOP + rows * _SIDE + 14)
    indent(svg)
    return tostring(svg, encoding="unicode") + "\n"


def _colour_cells(svg: Element, sheet: Sheet) -> None:
    """A subwatershed's cells in its colour, other ground in grey; null cells are left white."""
    followed = follow(sheet.grid, sheet.outlets)
    group = SubElement(svg, "g")
    for row in range(sheet.grid.rows):
        colours = []
        for column in range(sheet.grid.columns):
            outlet = followed.outlet_of((row, column))
            ground = sheet.grid.codes[sheet.grid.number((row, column))] != NULL
            colours.append((pale(outlet) if outlet is not None else _NO_SUBWATERSHED) if ground else None)
        column = 0
        for colour, run in groupby(colours):
            cells = len(list(run))
            if colour:
                x, y = _LEFT + column * _SIDE, _TOP + row * _SIDE
                SubElement(group, "rect", x=str(x), y=str(y), width=str(cells * _SIDE), height=str(_SIDE), fill=colour)
            column += cells


def _draw_lines(svg: Element, rows: int, columns: int) -> None:
    """The lines between cells, and the numbers of rows and columns."""
    down = "".join(f"M{_LEFT + column * _SIDE} {_TOP}v{rows * _SIDE}" for column in range(columns + 1))
    across = "".join(f"M{_LEFT} {_TOP + row * _SIDE}h{columns * _SIDE}" for row in range(rows + 1))
    SubElement(svg, "path", {"d": down + across, "stroke": "#cfd4d9", "stroke-width": "1", "fill": "none"})
    group = SubElement(svg, "g", {"font-size": "11", "fill": "#6b7178", "text-anchor": "middle"})
    for column in range(columns):
        SubElement(group, "text", x=_number(_LEFT + (column + 0.5) * _SIDE), y=str(_TOP - 8)).text = str(column)
    for row in range(rows):
        SubElement(group, "text", x=str(_LEFT // 2), y=_number(_TOP + (row + 0.5) * _SIDE + 4)).text = str(row)


def _draw_arrows(svg: Element, sheet: Sheet) -> None:
    """An arrow in each cell that flows on, a round pond in each that drains nowhere."""
    arrows = {direction.code: _arrow(direction) for direction in DIRECTIONS}
    drawn = ""
    ponds = SubElement(svg, "g", {"fill": "#a9d3ee", "stroke": "#3c88b8", "stroke-width": "1.5"})
    for number, code in enumerate(sheet.grid.codes):
        x, y = _centre(sheet.grid.cell(number))
        if code in arrows:
            drawn += f"M{_number(x)} {_number(y)}{arrows[code]}"
        elif code == POND:
            SubElement(ponds, "circle", cx=_number(x), cy=_number(y), r="10")
    style = {"stroke": "#7b828a", "stroke-width": "1.4", "fill": "none", "stroke-linecap": "round"}
    SubElement(svg, "path", {"d": drawn, **style})


def _arrow(direction: Direction) -> str:
    """The strokes of an arrow, from the middle of a cell: its shaft, then its head."""
    size = hypot(direction.east, direction.south)
    x, y = direction.east / size, direction.south / size
    strokes = [(-9 * x, -9 * y, "m"), (18 * x, 18 * y, "l")]
    for side in (1, -1):
        head_x, head_y = -5 * x - side * 4 * y, -5 * y + side * 4 * x
        strokes += [(head_x, head_y, "l"), (-head_x, -head_y, "m")]
    return "".join(f"{stroke}{_number(east)} {_number(south)}" for east, south, stroke in strokes[:-1])


def _light(svg: Element, traced: OutletTraced, paths: Iterable[tuple[Cell, ...]]) -> None:
    """An outlet's longest paths, each narrower than the one before, so that all are seen where they run together."""
    group = SubElement(svg, "g", {"fill": "none", "stroke-linecap": "round", "stroke-linejoin": "round"})
    for place, cells in enumerate(paths):
        colour = shade(traced.place, place, traced.paths)
        narrowing = (_WIDEST - _NARROWEST) * place / traced.paths
        points = " ".join(f"{_number(x)},{_number(y)}" for x, y in map(_centre, cells))
        SubElement(
            group, "polyline", {"points": points, "stroke": colour, "stroke-width": _number(_WIDEST - narrowing)}
        )
        x, y = _centre(cells[0])
        start = {"cx": _number(x), "cy": _number(y), "r": "6", "fill": "#ffffff", "stroke": colour, "stroke-width": "3"}
        SubElement(group, "circle", start)


def _mark_outlet(svg: Element, traced: OutletTraced) -> None:
    """The number of cells that drain to an outlet, on the outlet."""
    text = str(traced.cells)
    width = 14 + 7 * len(text)
    x, y = _centre(traced.outlet)
    box = {"x": _number(x - width / 2), "y": _number(y - 10), "width": str(width), "height": "20", "rx": "10"}
    SubElement(svg, "rect", {**box, "fill": dark(traced.place), "stroke": "#ffffff", "stroke-width": "1.5"})
    label = {"font-size": "12", "font-weight": "bold", "fill": "#ffffff", "text-anchor": "middle"}
    SubElement(svg, "text", {"x": _number(x), "y": _number(y + 4), **label}).text = text


def _write_legend(svg: Element, tracing: Tracing, lines: list[str], top: int) -> None:
    group = SubElement(svg, "g", {"font-size": "12", "fill": "#24292f"})
    for traced, line in zip(tracing.outlets, lines):
        y = top + traced.place * _LINE
        swatch = {"x": str(_LEFT), "y": str(y), "width": "12", "height": "12", "rx": "3", "fill": dark(traced.place)}
        SubElement(group, "rect", swatch)
        SubElement(group, "text", x=str(_LEFT + 20), y=str(y + 11)).text = line


def _legend_line(traced: OutletTraced) -> str:
    paths = "1 longest path" if traced.paths == 1 else f"{traced.paths} longest paths, tied"
    cells = "1 cell" if traced.cells == 1 else f"{traced.cells} cells"
    return (
        f"outlet {traced.place + 1} at {traced.outlet}: {cells}, {paths},"
        f" {traced.length.straight} straight + {traced.length.diagonal} diagonal"
    )


def _centre(cell: Cell) -> tuple[float, float]:
    return _LEFT + (cell.column + 0.5) * _SIDE, _TOP + (cell.row + 0.5) * _SIDE


def _number(value: float) -> str:
    """A coordinate, to the hundredth."""
    return f"{round(value, 2) + 0:g}"

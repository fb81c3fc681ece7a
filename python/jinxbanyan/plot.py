"""A picture of a raster: subwatersheds in colours, each longest flow path lit, and counts at the outlets."""

from collections.abc import Sequence
from math import ceil
from typing import TYPE_CHECKING, Any

from .colours import dark, pale, shade
from .compass import NULL
from .downhill import follow
from .entries import FlowPath
from .outputs import whole
from .progress import counter
from .rasters import Raster, needed
from .tracing import OutletTraced

if TYPE_CHECKING:
    from .grid import NumpyArray

_MOST_SHOWN = 1000
_LONG_SIDE, _LEAST_WIDTH, _LEAST_HEIGHT, _DOTS = 10.0, 7.0, 3.0, 160
_NO_GROUND, _NO_SUBWATERSHED = "#ffffff", "#e9e8e4"
_DOTS_SHOWN, _DARKER = 1400, 0.82
_WIDEST, _NARROWEST, _CASING = 2.4, 0.9, 1.6
_MARGIN = 0.08


class Picture:
    """A picture in the making: paths are added to it one by one, and it is written at the end."""

    def __init__(self, raster: Raster) -> None:
        self._raster = raster
        self._step = ceil(max(raster.grid.rows, raster.grid.columns) / _MOST_SHOWN)
        self._paths: dict[int, list["NumpyArray"]] = {}

    def add(self, traced: OutletTraced, path: FlowPath) -> None:
        """Adds a longest path of an outlet, with as many of its cells as can be told apart."""
        shown = path.cells[: -1 : self._step] + path.cells[-1:]
        line = needed("numpy").array([self._raster.centre(cell) for cell in shown])
        self._paths.setdefault(traced.place, []).append(line)

    def write(self, path: str, outlets: Sequence[OutletTraced]) -> None:
        """Writes the picture as PNG."""
        west, south, east, north = self._raster.extent
        scale = _LONG_SIDE / max(east - west, north - south)
        size = max((east - west) * scale, _LEAST_WIDTH), max((north - south) * scale, _LEAST_HEIGHT)
        figure = needed("matplotlib.figure").Figure(figsize=size, dpi=_DOTS, layout="constrained")
        axes = figure.add_subplot()
        self._colour(axes, outlets)
        for traced in outlets:
            self._light(axes, traced)
        for traced in outlets:
            self._mark(axes, traced)
        axes.set(xlim=(west, east), ylim=(south, north))
        self._name(axes)
        with whole(path) as part:
            figure.savefig(part, format="png")

    def _colour(self, axes: Any, outlets: Sequence[OutletTraced]) -> None:
        """Each subwatershed in its outlet's colour, other ground in grey, null cells in white."""
        numpy = needed("numpy")
        grid, step = self._raster.grid, self._step
        tell = counter("colouring cells", grid.rows * grid.columns)
        followed = follow(grid, [traced.outlet for traced in outlets], report=tell)
        names = numpy.frombuffer(followed.names, numpy.uint16).reshape(grid.rows + 2, grid.columns + 1)
        shown = names[1:-1:step, :-1:step].copy()
        shown[grid.numpy()[::step, ::step] == NULL] = 0
        west, _, _, north = self._raster.extent
        rows, columns = shown.shape
        block = self._raster.side * step
        extent = (west, west + columns * block, north - rows * block, north)
        axes.imshow(_image(shown, [pale(traced.place) for traced in outlets]), extent=extent, interpolation="nearest")

    def _light(self, axes: Any, traced: OutletTraced) -> None:
        """Longest paths on white, each narrower than the one before: where they run together all are seen."""
        lines = self._paths[traced.place]
        narrowing = (_WIDEST - _NARROWEST) / len(lines)
        widths = [_WIDEST - narrowing * place for place in range(len(lines))]
        colours = [shade(traced.place, place, len(lines)) for place in range(len(lines))]
        collection = needed("matplotlib.collections").LineCollection
        style = {"capstyle": "round", "joinstyle": "round"}
        axes.add_collection(collection(lines, linewidths=_WIDEST + _CASING, colors="white", zorder=2, **style))
        axes.add_collection(collection(lines, linewidths=widths, colors=colours, zorder=3, **style))
        starts = [line[0] for line in lines]
        axes.scatter(*zip(*starts), s=12, c="white", edgecolors=colours, linewidths=1.2, zorder=4)

    def _mark(self, axes: Any, traced: OutletTraced) -> None:
        """A point on the outlet, and beside it how many cells its subwatershed has."""
        colour = dark(traced.place)
        west, south, east, north = self._raster.extent
        x, y = self._raster.centre(traced.outlet)
        axes.scatter(x, y, s=26, c=colour, edgecolors="white", linewidths=1, zorder=5)
        right, above = x < east - _MARGIN * (east - west), y < north - _MARGIN * (north - south)
        axes.annotate(
            f"{traced.cells:,}",
            (x, y),
            (5 if right else -5, 5 if above else -5),
            textcoords="offset points",
            horizontalalignment="left" if right else "right",
            verticalalignment="bottom" if above else "top",
            fontsize=8,
            fontweight="bold",
            color=colour,
            path_effects=[needed("matplotlib.patheffects").withStroke(linewidth=2.5, foreground="white")],
            zorder=6,
        )

    def _name(self, axes: Any) -> None:
        """The title, and the axes in map coordinates."""
        crs = self._raster.crs
        labels = ("x", "y")
        if crs is not None:
            unit = crs.linear_units
            labels = ("longitude", "latitude") if crs.is_geographic else (f"easting ({unit})", f"northing ({unit})")
        for axis, label in zip((axes.xaxis, axes.yaxis), labels):
            axis.set_major_formatter(lambda value, _: f"{value:,.10g}")
            axis.set_label_text(label)
        axes.tick_params(labelsize=8)
        axes.set_title("Longest flow paths, and at each outlet the number of cells of its subwatershed", fontsize=10)


def _image(names: "NumpyArray", colours: Sequence[str]) -> "NumpyArray":
    """Colours by name: 0 no ground, 1 no subwatershed, 2 that of the first outlet; darker along the divides."""
    numpy, to_rgb = needed("numpy"), needed("matplotlib.colors").to_rgb
    scale = max(_DOTS_SHOWN // max(names.shape), 1)
    fine = names.repeat(scale, 0).repeat(scale, 1)
    divide = numpy.zeros(fine.shape, bool)
    divide[1:] |= fine[1:] != fine[:-1]
    divide[:, 1:] |= fine[:, 1:] != fine[:, :-1]
    image: "NumpyArray" = numpy.array(
        [to_rgb(colour) for colour in (_NO_GROUND, _NO_SUBWATERSHED, *colours)], numpy.float32
    )[fine]
    image[divide] *= _DARKER
    return image

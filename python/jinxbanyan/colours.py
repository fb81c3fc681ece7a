"""The colours of a picture: a hue for each outlet, pale for its subwatershed, a shade for each of its longest paths."""

from colorsys import hls_to_rgb

_FIRST_HUE = 0.58
_TURN = 0.381966
"""The golden section of the circle: the hues of outlets near each other in the list lie far apart."""


def pale(outlet: int) -> str:
    """The colour of an outlet's subwatershed."""
    return _colour(outlet, 0.87, 0.6)


def dark(outlet: int) -> str:
    """The colour of an outlet itself."""
    return _colour(outlet, 0.24, 0.75)


def shade(outlet: int, path: int, paths: int) -> str:
    """The colour of one of an outlet's longest paths: the first is darkest, the last lightest."""
    lightness = 0.36 if paths == 1 else 0.3 + 0.34 * path / (paths - 1)
    return _colour(outlet, lightness, 0.85)


def _colour(outlet: int, lightness: float, saturation: float) -> str:
    hue = (_FIRST_HUE + _TURN * outlet) % 1
    return "#" + "".join(f"{round(255 * part):02x}" for part in hls_to_rgb(hue, lightness, saturation))

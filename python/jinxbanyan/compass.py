"""The eight directions of flow, in the order in which neighbours are taken: clockwise from east."""

from dataclasses import dataclass

NULL = 0
"""The code of a cell without ground."""

POND = 255
"""The code of a closed pond: ground that drains nowhere."""


@dataclass(frozen=True)
class Direction:
    """One direction of flow: its name, the arrow that shows it, its code in table 1, and the cell that it leads to."""

    name: str
    arrow: str
    code: int
    south: int
    east: int


DIRECTIONS = (
    Direction("E", "→", 1, 0, 1),
    Direction("SE", "↘", 2, 1, 1),
    Direction("S", "↓", 4, 1, 0),
    Direction("SW", "↙", 8, 1, -1),
    Direction("W", "←", 16, 0, -1),
    Direction("NW", "↖", 32, -1, -1),
    Direction("N", "↑", 64, -1, 0),
    Direction("NE", "↗", 128, -1, 1),
)

"""Flow paths on a grid of D8 flow directions: how many cells drain to each outlet, and all its longest flow paths.

The calculation is done by a library in which every function is proved; lengths are compared exactly, so ties are found
and none is invented. Make a Grid, then call accumulate, subaccumulate, trace, flow_lengths, draw, convert or rings;
read_sheet and write_sheet are for sheets. A call that the library refuses raises Refused.
"""

from .entries import FlowLengths, FlowPath, accumulate, convert, draw, flow_lengths, subaccumulate
from .grid import Grid, Length, NumberGrid
from .library import LibraryMissing
from .refusals import Cell, Place, Refused
from .rings import Ring, rings
from .sheets import Sheet, read_sheet, write_sheet
from .tracing import OutletTraced, Tracing, trace

__all__ = [
    "Cell",
    "FlowLengths",
    "FlowPath",
    "Grid",
    "Length",
    "LibraryMissing",
    "NumberGrid",
    "OutletTraced",
    "Place",
    "Refused",
    "Ring",
    "Sheet",
    "Tracing",
    "accumulate",
    "convert",
    "draw",
    "flow_lengths",
    "read_sheet",
    "rings",
    "subaccumulate",
    "trace",
    "write_sheet",
]

"""The parts of the command that are about sheets: make, show and picture."""

import argparse
import sys
from pathlib import Path
from typing import Any

from . import drawings
from .faults import Unfit
from .outputs import check_outputs, whole
from .picture import picture
from .sheets import Sheet, read_sheet, write_sheet

_RAW = argparse.RawDescriptionHelpFormatter


def add_to(parts: "argparse._SubParsersAction[Any]") -> None:
    """Adds make, show and picture."""
    make = parts.add_parser(
        "make",
        help="make a sheet from a drawing in text",
        description="Makes a sheet from a drawing in text.\n\n" + str(drawings.__doc__),
        formatter_class=_RAW,
    )
    make.add_argument("drawing", help="the text, in UTF-8")
    make.add_argument("sheet", help="the sheet to write")
    make.set_defaults(carry_out=_make)

    show = parts.add_parser(
        "show",
        help="show a sheet as a drawing in text",
        description="Prints the drawing that make would make the same sheet from.",
    )
    show.add_argument("sheet", help="the sheet to read")
    show.add_argument("--letters", action="store_true", help="letters for directions, in place of arrows")
    show.set_defaults(carry_out=_show)

    drawn = parts.add_parser(
        "picture",
        help="draw a sheet as SVG, with its longest flow paths",
        description="Draws a sheet as SVG: its arrows, the subwatershed of each outlet coloured, each longest flow path"
        " lit, tied ones in different shades, and the number of cells that drain to each outlet.",
    )
    drawn.add_argument("sheet", help="the sheet to read")
    drawn.add_argument("out", help="the SVG to write")
    add_edition_to(drawn)
    drawn.set_defaults(carry_out=_picture)


def add_edition_to(parser: argparse.ArgumentParser) -> None:
    """The choice of an edition: where a longest flow path may start."""
    parser.add_argument(
        "--edition",
        type=int,
        default=1,
        choices=(1, 2),
        help="1: a longest path may start at any cell, 2: on the divide alone (default: 1)",
    )


def _make(given: argparse.Namespace) -> None:
    check_outputs([given.drawing], [given.sheet])
    try:
        sheet = drawings.read_drawing(Path(given.drawing).read_text(encoding="utf-8"))
    except UnicodeDecodeError:
        raise Unfit(f"{given.drawing} is not text in UTF-8") from None
    except Unfit as fault:
        raise Unfit(f"{given.drawing}: {fault}") from fault
    with whole(given.sheet) as part:
        part.write_bytes(write_sheet(sheet))


def _show(given: argparse.Namespace) -> None:
    sys.stdout.write(drawings.write_drawing(_sheet_in(given.sheet), given.letters))


def _picture(given: argparse.Namespace) -> None:
    check_outputs([given.sheet], [given.out])
    drawn = picture(_sheet_in(given.sheet), given.edition)
    with whole(given.out) as part:
        part.write_text(drawn, encoding="utf-8")


def _sheet_in(path: str) -> Sheet:
    return read_sheet(Path(path).read_bytes())

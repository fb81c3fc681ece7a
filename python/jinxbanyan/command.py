"""The command: a part for each task, errors on one line, and the exit status."""

import argparse
import os
import sys
from collections.abc import Sequence
from io import TextIOWrapper
from typing import NoReturn

from . import raster_parts, sheet_parts
from .faults import Unfit, Unready
from .library import LibraryMissing
from .refusals import Refused

_STATUS = """exit status: 0 done; 1 refused, by the library with its number or for what a file holds; 2 the command
cannot be carried out as given: wrong arguments, a file that cannot be read or written, something not installed"""


class _Parser(argparse.ArgumentParser):
    """A parser that tells of wrong arguments on one line."""

    def error(self, message: str) -> NoReturn:
        self.exit(2, f"{self.prog}: {' '.join(message.split())} (see {self.prog} --help)\n")


def parser() -> argparse.ArgumentParser:
    """The parser of the whole command."""
    whole = _Parser(
        prog="jinxbanyan", description="All longest flow paths to each outlet of a D8 grid.", epilog=_STATUS
    )
    parts = whole.add_subparsers(title="parts", metavar="PART", required=True)
    sheet_parts.add_to(parts)
    raster_parts.add_to(parts)
    return whole


def main(arguments: Sequence[str] | None = None) -> int:
    """Carries out one command and gives its exit status."""
    if sys.stdout is None:
        return _fail("there is no standard output", 2)
    if isinstance(sys.stdout, TextIOWrapper):
        sys.stdout.reconfigure(encoding="utf-8")
    given = parser().parse_args(arguments)
    try:
        given.carry_out(given)
        sys.stdout.flush()
    except (Refused, Unfit) as refused:
        return _fail(refused, 1)
    except BrokenPipeError:
        os.dup2(os.open(os.devnull, os.O_WRONLY), sys.stdout.fileno())
        return 2
    except KeyboardInterrupt:
        return _fail("stopped", 2)
    except (Unready, LibraryMissing) as fault:
        return _fail(fault, 2)
    except OSError as fault:
        return _fail(f"{fault.filename}: {fault.strerror}" if fault.filename else fault, 2)
    return 0


def _fail(fault: object, status: int) -> int:
    """Tells of a fault on one line and gives the exit status."""
    print("jinxbanyan: " + " ".join(str(fault).split()), file=sys.stderr)
    return status

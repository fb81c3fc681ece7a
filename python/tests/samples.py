"""The repository's sample sheets, and a grid that more than one set of tests has."""

from collections.abc import Iterator
from pathlib import Path

from jinxbanyan import Refused, Sheet, read_sheet

ROOT = Path(__file__).resolve().parents[2]
"""The repository."""

SAMPLES = ROOT / "samples"

# Drawn: ↓ ← ←   The flow winds from the middle cell out to the last one: the middle is no part of the divide.
#        ↓ → ↑
#        → → ↓
SNAIL = [[4, 16, 16], [4, 1, 64], [1, 1, 4]]


def sample_sheets() -> Iterator[tuple[str, Sheet]]:
    """The name of each sample that holds a sheet, and the sheet."""
    for file in sorted(SAMPLES.glob("*.sheet")):
        try:
            yield file.stem, read_sheet(file.read_bytes())
        except Refused:
            continue

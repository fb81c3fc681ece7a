"""The tests. `python3 -m unittest` runs the core; those of rasters need other packages and are asked for by name."""

from pathlib import Path
from unittest import TestLoader, TestSuite

_HERE = Path(__file__).parent


def load_tests(loader: TestLoader, _tests: TestSuite, pattern: str | None) -> TestSuite:
    """The tests of the core."""
    return loader.discover(str(_HERE / "core"), pattern or "test*.py", str(_HERE.parent))

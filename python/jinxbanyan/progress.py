"""Lines on standard error: warnings, and progress where something takes longer than a second."""

import sys
from collections.abc import Callable, Iterator
from contextlib import contextmanager
from threading import Timer
from time import monotonic

PATIENCE = 1.0
"""How many seconds pass before progress is told, and between two counts."""


def say(text: str) -> None:
    """One line on standard error."""
    print("jinxbanyan: " + text, file=sys.stderr, flush=True)


@contextmanager
def stage(name: str) -> Iterator[None]:
    """Names a stage of the work once it has run for a second."""
    timer = Timer(PATIENCE, say, (name,))
    timer.daemon = True
    timer.start()
    try:
        yield
    finally:
        timer.cancel()


def counter(name: str, total: int) -> Callable[[int], None]:
    """A function that is told how many are done, and says so at most once a second."""
    told = monotonic()

    def tell(done: int) -> None:
        nonlocal told
        if monotonic() - told >= PATIENCE:
            told = monotonic()
            say(f"{name}: {done:,} of {total:,}")

    return tell

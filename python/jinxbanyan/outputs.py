"""Files written whole or not at all."""

import os
from collections.abc import Iterable, Iterator
from contextlib import contextmanager
from pathlib import Path

from .faults import Unready


def check_outputs(inputs: Iterable[str], outputs: Iterable[str]) -> None:
    """Tells before any work what would keep the outputs from being written. Raises Unready."""
    read = {os.path.realpath(path) for path in inputs}
    written: set[str] = set()
    for path in outputs:
        real = os.path.realpath(path)
        if real in read:
            raise Unready(f"{path} cannot be written: it is read from")
        if real in written:
            raise Unready(f"{path} is to be written twice")
        if not os.path.isdir(os.path.dirname(real)):
            raise Unready(f"{path} cannot be written: there is no directory {os.path.dirname(real)}")
        if os.path.exists(real) and not os.path.isfile(real):
            raise Unready(f"{path} cannot be written: it is not a file")
        if os.path.exists(real) and not os.access(real, os.W_OK):
            raise Unready(f"{path} cannot be written: it is kept from being changed")
        with _told_of(path):
            part = _part_of(path)
            part.touch()
            part.unlink()
        written.add(real)


@contextmanager
def whole(path: str) -> Iterator[Path]:
    """A file beside the path to write in. It takes the path's place at the end; where something fails it is removed."""
    part = _part_of(path)
    try:
        with _told_of(path):
            yield part
            os.replace(part, os.path.realpath(path))
    finally:
        part.unlink(missing_ok=True)


def _part_of(path: str) -> Path:
    real = Path(os.path.realpath(path))
    return real.with_name(f".{real.name[:40]}.{os.getpid()}.part")


@contextmanager
def _told_of(path: str) -> Iterator[None]:
    """A fault in writing is told of the path that was named."""
    try:
        yield
    except OSError as fault:
        raise Unready(f"{path} cannot be written: {fault.strerror or fault}") from fault

"""The proved library, as a shared library: where it is, what its functions take, and how one is called."""

import os
from array import array
from collections.abc import Iterator
from ctypes import CDLL, POINTER, Array, byref, c_char_p, c_size_t, c_uint8, c_uint32
from functools import cache
from operator import index
from pathlib import Path
from typing import Any

FILE_NAME = "libjinxbanyan.so"
ENVIRONMENT = "JINXBANYAN_LIBRARY"

GREATEST = 2**32 - 1
"""The greatest number of 32 bits: no size, place, cell, table or edition is as great."""

# What a function takes: a size, a number, slices to read or to write, each with its count, and places for results.
SIZE = (c_size_t,)
NUMBER = (c_uint32,)
BYTES = (c_char_p, c_size_t)
BYTES_TO_WRITE = (POINTER(c_uint8), c_size_t)
NUMBERS = (POINTER(c_uint32), c_size_t)
RESULTS = (POINTER(c_uint32),)
SIZES = (POINTER(c_size_t),)

_GRID = (*SIZE, *SIZE, *BYTES)
_OUTLETS = (*_GRID, *NUMBERS, *NUMBERS)

# In the order of include/jinxbanyan.h, which says what each does.
FUNCTIONS: dict[str, tuple[Any, ...]] = {
    "jb_accumulate": (*_GRID, *NUMBERS),
    "jb_check_accumulation": (*_GRID, *NUMBERS),
    "jb_subaccumulate": (*_OUTLETS, *NUMBERS),
    "jb_flow_lengths": (*_OUTLETS, *NUMBERS, *NUMBERS, *NUMBERS, *NUMBERS),
    "jb_convert": (*NUMBER, *NUMBER, *_GRID, *BYTES_TO_WRITE),
    "jb_trace_by_stack": (*NUMBER, *_OUTLETS, *SIZE, *NUMBER, *NUMBERS, *NUMBERS, *NUMBERS, *RESULTS),
    "jb_trace_by_recursion": (*NUMBER, *_OUTLETS, *SIZE, *NUMBER, *NUMBERS, *NUMBERS, *RESULTS),
    "jb_trace_all": (*NUMBER, *_OUTLETS, *NUMBERS, *NUMBERS, *NUMBERS, *NUMBERS, *RESULTS),
    "jb_starts_of": (*NUMBERS, *NUMBERS, *SIZE, *SIZES),
    "jb_draw": (*_OUTLETS, *SIZE, *NUMBER, *NUMBERS, *RESULTS),
    "jb_read_sheet": (*BYTES, *BYTES_TO_WRITE, *NUMBERS, *RESULTS),
    "jb_write_sheet": (*_GRID, *NUMBERS, *BYTES_TO_WRITE, *RESULTS),
}


class LibraryMissing(ImportError):
    """The shared library is not there; the message says in one line how to make it."""


def path() -> Path:
    """Where the shared library is looked for: where the environment says, else beside this file."""
    named = os.environ.get(ENVIRONMENT)
    return Path(named) if named else Path(__file__).with_name(FILE_NAME)


@cache
def load() -> CDLL:
    """The shared library with its functions declared. Raises LibraryMissing."""
    try:
        library = CDLL(str(path()))
        for name, takes in FUNCTIONS.items():
            function = getattr(library, name)
            function.argtypes = takes
            function.restype = None if name == "jb_starts_of" else c_uint32
    except (OSError, AttributeError) as fault:
        raise LibraryMissing(f"the library {path()} cannot be loaded: {_remedy()}") from fault
    return library


def _remedy() -> str:
    script = Path(__file__).parent.parent / "build-library"
    how = script if script.exists() else "python/build-library in the repository, and install the package again"
    if os.environ.get(ENVIRONMENT):
        return f"{ENVIRONMENT} names it; to make the one that is taken without that, run {how}"
    return f"to make it, run {how}"


def numbers(count: int) -> "array[int]":
    """Places for that many 32-bit numbers, all 0."""
    return array("I", [0]) * count


def results(count: int) -> "Array[c_uint32]":
    """Places for that many results."""
    return (c_uint32 * count)()


def call(name: str, *arguments: Any) -> int:
    """Calls a function. Bytes, bytearrays and arrays are handed over with their counts, places for results as they are.

    A number that the library cannot take becomes the greatest that it can, which is refused wherever that one would be.
    """
    answer = getattr(load(), name)(*_handed(arguments))
    return answer if isinstance(answer, int) else 0


def _handed(arguments: tuple[Any, ...]) -> Iterator[Any]:
    for argument in arguments:
        if isinstance(argument, bytes):
            yield argument
            yield len(argument)
        elif isinstance(argument, bytearray):
            yield byref(c_uint8.from_buffer(argument or bytearray(1)))
            yield len(argument)
        elif isinstance(argument, array):
            if argument.typecode != "I":
                raise TypeError(f"numbers of the type {argument.typecode} where those of the type I are taken")
            # A pointer is never null, even where there is nothing to hand over.
            yield byref(c_uint32.from_buffer(argument or numbers(1)))
            yield len(argument)
        elif isinstance(argument, Array):
            yield argument
        else:
            number = index(argument)
            yield number if 0 <= number <= GREATEST else GREATEST

"""The declarations of the package are those of the C header: functions, their order, arguments and results."""

import re
import unittest
from ctypes import POINTER, c_char_p, c_size_t, c_uint8, c_uint32
from dataclasses import dataclass
from typing import Any
from unittest.mock import patch

from jinxbanyan import library, read_sheet, rings, write_sheet
from jinxbanyan.entries import accumulate, convert, draw, flow_lengths, subaccumulate
from jinxbanyan.tracing import trace
from tests.samples import ROOT

from .helper import grid_of

HEADER = (ROOT / "include" / "jinxbanyan.h").read_text()

VALUES = {"size_t": c_size_t, "uint32_t": c_uint32}
POINTERS = {
    "const uint8_t": c_char_p,
    "uint8_t": POINTER(c_uint8),
    "const uint32_t": POINTER(c_uint32),
    "uint32_t": POINTER(c_uint32),
    "size_t": POINTER(c_size_t),
}
RETURNED = {"void": None, "uint32_t": c_uint32}


@dataclass(frozen=True)
class Declared:
    """A function of the header: what it takes and returns, and by argument how many places for results it writes."""

    takes: tuple[Any, ...]
    returns: Any
    places: dict[int, int]


def in_header(text: str) -> dict[str, Declared]:
    """The functions that a header declares, by name and in its order."""
    text = re.sub(r"/\*.*?\*/", " ", text, flags=re.DOTALL)
    text = re.sub(r"^#.*$", "", text, flags=re.MULTILINE)
    text = re.sub(r'extern "C" \{|\}', "", text)
    return dict(_declared(" ".join(part.split())) for part in text.split(";") if part.strip())


def _declared(declaration: str) -> tuple[str, Declared]:
    found = re.fullmatch(r"(\w+) (jb_\w+)\((.*)\)", declaration)
    assert found, declaration
    arguments = [
        re.fullmatch(r"((?:const )?\w+) (\*?)(\w+)(?:\[(\d+)\])?", part.strip()) for part in found[3].split(",")
    ]
    takes, places = [], {}
    for at, argument in enumerate(arguments):
        assert argument, declaration
        kind, star, _, count = argument.groups()
        takes.append(POINTERS[kind] if star or count else VALUES[kind])
        if count:
            places[at] = int(count)
    return found[2], Declared(tuple(takes), RETURNED[found[1]], places)


def alike(text: str) -> bool:
    """Does the package declare what a header does, in one order?"""
    functions = in_header(text)
    returns = {name: getattr(library.load(), name).restype for name in library.FUNCTIONS}
    return list(library.FUNCTIONS.items()) == [(name, one.takes) for name, one in functions.items()] and returns == {
        name: one.returns for name, one in functions.items()
    }


class Watched:
    """The library, but each call is first held to the header's counts of places for results."""

    def __init__(self, test: unittest.TestCase) -> None:
        self.test, self.real, self.called = test, library.load(), set[str]()

    def __getattr__(self, name: str) -> Any:
        def function(*arguments: Any) -> Any:
            self.called.add(name)
            for at, count in in_header(HEADER)[name].places.items():
                self.test.assertEqual(len(arguments[at]), count, name)
            return getattr(self.real, name)(*arguments)

        return function


class Header(unittest.TestCase):
    """The package beside include/jinxbanyan.h."""

    def test_same_functions(self) -> None:
        functions = in_header(HEADER)
        self.assertEqual(len(functions), 12)
        self.assertEqual(list(library.FUNCTIONS), list(functions))

    def test_same_arguments(self) -> None:
        for name, declared in in_header(HEADER).items():
            with self.subTest(name):
                self.assertEqual(library.FUNCTIONS[name], declared.takes)

    def test_loaded_as_declared(self) -> None:
        for name, declared in in_header(HEADER).items():
            with self.subTest(name):
                function = getattr(library.load(), name)
                self.assertEqual(tuple(function.argtypes), declared.takes)
                self.assertEqual(function.restype, declared.returns)

    def test_each_change_of_the_header_is_seen(self) -> None:
        self.assertTrue(alike(HEADER))
        changes = {
            "uint32_t dropping": "size_t dropping",
            "const uint8_t *file": "uint8_t *file",
            "uint8_t *converted": "const uint8_t *converted",
            "jb_trace_all(uint32_t edition, ": "jb_trace_all(",
            "size_t part[2]": "uint32_t part[2]",
            "size_t up_straight_count, ": "",
            ", uint32_t drawn[1]": "",
            "uint32_t shape[3]": "uint32_t shape[3], size_t more",
            "void jb_starts_of": "uint32_t jb_starts_of",
            "jb_check_accumulation": "jb_check",
            "#endif": "uint32_t jb_more(size_t rows);\n#endif",
        }
        for old, new in changes.items():
            with self.subTest(new):
                self.assertIn(old, HEADER)
                self.assertFalse(alike(HEADER.replace(old, new, 1)))

    def test_places_for_results(self) -> None:
        grid, outlets = grid_of("1 4 16"), [(0, 1)]
        with patch.object(library, "load", return_value=Watched(self)) as load:
            accumulate(grid)
            subaccumulate(grid, outlets)
            flow_lengths(grid, outlets)
            convert(grid, 2)
            trace(grid, outlets)
            trace(grid, outlets, 0)
            draw(grid, outlets, 0, (0, 2))
            rings(grid)
            read_sheet(write_sheet(read_sheet((ROOT / "samples" / "example.sheet").read_bytes())))
        not_used = {"jb_check_accumulation", "jb_trace_by_recursion"}
        self.assertEqual(load.return_value.called, set(library.FUNCTIONS) - not_used)


if __name__ == "__main__":
    unittest.main()

"""The shared library: where it is looked for, and what is said where it is missing."""

import os
import shutil
import subprocess
import sys
import tempfile
import unittest
from array import array
from ctypes import c_size_t
from pathlib import Path
from unittest.mock import patch

from jinxbanyan import library
from jinxbanyan.library import call, numbers, results
from tests.samples import ROOT

PACKAGES = ROOT / "python"
SCRIPT = "build-library"


def run(program: str, named: str | None, packages: Path = PACKAGES) -> str:
    """What a program prints in a process of its own, with the library named by the environment."""
    environment = {name: value for name, value in os.environ.items() if name != library.ENVIRONMENT}
    if named is not None:
        environment[library.ENVIRONMENT] = named
    environment["PYTHONPATH"] = str(packages)
    ran = subprocess.run(
        [sys.executable, "-B", "-c", program], cwd=packages, env=environment, capture_output=True, text=True, check=True
    )
    assert not ran.stderr, ran.stderr
    return ran.stdout


CALLED = """
import jinxbanyan
try:
    print(list(jinxbanyan.accumulate(jinxbanyan.Grid.of([[1, 4, 16]])).numbers))
except jinxbanyan.LibraryMissing as missing:
    print("missing:", missing)
"""

LOADED = """
from jinxbanyan import library
print(library.load()._name)
"""


class Missing(unittest.TestCase):
    """Without the library."""

    def test_import_works(self) -> None:
        self.assertEqual(run("import jinxbanyan; print(jinxbanyan.Grid.of([[1]]).rows)", "/nonexistent.so"), "1\n")

    def assert_missing(self, printed: str, named: str, script: str) -> None:
        """One line, which names the library and the script that makes it."""
        self.assertTrue(printed.startswith("missing: "), printed)
        self.assertEqual(len(printed.splitlines()), 1)
        self.assertIn(named, printed)
        self.assertIn(script, printed)

    def test_a_call_tells_how_to_make_it(self) -> None:
        self.assert_missing(run(CALLED, "/nonexistent.so"), "/nonexistent.so", str(PACKAGES / SCRIPT))

    def test_a_file_that_is_no_library(self) -> None:
        named = str(Path(__file__).resolve())
        self.assert_missing(run(CALLED, named), named, str(PACKAGES / SCRIPT))

    def test_installed_elsewhere(self) -> None:
        with tempfile.TemporaryDirectory() as directory:
            package = Path(directory) / "jinxbanyan"
            shutil.copytree(PACKAGES / "jinxbanyan", package, ignore=shutil.ignore_patterns("*.so"))
            printed = run(CALLED, None, Path(directory))
            self.assert_missing(printed, str(package / library.FILE_NAME), f"python/{SCRIPT}")

    def test_the_script_is_there(self) -> None:
        self.assertTrue(os.access(PACKAGES / SCRIPT, os.X_OK))

    def test_is_an_import_error(self) -> None:
        self.assertTrue(issubclass(library.LibraryMissing, ImportError))

    def test_without_one_of_its_functions(self) -> None:
        with patch.dict(library.FUNCTIONS, {"jb_more": ()}):
            self.assertRaises(library.LibraryMissing, library.load.__wrapped__)


class Found(unittest.TestCase):
    """Where it is."""

    def test_beside_the_package(self) -> None:
        for named in (None, ""):
            self.assertEqual(run(LOADED, named), f"{PACKAGES / 'jinxbanyan' / library.FILE_NAME}\n")

    def test_where_the_environment_says(self) -> None:
        with tempfile.TemporaryDirectory() as directory:
            elsewhere = shutil.copy(library.path(), Path(directory) / "elsewhere.so")
            self.assertEqual(run(LOADED, str(elsewhere)), f"{elsewhere}\n")
            self.assertEqual(run(CALLED, str(elsewhere)), "[1, 3, 1]\n")

    def test_loaded_once(self) -> None:
        self.assertIs(library.load(), library.load())


class Calls(unittest.TestCase):
    """How slices are handed over."""

    def test_places(self) -> None:
        self.assertEqual(numbers(3), array("I", [0, 0, 0]))
        self.assertEqual(list(results(3)), [0, 0, 0])

    def test_other_types_are_not_handed_over(self) -> None:
        for other in (array("H", [1]), 1.0, "1", None):
            with self.subTest(other=other), self.assertRaises(TypeError):
                call("jb_accumulate", 1, 1, b"\1", other)

    def test_written_in_place(self) -> None:
        accumulation = numbers(4)
        accumulation[3] = 9
        self.assertEqual(call("jb_accumulate", 1, 3, b"\1\4\x10", accumulation), 0)
        self.assertEqual(list(accumulation), [1, 3, 1, 9])
        converted = bytearray(b"....")
        self.assertEqual(call("jb_convert", 1, 3, 1, 3, b"\1\4\x10", converted), 0)
        self.assertEqual(converted, b"\5\7\1.")

    def test_a_count_goes_with_each_slice(self) -> None:
        self.assertEqual(call("jb_accumulate", 1, 3, b"\1\4", numbers(3)), 11)
        self.assertEqual(call("jb_accumulate", 1, 3, b"\1\4\x10", numbers(2)), 11)
        self.assertEqual(call("jb_convert", 1, 1, 1, 3, b"\1\4\x10", bytearray(2)), 11)

    def test_empty_slices(self) -> None:
        self.assertEqual(call("jb_accumulate", 1, 1, b"", numbers(0)), 11)
        self.assertEqual(call("jb_convert", 1, 1, 1, 1, b"\1", bytearray()), 11)

    def test_codes_are_handed_over_past_a_null(self) -> None:
        accumulation = numbers(3)
        self.assertEqual(call("jb_accumulate", 1, 3, b"\0\1\1", accumulation), 0)
        self.assertEqual(list(accumulation), [0, 1, 2])

    def test_a_function_without_a_number(self) -> None:
        part = (c_size_t * 2)()
        self.assertEqual(call("jb_starts_of", array("I", [5, 6, 7]), array("I", [1, 2]), 1, part), 0)
        self.assertEqual(list(part), [1, 2])


if __name__ == "__main__":
    unittest.main()

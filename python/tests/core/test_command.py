"""The command, as it is called: its parts, its errors on one line, and its exit status."""

import os
import re
import subprocess
import sys
import unittest
from contextlib import redirect_stderr, redirect_stdout
from io import StringIO
from textwrap import dedent
from unittest.mock import patch

from jinxbanyan.command import main
from jinxbanyan.library import load
from tests.running import FilesCase, Ran, run
from tests.samples import ROOT, SAMPLES

README = (ROOT / "README.md").read_text(encoding="utf-8")


class Command(FilesCase):
    def test_a_drawing_becomes_a_sheet_and_a_picture(self) -> None:
        sheet, svg = self.here / "valley.sheet", self.here / "valley.svg"
        self.assertEqual(run("make", SAMPLES / "valley.drawing", sheet), Ran(0, "", ""))
        self.assertEqual(sheet.read_bytes(), (SAMPLES / "valley.sheet").read_bytes())
        self.assertEqual(run("picture", sheet, svg), Ran(0, "", ""))
        self.assertEqual(svg.read_bytes(), (SAMPLES / "valley.svg").read_bytes())
        self.assertEqual(run("picture", sheet, svg, "--edition", "2").status, 0)

    def test_show_gives_the_drawing_back(self) -> None:
        for letters in ("", "--letters"):
            shown = run("show", SAMPLES / "pond.sheet", *filter(None, [letters]))
            self.assertEqual((shown.status, shown.err), (0, ""))
            drawing, sheet = self.here / "pond.drawing", self.here / "pond.sheet"
            drawing.write_text(shown.out, encoding="utf-8")
            self.assertEqual(run("make", drawing, sheet).status, 0)
            self.assertEqual(sheet.read_bytes(), (SAMPLES / "pond.sheet").read_bytes())

    def test_refusals(self) -> None:
        out = self.here / "out"
        ring = run("picture", SAMPLES / "ring.sheet", out)
        self.assert_fails(ring, 1, "refused 13", "4 cells, row 0 column 0, row 0 column 1")
        self.assert_fails(
            run("picture", SAMPLES / "null-outlet.sheet", out), 1, "refused 16", "outlet 2 at row 0 column 2"
        )
        self.assert_fails(
            run("picture", SAMPLES / "outlet-twice.sheet", out), 1, "refused 17", "outlet 2 at row 0 column 1"
        )
        self.assert_fails(run("picture", SAMPLES / "no-outlets.sheet", out), 1, "refused 15")
        self.assert_fails(run("show", SAMPLES / "half.sheet"), 1, "refused 4")
        self.assertFalse(out.exists(), "nothing is written of a sheet that is refused")

    def test_drawings_that_cannot_be_read(self) -> None:
        drawing, sheet = self.here / "drawing", self.here / "sheet"
        drawing.write_bytes("→ ?".encode())
        self.assert_fails(run("make", drawing, sheet), 1, "drawing: line 1: ?")
        drawing.write_bytes(b"\xff\xfe")
        self.assert_fails(run("make", drawing, sheet), 1, "not text in UTF-8")
        drawing.write_bytes(b"E " * 65)
        self.assert_fails(run("make", drawing, sheet), 1, "refused 2")
        drawing.write_bytes(b"E* " * 64 + (b"\n" + b"E* " * 64) * 4)
        self.assert_fails(run("make", drawing, sheet), 1, "refused 8")
        self.assertFalse(sheet.exists())

    def test_usage(self) -> None:
        self.assert_fails(run(), 2, "PART", "--help")
        self.assert_fails(run("draw"), 2, "invalid choice")
        self.assert_fails(run("picture", "a.sheet"), 2, "out")
        self.assert_fails(run("picture", "a.sheet", "b.svg", "--edition", "3"), 2, "--edition")
        self.assert_fails(run("show", self.here / "none.sheet"), 2, "none.sheet: No such file or directory")
        self.assert_fails(run("make", SAMPLES / "valley.drawing", self.here), 2, "it is not a file")

    def test_no_library(self) -> None:
        with patch.dict(os.environ, {"JINXBANYAN_LIBRARY": str(self.here / "none.so")}):
            load.cache_clear()
            self.addCleanup(load.cache_clear)
            self.assert_fails(run("show", SAMPLES / "pond.sheet"), 2, "none.so cannot be loaded", "build-library")

    def test_arguments_with_line_ends(self) -> None:
        self.assert_fails(run("pic\nture"), 2, "invalid choice")

    def test_no_standard_output(self) -> None:
        with redirect_stderr(StringIO()) as err, patch("sys.stdout", None):
            self.assertEqual(main(["show", str(SAMPLES / "pond.sheet")]), 2)
        self.assertEqual(err.getvalue(), "jinxbanyan: there is no standard output\n")

    def test_stopped(self) -> None:
        with patch("jinxbanyan.sheet_parts.read_sheet", side_effect=KeyboardInterrupt):
            self.assert_fails(run("show", SAMPLES / "pond.sheet"), 2, "stopped")

    def test_help(self) -> None:
        for part in ("make", "show", "picture", "trace", "rings"):
            with self.subTest(part=part):
                shown = run(part, "--help")
                self.assertEqual((shown.status, shown.err), (0, ""))
                self.assertIn(f"usage: jinxbanyan {part}", shown.out)
        self.assertIn("exit status", run("--help").out)

    def test_as_a_module(self) -> None:
        shown = subprocess.run(
            [sys.executable, "-m", "jinxbanyan", "show", SAMPLES / "example.sheet"],
            cwd=ROOT / "python",
            capture_output=True,
            check=False,
        )
        self.assertEqual((shown.returncode, shown.stdout.decode(), shown.stderr), (0, "→ ↓*← ←\n", b""))


class Repository(unittest.TestCase):
    def test_no_file_of_the_package_is_over_300_lines(self) -> None:
        for file in (ROOT / "python").rglob("*.py"):
            with self.subTest(file=file.name):
                self.assertLessEqual(len(file.read_text(encoding="utf-8").splitlines()), 300)

    def test_the_readme_shows_the_picture(self) -> None:
        self.assertTrue("(samples/valley.svg)" in README)

    def test_the_lines_of_the_readme(self) -> None:
        lines = re.search(r"\n\n((?:    from jinxbanyan)(?:.*\n)+?)\n", README)
        assert lines
        out = StringIO()
        with redirect_stdout(out):
            exec(dedent(lines[1]), {})
        self.assertEqual(out.getvalue(), "4 Length(straight=2, diagonal=0) (Cell(row=0, column=3),)\n")

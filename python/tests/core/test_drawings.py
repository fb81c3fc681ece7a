"""Sheets as text: what is typed, what is shown again, and what is said of a text that cannot be read."""

import unittest

from jinxbanyan import Cell, Grid, Sheet
from jinxbanyan.drawings import read_drawing, write_drawing
from jinxbanyan.faults import Unfit
from tests.samples import SAMPLES, sample_sheets

EIGHT = Sheet(Grid(2, 5, bytes([1, 2, 4, 8, 16, 32, 64, 128, 0, 255])), (Cell(1, 1),))


class Read(unittest.TestCase):
    def test_every_sign(self) -> None:
        for text in (
            "→ ↘ ↓ ↙ ←\n↖ ↑* ↗ . ~",
            "→↘↓↙←\n↖↑*↗.~\n",
            "E SE S SW W\nNW N* NE . ~",
            "e  se\ts sw w\n nw n* ne .~",
            "# ten codes\n\n→ ↘ ↓ ↙ ←\r\n↖ ↑ ↗ . ~\r\noutlet 1 1\n",
            "\ufeff→\ufe0f↘↓↙←\n↖↑*↗.~",
            "\u27a1\ufe0f↘\ufe0f\u2b07\ufe0f↙\u2b05\n↖\u2b06\ufe0f*↗.\u200b~",
        ):
            with self.subTest(text=text):
                self.assertEqual(read_drawing(text), EIGHT)

    def test_marked_outlets_are_taken_row_by_row(self) -> None:
        self.assertEqual(read_drawing("→ ↓*\n→*↓").outlets, (Cell(0, 1), Cell(1, 0)))

    def test_listed_outlets_keep_their_order(self) -> None:
        listed = read_drawing("→ ↓\n→ ↓\noutlet 1 0\noutlet 0 1\noutlet 1 0\n").outlets
        self.assertEqual(listed, (Cell(1, 0), Cell(0, 1), Cell(1, 0)))

    def test_faults_name_the_line(self) -> None:
        for text, said in (
            ("→→\n→x", "line 2: x is neither"),
            ("→ SEW", "line 1: SEW is neither a direction nor null nor a pond, and letters of two cells need a space"),
            ("→ * →", "line 1: * is neither a direction nor null nor a pond; it stands right after its cell"),
            ("→\noutlet 0 " + "9" * 5000, "line 2: an outlet is listed as"),
            ("→→\n\n→", "line 3: the number of cells is 1, in the rows above 2"),
            ("→\noutlet 0", "line 2: an outlet is listed as"),
            ("→\noutlet 0 0\n→", "line 3: a row of cells after the list"),
            ("→→\noutlet 0 0\noutlet 0 2", "outlet 2 at row 0 column 2 is outside the 1 rows of 2 cells"),
            ("→*\noutlet 0 0", "outlets are both marked and listed"),
            ("# nothing\n", "no row of cells"),
        ):
            with self.subTest(text=text), self.assertRaisesRegex(Unfit, said.replace("*", r"\*")):
                read_drawing(text)


class Written(unittest.TestCase):
    def test_arrows_and_marks(self) -> None:
        self.assertEqual(write_drawing(EIGHT), "→ ↘ ↓ ↙ ←\n↖ ↑*↗ . ~\n")

    def test_letters(self) -> None:
        self.assertEqual(write_drawing(EIGHT, letters=True), "E   SE  S   SW  W\nNW  N*  NE  .   ~\n")

    def test_outlets_out_of_order_are_listed(self) -> None:
        for outlets in ((Cell(1, 1), Cell(0, 0)), (Cell(0, 0), Cell(0, 0))):
            text = write_drawing(Sheet(EIGHT.grid, outlets))
            self.assertNotIn("*", text)
            self.assertEqual(text.splitlines()[2:], [f"outlet {cell.row} {cell.column}" for cell in outlets])

    def test_every_sample_is_drawn_and_read_back(self) -> None:
        for name, sheet in sample_sheets():
            for letters in (False, True):
                with self.subTest(sample=name, letters=letters):
                    self.assertEqual(read_drawing(write_drawing(sheet, letters)), sheet)

    def test_the_valley(self) -> None:
        drawing = (SAMPLES / "valley.drawing").read_text(encoding="utf-8")
        title, cells = drawing.split("\n", 1)
        self.assertTrue(title.startswith("#"))
        self.assertEqual(write_drawing(dict(sample_sheets())["valley"]), cells)

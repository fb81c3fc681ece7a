"""The picture of a sheet."""

import unittest
from xml.etree import ElementTree

from jinxbanyan import Cell, Grid, Refused, Sheet, trace
from jinxbanyan.colours import dark, pale, shade
from jinxbanyan.picture import picture
from tests.samples import SAMPLES, sample_sheets

SVG = "{http://www.w3.org/2000/svg}"


class Picture(unittest.TestCase):
    def test_the_valley_is_the_picture_in_the_repository(self) -> None:
        drawn = picture(dict(sample_sheets())["valley"])
        self.assertEqual(drawn, (SAMPLES / "valley.svg").read_text(encoding="utf-8"))

    def test_every_longest_path_is_lit_and_every_outlet_has_its_count(self) -> None:
        for name, sheet in sample_sheets():
            with self.subTest(sample=name):
                try:
                    traced = trace(sheet.grid, sheet.outlets).outlets
                except Refused as refused:
                    with self.assertRaises(Refused) as again:
                        picture(sheet)
                    self.assertEqual(again.exception.number, refused.number)
                    continue
                svg = ElementTree.fromstring(picture(sheet))
                lit = [line.get("stroke") for line in svg.iter(f"{SVG}polyline")]
                self.assertEqual(lit, [shade(one.place, k, one.paths) for one in traced for k in range(one.paths)])
                texts = [text.text for text in svg.iter(f"{SVG}text") if text.get("font-weight") == "bold"]
                self.assertEqual(texts, [str(one.cells) for one in traced])

    def test_a_path_goes_through_the_middle_of_its_cells(self) -> None:
        svg = ElementTree.fromstring(picture(Sheet(Grid.of([[1, 4, 16, 16]]), (Cell(0, 1),))))
        line = next(svg.iter(f"{SVG}polyline"))
        first, second, third = (tuple(map(float, point.split(","))) for point in line.get("points", "").split())
        self.assertEqual((first[0] - second[0], second[0] - third[0]), (32, 32))
        self.assertEqual({first[1], second[1], third[1]}, {42.0})

    def test_cells_are_coloured_by_the_outlet_they_drain_to(self) -> None:
        sheet = Sheet(Grid.of([[1, 1, 0, 255]]), (Cell(0, 1),))
        svg = ElementTree.fromstring(picture(sheet))
        drawn = [(cell.get("x"), cell.get("width"), cell.get("fill")) for cell in svg.findall(f"{SVG}g/{SVG}rect")]
        self.assertIn(("30", "64", pale(0)), drawn)
        self.assertIn(("126", "32", "#f1f1ef"), drawn)
        self.assertEqual(len(list(svg.iter(f"{SVG}circle"))), 2, "a pond and a start")

    def test_editions(self) -> None:
        sheet = dict(sample_sheets())["valley"]
        with self.assertRaises(Refused) as refused:
            picture(sheet, 3)
        self.assertEqual(refused.exception.number, 25)


class Colours(unittest.TestCase):
    def test_ties_have_different_shades_and_outlets_different_colours(self) -> None:
        self.assertEqual(len({shade(0, path, 9) for path in range(9)}), 9)
        for colour in (dark, pale):
            self.assertEqual(len({colour(outlet) for outlet in range(20)}), 20)

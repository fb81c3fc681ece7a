"""The command rings, and what trace says of a raster with a ring."""

import json
import sys
from unittest.mock import patch

from rasterio.shutil import copy  # type: ignore[import]

from tests.running import Ran, run
from tests.samples import SAMPLES

from .support import RING, UPPER, VALLEY_2, Case

RING_LINES = """\
rings 1
ring 1 cells 4
cell 0 0 at 500005 5199995
cell 0 1 at 500015 5199995
cell 1 1 at 500015 5199985
cell 1 0 at 500005 5199985
"""

# Drawn: → ← ↓
#        . . ↑
TWO = [[1, 16, 4], [0, 0, 64]]


class Rings(Case):
    def test_a_ring_and_its_place_on_the_map(self) -> None:
        self.assertEqual(run("rings", self.raster(RING), "--table", 1), Ran(0, RING_LINES, ""))

    def test_lines_of_geojson(self) -> None:
        ran = run("rings", self.raster(TWO), "--table", 1, "--out", self.out)
        self.assertEqual((ran.status, ran.err), (0, ""))
        self.assertTrue(ran.out.startswith("rings 2\nring 1 cells 2\ncell 0 0 at 500005 5199995\n"), ran.out)
        self.assertIn('"urn:ogc:def:crs:EPSG::32632"', self.out.read_text())
        self.assertEqual(
            self.lines(),
            [
                [[500005, 5199995], [500015, 5199995], [500005, 5199995]],
                [[500025, 5199995], [500025, 5199985], [500025, 5199995]],
            ],
        )
        properties = [feature["properties"] for feature in self.features()]
        self.assertEqual(properties, [{"ring": 1, "cells": 2}, {"ring": 2, "cells": 2}])

    def test_no_rings(self) -> None:
        self.assertEqual(run("rings", self.raster(), "--table", 1, "--out", self.out), Ran(0, "rings 0\n", ""))
        self.assertEqual(json.loads(self.out.read_text())["features"], [])

    def test_oblong_cells(self) -> None:
        oblong = self.raster([[1, 16]], place=(10, 0, 500000, 0, -20, 5200000))
        due = "rings 1\nring 1 cells 2\ncell 0 0 at 500005 5199990\ncell 0 1 at 500015 5199990\n"
        self.assertEqual(run("rings", oblong, "--table", 1), Ran(0, due, ""))

    def test_other_tables(self) -> None:
        self.assertEqual(run("rings", self.raster(VALLEY_2), "--table", 2), Ran(0, "rings 0\n", ""))
        self.assert_fails(run("rings", self.raster(VALLEY_2), "--table", 1), 1, "refused 12", "500025 5199995")

    def test_a_raster_needs_a_table(self) -> None:
        self.assert_fails(run("rings", self.raster()), 2, "--table")

    def test_a_source_of_the_directions_is_not_written_over(self) -> None:
        source = self.raster(RING)
        copy(source, self.here / "ring.vrt", driver="VRT")
        before = source.read_bytes()
        ran = run("rings", self.here / "ring.vrt", "--table", 1, "--out", source)
        self.assert_fails(ran, 2, "directions.tif cannot be written: it is read from")
        self.assertEqual(source.read_bytes(), before)

    def test_an_output_without_a_name(self) -> None:
        self.assert_fails(run("rings", self.raster(RING), "--table", 1, "--out", ""), 2, "it is not a file")

    def test_an_output_that_cannot_be_written(self) -> None:
        ran = run("rings", self.raster(RING), "--table", 1, "--out", self.here / "none" / "rings.geojson")
        self.assert_fails(ran, 2, "there is no directory")

    def test_trace_names_a_ring(self) -> None:
        ran = self.trace(self.raster(RING), self.points((500005, 5199995)))
        self.assert_fails(ran, 1, "refused 13", "4 cells, row 0 column 0, row 0 column 1, row 1 column 1")
        self.assertIn("row 0 column 0 is at 500005 5199995 on the map; jinxbanyan rings lists every ring\n", ran.err)


class Sheets(Case):
    def test_a_sheet_has_rows_and_columns_alone(self) -> None:
        lines = "rings 1\nring 1 cells 4\ncell 0 0\ncell 0 1\ncell 1 1\ncell 1 0\n"
        with patch.dict(sys.modules, {"rasterio": None, "numpy": None}):
            self.assertEqual(run("rings", SAMPLES / "ring.sheet"), Ran(0, lines, ""))
            self.assertEqual(run("rings", SAMPLES / "ring.sheet", "--table", 1), Ran(0, lines, ""))
            self.assertEqual(run("rings", SAMPLES / "comb.sheet"), Ran(0, "rings 0\n", ""))

    def test_what_a_sheet_has_not(self) -> None:
        self.assert_fails(run("rings", SAMPLES / "ring.sheet", "--table", 2), 2, "a sheet has table 1")
        self.assert_fails(run("rings", SAMPLES / "ring.sheet", "--out", self.out), 2, "no place on the map")
        self.assert_fails(run("rings", SAMPLES / "half.sheet"), 1, "refused 4")

    def test_neither_a_sheet_nor_a_raster(self) -> None:
        self.assert_fails(run("rings", self.points(UPPER), "--table", 1), 1, "outlets.csv cannot be read")
        self.assert_fails(run("rings", self.here / "none.tif", "--table", 1), 2, "none.tif")

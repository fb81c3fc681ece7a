"""The command trace: from a GeoTIFF and points to lines of GeoJSON, flow lengths and a printed line for each outlet."""

import json
import shutil
import subprocess
import sys
import unittest
from math import sqrt
from unittest.mock import patch

import numpy
import rasterio  # type: ignore[import]
from rasterio.shutil import copy  # type: ignore[import]

from jinxbanyan import Grid, accumulate, trace
from jinxbanyan.outputs import whole
from tests.running import Ran, run
from tests.samples import ROOT, SNAIL, sample_sheets

from .support import LOWER, LOWER_LINE, PLACE, UPPER, UPPER_LINE, UPPER_PATH, UTM, Case

# The flow lengths of the valley with both outlets.
DOWN_STRAIGHT = [[4, 3, 2, 0], [3, 0, 1, 2], [0, 1, 0, 0]]
DOWN_DIAGONAL = [[0, 0, 0, 0], [1, 1, 0, 0], [0, 1, 0, 0]]
UP_STRAIGHT = [[0, 0, 1, 0], [0, 1, 2, 0], [0, 0, 3, 0]]
UP_DIAGONAL = [[0, 1, 1, 0], [0, 0, 1, 0], [0, 0, 1, 0]]


class Paths(Case):
    def test_the_valley(self) -> None:
        ran = self.trace(self.raster(), self.points((*UPPER, "mill"), LOWER))
        self.assertEqual(ran, Ran(0, UPPER_LINE + LOWER_LINE, ""))
        written = json.loads(self.out.read_text())
        self.assertEqual(
            {name: member for name, member in written.items() if name != "features"},
            {
                "type": "FeatureCollection",
                "crs": {"type": "name", "properties": {"name": "urn:ogc:def:crs:EPSG::32632"}},
            },
        )
        upper, lower = written["features"]
        self.assertEqual({feature["type"] for feature in (upper, lower)}, {"Feature"})
        self.assertEqual(upper["geometry"], {"type": "LineString", "coordinates": UPPER_PATH})
        counts = {"outlet": 1, "name": "mill", "cells": 9, "straight": 3, "diagonal": 1, "paths": 1}
        self.assertAlmostEqual(upper["properties"].pop("length"), 30 + 10 * sqrt(2), 9)
        self.assertEqual(upper["properties"], counts)
        self.assertEqual(lower["geometry"], {"type": "LineString", "coordinates": [list(LOWER)] * 2})
        counts = {"outlet": 2, "cells": 1, "straight": 0, "diagonal": 0, "length": 0, "paths": 1}
        self.assertEqual(lower["properties"], counts)

    def test_ties_are_features_of_their_own(self) -> None:
        ran = self.trace(self.raster([[1, 255, 16]]), self.points((500015, 5199995)))
        self.assertEqual(ran, Ran(0, "outlet 1 at 0 1 cells 3 straight 1 diagonal 0 paths 2\n", ""))
        west, pond, east = [500005, 5199995], [500015, 5199995], [500025, 5199995]
        self.assertEqual(self.lines(), [[east, pond], [west, pond]])
        self.assertEqual([feature["properties"]["paths"] for feature in self.features()], [2, 2])

    def test_editions(self) -> None:
        raster, outlets = self.raster(SNAIL), self.points((500025, 5199975))
        first = self.trace(raster, outlets, "--edition", "1")
        self.assertEqual(first, Ran(0, "outlet 1 at 2 2 cells 9 straight 8 diagonal 0 paths 1\n", ""))
        self.assertEqual(self.lines()[0][0], [500015, 5199985])
        second = self.trace(raster, outlets, "--edition", "2")
        self.assertEqual(second, Ran(0, "outlet 1 at 2 2 cells 9 straight 7 diagonal 0 paths 1\n", ""))
        self.assertEqual(self.lines()[0][0], [500025, 5199985])

    def test_the_samples_as_rasters(self) -> None:
        """What is printed and drawn is what the package traces, with and without dropping."""
        for name, sheet in sample_sheets():
            raster = self.raster(sheet.grid.numpy(), "uint8", None)
            outlets = self.points(*((500005 + 10 * cell.column, 5199995 - 10 * cell.row) for cell in sheet.outlets))
            ran = self.trace(raster, outlets)
            self.assertEqual(self.trace(raster, outlets, "--no-dropping"), ran)
            if ran.status == 0:
                with self.subTest(name):
                    self.assert_like_the_package(sheet.grid, sheet.outlets, ran.out)

    def assert_like_the_package(self, grid: Grid, outlets: tuple[tuple[int, int], ...], printed: str) -> None:
        traced = trace(grid, outlets, accumulation=accumulate(grid)).outlets
        due = "".join(
            f"outlet {one.place + 1} at {one.outlet.row} {one.outlet.column} cells {one.cells} straight "
            f"{one.length.straight} diagonal {one.length.diagonal} paths {one.paths}\n"
            for one in traced
        )
        self.assertEqual(printed, due)
        starts = [[500005 + 10 * start.column, 5199995 - 10 * start.row] for one in traced for start in one.starts]
        self.assertEqual([line[0] for line in self.lines()], starts)
        self.assertEqual(len(self.lines()), sum(one.paths for one in traced))

    @unittest.skipUnless(shutil.which("ogrinfo"), "ogrinfo is not here")
    def test_ogrinfo_reads_it(self) -> None:
        self.trace(self.raster(), self.points((*UPPER, "mill"), LOWER))
        command = ["ogrinfo", "-al", str(self.out)]
        read = subprocess.run(command, capture_output=True, text=True, check=True).stdout
        for words in (
            "Feature Count: 2",
            'ID["EPSG",32632]',
            "Extent: (500005.000000, 5199975.000000) - (500035.000000, 5199995.000000)",
            "name (String) = mill",
            "LINESTRING (500005 5199985,500015 5199995,500025 5199995,500025 5199985,500025 5199975)",
        ):
            self.assertIn(words, read)


class Lengths(Case):
    def test_four_rasters(self) -> None:
        ran = self.trace(self.raster(), self.points(UPPER, LOWER), "--lengths", self.here / "valley")
        self.assertEqual(ran, Ran(0, UPPER_LINE + LOWER_LINE, ""))
        for name, due in (
            ("down_straight", DOWN_STRAIGHT),
            ("down_diagonal", DOWN_DIAGONAL),
            ("up_straight", UP_STRAIGHT),
            ("up_diagonal", UP_DIAGONAL),
        ):
            with self.subTest(name), rasterio.open(self.here / f"valley_{name}.tif") as dataset:
                self.assertEqual(dataset.read(1).tolist(), due)
                self.assertEqual((dataset.dtypes, dataset.compression.name), (("uint32",), "deflate"))
                self.assertEqual((dataset.crs, tuple(dataset.transform)[:6]), (UTM, PLACE))
        self.assertEqual(len(list(self.here.iterdir())), 7, "nothing but the input and what was asked for is left")


class Outputs(Case):
    def test_wrong_arguments(self) -> None:
        raster, outlets = self.raster(), self.points(UPPER)
        needed: list[object] = ["trace", raster, "--outlets", outlets, "--table", 1, "--out", self.out]
        for option in ("--outlets", "--table", "--out"):
            at = needed.index(option)
            self.assert_fails(run(*needed[:at], *needed[at + 2 :]), 2, option)
        self.assert_fails(run(*needed, "--edition", 3), 2, "--edition")
        self.assert_fails(self.trace(raster, outlets, table=4), 2, "--table")

    def test_outputs_that_cannot_be_written_are_told_of_before_the_work(self) -> None:
        raster, outlets = self.raster(), self.points(UPPER)
        with patch("jinxbanyan.raster_parts.read_raster", side_effect=AssertionError("the raster was read")):
            nowhere = self.here / "none" / "valley"
            self.assert_fails(self.trace(raster, outlets, "--lengths", nowhere), 2, "there is no directory", "none")
            self.assert_fails(self.trace(raster, outlets, "--picture", self.here), 2, "it is not a file")
            self.assert_fails(self.trace(raster, outlets, "--picture", "/dev/null"), 2, "/dev/null", "not a file")
            self.assert_fails(self.trace(raster, outlets, "--picture", self.out), 2, "is to be written twice")
            self.assert_fails(self.trace(raster, outlets, "--picture", raster), 2, "it is read from")
            self.assert_fails(self.trace(raster, outlets, "--picture", outlets), 2, "it is read from")
            self.assert_fails(self.trace(raster, outlets, "--picture", self.here / "p.jpg"), 2, "is to be a PNG")

    def test_a_source_of_the_directions_is_not_written_over(self) -> None:
        source = self.raster(name="valley_up_straight.tif")
        copy(source, self.here / "valley.vrt", driver="VRT")
        before = source.read_bytes()
        ran = self.trace(self.here / "valley.vrt", self.points(UPPER), "--lengths", self.here / "valley")
        self.assert_fails(ran, 2, "valley_up_straight.tif cannot be written: it is read from")
        self.assertEqual(source.read_bytes(), before)

    def test_a_full_disk(self) -> None:
        """No file may have more than 20,000 bytes: the upstream lengths have more and are not written."""
        codes = numpy.random.default_rng(1).choice([1, 2, 128], (200, 200))
        codes[:, -1] = 4
        raster, outlets = self.raster(codes, "uint8", None), self.points((501995, 5198005))
        given = (
            "trace",
            raster,
            "--outlets",
            outlets,
            "--table",
            1,
            "--out",
            self.out,
            "--lengths",
            self.here / "full",
        )
        limited = "import resource, signal, sys; signal.signal(signal.SIGXFSZ, signal.SIG_IGN)"
        limited += "; resource.setrlimit(resource.RLIMIT_FSIZE, (20_000, 20_000))"
        limited += "; from jinxbanyan.command import main; sys.exit(main(sys.argv[1:]))"
        command = [sys.executable, "-B", "-c", limited, *map(str, given)]
        ran = subprocess.run(command, cwd=ROOT / "python", capture_output=True, text=True, check=False)
        self.assertEqual((ran.returncode, ran.stdout), (2, ""))
        self.assertIn("full_up_straight.tif cannot be written: File too large", ran.stderr)
        written = {raster.name, outlets.name, self.out.name, "full_down_straight.tif", "full_down_diagonal.tif"}
        self.assertEqual({file.name for file in self.here.iterdir()}, written)

    def test_a_coordinate_system_that_geotiff_has_not(self) -> None:
        turned = "+proj=ob_tran +o_proj=longlat +o_lon_p=0 +o_lat_p=30 +lon_0=10 +ellps=WGS84"
        raster, outlets = self.raster(crs=turned), self.points(UPPER)
        ran = self.trace(raster, outlets, "--lengths", self.here / "turned")
        self.assertEqual(ran.status, 0)
        self.assertIn("warning: ", ran.err)
        self.assertEqual([file.name for file in self.here.iterdir() if "part" in file.name], [])

    def test_a_file_is_written_whole_or_not_at_all(self) -> None:
        self.out.write_text("before")
        with self.assertRaises(KeyError), whole(str(self.out)) as part:
            part.write_text("half")
            raise KeyError
        self.assertEqual([(file.name, file.read_text()) for file in self.here.iterdir()], [("out.geojson", "before")])
        with whole(str(self.out)) as part:
            part.write_text("after")
            self.assertEqual(self.out.read_text(), "before")
        self.assertEqual([(file.name, file.read_text()) for file in self.here.iterdir()], [("out.geojson", "after")])

    def test_a_link_leads_to_the_file(self) -> None:
        link = self.here / "link"
        link.symlink_to(self.out)
        with whole(str(link)) as part:
            part.write_text("after")
        self.assertTrue(link.is_symlink())
        self.assertEqual(self.out.read_text(), "after")


class Array(Case):
    def test_a_raster_as_large_as_can_be(self) -> None:
        """One row of 4,096 columns, all to the east."""
        ran = self.trace(self.raster(numpy.ones((1, 4096)), "uint8", None), self.points((500000 + 40955, 5199995)))
        self.assertEqual(ran, Ran(0, "outlet 1 at 0 4095 cells 4096 straight 4095 diagonal 0 paths 1\n", ""))
        self.assertEqual(self.lines(), [[[500005 + 10 * column, 5199995] for column in range(4096)]])
        self.assertEqual(self.features()[0]["properties"]["length"], 40950)

"""Outlets on the map: the cells that hold them, those that no cell holds, and other coordinate systems."""

import json
from pathlib import Path

from tests.running import Ran

from .support import LOWER, LOWER_LINE, PLACE, UPPER, UPPER_LINE, UPPER_PATH, Case

# Row 2 column 2 and row 2 column 3 in degrees.
DEGREES = ((9.00032855, 46.95330423), (9.00045997, 46.95330423))
BOTH = UPPER_LINE + LOWER_LINE


class Cells(Case):
    def test_a_cell_holds_its_western_and_northern_edge(self) -> None:
        raster = self.raster()
        for x, y, row, column in (
            (500020, 5199980, 2, 2),
            (500029.999, 5199970.001, 2, 2),
            (500020, 5199980.001, 1, 2),
            (500019.999, 5199980, 2, 1),
            (500000, 5200000, 0, 0),
            (500039.999, 5199970.001, 2, 3),
        ):
            with self.subTest(x=x, y=y):
                ran = self.trace(raster, self.points((x, y)))
                self.assertEqual((ran.status, ran.err), (0, ""))
                self.assertTrue(ran.out.startswith(f"outlet 1 at {row} {column} cells "), ran.out)

    def test_edges_that_are_not_exact_in_decimals(self) -> None:
        """Tenths are no binary fractions: 0.3 is the western edge of column 3 all the same."""
        codes = [[1] * 40]
        raster = self.raster(codes, place=(0.1, 0, 0, 0, -0.1, 0.1))
        for column in range(40):
            ran = self.trace(raster, self.points((f"{column // 10}.{column % 10}", 0.05)))
            self.assertTrue(ran.out.startswith(f"outlet 1 at 0 {column} cells "), ran)

    def test_outlets_outside(self) -> None:
        raster = self.raster()
        for x, y, shown in (
            (499999.999, 5199985, "499999.999 5199985"),
            (500040, 5199985, "500040 5199985"),
            (500005, 5200000.001, "500005 5200000.001"),
            (500005, 5199970, "500005 5199970"),
            (1e308, -1e308, "1e+308 -1e+308"),
        ):
            with self.subTest(x=x, y=y):
                ran = self.trace(raster, self.points(UPPER, (x, y, "mill")))
                self.assert_fails(ran, 1, f"outlet 2 (mill) at {shown} is outside the raster")
                self.assertIn(
                    "x from 500000 to below 500040 and y from 5200000 to above 5199970; --outlets-crs", ran.err
                )
        self.assert_fails(self.trace(raster, self.points((0, 0))), 1, "outlet 1 at 0 0 is outside")

    def test_outlets_that_the_library_refuses(self) -> None:
        raster = self.raster()
        on_null = self.trace(raster, self.points(UPPER, (500005, 5199975)))
        self.assert_fails(on_null, 1, "refused 16", "outlet 2 at row 2 column 0; row 2 column 0 is at 500005 5199975")
        twice = self.trace(raster, self.points(LOWER, UPPER, (500021, 5199971)))
        self.assert_fails(twice, 1, "refused 17", "outlet 3 at row 2 column 2; ", "at 500025 5199975 on the map")
        self.assert_fails(self.trace(raster, self.points()), 1, "refused 15")
        self.assert_fails(self.trace(raster, self.points(), "--no-dropping"), 1, "refused 15")
        self.assert_fails(self.trace(raster, self.points(*[UPPER] * 257)), 1, "refused 15")


class Systems(Case):
    def geojson(self, crs: str | None, *points: tuple[float, float]) -> Path:
        whole: dict[str, object] = {"type": "MultiPoint", "coordinates": points}
        if crs is not None:
            whole["crs"] = {"type": "name", "properties": {"name": crs}}
        return self.text(json.dumps(whole), "outlets.geojson")

    def test_the_system_that_geojson_names(self) -> None:
        for name in ("urn:ogc:def:crs:OGC:1.3:CRS84", "EPSG:4326", "urn:ogc:def:crs:EPSG::4326"):
            with self.subTest(name):
                ran = self.trace(self.raster(), self.geojson(name, *DEGREES))
                self.assertEqual(ran, Ran(0, BOTH, ""))
                self.assertEqual(self.lines()[0], UPPER_PATH)
        self.assertEqual(self.trace(self.raster(), self.geojson("EPSG:32632", UPPER, LOWER)), Ran(0, BOTH, ""))
        self.assertEqual(self.trace(self.raster(), self.geojson(None, UPPER, LOWER)), Ran(0, BOTH, ""))

    def test_the_system_that_the_command_names(self) -> None:
        raster, table = self.raster(), self.points(*DEGREES)
        self.assert_fails(self.trace(raster, table), 1, "outlet 1 at 9.00032855 46.95330423 is outside")
        self.assertEqual(self.trace(raster, table, "--outlets-crs", "EPSG:4326"), Ran(0, BOTH, ""))
        wrongly_named = self.geojson("EPSG:2056", *DEGREES)
        self.assertEqual(self.trace(raster, wrongly_named, "--outlets-crs", "EPSG:4326"), Ran(0, BOTH, ""))

    def test_outside_in_another_system(self) -> None:
        ran = self.trace(self.raster(), self.points((9, 47)), "--outlets-crs", "EPSG:4326")
        self.assert_fails(ran, 1, "outlet 1 at 9 47, in the raster's coordinates 500000 52051", "is outside the raster")

    def test_systems_that_are_not_known(self) -> None:
        raster, table = self.raster(), self.points(UPPER)
        self.assert_fails(self.trace(raster, table, "--outlets-crs", "moon"), 2, "--outlets-crs moon is no")
        self.assert_fails(self.trace(raster, self.geojson("moon", UPPER)), 1, "the outlets are in moon")
        nowhere = self.raster(place=PLACE, crs=None)
        ran = self.trace(nowhere, table, "--outlets-crs", "EPSG:4326")
        self.assert_fails(ran, 1, "in EPSG:4326, and the raster names no coordinate system")

    def test_points_that_a_system_has_no_place_for(self) -> None:
        ran = self.trace(self.raster(), self.points(DEGREES[0], (200, 95)), "--outlets-crs", "EPSG:4326")
        self.assert_fails(ran, 1, "outlet 2 at 200 95 has no place in the raster's coordinate system")

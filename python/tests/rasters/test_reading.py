"""Rasters of flow directions: which are read, and what becomes of cells without data."""

import subprocess
import sys
from math import cos, nan, pi, sin
from pathlib import Path
from unittest.mock import patch

import numpy
import rasterio  # type: ignore[import]
from rasterio.shutil import copy  # type: ignore[import]

from jinxbanyan.rasters import read_raster
from tests.running import Ran

from .support import LOWER, NOTHING, PLACE, UPPER, UPPER_LINE, UPPER_PATH, UTM, VALLEY, VALLEY_2, Case


def without_data(value: float, codes: list[list[int]] = VALLEY) -> list[list[float]]:
    """The valley with another number where it has no data."""
    return [[value if code == NOTHING else code for code in row] for row in codes]


class NoData(Case):
    def test_each_kind_of_nodata_is_null(self) -> None:
        on_null = self.points((500035, 5199995), name="null.csv")
        upper = self.points(UPPER)
        for dtype, value in (
            ("int16", NOTHING),
            ("float32", NOTHING),
            ("float64", nan),
            ("float32", 7.5),
            ("uint8", 255),
            ("uint8", 0),
            ("int32", -(2**31)),
        ):
            with self.subTest(dtype=dtype, nodata=value):
                raster = self.raster(without_data(value), dtype, value)
                self.assert_fails(self.trace(raster, on_null), 1, "refused 16", "outlet 1 at row 0 column 3")
                self.assertEqual(self.trace(raster, upper), Ran(0, UPPER_LINE, ""))
                self.out.unlink()

    def test_a_mask(self) -> None:
        path = self.raster(without_data(255), "uint8", None)
        with rasterio.Env(GDAL_TIFF_INTERNAL_MASK=True), rasterio.open(path, "r+") as dataset:
            dataset.write_mask(numpy.array(VALLEY) != NOTHING)
        ran = self.trace(path, self.points((500035, 5199995)))
        self.assert_fails(ran, 1, "refused 16", "outlet 1 at row 0 column 3")

    def test_255_is_a_pond_where_it_is_not_declared(self) -> None:
        ran = self.trace(self.raster(without_data(255), "uint8", None), self.points((500035, 5199995)))
        self.assertEqual(ran, Ran(0, "outlet 1 at 0 3 cells 1 straight 0 diagonal 0 paths 1\n", ""))

    def test_what_is_not_declared_is_refused(self) -> None:
        for dtype, value, shown in (("int16", NOTHING, "-9999"), ("float64", nan, "nan"), ("uint8", 3, "3")):
            with self.subTest(dtype=dtype, value=value):
                ran = self.trace(self.raster(without_data(value), dtype, None), self.points(UPPER))
                place = f"row 0 column 3 has {shown}; row 0 column 3 is at 500035 5199995 on the map\n"
                self.assert_fails(ran, 1, "refused 12", place)


class Codes(Case):
    def test_what_is_no_byte_is_refused_with_its_place(self) -> None:
        for value in (1.5, 300, -1, 256.0):
            with self.subTest(value=value):
                codes = [[4.0, 4.0], [4.0, value]]
                ran = self.trace(self.raster(codes, "float32", None), self.points(UPPER))
                self.assert_fails(ran, 1, "refused 12", f"row 1 column 1 has {float(value)}; ", "at 500015 5199985")

    def test_a_code_of_another_table_is_refused(self) -> None:
        raster, outlets = self.raster(VALLEY_2), self.points(UPPER)
        self.assert_fails(self.trace(raster, outlets), 1, "refused 12", "row 0 column 2 has 6; ", "500025 5199995")
        self.assertEqual(self.trace(raster, outlets, table=2), Ran(0, UPPER_LINE, ""))
        self.assertEqual(self.lines(), [UPPER_PATH])

    def test_more_than_4096_columns_are_refused_before_the_codes_are_read(self) -> None:
        outlets = self.points(UPPER)
        self.assert_fails(self.trace(self.cut(self.raster([[1] * 4097])), outlets), 1, "refused 10")
        self.assert_fails(self.trace(self.cut(self.raster([[1]] * 4097)), outlets), 1, "refused 10")
        self.assert_fails(
            self.trace(self.cut(self.raster([[1] * 4096])), outlets), 1, "cut.tif cannot be read as a raster"
        )


class Places(Case):
    def test_only_north_up(self) -> None:
        outlets = self.points(UPPER)
        turned = (10 * cos(pi / 6), 10 * sin(pi / 6), 500000.0, 10 * sin(pi / 6), -10 * cos(pi / 6), 5200000.0)
        for name, place in (
            ("south-up", (10.0, 0.0, 500000.0, 0.0, 10.0, 5199970.0)),
            ("west-up", (-10.0, 0.0, 500040.0, 0.0, -10.0, 5200000.0)),
            ("turned", turned),
        ):
            with self.subTest(name):
                self.assert_fails(self.trace(self.raster(place=place), outlets), 1, "turned or mirrored", "north-up")

    def test_no_georeference(self) -> None:
        ran = self.trace(self.raster(place=None), self.points((2, 2)))
        self.assert_fails(ran, 1, "directions.tif has no place on the map")

    def test_no_georeference_and_a_wrong_code_have_no_place_on_the_map(self) -> None:
        ran = self.trace(self.raster([[3]], place=None), self.points((2, 2)))
        self.assert_fails(ran, 1, "refused 12", "row 0 column 0 has 3\n")

    def test_only_square_cells(self) -> None:
        outlets = self.points(UPPER)
        oblong = self.trace(self.raster(place=(10.0, 0.0, 500000.0, 0.0, -12.5, 5200000.0)), outlets)
        self.assert_fails(oblong, 1, "10 by 12.5 map units", "only square cells")
        hardly = self.trace(self.raster(place=(10.0, 0.0, 500000.0, 0.0, -10.0001, 5200000.0)), outlets)
        self.assert_fails(hardly, 1, "10 by 10.0001 map units")
        rounded = self.trace(self.raster(place=(10.0, 0.0, 500000.0, 0.0, -10.000001, 5200000.0)), outlets)
        self.assertEqual(rounded, Ran(0, UPPER_LINE, ""))

    def test_degrees_are_told_of(self) -> None:
        raster = self.raster(place=(0.5, 0.0, 9.0, 0.0, -0.5, 47.0), crs="EPSG:4326")
        self.assert_warns(self.trace(raster, self.points((10.25, 45.75))), UPPER_LINE, "in degrees")
        self.assertEqual(self.features()[0]["properties"]["length"], 0.5 * (3 + 2**0.5))
        self.assertIn('"urn:ogc:def:crs:OGC:1.3:CRS84"', self.out.read_text())


class Files(Case):
    def test_esri_ascii(self) -> None:
        head = "ncols 4\nnrows 3\nxllcorner 500000\nyllcorner 5199970\ncellsize 10\nNODATA_value -9999\n"
        body = "\n".join(" ".join(map(str, row)) for row in VALLEY)
        ran = self.trace(self.text(f"{head}{body}\n", "directions.asc"), self.points(UPPER))
        self.assert_warns(ran, UPPER_LINE, "the coordinate system of the raster is not known")
        self.assertEqual(self.lines(), [UPPER_PATH])
        self.assertNotIn("crs", self.out.read_text())

    def test_a_system_without_an_epsg_code(self) -> None:
        own = "+proj=tmerc +lat_0=46.5 +lon_0=9.123 +k=1 +x_0=0 +y_0=0 +ellps=bessel +units=m"
        self.assert_warns(self.trace(self.raster(crs=own), self.points(UPPER)), UPPER_LINE, "has no EPSG code")
        self.assertNotIn("crs", self.out.read_text())

    def two_bands(self) -> Path:
        """A GeoTIFF with the valley in its first band, and what is no code in the second."""
        with rasterio.open(self.raster()) as dataset:
            profile, band = dataset.profile, dataset.read(1)
        with rasterio.open(self.here / "two.tif", "w", **profile | {"count": 2}) as dataset:
            dataset.write(numpy.array([band, 0 * band + 3]))
        return self.here / "two.tif"

    def test_the_first_band_is_read(self) -> None:
        self.assertEqual(self.trace(self.two_bands(), self.points(UPPER)), Ran(0, UPPER_LINE, ""))

    def test_a_file_without_bands(self) -> None:
        several = self.here / "two.nc"
        copy(self.two_bands(), several, driver="netCDF")
        ran = self.trace(several, self.points(UPPER))
        self.assert_fails(ran, 1, "two.nc has no band of its own; it holds rasters, such as netcdf:", "two.nc:Band1")

    def test_complex_numbers(self) -> None:
        self.assert_fails(self.trace(self.raster(dtype="complex64"), self.points(UPPER)), 1, "has complex numbers")

    def test_files_that_cannot_be_read(self) -> None:
        outlets = self.points(UPPER)
        self.assert_fails(self.trace(self.here / "none.tif", outlets), 2, "none.tif")
        self.assert_fails(self.trace(outlets, self.points(LOWER, name="other.csv")), 1, "outlets.csv cannot be read")
        self.assert_fails(self.trace(self.raster(), self.here / "none.csv"), 2, "none.csv")
        self.assert_fails(self.trace(self.cut(self.raster()), outlets), 1, "cut.tif cannot be read")

    def test_gdal_and_proj_add_nothing(self) -> None:
        """In a process of its own, since they write past Python's standard error."""
        raster, outlets = self.raster(), self.points(UPPER)
        for directions, crs, status in ((self.cut(raster), UTM, 1), (raster, "EPSG:99999999", 2)):
            given = ("trace", directions, "--outlets", outlets, "--table", 1, "--out", self.out, "--outlets-crs", crs)
            command = [sys.executable, "-m", "jinxbanyan", *map(str, given)]
            here = Path(__file__).parents[2]
            ran = subprocess.run(command, cwd=here, capture_output=True, text=True, check=False)
            self.assert_fails(Ran(ran.returncode, ran.stdout, ran.stderr), status)

    def test_without_rasterio_the_command_says_what_to_install(self) -> None:
        raster, outlets = self.raster(), self.points(UPPER)
        with patch.dict(sys.modules, {"rasterio": None}):
            self.assert_fails(
                self.trace(raster, outlets), 2, "python3-rasterio", "pip install rasterio", sys.executable
            )

    def test_the_place_is_kept(self) -> None:
        raster = read_raster(str(self.raster()), 1)
        self.assertEqual((raster.transform, raster.crs, raster.side), (PLACE, UTM, 10))
        self.assertEqual(raster.extent, (500000, 5199970, 500040, 5200000))

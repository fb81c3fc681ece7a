"""What the tests of rasters share: a small valley on the map, files of it, and the command run on them."""

import json
import warnings
from collections.abc import Sequence
from pathlib import Path
from typing import Any

import numpy
import rasterio  # type: ignore[import]
from rasterio.errors import NotGeoreferencedWarning  # type: ignore[import]
from rasterio.transform import Affine  # type: ignore[import]

from tests.running import FilesCase, Ran, run

UTM = "EPSG:32632"
PLACE = (10.0, 0.0, 500000.0, 0.0, -10.0, 5200000.0)
"""Cells of 10 m; the north-western corner of the valley is at 500000 5200000."""

NOTHING = -9999
"""What cells without data hold, where no test says otherwise."""

# Drawn: → → ↓ .
#        ↗ ↘ ↓ ←
#        . ↑ → ↓
VALLEY = [[1, 1, 4, NOTHING], [128, 2, 4, 16], [NOTHING, 64, 1, 4]]

# The valley by the codes of table 2.
VALLEY_2 = [[8, 8, 6, NOTHING], [1, 7, 6, 4], [NOTHING, 2, 8, 6]]

# Nine cells drain to row 2 column 2. The longest path starts in row 1 column 0, with a diagonal step and then three
# straight ones. Row 2 column 3 has the rest: itself.
UPPER, LOWER = (500025.0, 5199975.0), (500035.0, 5199975.0)
UPPER_LINE = "outlet 1 at 2 2 cells 9 straight 3 diagonal 1 paths 1\n"
LOWER_LINE = "outlet 2 at 2 3 cells 1 straight 0 diagonal 0 paths 1\n"
UPPER_PATH = [[500005, 5199985], [500015, 5199995], [500025, 5199995], [500025, 5199985], [500025, 5199975]]

# Drawn: → ↓ ←
#        ↑ ← .
RING = [[1, 4, 16], [64, 16, 0]]


class Case(FilesCase):
    """A test that makes rasters and points."""

    def setUp(self) -> None:
        super().setUp()
        self.out = self.here / "out.geojson"

    def raster(
        self,
        codes: Any = VALLEY,
        dtype: str = "int16",
        nodata: float | None = NOTHING,
        place: Sequence[float] | None = PLACE,
        crs: str | None = UTM,
        name: str = "directions.tif",
    ) -> Path:
        """A GeoTIFF of codes."""
        band = numpy.array(codes, dtype)
        rows, columns = band.shape
        profile: dict[str, Any] = {"height": rows, "width": columns, "count": 1, "dtype": dtype, "nodata": nodata}
        if place is not None:
            profile |= {"transform": Affine(*place), "crs": crs}
        with warnings.catch_warnings():
            warnings.simplefilter("ignore", NotGeoreferencedWarning)
            with rasterio.open(self.here / name, "w", driver="GTiff", **profile) as dataset:
                dataset.write(band, 1)
        return self.here / name

    def cut(self, raster: Path) -> Path:
        """A GeoTIFF whose last value is missing."""
        file = raster.read_bytes()
        raster.with_name("cut.tif").write_bytes(file[:-2])
        return raster.with_name("cut.tif")

    def points(self, *points: Sequence[object], name: str = "outlets.csv") -> Path:
        """A table of points: x, y and perhaps a name."""
        return self.text("".join(",".join(map(str, point)) + "\n" for point in points), name)

    def trace(self, directions: Path, outlets: Path, *others: object, table: int = 1) -> Ran:
        """The command trace, which writes to self.out."""
        return run("trace", directions, "--outlets", outlets, "--table", table, "--out", self.out, *others)

    def features(self) -> list[dict[str, Any]]:
        """The features of self.out."""
        features = json.loads(self.out.read_text())["features"]
        assert isinstance(features, list)
        return features

    def lines(self) -> list[list[list[float]]]:
        """The coordinates of each line of self.out."""
        return [feature["geometry"]["coordinates"] for feature in self.features()]

    def assert_fails(self, ran: Ran, status: int, *words: str) -> None:
        """The command failed with a status and one line that has the words, and wrote nothing."""
        super().assert_fails(ran, status, *words)
        self.assertFalse(self.out.exists())

    def assert_warns(self, ran: Ran, out: str, *words: str) -> None:
        """The command was carried out, and gave one warning that has the words."""
        self.assertEqual((ran.status, ran.out), (0, out))
        self.assertRegex(ran.err, r"\Ajinxbanyan: warning: [^\n]*\n\Z")
        for word in words:
            self.assertIn(word, ran.err)

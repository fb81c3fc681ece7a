"""The picture of a raster, as PNG."""

import sys
from unittest.mock import patch

import numpy
from matplotlib.colors import to_rgb  # type: ignore[import]
from matplotlib.image import imread  # type: ignore[import]

from jinxbanyan import plot
from jinxbanyan.colours import dark, pale, shade
from tests.running import Ran

from .support import LOWER, LOWER_LINE, NOTHING, UPPER, UPPER_LINE, Case


class Pictures(Case):
    def setUp(self) -> None:
        super().setUp()
        self.png = self.here / "valley.png"

    def share(self, colour: str) -> float:
        """How much of the picture has a colour."""
        image = imread(self.png)[:, :, :3]
        return float(numpy.all(numpy.abs(image - to_rgb(colour)) < 0.003, axis=2).mean())

    def test_subwatersheds_have_their_colours(self) -> None:
        ran = self.trace(self.raster(), self.points(UPPER, LOWER), "--picture", self.png)
        self.assertEqual(ran, Ran(0, UPPER_LINE + LOWER_LINE, ""))
        self.assertEqual(self.png.read_bytes()[:8], b"\x89PNG\r\n\x1a\n")
        upper, lower = self.share(pale(0)), self.share(pale(1))
        self.assertGreater(lower, 0.01)
        self.assertGreater(upper, 6 * lower, "nine cells, parts of them under paths, beside one")

    def test_ties_have_shades_of_their_own(self) -> None:
        self.trace(self.raster([[1, 255, 16]]), self.points((500015, 5199995)), "--picture", self.png)
        for path in (0, 1):
            self.assertGreater(self.share(shade(0, path, 2)), 0.0005)
        self.assertEqual(self.share(shade(0, 0, 1)), 0)

    def test_a_raster_that_is_sampled(self) -> None:
        codes = numpy.ones((1100, 2300), "int16")
        codes[:550] = NOTHING
        outlets = self.points((500000 + 22995, 5200000 - 10995), (500000 + 11495, 5200000 - 6005))
        with patch("jinxbanyan.plot._image", wraps=plot._image) as image:
            ran = self.trace(self.raster(codes), outlets, "--picture", self.png)
        self.assertEqual(ran.status, 0)
        self.assertEqual(image.call_args.args[0].shape, (367, 767), "every third row and column")
        self.assertEqual(imread(self.png).shape[1], 1600)
        ground = self.share("#e9e8e4")
        self.assertGreater(ground, 0.3, "a half of the raster is ground, nearly all of it of no subwatershed")
        self.assertLess(ground, 0.5)

    def test_strange_shapes(self) -> None:
        for codes in ([[4]], [[1] * 300], [[4]] * 300):
            with self.subTest(rows=len(codes)):
                last = (500000 + 10 * len(codes[0]) - 5, 5200000 - 10 * len(codes) + 5)
                ran = self.trace(self.raster(codes, crs=None), self.points(last), "--picture", self.png)
                self.assertEqual(ran.status, 0)
                self.assertGreater(self.share(dark(0)), 0, "the outlet")

    def test_without_matplotlib_the_command_says_what_to_install(self) -> None:
        with patch.dict(sys.modules, {"matplotlib": None}):
            ran = self.trace(self.raster(), self.points(UPPER), "--picture", self.png)
        self.assert_fails(ran, 2, "python3-matplotlib", "pip install")
        self.assertFalse(self.png.exists())

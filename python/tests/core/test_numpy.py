"""Arrays of numpy, lent and handed back. Without numpy these tests are left out."""

import unittest
import warnings
from typing import Any

from jinxbanyan import Cell, Grid, Place, accumulate, convert, trace

from .helper import Case, grid_of

try:
    import numpy
except ImportError:
    numpy = None  # type: ignore[assignment]

CODES = [[2, 4, 8], [1, 4, 16], [1, 4, 255]]
SIGNED = ("int16", "int32", "int64", "float32", "float64")


@unittest.skipUnless(numpy, "numpy is not installed")
class Arrays(Case):
    """Grids and accumulations beside arrays."""

    def setUp(self) -> None:
        self.enterContext(warnings.catch_warnings())
        warnings.simplefilter("error")

    def test_codes_of_several_kinds(self) -> None:
        for kind in ("uint8", "uint16", "uint32", "uint64", ">u2", *SIGNED):
            with self.subTest(kind):
                self.assertEqual(Grid.of(numpy.array(CODES, kind), 2), Grid.of(CODES, 2))

    def test_codes_in_any_order_of_memory(self) -> None:
        wide = numpy.zeros((6, 6), "uint8")
        wide[::2, ::2] = CODES
        for lent in (wide[::2, ::2], numpy.array(CODES, "int32", order="F"), numpy.array(CODES).T.copy().T):
            self.assertEqual(Grid.of(lent), Grid.of(CODES))

    def test_masked_cells_are_null(self) -> None:
        masked: Any = numpy.ma.MaskedArray([[1, 255, 16]], [[False, True, False]])  # type: ignore[no-untyped-call]
        self.assertEqual(Grid.of(masked), Grid.of([[1, 0, 16]]))

    def test_cells_in_small_numbers(self) -> None:
        """Cells may be given in numbers too small for the number of a cell."""
        grid = Grid(200, 200, bytes([4]) * 40_000)
        row, column = numpy.array([199, 7], "uint8")
        self.assertEqual(trace(grid, [(row, column)]).outlets[0].starts, (Cell(0, 7),))

    def test_numbers_that_the_library_cannot_hold(self) -> None:
        self.refused(25, trace, Grid.of(CODES), [(2, 1)], edition=numpy.int64(2**32 + 1))
        self.refused(24, convert, Grid.of(CODES), numpy.int64(2**32 + 2))

    def test_arrays_of_no_real_numbers(self) -> None:
        for kind in ("complex64", "U1", "datetime64[s]"):
            with self.subTest(kind), self.assertRaises(TypeError):
                Grid.of(numpy.array([[1, 2]]).astype(kind))

    def test_a_grid_is_an_array(self) -> None:
        self.assertEqual(numpy.asarray(Grid.of(CODES)).tolist(), CODES)
        self.assertEqual(numpy.asarray(Grid.of(CODES), "int32").dtype, numpy.int32)

    def test_numbers_are_not_to_be_changed(self) -> None:
        with self.assertRaises(ValueError):
            accumulate(Grid.of(CODES)).numpy()[0, 0] = 9

    def test_rows_that_are_arrays(self) -> None:
        self.assertEqual(Grid.of(list(numpy.array(CODES))), Grid.of(CODES))
        self.assertEqual(self.place(12, Grid.of, [numpy.array([1, 300])]).found, 300)

    def test_codes_are_kept(self) -> None:
        lent = numpy.array(CODES, "uint8")
        grid = Grid.of(lent)
        lent[:] = 0
        self.assertEqual(grid, Grid.of(CODES))

    def test_no_byte(self) -> None:
        for kind in SIGNED:
            for value in (-1, 256, 300, -256):
                self.assert_no_byte(kind, value)
        self.assert_no_byte("int8", -1)
        self.assert_no_byte("int64", 2**40)
        self.assert_no_byte("float64", 2.5)
        self.assert_no_byte("float32", float("inf"))

    def assert_no_byte(self, kind: str, value: float) -> None:
        """A value among codes is refused, and the first cell that has it is told."""
        codes = numpy.array([[1, 2, 4], [8, 16, 0]], kind)
        codes[1, 1] = codes[1, 2] = value
        with self.subTest(kind, value=value):
            place = self.place(12, Grid.of, codes)
            self.assertEqual(place, Place((Cell(1, 1),), found=value))
            self.assertIn(type(place.found), (int, float))

    def test_not_a_number(self) -> None:
        place = self.place(12, Grid.of, numpy.array([[1, numpy.nan]]))
        self.assertEqual((place.cells, str(place.found)), ((Cell(0, 1),), "nan"))

    def test_rows_and_columns(self) -> None:
        for shape in ((9,), (1, 3, 3), ()):
            self.assertRaises(ValueError, Grid.of, numpy.zeros(shape, "uint8"))
        self.refused(10, accumulate, Grid.of(numpy.zeros((0, 3), "uint8")))

    def test_grid_as_array(self) -> None:
        array = Grid.of(CODES).numpy()
        self.assertEqual((array.dtype, array.tolist()), (numpy.uint8, CODES))
        self.assertEqual(Grid.of(array), Grid.of(CODES))

    def test_numbers_as_array(self) -> None:
        made = accumulate(Grid.of(CODES))
        due = [list(row) for row in made]
        for array in (made.numpy(), numpy.asarray(made), numpy.array(made)):
            self.assertEqual((array.dtype, array.tolist()), (numpy.uint32, due))
        self.assertEqual(numpy.asarray(made, "float64").dtype, numpy.float64)
        self.assertEqual(numpy.asarray(made, "float64").tolist(), due)
        self.assertEqual(int(numpy.max(made)), max(made.numbers))

    def test_a_copy_is_a_copy(self) -> None:
        made = accumulate(Grid.of(CODES))
        copy = numpy.array(made)
        copy[:] = 0
        self.assertEqual(made, accumulate(Grid.of(CODES)))

    def test_lent_accumulation(self) -> None:
        grid = Grid.of(CODES)
        made = accumulate(grid).numpy()
        due = trace(grid, [(2, 1)])
        for kind in ("uint32", "int64", "uint8", ">u4", "float64"):
            for lent in (made.astype(kind), made.astype(kind).reshape(-1), numpy.asfortranarray(made.astype(kind))):
                with self.subTest(kind, shape=lent.shape):
                    self.assertEqual(trace(grid, [(2, 1)], accumulation=lent), due)

    def test_lent_accumulation_is_judged(self) -> None:
        lent = numpy.array([[1, 3, 2]])
        place = self.place(14, trace, grid_of("1 4 16"), [(0, 1)], accumulation=lent)
        self.assertEqual(place, Place((Cell(0, 2),), found=2, due=1))
        self.refused(11, trace, grid_of("1 4 16"), [(0, 1)], accumulation=lent[:, :2])

    def test_no_numbers_of_32_bits(self) -> None:
        for value, kind in (
            (-1, "int64"),
            (-1, "int32"),
            (2**32, "int64"),
            (2**32 + 1, "uint64"),
            (1.5, "float64"),
            (float("nan"), "float64"),
        ):
            with self.subTest(kind, value=value):
                lent = numpy.array([[1, 3, value]], kind)
                self.assertRaises(OverflowError, trace, grid_of("1 4 16"), [(0, 1)], accumulation=lent)


if __name__ == "__main__":
    unittest.main()

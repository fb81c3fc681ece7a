"""Where a refusal has its cause: the cells, the outlet, what stands there and what is due."""

import unittest

from jinxbanyan import Cell, Grid, Place, Sheet, accumulate, convert, draw, trace, write_sheet

from .helper import OF_A_GRID, WITH_OUTLETS, Case, Function, grid_of, random_codes

M2, OUTLET = grid_of("1 4 16"), (0, 1)


class Codes(Case):
    """12, and 5 for writing: the first cell whose code is unknown."""

    def test_first_cell_and_its_code(self) -> None:
        grid = grid_of("1 4 0 / 255 7 3 / 7 9 1")
        due = Place((Cell(1, 1),), found=7)
        for function in OF_A_GRID:
            self.assertEqual(self.place(12, function, grid), due)
        for function in WITH_OUTLETS:
            self.assertEqual(self.place(12, function, grid, [OUTLET], accumulation=[0] * 9), due)

    def test_of_the_grids_own_table(self) -> None:
        for table in (2, 3):
            for codes, cell, code in (("8 16 / 9 1", Cell(0, 1), 16), ("1 8 / 5 9", Cell(1, 1), 9)):
                with self.subTest(table=table, code=code):
                    grid, due = grid_of(codes, table), Place((cell,), found=code)
                    for function in OF_A_GRID:
                        self.assertEqual(self.place(12, function, grid), due)
                    for function in WITH_OUTLETS:
                        self.assertEqual(self.place(12, function, grid, [OUTLET]), due)
                    self.assertEqual(self.place(12, write_sheet, Sheet(grid, ())), due)

    def test_writing(self) -> None:
        sheet = Sheet(grid_of("1 4 16 / 1 6 5"), (Cell(0, 9),))
        self.assertEqual(self.place(5, write_sheet, sheet), Place((Cell(1, 1),), found=6))

    def test_in_words(self) -> None:
        line = str(self.refused(12, accumulate, grid_of("1 3")))
        self.assertTrue(line.endswith(": row 0 column 1 has 3"), line)


class Rings(Case):
    """13: the cells of a ring, each flowing into the next and the last into the first."""

    def ring(self, function: Function, grid: Grid, *outlets: tuple[int, int]) -> tuple[Cell, ...]:
        place = self.place(13, function, grid, *([outlets] if outlets else ()))
        self.assert_ring(grid, place.cells)
        self.assertEqual(place, Place(place.cells))
        return place.cells

    def test_two_cells(self) -> None:
        self.assertEqual(self.ring(accumulate, grid_of("1 16")), (Cell(0, 0), Cell(0, 1)))

    def test_four_cells(self) -> None:
        grid = grid_of("0 0 0 / 0 1 4 / 0 64 16")
        due = (Cell(1, 1), Cell(1, 2), Cell(2, 2), Cell(2, 1))
        self.assertEqual(self.ring(accumulate, grid), due)
        for function in WITH_OUTLETS:
            self.assertEqual(self.ring(function, grid, (1, 1)), due)

    def test_without_the_first_cell_walked_from(self) -> None:
        cells = self.ring(accumulate, grid_of("1 1 1 4 / 0 0 64 16 / 1 1 4 0"))
        self.assertEqual(set(cells), {Cell(0, 2), Cell(0, 3), Cell(1, 3), Cell(1, 2)})

    def test_the_outlet_does_not_cut_a_ring(self) -> None:
        self.ring(trace, grid_of("1 16"), (0, 0))

    def test_in_another_table(self) -> None:
        grid = grid_of("1 2 0 / 0 64 16")
        due = self.ring(accumulate, grid)
        self.assertEqual(due, (Cell(0, 1), Cell(1, 2), Cell(1, 1)))
        for table in (2, 3):
            self.assertEqual(self.place(13, accumulate, convert(grid, table)).cells, due)
            self.assertEqual(self.place(13, trace, convert(grid, table), [OUTLET]).cells, due)

    def test_random(self) -> None:
        for seed in range(20):
            self.ring(accumulate, random_codes(12, 15, seed))


class Accumulations(Case):
    """14: the first cell whose accumulation is another, what was given and what is due."""

    def test_first_cell_found_and_due(self) -> None:
        grid = grid_of("2 4 8 / 1 4 16 / 1 4 16")
        given = [1, 1, 1, 1, 5, 1, 1, 8, 1]
        for function in WITH_OUTLETS:
            place = self.place(14, function, grid, [(2, 1)], accumulation=given)
            self.assertEqual(place, Place((Cell(1, 1),), found=5, due=6))

    def test_zero_is_found_and_is_due(self) -> None:
        self.assertEqual(
            self.place(14, trace, M2, [OUTLET], accumulation=[0, 3, 1]), Place((Cell(0, 0),), found=0, due=1)
        )
        self.assertEqual(
            self.place(14, trace, grid_of("1 0"), [(0, 0)], accumulation=[1, 7]), Place((Cell(0, 1),), found=7, due=0)
        )

    def test_in_another_table(self) -> None:
        for table in (2, 3):
            place = self.place(14, trace, convert(M2, table), [OUTLET], accumulation=[1, 3, 2])
            self.assertEqual(place, Place((Cell(0, 2),), found=2, due=1))

    def test_on_a_ring(self) -> None:
        grid = grid_of("1 1 16 4")
        place = self.place(14, trace, grid, [(0, 3)], accumulation=[1, 3, 1, 1])
        self.assert_ring(grid, place.cells)
        self.assertEqual((place.found, place.due), (None, None))

    def test_in_words(self) -> None:
        line = str(self.refused(14, trace, M2, [OUTLET], accumulation=[1, 3, 2]))
        self.assertTrue(line.endswith(": row 0 column 2 has 2 instead of 1"), line)
        line = str(self.refused(14, trace, grid_of("1 16"), [(0, 0)], accumulation=[1, 2]))
        self.assertTrue(line.endswith(": a ring of 2 cells, row 0 column 0, row 0 column 1"), line)


class Outlets(Case):
    """16 and 17, and 7 for writing: the first outlet at fault and its place in the list. 22: the start."""

    def test_outside(self) -> None:
        grid = grid_of("1 4 16 / 1 4 16")
        for outside in ((-1, 1), (0, -1), (2, 0), (0, 3), (0, 2**32), (-(2**70), 2**70)):
            with self.subTest(outside):
                due = Place((Cell(*outside),), outlet=1)
                for function in WITH_OUTLETS:
                    self.assertEqual(self.place(16, function, grid, [OUTLET, outside, (9, 9)]), due)
                sheet = Sheet(grid, (Cell(*OUTLET), Cell(*outside), Cell(9, 9)))
                self.assertEqual(self.place(7, write_sheet, sheet), due)

    def test_null(self) -> None:
        grid = grid_of("1 4 0 / 0 4 255")
        place = self.place(16, trace, grid, [(1, 2), OUTLET, (1, 0), (0, 2)])
        self.assertEqual(place, Place((Cell(1, 0),), outlet=2))

    def test_a_sheet_may_have_outlets_on_null_cells(self) -> None:
        grid = grid_of("1 4 0")
        sheet = Sheet(grid, (Cell(0, 2), Cell(1, 0)))
        self.assertEqual(self.place(7, write_sheet, sheet), Place((Cell(1, 0),), outlet=1))

    def test_twice(self) -> None:
        for outlets, due in (
            ([OUTLET, OUTLET], Place((Cell(*OUTLET),), outlet=1)),
            ([(0, 0), (0, 2), OUTLET, (0, 2), (0, 0)], Place((Cell(0, 2),), outlet=3)),
        ):
            for function in WITH_OUTLETS:
                self.assertEqual(self.place(17, function, M2, outlets), due)

    def test_start(self) -> None:
        for start in ((0, 0), (1, 0), (0, -1)):
            self.assertEqual(self.place(22, draw, M2, [OUTLET, (0, 0)], 0, start), Place((Cell(*start),)))

    def test_no_place_without_a_cell(self) -> None:
        for number, outlets, place, edition in ((15, [], None, 1), (18, [OUTLET], 1, 1), (25, [OUTLET], None, 3)):
            self.assertIsNone(self.refused(number, trace, M2, outlets, place, edition).place)

    def test_in_words(self) -> None:
        line = str(self.refused(16, trace, M2, [OUTLET, (0, -4)]))
        self.assertTrue(line.endswith(": outlet 2 at row 0 column -4"), line)


if __name__ == "__main__":
    unittest.main()

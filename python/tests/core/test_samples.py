"""The sample sheets: what the desk prints for each, said by the package."""

import unittest
from collections.abc import Iterator

from jinxbanyan import Cell, Refused, Sheet, Tracing, convert, read_sheet, trace, write_sheet
from tests.samples import ROOT

from .helper import Case, cells_of, grid_of, random_codes, ring_free

SAMPLES = sorted((ROOT / "samples").glob("*.sheet"))


def traced_one_by_one(sheet: Sheet) -> list[Tracing]:
    """Each outlet traced by its place, in order; the first is asked for even where the list is empty."""
    return [trace(sheet.grid, sheet.outlets, place) for place in range(max(len(sheet.outlets), 1))]


def lines(sheet: Sheet) -> Iterator[str]:
    """The lines that the desk prints for a sheet."""
    each = traced_one_by_one(sheet)
    yield f"catchment {sheet.grid.rows} {sheet.grid.columns} outlets {len(sheet.outlets)}"
    for tracing in each:
        (one,) = tracing.outlets
        yield (
            f"outlet {one.place + 1} at {one.outlet.row} {one.outlet.column} cells {one.cells}"
            f" straight {one.length.straight} diagonal {one.length.diagonal}"
            f" paths {one.paths} visited {tracing.visited} dropped {tracing.dropped}"
        )
        for start in one.starts:
            yield f"path {start.row} {start.column}"


def desk_text(file: bytes) -> str:
    """All that the desk prints for a file."""
    try:
        return "".join(line + "\n" for line in lines(read_sheet(file)))
    except Refused as refused:
        return f"refused {refused.number}\n"


def accepted() -> dict[str, Sheet]:
    """The sheets for which the desk prints no refusal, by name."""
    return {
        path.stem: read_sheet(path.read_bytes())
        for path in SAMPLES
        if not path.with_suffix(".txt").read_text().startswith("refused")
    }


class Samples(Case):
    """Each samples/*.sheet."""

    def test_there_are_samples(self) -> None:
        self.assertGreaterEqual(len(SAMPLES), 14)
        self.assertGreaterEqual(len(accepted()), 9)

    def test_what_the_desk_prints(self) -> None:
        for path in SAMPLES:
            with self.subTest(path.stem):
                self.assertEqual(desk_text(path.read_bytes()), path.with_suffix(".txt").read_text())

    def test_written_again(self) -> None:
        for path in SAMPLES:
            with self.subTest(path.stem):
                file = path.read_bytes()
                if path.stem == "half":
                    self.refused(4, read_sheet, file)
                else:
                    self.assertEqual(write_sheet(read_sheet(file)), file)

    def test_all_in_one_call(self) -> None:
        for name, sheet in accepted().items():
            with self.subTest(name):
                each = traced_one_by_one(sheet)
                at_once = trace(sheet.grid, sheet.outlets)
                self.assertEqual(at_once.outlets, tuple(one.outlets[0] for one in each))
                self.assertEqual(at_once.subaccumulation, each[0].subaccumulation)
                self.assertEqual(at_once.visited, sum(one.visited for one in each))
                self.assertEqual(at_once.dropped, sum(one.dropped for one in each))

    def test_without_dropping_every_cell_is_visited(self) -> None:
        for name, sheet in accepted().items():
            with self.subTest(name):
                tracing = trace(sheet.grid, sheet.outlets, dropping=False)
                self.assertEqual(tracing.outlets, trace(sheet.grid, sheet.outlets).outlets)
                self.assertEqual(tracing.visited, sum(one.cells for one in tracing.outlets))
                self.assertEqual(tracing.dropped, 0)


class Sheets(Case):
    """Sheets that are made here."""

    def test_the_scope_papers_example(self) -> None:
        file = bytes.fromhex("4438 0100 0400 5257 0000 01041010 4F54 0000 0100 454E")
        sheet = Sheet(grid_of("1 4 16 16"), (Cell(0, 1),))
        self.assertEqual((read_sheet(file), write_sheet(sheet)), (sheet, file))
        lines = ["catchment 1 4 outlets 1"]
        lines.append("outlet 1 at 0 1 cells 4 straight 2 diagonal 0 paths 1 visited 3 dropped 1")
        lines.append("path 0 3")
        self.assertEqual(desk_text(file).splitlines(), lines)

    def test_read_back(self) -> None:
        for rows, columns, outlets in ((1, 1, 0), (64, 64, 256), (64, 1, 64), (1, 64, 1), (7, 12, 84)):
            with self.subTest(rows=rows, columns=columns):
                grid = random_codes(rows, columns, seed=rows)
                sheet = Sheet(grid, tuple(cells_of(grid)[-outlets:] if outlets else ()))
                file = write_sheet(sheet)
                self.assertEqual(read_sheet(file), sheet)
                self.assertEqual(len(file), 6 + rows * (4 + columns) + 6 * outlets + 2)

    def test_other_tables_are_written_in_table_1(self) -> None:
        grid = ring_free(5, 8, seed=1)
        for table in (2, 3):
            self.assertEqual(read_sheet(write_sheet(Sheet(convert(grid, table), ()))).grid, grid)


if __name__ == "__main__":
    unittest.main()

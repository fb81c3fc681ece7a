"""A grid of flow directions, a grid of numbers, and lengths: what the library's functions take and give."""

from array import array
from collections.abc import Iterable, Iterator
from dataclasses import dataclass
from math import sqrt
from operator import index
from typing import TYPE_CHECKING, Any

from .compass import NULL
from .library import GREATEST
from .refusals import Cell, Place, Refused

if TYPE_CHECKING:
    import numpy as numpy_package

    NumpyArray = numpy_package.ndarray[Any, Any]

_BYTES = frozenset(range(256))


@dataclass(frozen=True)
class Grid:
    """The flow direction of each cell, row by row from the north, as codes of a table: 1 ArcGIS, 2 GRASS, 3 RichDEM."""

    rows: int
    columns: int
    codes: bytes
    table: int = 1

    def __post_init__(self) -> None:
        for name in ("rows", "columns", "table"):
            object.__setattr__(self, name, index(getattr(self, name)))
        codes = memoryview(self.codes)
        if codes.itemsize != 1:
            raise TypeError("the codes of a grid are bytes")
        object.__setattr__(self, "codes", bytes(codes))
        if len(self.codes) > max(self.rows * self.columns, 0):
            raise ValueError(f"{len(self.codes)} codes for {self.rows} rows of {self.columns} columns")

    @classmethod
    def of(cls, codes: "Iterable[Iterable[float]] | NumpyArray", table: int = 1) -> "Grid":
        """A grid from its rows, or from a numpy array of rows and columns, whose masked cells are null.

        A number that is no byte is refused with 12.
        """
        if hasattr(codes, "__array_interface__"):
            return cls._of_array(codes, table)
        by_rows = [list(row) for row in codes]
        columns = len(by_rows[0]) if by_rows else 0
        if any(len(row) != columns for row in by_rows):
            raise ValueError("the rows of a grid must have the same number of columns")
        for row, values in enumerate(by_rows):
            for column, value in enumerate(values):
                if value not in _BYTES:
                    raise Refused(12, Place((Cell(row, column),), found=value))
        return cls(len(by_rows), columns, b"".join(bytes(map(int, row)) for row in by_rows), table)

    @classmethod
    def _of_array(cls, codes: Any, table: int) -> "Grid":
        import numpy

        given = codes.filled(NULL) if hasattr(codes, "filled") else numpy.asarray(codes)
        if given.ndim != 2:
            raise ValueError("an array of codes must have rows and columns")
        if given.dtype.kind not in "biufO":
            raise TypeError("an array of codes must have real numbers")
        rows, columns = given.shape
        with numpy.errstate(invalid="ignore"):
            as_bytes = given.astype(numpy.uint8)
        unlike = as_bytes != given
        if unlike.any():
            row, column = divmod(int(unlike.argmax()), columns)
            raise Refused(12, Place((Cell(row, column),), found=given[row, column].item()))
        return cls(rows, columns, as_bytes.tobytes(), table)

    def number(self, cell: tuple[int, int]) -> int:
        """The number by which the library knows a cell, counted row by row from 0; outside the grid, one of no cell."""
        row, column = map(index, cell)
        inside = 0 <= row < self.rows and 0 <= column < self.columns
        return row * self.columns + column if inside else GREATEST

    def cell(self, number: int) -> Cell:
        """The cell that has a number."""
        return Cell(*divmod(number, self.columns))

    def numpy(self) -> "NumpyArray":
        """The codes as a numpy array of rows and columns."""
        import numpy

        return numpy.frombuffer(self.codes, numpy.uint8).reshape(self.rows, self.columns)

    def __array__(self, dtype: Any = None, copy: bool | None = None) -> "NumpyArray":
        return _converted(self.numpy(), dtype, copy)


@dataclass(frozen=True)
class NumberGrid:
    """A whole number for each cell of a grid, row by row. numpy.asarray takes it as an array of rows and columns."""

    rows: int
    columns: int
    numbers: "array[int]"

    def __post_init__(self) -> None:
        if not isinstance(self.numbers, array) or self.numbers.typecode != "I":
            raise TypeError("the numbers of a grid are an array of the type I")

    def __getitem__(self, cell: tuple[int, int]) -> int:
        row, column = cell
        if not (0 <= row < self.rows and 0 <= column < self.columns):
            raise IndexError(f"row {row} column {column} is outside {self.rows} rows of {self.columns} columns")
        return self.numbers[row * self.columns + column]

    def __iter__(self) -> "Iterator[array[int]]":
        """Row by row."""
        for first in range(0, self.rows * self.columns, self.columns):
            yield self.numbers[first : first + self.columns]

    def numpy(self) -> "NumpyArray":
        """The numbers as a numpy array of rows and columns."""
        import numpy

        numbers = numpy.frombuffer(self.numbers, numpy.uint32).reshape(self.rows, self.columns)
        numbers.flags.writeable = False
        return numbers

    def __array__(self, dtype: Any = None, copy: bool | None = None) -> "NumpyArray":
        return _converted(self.numpy(), dtype, copy)


@dataclass(frozen=True)
class Length:
    """A length of so many straight and so many diagonal steps, exact. It has no order here: the library compares."""

    straight: int
    diagonal: int

    def shown(self, side: float = 1.0) -> float:
        """The length in map units of a cell's side, rounded, for display alone."""
        return (self.straight + self.diagonal * sqrt(2)) * side


def _converted(view: "NumpyArray", dtype: Any, copy: bool | None) -> "NumpyArray":
    """A view as numpy.asarray asks for it: of another type, or copied."""
    return view.astype(dtype or view.dtype, copy=bool(copy))

"""Sparse matrices for the program: from triples, from scipy, from files."""

from __future__ import annotations

import operator
import os
from fractions import Fraction
from pathlib import Path
from typing import Any, BinaryIO, Callable, Iterable, Iterator, Optional, Sequence, Tuple, Union

from .faults import ShapeError
from .texts import LARGEST_SIZE, Number, Reader, copy_text

Triple = Tuple[int, int, Number]
CHUNK = 65536


class Matrix:
    """A sparse matrix of integers or fractions, given by entries (row, column, value), counted from 0.

    Entries come in any order; values at one place are summed. A modulus belongs to a call, not to a matrix.
    Wherever a function takes a matrix it takes a Matrix, the path of an SMS file, or a scipy sparse matrix.
    """

    def __init__(self, rows: int, columns: int, entries: Iterable[Tuple[int, int, Any]] = ()) -> None:
        """A matrix of this shape with these entries.

        Raises ShapeError if a size isn't from 0 to 2147483647 or an entry lies outside, and TypeError for a value
        that isn't an integer or a fraction, as every float.
        """
        self._shape = _checked_shape(rows, columns)
        held = [(operator.index(i), operator.index(j), _exact(v)) for i, j, v in entries]
        for number, (i, j, _) in enumerate(held):
            if not (0 <= i < self._shape[0] and 0 <= j < self._shape[1]):
                raise ShapeError(f"entry {number} is at row {i}, column {j} of a matrix of {rows} rows and {columns} columns, "
                                 "counted from 0", rows, columns)
        self._entries: Callable[[], Iterable[Triple]] = lambda: held
        self.path: Optional[Path] = None

    @classmethod
    def _lazy(cls, shape: Tuple[int, int], entries: Callable[[], Iterable[Triple]], path: Optional[Path] = None) -> "Matrix":
        """A matrix whose entries are made each time they are asked for."""
        made = cls(*shape)
        made._entries, made.path = entries, path
        return made

    @classmethod
    def from_rows(cls, rows: Sequence[Sequence[Any]], columns: Optional[int] = None) -> "Matrix":
        """The matrix of these dense rows. columns: its width, if there is no row to tell it.

        Raises ShapeError for rows of different lengths, TypeError as for triples.
        """
        width = columns if columns is not None else len(rows[0]) if len(rows) else 0
        for i, row in enumerate(rows):
            if len(row) != width:
                raise ShapeError(f"row {i} has {len(row)} values and not {width}", len(rows), width)
        return cls(len(rows), width, ((i, j, v) for i, row in enumerate(rows) for j, v in enumerate(row) if _exact(v)))

    @classmethod
    def from_scipy(cls, sparse: Any) -> "Matrix":
        """The same matrix as a scipy sparse matrix or array of integers. Raises TypeError for other values, as floats."""
        held = sparse.tocoo()
        if held.dtype.kind not in "iubO":
            raise TypeError(f"values of type {held.dtype} aren't exact: convert the matrix to integers first")
        if held.dtype.kind == "O":
            return cls(*held.shape, zip(held.row.tolist(), held.col.tolist(), held.data.tolist()))

        def entries() -> Iterator[Triple]:
            for start in range(0, len(held.data), CHUNK):
                part = slice(start, start + CHUNK)
                yield from zip(held.row[part].tolist(), held.col[part].tolist(), map(int, held.data[part].tolist()))

        return cls._lazy(held.shape, entries)

    @classmethod
    def read(cls, path: Union[str, "os.PathLike[str]"]) -> "Matrix":
        """The matrix of an SMS file. Only its header is read now; the program reads the file itself.

        Raises TextError for a faulty header, and OSError if the file can't be opened.
        """
        held = Path(path)
        with open(held, "rb") as stream:
            shape = Reader(stream, str(held)).header()

        def entries() -> Iterator[Triple]:
            with open(held, "rb") as stream:
                reader = Reader(stream, str(held))
                rows, columns = reader.header()
                for i, j, v in reader.entries(rows, columns):
                    yield i - 1, j - 1, v

        return cls._lazy(shape, entries, held)

    @classmethod
    def of(cls, thing: Any) -> "Matrix":
        """The matrix that a Matrix, the path of an SMS file, or a scipy sparse matrix stands for. TypeError for others."""
        if isinstance(thing, Matrix):
            return thing
        if isinstance(thing, (str, os.PathLike)):
            return cls.read(thing)
        if hasattr(thing, "tocoo"):
            return cls.from_scipy(thing)
        raise TypeError(f"{type(thing).__name__} isn't a Matrix, the path of an SMS file or a scipy sparse matrix")

    @property
    def shape(self) -> Tuple[int, int]:
        """(rows, columns)."""
        return self._shape

    def entries(self) -> Iterator[Triple]:
        """The entries (row, column, value), counted from 0, in the order in which they were given.

        Raises TextError if the matrix is a file with a fault.
        """
        return iter(self._entries())

    def sums(self) -> dict[Tuple[int, int], Number]:
        """The values that aren't 0 by place, after those at one place were summed."""
        found: dict[Tuple[int, int], Number] = {}
        for i, j, v in self.entries():
            found[i, j] = found.get((i, j), 0) + v
        return {place: value for place, value in found.items() if value}

    def to_rows(self) -> list[list[Number]]:
        """Dense rows, as lists."""
        rows: list[list[Number]] = [[0] * self.shape[1] for _ in range(self.shape[0])]
        for i, j, v in self.entries():
            rows[i][j] += v
        return rows

    def flat(self) -> list[Number]:
        """The values of a matrix of one row or one column, as a list. Raises ShapeError for others."""
        if 1 not in self.shape:
            raise ShapeError(f"a matrix of {self.shape[0]} rows and {self.shape[1]} columns isn't one row or column", *self.shape)
        values: list[Number] = [0] * max(self.shape) if 0 not in self.shape else []
        for i, j, v in self.entries():
            values[i + j] += v
        return values

    def to_scipy(self) -> Any:
        """The same as a scipy CSR matrix of 64-bit integers. Needs scipy; raises TypeError if a value is a fraction."""
        from scipy.sparse import coo_matrix
        held = [(i, j, operator.index(v)) for i, j, v in self.entries()]
        rows, columns, values = zip(*held) if held else ((), (), ())
        return coo_matrix((values, (rows, columns)), shape=self.shape, dtype="int64").tocsr()

    def transposed(self) -> "Matrix":
        """The transpose."""
        return Matrix._lazy(self.shape[::-1], lambda: ((j, i, v) for i, j, v in self.entries()))

    def write(self, target: Union[BinaryIO, str, "os.PathLike[str]"], modulus: Optional[int] = None) -> int:
        """Writes the matrix as SMS text to a stream of bytes or a file, and gives the number of lines.

        With a modulus, numerators and denominators are written as residues.
        """
        if not hasattr(target, "write"):
            with open(target, "wb") as stream:
                return self.write(stream, modulus)
        if self.path is not None:
            with open(self.path, "rb") as source:
                return copy_text(source, target)[0]
        target.write(b"%d %d M\n" % self.shape)
        lines, part = 2, []
        for i, j, v in self.entries():
            part.append(f"{i + 1} {j + 1} {spelled(v, modulus)}\n")
            lines += 1
            if len(part) == CHUNK:
                target.write("".join(part).encode())
                part.clear()
        target.write("".join(part).encode() + b"0 0 0\n")
        return lines

    def __eq__(self, other: object) -> bool:
        """Whether the other is a Matrix of the same shape with the same sums."""
        return isinstance(other, Matrix) and self.shape == other.shape and self.sums() == other.sums()

    __hash__ = None  # type: ignore[assignment]

    def __repr__(self) -> str:
        where = f" in {self.path}" if self.path is not None else ""
        return f"<Matrix of {self.shape[0]} rows and {self.shape[1]} columns{where}>"


def column_of(thing: Any) -> Matrix:
    """A right-hand side: a matrix of one column, or a sequence of its values. TypeError for others."""
    if isinstance(thing, (Matrix, str, os.PathLike)) or hasattr(thing, "tocoo"):
        return Matrix.of(thing)
    try:
        values = list(thing)
    except TypeError:
        raise TypeError(f"{type(thing).__name__} isn't a column: give a Matrix of one column or its values") from None
    return Matrix(len(values), 1, ((i, 0, v) for i, v in enumerate(values) if _exact(v)))


def _exact(value: Any) -> Number:
    """The integer or fraction that a value is. Raises TypeError for others, as floats."""
    if isinstance(value, Fraction):
        return value
    try:
        return operator.index(value)
    except TypeError:
        raise TypeError(f"the value {value!r} of type {type(value).__name__} isn't an integer or a fraction") from None


def spelled(value: Number, modulus: Optional[int]) -> str:
    """A value as a word of a text."""
    if modulus is None:
        return str(value)
    if isinstance(value, Fraction) and value.denominator != 1:
        return f"{value.numerator % modulus}/{value.denominator % modulus}"
    return str(int(value) % modulus)


def _checked_shape(rows: int, columns: int) -> Tuple[int, int]:
    """The shape, if its sizes are in range. Raises ShapeError."""
    shape = operator.index(rows), operator.index(columns)
    if not all(0 <= size <= LARGEST_SIZE for size in shape):
        raise ShapeError(f"{rows} rows and {columns} columns aren't from 0 to {LARGEST_SIZE} each", rows, columns)
    return shape

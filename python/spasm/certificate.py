"""Certificates: what shows a rank, an echelon form or a kernel basis without an elimination."""

from __future__ import annotations

import io
import os
from pathlib import Path
from typing import BinaryIO, NamedTuple, Optional, Union

from .matrix import Matrix
from .texts import Reader, natural

KINDS = ("rank", "rref", "kernel")


class Certificate(NamedTuple):
    """A certificate of an m x n matrix A: `A = left * right`, triangular at the pivots.

    kind: `rank`, `rref` or `kernel`. modulus: the number that its text names.
    pivots: R pairs (row, column), counted from 0. left: m x R. right: R x n.
    claim: the echelon form (R x n) for `rref`, the kernel basis ((n - R) x n) for `kernel`, None for `rank`.
    """

    kind: str
    modulus: int
    pivots: list[tuple[int, int]]
    left: Matrix
    right: Matrix
    claim: Optional[Matrix] = None

    @property
    def rank(self) -> int:
        """The rank that it claims."""
        return len(self.pivots)

    @classmethod
    def read(cls, source: Union[BinaryIO, str, "os.PathLike[str]"]) -> "Certificate":
        """The certificate in a file or a stream of bytes. Raises TextError if it isn't one."""
        if not hasattr(source, "read"):
            with open(source, "rb") as stream:
                return cls.read(stream)
        reader = Reader(source, getattr(source, "name", None) if isinstance(getattr(source, "name", None), str) else "certificate")
        kind, modulus, count = _first_line(reader)
        pivots = [_pivot(reader) for _ in range(count)]
        left, right = _matrix(reader), _matrix(reader)
        return cls(kind, modulus, pivots, left, right, _matrix(reader) if kind != "rank" else None)

    def write(self, target: Union[BinaryIO, str, "os.PathLike[str]"]) -> None:
        """Writes it as text to a file or a stream of bytes."""
        if not hasattr(target, "write"):
            Path(target).write_bytes(self.text())
            return
        target.write(f"certificate {self.kind} {self.modulus} {len(self.pivots)}\n".encode())
        target.write("".join(f"{i + 1} {j + 1}\n" for i, j in self.pivots).encode())
        for matrix in (self.left, self.right, self.claim):
            if matrix is not None:
                matrix.write(target)

    def text(self) -> bytes:
        """Its text."""
        target = io.BytesIO()
        self.write(target)
        return target.getvalue()


def _first_line(reader: Reader) -> tuple[str, int, int]:
    """Reads the kind, the modulus and the number of pivots."""
    found = reader.next_words()
    if not found:
        raise reader.fault(7)
    modulus, count = (natural(word) for word in (found + [b"", b"", b""])[2:4])
    if len(found) != 4 or found[0] != b"certificate" or found[1].decode("ascii", "replace") not in KINDS \
            or modulus is None or count is None:
        raise reader.fault(9, found)
    return found[1].decode(), modulus, count


def _pivot(reader: Reader) -> tuple[int, int]:
    """Reads one pivot."""
    found = reader.next_words()
    if not found:
        raise reader.fault(7)
    numbers = [natural(word) for word in found]
    if len(numbers) != 2 or not all(numbers):
        raise reader.fault(9, found)
    return numbers[0] - 1, numbers[1] - 1


def _matrix(reader: Reader) -> Matrix:
    """Reads one matrix, whose entries are held."""
    rows, columns = reader.header()
    return Matrix(rows, columns, ((i - 1, j - 1, v) for i, j, v in reader.entries(rows, columns)))

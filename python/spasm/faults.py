"""What can go wrong, as exceptions. Each says what was wrong and where; all are SpasmError."""

from __future__ import annotations

from typing import TYPE_CHECKING, Optional

if TYPE_CHECKING:
    from .matrix import Matrix

KINDS = {
    1: ("Words", "a line here has three words, and the third word of a header is one letter"),
    2: ("Number", "a size, an index or a value isn't spelled as a number"),
    3: ("Size", "a size is above 2147483647"),
    4: ("Row", "the row isn't from 1 to the number of rows"),
    5: ("Column", "the column isn't from 1 to the number of columns"),
    6: ("NoHeader", "the input ends and a header was due"),
    7: ("NoEnd", "the input ends and the closing line 0 0 0, or another line, was due"),
    8: ("Long", "the input is longer than the program takes"),
    9: ("Certificate", "the line isn't one of a certificate"),
    10: ("Divisor", "the divisor of the value is 0 modulo the modulus"),
    11: ("Trace", "the line isn't one of a trace"),
    12: ("Script", "the line isn't one of a script"),
}


class SpasmError(Exception):
    """What every fault of this package is."""


class TextError(SpasmError, ValueError):
    """A text has a fault: the first faulty line, and the kind of its fault.

    source: the path of the text, or what it was (`matrix`, `right-hand side`, `certificate`, `script`).
    line: the line of this text, counted from 1.
    kind, kind_name: the number and the name of the kind of fault.
    content: the line, cut after 80 characters.
    """

    def __init__(self, source: str, line: int, kind: int, content: str = "") -> None:
        super().__init__(source, line, kind, content)
        self.source, self.line, self.kind, self.content = source, line, kind, content
        self.kind_name = KINDS[kind][0] if kind in KINDS else f"kind {kind}"

    def __str__(self) -> str:
        meaning = KINDS[self.kind][1] if self.kind in KINDS else "unknown to this version"
        shown = f": {self.content!r}" if self.content else ""
        return f"{self.source}, line {self.line}: {meaning} ({self.kind_name}){shown}"


class ShapeError(SpasmError, ValueError):
    """A matrix isn't of the shape that is wanted. rows, columns: its shape, if there is one matrix to name.

    question: which right-hand side of `solve_many` it is, counted from 0; else None.
    """

    def __init__(self, message: str, rows: Optional[int] = None, columns: Optional[int] = None,
                 question: Optional[int] = None) -> None:
        super().__init__(message, rows, columns, question)
        self.message, self.rows, self.columns, self.question = message, rows, columns, question

    def __str__(self) -> str:
        return self.message


class NoSolution(SpasmError, ArithmeticError):
    """`A x = b` has no solution. witness: the row y (1 x m) with `y A = 0` and `y b = 1`, which shows it."""

    def __init__(self, witness: "Matrix") -> None:
        super().__init__(witness)
        self.witness = witness

    def __str__(self) -> str:
        return "A x = b has no solution: the witness y has y A = 0 and y b = 1"


class Singular(SpasmError, ArithmeticError):
    """A has no inverse. null_vector: a row x (1 x n), not zero, whose transpose has `A x = 0`."""

    def __init__(self, null_vector: "Matrix") -> None:
        super().__init__(null_vector)
        self.null_vector = null_vector

    def __str__(self) -> str:
        return "A has no inverse: the null vector x has A x = 0"


class NotPrime(SpasmError, ValueError):
    """The modulus isn't prime, so that most answers would mean nothing. modulus: the number."""

    def __init__(self, modulus: int) -> None:
        super().__init__(modulus)
        self.modulus = modulus

    def __str__(self) -> str:
        return f"the modulus {self.modulus} isn't prime"


class UsageError(SpasmError, ValueError):
    """An option is out of its range, or the program doesn't take the words that were given to it."""


class OutOfMemory(SpasmError, MemoryError):
    """There was too little memory for the program."""


class ReadFault(SpasmError, OSError):
    """A text couldn't be read to its end, as on a failing disk."""


class WriteFault(SpasmError, OSError):
    """The answer couldn't be written, as on a full disk."""


class ProgramFault(SpasmError, RuntimeError):
    """The program isn't found, wasn't built, was ended by a signal, or answered in an unknown form."""

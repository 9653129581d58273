"""What the program answers, as functions.

Each takes a matrix A of m rows and n columns as a Matrix, the path of an SMS file or a scipy sparse matrix, and by
keyword `modulus` (a prime below 2^48), `workers` (threads that share the work, 1 to 64) and, if it eliminates,
`rounds` (structural rounds, 0 to 16). No answer depends on workers and rounds but those of `pivots` and `certify`.

All raise what the package's faults say: TextError for a faulty text, NotPrime for a composite modulus, UsageError for
an option out of range, OutOfMemory, ReadFault, WriteFault and ProgramFault for what happens to a run, and TypeError for
a value that isn't exact. An interrupt (KeyboardInterrupt) ends the program that runs.
"""

from __future__ import annotations

import operator
import os
from contextlib import contextmanager
from typing import Any, BinaryIO, Iterable, Iterator, Optional, Sequence, Union

from .certificate import KINDS, Certificate
from .faults import NoSolution, ProgramFault, Singular, TextError, UsageError
from .matrix import Matrix, column_of, spelled
from .primes import checked_modulus
from .process import Group, Part, answer
from .texts import Reader

DEFAULT_MODULUS = 42013
DEFAULT_WORKERS = 1
DEFAULT_ROUNDS = 3
MOST_WORKERS = 64
MOST_ROUNDS = 16

FilePath = Union[str, "os.PathLike[str]"]
Pairs = Iterable[tuple[int, Any]]


def rank(matrix: Any, *, modulus: int = DEFAULT_MODULUS, workers: int = DEFAULT_WORKERS,
         rounds: int = DEFAULT_ROUNDS) -> int:
    """The rank of A."""
    return _rank(matrix, modulus, workers, rounds)


def _rank(matrix: Any, modulus: int, workers: int, rounds: int, group: Optional[Group] = None) -> int:
    """The rank of A, by a run of this group."""
    with _run("rank", [_part(matrix)], modulus, workers, rounds, group=group) as (_, reader):
        return _number_after(reader, b"rank")


def rref(matrix: Any, *, modulus: int = DEFAULT_MODULUS, workers: int = DEFAULT_WORKERS, rounds: int = DEFAULT_ROUNDS,
         output: Optional[FilePath] = None) -> Matrix:
    """The reduced row echelon form of A without its zero rows: rank x n.

    output: a file that gets the answer; the Matrix then stands for this file. After a fault it may hold a part.
    """
    return _matrix_answer("rref", matrix, modulus, workers, rounds, output)


def kernel(matrix: Any, *, modulus: int = DEFAULT_MODULUS, workers: int = DEFAULT_WORKERS, rounds: int = DEFAULT_ROUNDS,
           output: Optional[FilePath] = None) -> Matrix:
    """The reduced basis of all x with `A x = 0`, a vector in each row: (n - rank) x n. output: as for `rref`."""
    return _matrix_answer("kernel", matrix, modulus, workers, rounds, output)


def left_kernel(matrix: Any, *, modulus: int = DEFAULT_MODULUS, workers: int = DEFAULT_WORKERS,
                rounds: int = DEFAULT_ROUNDS, output: Optional[FilePath] = None) -> Matrix:
    """The reduced basis of all y with `y A = 0`, a vector in each row: (m - rank) x m. output: as for `rref`."""
    return _matrix_answer("leftkernel", matrix, modulus, workers, rounds, output)


def solve(matrix: Any, column: Any, *, modulus: int = DEFAULT_MODULUS, workers: int = DEFAULT_WORKERS,
          rounds: int = DEFAULT_ROUNDS) -> Matrix:
    """The reduced x (n x 1) with `A x = b`.

    column: b, a matrix of m rows and one column, or the sequence of its m values.
    Raises NoSolution with its witness if there is none, and ShapeError if b isn't m x 1.
    """
    parts = [_part(matrix), Part("right-hand side", column_of(column))]
    with _run("solve", parts, modulus, workers, rounds) as (_, reader):
        solved = _solution(reader)
    if isinstance(solved, NoSolution):
        raise solved
    return solved


def solve_many(matrix: Any, columns: Iterable[Any], *, modulus: int = DEFAULT_MODULUS,
               workers: int = DEFAULT_WORKERS) -> list[Union[Matrix, NoSolution]]:
    """For each b what `solve` tells: the solution, or a NoSolution, which is given here and not raised.

    columns: as many b as there are, to 1000000, each as for `solve`; A is eliminated once.
    Raises ShapeError for the first b that isn't m x 1, with its number in `question`.
    """
    parts = [_part(matrix)] + [Part(f"right-hand side {k}", column_of(column)) for k, column in enumerate(columns)]
    count = len(parts) - 1
    if not count:
        return []
    with _run("", parts, modulus, workers, None, more=["--count", str(count)]) as (_, reader):
        return [_solution(reader) for _ in range(count)]


def inverse(matrix: Any, *, modulus: int = DEFAULT_MODULUS, workers: int = DEFAULT_WORKERS,
            rounds: int = DEFAULT_ROUNDS) -> Matrix:
    """The inverse of A, n x n.

    Raises Singular with a null vector if there is none, and ShapeError if A isn't square or has more than 2^30 rows.
    """
    with _run("inverse", [_part(matrix)], modulus, workers, rounds) as (_, reader):
        first, found = reader.next_words(), _matrix_of(reader)
    if first == [b"singular"]:
        raise Singular(found)
    return _if_known(first == [b"inverse"], found)


def pivots(matrix: Any, *, modulus: int = DEFAULT_MODULUS, workers: int = DEFAULT_WORKERS) -> list[tuple[int, int]]:
    """The places (row, column), counted from 0, of structural pivots of A, in an order in which they are triangular.

    The modulus needn't be prime. With one worker it is the greedy list.
    """
    with _run("pivots", [_part(matrix)], modulus, workers, None, prime=False) as (_, reader):
        count = _number_after(reader, b"pivots")
        return [(i - 1, j - 1) for i, j in (_numbers(reader, 2) for _ in range(count))]


def certify(matrix: Any, *, kind: str = "rank", modulus: int = DEFAULT_MODULUS, workers: int = DEFAULT_WORKERS,
            rounds: int = DEFAULT_ROUNDS) -> Certificate:
    """A certificate of the rank of A, or with kind `rref` or `kernel` of its echelon form or kernel basis too."""
    if kind not in KINDS:
        raise UsageError(f"the kind {kind!r} isn't one of {', '.join(KINDS)}")
    with _run("certify", [_part(matrix)], modulus, workers, rounds, more=["--kind", kind]) as (_, reader):
        return Certificate.read(reader.stream)


def check(matrix: Any, certificate: Union[Certificate, FilePath], *, modulus: int = DEFAULT_MODULUS) -> bool:
    """Whether a certificate, or the one in a file, is valid for A. Nothing is eliminated; the modulus needn't be prime."""
    text = certificate.text() if isinstance(certificate, Certificate) else _content(certificate)
    name = "certificate" if isinstance(certificate, Certificate) else os.fspath(certificate)
    with _run("check", [_part(matrix), Part(name, lines=text)], modulus, 1, None, prime=False) as (status, reader):
        return _if_known(reader.next_words() == [b"no" if status else b"yes"], not status)


def grow(matrix: Any, steps: Iterable[Sequence[Any]], *, modulus: int = DEFAULT_MODULUS) -> list[Union[int, Matrix, bool]]:
    """The answers to questions about A and the rows that were appended to it before, in the order of the questions.

    steps: `("row", pairs)` appends a row; `("rank",)` asks for the rank so far, `("rref",)` for the echelon form,
    `("in", pairs)` whether a row is a combination of the rows so far. pairs: (column, value), columns counted from 0.
    """
    held = [(step[0], list(step[1]) if len(step) > 1 else []) for step in steps]
    script = "".join(_script_line(word, pairs, modulus) for word, pairs in held) + "end\n"
    parts = [_part(matrix), Part("script", lines=script.encode())]
    with _run("grow", parts, modulus, 1, None) as (_, reader):
        return [_grow_answer(reader, word) for word, _ in held if word != "row"]


def _part(matrix: Any) -> Part:
    """The first text of a run."""
    return Part("matrix", Matrix.of(matrix))


def _content(path: FilePath) -> bytes:
    """The bytes of a file."""
    with open(path, "rb") as stream:
        return stream.read()


@contextmanager
def _run(command: str, parts: Sequence[Part], modulus: int, workers: int, rounds: Optional[int], *,
         prime: bool = True, more: Sequence[str] = (), group: Optional[Group] = None,
         output: Optional[FilePath] = None) -> Iterator[tuple[int, Reader]]:
    """Runs a command, or `spasm_batch` if there is none, and gives the status and a reader of its answer."""
    words = ["--modulus", str(checked_modulus(operator.index(modulus), prime)),
             "--workers", _checked("workers", workers, 1, MOST_WORKERS)]
    if rounds is not None:
        words += ["--rounds", _checked("rounds", rounds, 0, MOST_ROUNDS)]
    name = "spasm" if command else "spasm_batch"
    words = [*([command] if command else []), *words, *more]
    with answer(name, words, parts, modulus, group, output) as (status, stream):
        try:
            yield status, Reader(stream, "answer")
        except TextError as fault:
            raise ProgramFault(f"the program {name} answered in an unknown form: {fault}") from fault


def _checked(option: str, value: int, least: int, most: int) -> str:
    """The word of an option, if its value is in range. Raises UsageError."""
    if not least <= operator.index(value) <= most:
        raise UsageError(f"{option} {value} isn't from {least} to {most}")
    return str(value)


def _matrix_answer(command: str, matrix: Any, modulus: int, workers: int, rounds: int, output: Optional[FilePath]) -> Matrix:
    """The answer of a command that writes one matrix."""
    with _run(command, [_part(matrix)], modulus, workers, rounds, output=output) as (_, reader):
        return _matrix_of(reader) if output is None else Matrix.read(output)


def _matrix_of(reader: Reader) -> Matrix:
    """Reads a matrix of the answer."""
    rows, columns = reader.header()
    return Matrix(rows, columns, ((i - 1, j - 1, v) for i, j, v in reader.entries(rows, columns)))


def _solution(reader: Reader) -> Union[Matrix, NoSolution]:
    """Reads what the program tells of one right-hand side."""
    first, found = reader.next_words(), _matrix_of(reader)
    if first == [b"no", b"solution"]:
        return NoSolution(found)
    return _if_known(first == [b"solution"], found)


def _if_known(known: bool, value: Any) -> Any:
    """The value, if the answer had a known form. Raises ProgramFault."""
    if not known:
        raise ProgramFault("the program answered in an unknown form")
    return value


def _numbers(reader: Reader, count: int) -> list[int]:
    """Reads a line of so many numbers."""
    found = reader.next_words()
    return _if_known(len(found) == count and all(word.isdigit() for word in found), [int(word) for word in found if word.isdigit()])


def _number_after(reader: Reader, word: bytes) -> int:
    """Reads a line of this word and a number."""
    found = reader.next_words()
    _if_known(len(found) == 2 and found[0] == word and found[1].isdigit(), None)
    return int(found[1])


def _script_line(word: str, pairs: Sequence[tuple[int, Any]], modulus: int) -> str:
    """A line of a script. Raises UsageError for a step that isn't known."""
    if word not in ("row", "in", "rank", "rref") or (pairs and word in ("rank", "rref")):
        raise UsageError(f"the step {word!r} with {len(pairs)} pairs isn't row, in, rank or rref")
    row = Matrix(1, max((column + 1 for column, _ in pairs), default=0), ((0, column, value) for column, value in pairs))
    return " ".join([word, *(f"{j + 1} {spelled(v, modulus)}" for _, j, v in row.entries())]) + "\n"


def _grow_answer(reader: Reader, word: str) -> Union[int, Matrix, bool]:
    """Reads the answer to one question."""
    if word == "rank":
        return _number_after(reader, b"rank")
    if word == "rref":
        return _matrix_of(reader)
    found = reader.next_words()
    return _if_known(found in ([b"yes"], [b"no"]), found == [b"yes"])

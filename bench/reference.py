"""The formats' page and textbook linear algebra as a plain program, which the programs are compared with.

It shares no code with them, is slow, and is meant for small matrices. Rows are dictionaries from columns, counted from 0, to residues.
"""

from __future__ import annotations

import re
from dataclasses import dataclass, field

LARGEST_SIZE = 2**31 - 1
LARGEST_MODULUS = 2**48 - 1
NUMBER = re.compile(rb"[0-9]+\Z")
VALUE = re.compile(rb"([+-]?[0-9]+)(?:/([0-9]+))?\Z")

Row = dict[int, int]


class Fault(Exception):
    """A faulty line: its number and the kind of the fault."""

    def __init__(self, line: int, kind: int) -> None:
        super().__init__(f"error 3 line {line} kind {kind}")
        self.line, self.kind = line, kind


@dataclass
class Matrix:
    height: int
    width: int
    rows: dict[int, Row] = field(default_factory=dict)

    def row(self, i: int) -> Row:
        return self.rows.get(i, {})

    def all_rows(self) -> list[Row]:
        return [self.row(i) for i in range(self.height)]


# Reading


class Lines:
    """The lines of an input, of which void ones are passed over."""

    def __init__(self, data: bytes) -> None:
        self.lines = data.split(b"\n")
        if self.lines[-1] == b"":
            self.lines.pop()
        self.number = 0

    def words(self, kind_at_end: int) -> list[bytes]:
        while self.number < len(self.lines):
            line = self.lines[self.number]
            self.number += 1
            line = line[:-1] if line.endswith(b"\r") else line
            found = [word for word in re.split(rb"[ \t]+", line) if word]
            if found and found[0][:1] not in (b"%", b"#"):
                return found
        raise Fault(len(self.lines) + 1, kind_at_end)

    def fault(self, kind: int) -> Fault:
        return Fault(self.number, kind)


def number(word: bytes) -> int | None:
    return int(word) if NUMBER.match(word) else None


def inverse_of(a: int, p: int) -> int:
    return pow(a, -1, p)


def read_value(word: bytes, p: int) -> tuple[int | None, bool, bool]:
    """The residue of a value that is spelled so (None if its divisor is 0 modulo p), whether it is the integer zero, and whether it is spelled."""
    found = VALUE.match(word)
    if not found:
        return None, False, False
    top = int(found[1])
    if found[2] is None:
        return top % p, top == 0, True
    below = int(found[2]) % p
    return (None if below == 0 else top * inverse_of(below, p) % p), False, True


def read_header(lines: Lines) -> tuple[int, int]:
    words = lines.words(6)
    if len(words) != 3 or not re.match(rb"[A-Za-z]\Z", words[2]):
        raise lines.fault(1)
    m, n = number(words[0]), number(words[1])
    if m is None or n is None:
        raise lines.fault(2)
    if m > LARGEST_SIZE or n > LARGEST_SIZE:
        raise lines.fault(3)
    return m, n


def read_entry(lines: Lines, m: int, n: int, p: int) -> tuple[int, int, int] | None:
    words = lines.words(7)
    if len(words) != 3:
        raise lines.fault(1)
    i, j = number(words[0]), number(words[1])
    value, is_zero, is_spelled = read_value(words[2], p)
    if i is None or j is None or not is_spelled:
        raise lines.fault(2)
    if i == 0 and j == 0 and is_zero:
        return None
    if not 1 <= i <= m:
        raise lines.fault(4)
    if not 1 <= j <= n:
        raise lines.fault(5)
    if value is None:
        raise lines.fault(10)
    return i - 1, j - 1, value


def add(row: Row, j: int, value: int, p: int) -> None:
    total = (row.get(j, 0) + value) % p
    if total:
        row[j] = total
    else:
        row.pop(j, None)


def read_matrix(lines: Lines, p: int) -> Matrix:
    matrix = Matrix(*read_header(lines))
    while (entry := read_entry(lines, matrix.height, matrix.width, p)) is not None:
        i, j, value = entry
        add(matrix.rows.setdefault(i, {}), j, value, p)
    return matrix


@dataclass
class Certificate:
    kind: bytes
    p: int
    pivots: list[tuple[int, int]]
    left: Matrix
    right: Matrix
    extra: Matrix | None


def numbers_below(words: list[bytes], least: list[int], most: list[int]) -> list[int] | None:
    found = [number(word) for word in words]
    if len(words) != len(least) or any(it is None or not a <= it <= b for it, a, b in zip(found, least, most)):
        return None
    return [it for it in found if it is not None]


def read_certificate(lines: Lines, p: int) -> Certificate:
    words = lines.words(7)
    title = numbers_below(words[2:], [0, 0], [LARGEST_MODULUS, LARGEST_SIZE]) if len(words) == 4 else None
    if title is None or words[0] != b"certificate" or words[1] not in (b"rank", b"rref", b"kernel"):
        raise lines.fault(9)
    pivots = []
    for _ in range(title[1]):
        pair = numbers_below(lines.words(7), [1, 1], [LARGEST_SIZE, LARGEST_SIZE])
        if pair is None:
            raise lines.fault(9)
        pivots.append((pair[0] - 1, pair[1] - 1))
    left, right = read_matrix(lines, p), read_matrix(lines, p)
    extra = None if words[1] == b"rank" else read_matrix(lines, p)
    return Certificate(words[1], title[0], pivots, left, right, extra)


def read_trace(lines: Lines) -> tuple[int, list[tuple[int, int, int]]]:
    words = lines.words(7)
    title = numbers_below(words[1:], [0, 0], [LARGEST_MODULUS, LARGEST_SIZE])
    if title is None or words[0] != b"trace":
        raise lines.fault(11)
    steps = []
    for _ in range(title[1]):
        step = numbers_below(lines.words(7), [1, 1, 0], [LARGEST_SIZE] * 3)
        if step is None:
            raise lines.fault(11)
        steps.append((step[0] - 1, step[1] - 1, step[2]))
    return title[0], steps


def read_script(lines: Lines, n: int, p: int) -> list[tuple[bytes, Row]]:
    steps: list[tuple[bytes, Row]] = []
    while True:
        words = lines.words(7)
        if words == [b"end"]:
            return steps
        row: Row = {}
        if words[0] in (b"row", b"in") and len(words) % 2 == 1:
            for c, v in zip(words[1::2], words[2::2]):
                column, value = number(c), read_value(v, p)[0]
                if column is None or not 1 <= column <= n or value is None:
                    raise lines.fault(12)
                add(row, column - 1, value, p)
        elif words not in ([b"rank"], [b"rref"]):
            raise lines.fault(12)
        steps.append((words[0], row))


# Linear algebra


def subtract(row: Row, factor: int, other: Row, p: int) -> None:
    for j, value in other.items():
        add(row, j, -factor * value, p)


def reduced_form(rows: list[Row], p: int) -> list[Row]:
    """The reduced row echelon form, by ascending leads."""
    kept: dict[int, Row] = {}
    for given in rows:
        row = dict(given)
        for lead in sorted(kept):
            if lead in row:
                subtract(row, row[lead], kept[lead], p)
        if row:
            lead = min(row)
            scale = inverse_of(row[lead], p)
            row = {j: value * scale % p for j, value in row.items()}
            for other in kept.values():
                if lead in other:
                    subtract(other, other[lead], row, p)
            kept[lead] = row
    return [kept[lead] for lead in sorted(kept)]


def kernel_of(rows: list[Row], width: int, p: int) -> list[Row]:
    form = reduced_form(rows, p)
    leads = {min(row) for row in form}
    basis = []
    for free in range(width):
        if free not in leads:
            vector = {min(row): (-row[free]) % p for row in form if free in row}
            vector[free] = 1
            basis.append(vector)
    return basis


def transposed(rows: list[Row], width: int) -> list[Row]:
    columns: list[Row] = [{} for _ in range(width)]
    for i, row in enumerate(rows):
        for j, value in row.items():
            columns[j][i] = value
    return columns


def reduced_solution(rows: list[Row], width: int, right: Row, p: int) -> Row | None:
    """The solution that is 0 at each free column, if there is one."""
    form = reduced_form([{**row, **({width: right[i]} if i in right else {})} for i, row in enumerate(rows)], p)
    if any(min(row) == width for row in form):
        return None
    return {min(row): row[width] for row in form if width in row}


def refutation(matrix: Matrix, right: Row, p: int) -> Row:
    rows = [*transposed(matrix.all_rows(), matrix.width), right]
    found = reduced_solution(rows, matrix.height, {matrix.width: 1}, p)
    assert found is not None
    return found


def product_row(row: Row, rows: list[Row], p: int) -> Row:
    total: Row = {}
    for k, value in row.items():
        subtract(total, -value, rows[k], p)
    return total


# Structural pivots


def reached(rows: dict[int, Row], pivots: list[tuple[int, int]], row: int) -> set[int]:
    """The pivotal columns that a path leads to from the row."""
    by_column = {j: i for i, j in pivots}
    seen = {j for j in rows.get(row, {}) if j in by_column}
    left = list(seen)
    while left:
        for j in rows[by_column[left.pop()]]:
            if j not in seen:
                seen.add(j)
                if j in by_column:
                    left.append(j)
    return seen


def alive(matrix: Matrix, pivots: list[tuple[int, int]], row: int) -> list[int]:
    """The columns that the row may take."""
    if row in {i for i, _ in pivots}:
        return []
    taken = {j for _, j in pivots} | reached(matrix.rows, pivots, row)
    return sorted(j for j in matrix.row(row) if j not in taken)


def leftmost(matrix: Matrix) -> list[tuple[int, int]]:
    chosen: dict[int, int] = {}
    for i in sorted(matrix.rows):
        row = matrix.row(i)
        if row:
            j = min(row)
            if j not in chosen or len(row) < len(matrix.row(chosen[j])):
                chosen[j] = i
    return [(chosen[j], j) for j in sorted(chosen)]


def greedy(matrix: Matrix) -> list[tuple[int, int]]:
    pivots = leftmost(matrix)
    for i in sorted(matrix.rows):
        columns = alive(matrix, pivots, i)
        if columns:
            pivots.append((i, columns[0]))
    return pivots


def is_maximal(matrix: Matrix, pivots: list[tuple[int, int]]) -> bool:
    return not any(alive(matrix, pivots, i) for i in sorted(matrix.rows))


def is_grown(matrix: Matrix, pivots: list[tuple[int, int]]) -> bool:
    return all(j in alive(matrix, pivots[:k], i) for k, (i, j) in enumerate(pivots))


def is_triangular(matrix: Matrix, pivots: list[tuple[int, int]]) -> bool:
    return all(
        j in matrix.row(i) and not any(before in matrix.row(i) for _, before in pivots[:k])
        for k, (i, j) in enumerate(pivots)
    )


# Certificates, traces


def has_form(rows: list[Row], ends: list[int]) -> bool:
    """Each row is 1 at its end, the ends rise, and every other row is 0 there."""
    rising = all(a < b for a, b in zip(ends, ends[1:]))
    alone = all((row.get(end, 0) == 1) == (k == t) and (k == t or end not in row)
                for k, row in enumerate(rows) for t, end in enumerate(ends))
    return rising and alone


def is_valid(matrix: Matrix, certificate: Certificate, p: int) -> bool:
    rank, left, right = len(certificate.pivots), certificate.left, certificate.right
    rows, columns = [i for i, _ in certificate.pivots], [j for _, j in certificate.pivots]
    if certificate.p != p or (left.height, left.width) != (matrix.height, rank) or (right.height, right.width) != (rank, matrix.width):
        return False
    if len(set(rows)) != rank or len(set(columns)) != rank or any(i >= matrix.height for i in rows) or any(j >= matrix.width for j in columns):
        return False
    factor = right.all_rows()
    if any(product_row(left.row(i), factor, p) != matrix.row(i) for i in set(left.rows) | set(matrix.rows)):
        return False
    for k, (i, j) in enumerate(certificate.pivots):
        if k not in left.row(i) or j not in factor[k] or any(t > k for t in left.row(i)) or any(j in factor[t] for t in range(k + 1, rank)):
            return False
    if certificate.extra is None:
        return True
    extra = certificate.extra.all_rows()
    if certificate.extra.width != matrix.width or not all(extra):
        return False
    if certificate.kind == b"rref":
        leads = [min(row) for row in extra]
        return (certificate.extra.height == rank and has_form(extra, leads)
                and all(product_row({k: row[lead] for k, lead in enumerate(leads) if lead in row}, extra, p) == row for row in factor))
    columns_of = transposed(matrix.all_rows(), matrix.width)
    return (certificate.extra.height == matrix.width - rank and has_form(extra, [max(row) for row in extra])
            and not any(product_row(row, columns_of, p) for row in extra))


def is_lawful(matrix: Matrix, p: int, trace: tuple[int, list[tuple[int, int, int]]]) -> bool:
    modulus, steps = trace
    inside = all(i < matrix.height and j < matrix.width for i, j, _ in steps)
    return (modulus == p and inside and all(version <= k for k, (_, _, version) in enumerate(steps))
            and is_grown(matrix, [(i, j) for i, j, _ in steps]))


# What a run writes


def text_of(height: int, width: int, rows: list[Row]) -> str:
    lines = [f"{height} {width} M"]
    lines += [f"{i + 1} {j + 1} {row[j]}" for i, row in enumerate(rows) for j in sorted(row)]
    return "\n".join([*lines, "0 0 0"]) + "\n"


def solve_text(matrix: Matrix, right: Row, p: int) -> str:
    found = reduced_solution(matrix.all_rows(), matrix.width, right, p)
    if found is None:
        return "no solution\n" + text_of(1, matrix.height, [refutation(matrix, right, p)])
    return "solution\n" + text_of(matrix.width, 1, [{0: found[j]} if j in found else {} for j in range(matrix.width)])


def inverse_text(matrix: Matrix, p: int) -> str:
    n, rows = matrix.width, matrix.all_rows()
    null = kernel_of(rows, n, p)
    if null:
        return "singular\n" + text_of(1, n, null[:1])
    form = reduced_form([{**row, n + i: 1} for i, row in enumerate(rows)], p)
    return "inverse\n" + text_of(n, n, [{j - n: value for j, value in row.items() if j >= n} for row in form])


def script_text(matrix: Matrix, steps: list[tuple[bytes, Row]], p: int) -> str:
    rows, said = matrix.all_rows(), ""
    for word, row in steps:
        if word == b"row":
            rows.append(row)
        form = reduced_form(rows, p) if word != b"row" else []
        if word == b"rank":
            said += f"rank {len(form)}\n"
        elif word == b"rref":
            said += text_of(len(form), matrix.width, form)
        elif word == b"in":
            said += "yes\n" if len(reduced_form([*form, row], p)) == len(form) else "no\n"
    return said


@dataclass
class Answer:
    """The exit status, and what is written: None if several texts may be."""

    status: int
    out: str | None
    error: str = ""


def answer_of(command: str, lines: Lines, p: int) -> Answer:
    matrix = read_matrix(lines, p)
    if command == "solve":
        right = read_matrix(lines, p)
        if (right.height, right.width) != (matrix.height, 1):
            return Answer(4, "", f"error 4 shape {right.height} {right.width}\n")
        return Answer(0, solve_text(matrix, {i: row[0] for i, row in right.rows.items() if row}, p))
    if command == "check":
        is_well = is_valid(matrix, read_certificate(lines, p), p)
        return Answer(0 if is_well else 1, "yes\n" if is_well else "no\n")
    if command == "replay":
        is_well = is_lawful(matrix, p, read_trace(lines))
        return Answer(0 if is_well else 1, "yes\n" if is_well else "no\n")
    if command == "grow":
        return Answer(0, script_text(matrix, read_script(lines, matrix.width, p), p))
    if command == "inverse" and matrix.height != matrix.width:
        return Answer(4, "", f"error 4 shape {matrix.height} {matrix.width}\n")
    if command in ("pivots", "certify", "trace"):
        return Answer(0, None)
    return Answer(0, matrix_text(command, matrix, p))


def matrix_text(command: str, matrix: Matrix, p: int) -> str:
    rows = [row for row in matrix.all_rows()]
    if command == "rank":
        return f"rank {len(reduced_form(rows, p))}\n"
    if command == "rref":
        form = reduced_form(rows, p)
        return text_of(len(form), matrix.width, form)
    if command == "kernel":
        basis = kernel_of(rows, matrix.width, p)
        return text_of(len(basis), matrix.width, basis)
    if command == "leftkernel":
        basis = kernel_of(transposed(rows, matrix.width), matrix.height, p)
        return text_of(len(basis), matrix.height, basis)
    assert command == "inverse"
    return inverse_text(matrix, p)


def expected(command: str, data: bytes, p: int) -> Answer:
    """What `spasm COMMAND --modulus p` does with an input, for a prime p and small matrices."""
    try:
        return answer_of(command, Lines(data), p)
    except Fault as fault:
        return Answer(3, "", f"{fault}\n")

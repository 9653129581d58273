"""Certificates of small matrices modulo 7, and of huge ones that are almost empty, of which it is known whether they are valid."""
from __future__ import annotations

import unittest
from typing import NamedTuple

from programs import X, Ended, ended

HUGE = 2147483647


class Matrix(NamedTuple):
    """The sizes of a matrix, and the lines of its entries."""
    height: int
    width: int
    lines: str = ""


class Case(NamedTuple):
    """A certificate of a matrix, whose last matrix belongs to it unless it is one of the rank, and what is said of it."""
    matrix: Matrix
    kind: str
    modulus: int
    pivots: str
    left: Matrix
    right: Matrix
    last: Matrix
    said: str


# The rows (2, 4, 1), (1, 2, 0) and (3, 6, 1), and factors of them, of which the right one is the echelon form.
ROWS = Matrix(3, 3, "1 1 2\n1 2 4\n1 3 1\n2 1 1\n2 2 2\n3 1 3\n3 2 6\n3 3 1\n")
LEFT = Matrix(3, 2, "1 1 2\n1 2 1\n2 1 1\n3 1 3\n3 2 1\n")
RIGHT = Matrix(2, 3, "1 1 1\n1 2 2\n2 3 1\n")

RANK = Case(ROWS, "rank", 7, "2 1\n1 3\n", LEFT, RIGHT, Matrix(0, 0), "yes\n")
FORM = RANK._replace(kind="rref", last=RIGHT)
KERNEL = RANK._replace(kind="kernel", last=Matrix(1, 3, "1 1 5\n1 2 1\n"))

# The kernel of a matrix without rows.
ROWLESS = Case(Matrix(0, 2), "kernel", 7, "", Matrix(0, 0), Matrix(0, 2), Matrix(2, 2, "1 1 1\n2 2 1\n"), "yes\n")

# The rank of a matrix whose sizes cost nothing by themselves.
FAR = Case(Matrix(HUGE, HUGE, "6 2147483647 3\n"), "rank", 7, "6 2147483647\n", Matrix(HUGE, 1, "6 1 3\n"),
           Matrix(1, HUGE, "1 2147483647 1\n"), Matrix(0, 0), "yes\n")

VALID: list[Case] = [
    RANK, FORM, KERNEL, ROWLESS, FAR,
    RANK._replace(matrix=Matrix(2, 2), pivots="", left=Matrix(2, 0), right=Matrix(0, 2)),
    FAR._replace(kind="rref", last=Matrix(1, HUGE, "1 2147483647 1\n")),
]

# What a comment says holds up to the next.
CHANGED: list[Case] = [
    # The product is another.
    RANK._replace(left=Matrix(3, 2, "1 1 2\n1 2 1\n2 1 1\n3 1 4\n3 2 1\n")),
    # The product is right, and the pivots are in the wrong order.
    RANK._replace(pivots="1 3\n2 1\n"),
    # A row and a column stand twice.
    RANK._replace(pivots="2 1\n2 1\n"),
    # A pivot lies outside.
    RANK._replace(pivots="2 1\n4 3\n"),
    RANK._replace(pivots="2 1\n1 4\n"),
    # Another modulus, and such as is none.
    RANK._replace(modulus=5),
    RANK._replace(modulus=0),
    # More pivots than rows, none, and such as are far outside.
    RANK._replace(pivots="1 1\n2 2\n3 3\n4 4\n", left=Matrix(3, 4), right=Matrix(4, 3)),
    RANK._replace(pivots="", left=Matrix(3, 0), right=Matrix(0, 3)),
    RANK._replace(modulus=281474976710655, pivots="1 1\n2 2\n3 3\n2147483647 2147483647\n", left=Matrix(3, 4), right=Matrix(4, 3)),
    # Sizes that don't fit.
    RANK._replace(left=Matrix(2, 2, "1 1 2\n1 2 1\n2 1 1\n")),
    RANK._replace(right=RIGHT._replace(width=4)),
    RANK._replace(left=LEFT._replace(height=HUGE, width=HUGE)),
    # Another row isn't 0 at a lead.
    FORM._replace(last=Matrix(2, 3, "1 1 1\n1 2 2\n1 3 1\n2 3 1\n")),
    # Leads that fall, a lead that isn't 1, a row of zeros.
    FORM._replace(last=Matrix(2, 3, "1 3 1\n2 1 1\n2 2 2\n")),
    FORM._replace(last=Matrix(2, 3, "1 1 1\n1 2 2\n2 3 3\n")),
    FORM._replace(last=Matrix(2, 3, "1 1 1\n1 2 2\n")),
    # Another form.
    FORM._replace(last=Matrix(2, 3, "1 1 1\n1 2 3\n2 3 1\n")),
    FORM._replace(last=Matrix(3, 3, "1 1 1\n2 2 1\n3 3 1\n")),
    # An end that isn't 1, a vector that isn't null, too few, and ends that fall.
    KERNEL._replace(last=Matrix(1, 3, "1 1 3\n1 2 2\n")),
    KERNEL._replace(last=Matrix(1, 3, "1 1 4\n1 2 1\n")),
    KERNEL._replace(last=Matrix(0, 3)),
    ROWLESS._replace(last=Matrix(2, 2, "1 2 1\n2 1 1\n")),
    # Another entry, also one in the pivot's column, another left factor, and a basis that can't be written down.
    FAR._replace(matrix=Matrix(HUGE, HUGE, "6 2147483647 3\n8 4 1\n")),
    FAR._replace(matrix=Matrix(HUGE, HUGE, "6 2147483647 3\n8 2147483647 1\n")),
    FAR._replace(left=Matrix(HUGE, 1, "6 1 3\n8 1 1\n")),
    FAR._replace(kind="kernel", last=Matrix(HUGE - 1, HUGE)),
]

# The matrix of these cases in ten lines, and what stands behind it: the lines of a certificate that has a fault, and what is told of it.
FACTORS = "3 2 M\n1 1 2\n1 2 1\n2 1 1\n3 1 3\n3 2 1\n0 0 0\n2 3 M\n1 1 1\n1 2 2\n2 3 1\n0 0 0\n"

FAULTS: list[tuple[str, str]] = [
    ("", "error 3 line 11 kind 7\n"),
    ("certificate rank 7", "error 3 line 11 kind 9\n"),
    ("certificate rank 281474976710656 2\n" + FACTORS, "error 3 line 11 kind 9\n"),
    ("certificate rank 7 2147483648\n" + FACTORS, "error 3 line 11 kind 9\n"),
    ("certificate rank 7 2\n% a\n2 1\n1 0\n" + FACTORS, "error 3 line 14 kind 9\n"),
    ("certificate rank 7 0\n", "error 3 line 12 kind 6\n"),
    ("certificate kernel 7 2\n2 1\n1 3\n" + FACTORS, "error 3 line 26 kind 6\n"),
]


def matrix_text(matrix: Matrix) -> str:
    return f"{matrix.height} {matrix.width} M\n{matrix.lines}0 0 0\n"


def text_of(case: Case) -> str:
    """The matrix of a case, and its certificate behind it."""
    head = f"certificate {case.kind} {case.modulus} {case.pivots.count(chr(10))}\n{case.pivots}"
    parts = [case.left, case.right] if case.kind == "rank" else [case.left, case.right, case.last]
    return matrix_text(case.matrix) + head + "".join(map(matrix_text, parts))


class Certificates(unittest.TestCase):
    """What is said of a certificate."""

    def check_said(self, case: Case) -> None:
        """It is said of the certificate, and of none with a claim of another kind or with a pivot more that it is valid."""
        other = case._replace(kind="kernel" if case.kind == "rref" else "rref", said="no\n")
        more = case._replace(pivots=case.pivots + "1 1\n", said="no\n")
        for given in case, other, more:
            with self.subTest(given=given):
                self.assertEqual(ended(["check", "--modulus=7"], text_of(given)), Ended(int(given.said == "no\n"), given.said, ""))

    def test_valid(self) -> None:
        for case in VALID:
            self.check_said(case)

    def test_changed(self) -> None:
        for case in CHANGED:
            self.check_said(case._replace(said="no\n"))

    def test_faults(self) -> None:
        for behind, told in FAULTS:
            with self.subTest(behind=behind):
                self.assertEqual(ended(["check", "--modulus=7"], X + behind), Ended(3, "", told))

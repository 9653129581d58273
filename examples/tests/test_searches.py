"""Kernels, solutions and inverses, compared with a search through all vectors."""
from __future__ import annotations

import itertools
import unittest
from typing import Iterator

from programs import ended

Vector = tuple[int, ...]
Matrix = list[Vector]

# Moduli and small square matrices.
SQUARE: list[tuple[int, str]] = [
    (2, "2 2 M\n1 1 1\n1 2 1\n2 1 1\n2 2 1\n0 0 0\n"),
    (2, "3 3 M\n1 2 1\n2 1 1\n2 3 1\n3 3 1\n0 0 0\n"),
    (2, "4 4 M\n1 1 1\n1 4 1\n2 2 1\n3 1 1\n3 2 1\n4 3 1\n4 4 1\n0 0 0\n"),
    (3, "1 1 M\n0 0 0\n"),
    (3, "3 3 M\n1 2 1\n1 3 2\n2 2 2\n2 3 1\n3 1 1\n0 0 0\n"),
    (3, "3 3 M\n1 1 1\n1 2 2\n2 3 2\n3 2 1\n0 0 0\n"),
    (5, "2 2 M\n1 1 2\n1 2 4\n2 1 1\n2 2 3\n0 0 0\n"),
    (5, "2 2 M\n1 1 2\n1 2 4\n2 1 1\n2 2 2\n0 0 0\n"),
]

# Such as aren't square.
OBLONG: list[tuple[int, str]] = [
    (2, "2 4 M\n1 2 1\n1 4 1\n2 3 1\n2 4 1\n0 0 0\n"),
    (3, "3 2 M\n1 1 1\n2 1 2\n3 2 1\n0 0 0\n"),
    (5, "2 3 M\n1 3 4\n2 2 3\n2 3 4\n0 0 0\n"),
    (5, "2 1 M\n1 1 3\n2 1 1\n0 0 0\n"),
    (3, "0 2 M\n0 0 0\n"),
]


def sizes_of(text: str) -> tuple[int, int]:
    """Height and width of the matrix in a text."""
    height, width, _ = text.split("\n", 1)[0].split()
    return int(height), int(width)


def matrix_of(text: str, modulus: int) -> Matrix:
    """The matrix in a text."""
    height, width = sizes_of(text)
    rows = [[0] * width for _ in range(height)]
    for line in text.split("\n")[1:-2]:
        row, column, value = map(int, line.split())
        rows[row - 1][column - 1] = value % modulus
    return [tuple(row) for row in rows]


def vectors(modulus: int, length: int) -> Iterator[Vector]:
    """All vectors of this length."""
    return itertools.product(range(modulus), repeat=length)


def dot(modulus: int, u: Vector, v: Vector) -> int:
    return sum(a * b for a, b in zip(u, v, strict=True)) % modulus


def image(modulus: int, matrix: Matrix, x: Vector) -> Vector:
    """What the matrix makes of x."""
    return tuple(dot(modulus, row, x) for row in matrix)


def behind(answer: str, title: str) -> str:
    """What stands behind the title, which the answer begins with."""
    if not answer.startswith(title):
        raise AssertionError(f"{title!r} was wanted: {answer!r}")
    return answer[len(title):]


class Searches(unittest.TestCase):
    """What the program answers, against what a search through all vectors finds."""

    def answered(self, command: str, modulus: int, text: str) -> str:
        """What a command answers to a text."""
        ran = ended([command, "--modulus", str(modulus)], text)
        self.assertEqual((ran.status, ran.told), (0, ""))
        return ran.out

    def test_kernels(self) -> None:
        """The basis has null vectors alone, and as many combinations as there are null vectors."""
        for modulus, text in SQUARE + OBLONG:
            with self.subTest(text=text):
                matrix, (height, width) = matrix_of(text, modulus), sizes_of(text)
                basis, none = matrix_of(self.answered("kernel", modulus, text), modulus), (0,) * height
                found = sum(image(modulus, matrix, x) == none for x in vectors(modulus, width))
                self.assertEqual({image(modulus, matrix, row) for row in basis} - {none}, set())
                self.assertEqual(modulus ** len(basis), found)

    def test_solutions(self) -> None:
        """Each column has a solution, or a row y with y A = 0 and y b = 1 if there is none."""
        for modulus, text in SQUARE + OBLONG:
            for b in vectors(modulus, sizes_of(text)[0]):
                with self.subTest(text=text, b=b):
                    self.check_solution(modulus, text, b)

    def check_solution(self, modulus: int, text: str, b: Vector) -> None:
        matrix, (height, width) = matrix_of(text, modulus), sizes_of(text)
        column = f"{height} 1 M\n" + "".join(f"{row} 1 {value}\n" for row, value in enumerate(b, 1)) + "0 0 0\n"
        answer = self.answered("solve", modulus, text + column)
        if any(image(modulus, matrix, x) == b for x in vectors(modulus, width)):
            x = tuple(row[0] for row in matrix_of(behind(answer, "solution\n"), modulus))
            self.assertEqual(image(modulus, matrix, x), b)
        else:
            y, = matrix_of(behind(answer, "no solution\n"), modulus)
            self.assertEqual(dot(modulus, y, b), 1)
            self.assertEqual({dot(modulus, y, image(modulus, matrix, x)) for x in vectors(modulus, width)}, {0})

    def test_inverses(self) -> None:
        """The inverse undoes the matrix from either side, or a row that isn't zero is taken to zero if another vector is."""
        for modulus, text in SQUARE:
            with self.subTest(text=text):
                matrix, (height, width) = matrix_of(text, modulus), sizes_of(text)
                answer, none = self.answered("inverse", modulus, text), (0,) * height
                if sum(image(modulus, matrix, x) == none for x in vectors(modulus, width)) == 1:
                    inverse = matrix_of(behind(answer, "inverse\n"), modulus)
                    for x in vectors(modulus, width):
                        self.assertEqual(image(modulus, inverse, image(modulus, matrix, x)), x)
                        self.assertEqual(image(modulus, matrix, image(modulus, inverse, x)), x)
                else:
                    row = matrix_of(behind(answer, "singular\n"), modulus)[0]
                    self.assertNotEqual(row, none)
                    self.assertEqual(image(modulus, matrix, row), none)

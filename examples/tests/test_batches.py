"""Batches whose answers are known from outside."""
from __future__ import annotations

import unittest

from programs import SPASM_BATCH, X, Ended, ended

# X, and the columns (1, 0, 1), (0, 0, 1) and (0, 0, 0) behind it.
THREE = X + "3 1 M\n1 1 1\n3 1 1\n0 0 0\n3 1 M\n3 1 1\n0 0 0\n3 1 M\n0 0 0\n"
THREE_ANSWERS = "solution\n3 1 M\n3 1 1\n0 0 0\nno solution\n1 3 M\n1 1 6\n1 2 6\n1 3 1\n0 0 0\nsolution\n3 1 M\n0 0 0\n"

# One number and one column for it.
ONE = "1 1 M\n1 1 2\n0 0 0\n1 1 M\n1 1 1\n0 0 0\n"

# Words, an input, the status, what is answered, and what is told: right-hand sides with solutions and without; shapes, of which one matrix
# is too wide; faults, named by their lines in the whole input, before shapes; words that aren't accepted.
BATCHES: list[tuple[list[str], str, int, str, str]] = [
    (["--count", "3", "--modulus", "7"], THREE, 0, THREE_ANSWERS, ""),
    (["--workers=2", "--modulus=7", "--count=3"], THREE, 0, THREE_ANSWERS, ""),
    (["--count=003", "--modulus=7", "--workers", "8"], THREE, 0, THREE_ANSWERS, ""),
    (["--count=2", "--modulus=7"], "3 0 M\n0 0 0\n3 1 M\n2 1 1\n0 0 0\n3 1 M\n0 0 0\nno line of it", 0,
     "no solution\n1 3 M\n1 2 1\n0 0 0\nsolution\n0 1 M\n0 0 0\n", ""),
    (["--count=2", "--modulus=7"], "1 1 M\n0 0 0\n1 1 M\n0 0 0\n2 1 M\n0 0 0\n", 4, "", "error 4 shape 2 1 question 2\n"),
    (["--count=3"], "1 1 M\n0 0 0\n1 2 M\n0 0 0\n2 1 M\n0 0 0\n1 1 M\n0 0 0\n", 4, "", "error 4 shape 1 2 question 1\n"),
    (["--count=1"], "2147483647 2 M\n0 0 0\n1 1 M\n0 0 0\n", 9, "", "error 9 wide 2147483647 2\n"),
    (["--count=2"], "1 1 M\n0 0 0\n2 1 M\n0 0 0\n1 1 M\n2 1 1\n0 0 0\n", 3, "", "error 3 line 6 kind 4\n"),
    (["--count=2"], "1 1 M\n0 0 0\n1 1 M\n0 0 0\n", 3, "", "error 3 line 5 kind 6\n"),
    (["--count=1"], "1 1 M\n0 0 0\n1 1 M\n1 1 1\n", 3, "", "error 3 line 5 kind 7\n"),
    ([], ONE, 2, "", "error 2 usage\n"),
    (["--count=0"], ONE, 2, "", "error 2 usage\n"),
    (["--count=1000001"], ONE, 2, "", "error 2 usage\n"),
    (["--count=1", "--rounds=1"], ONE, 2, "", "error 2 usage\n"),
    (["--count=1", "--count=1"], ONE, 2, "", "error 2 usage\n"),
    (["--count=1", "--"], ONE, 2, "", "error 2 usage\n"),
    (["solve", "--count=1"], ONE, 2, "", "error 2 usage\n"),
]


class Batches(unittest.TestCase):
    """What the program for many right-hand sides answers."""

    def test_batches(self) -> None:
        for words, text, status, answer, told in BATCHES:
            with self.subTest(words=words, text=text):
                self.assertEqual(ended(words, text, SPASM_BATCH), Ended(status, answer, told))

    def test_error_stream_that_takes_nothing(self) -> None:
        self.assertEqual(ended(["--workers=0"], "", SPASM_BATCH, full="stderr"), Ended(2, "", ""))

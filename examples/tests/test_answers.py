"""Answers that are known from outside, worked out in each way."""
from __future__ import annotations

import unittest

from programs import WAYS, X, Y, Ended, ended

# A command, a modulus, a text, and what is answered.
Answer = tuple[str, str, str, str]

# Wide and high matrices with multiples of a row, a row that is the sum of two, and a column that is combined from two.
WIDE = ("3 10 M\n1 1 2147483646\n1 4 2\n1 9 2147483645\n1 10 1\n2 2 2147483644\n2 4 2147483646\n2 9 5\n"
        "2 10 1\n3 1 2147483646\n3 2 2147483644\n3 4 1\n3 9 3\n3 10 2\n0 0 0\n")
HIGH = ("6 3 M\n1 1 4294967310\n1 3 4294967309\n2 2 4294967309\n2 3 2\n3 1 4294967296\n3 2 1\n"
        "3 3 4294967280\n5 1 7\n5 3 14\n6 1 1\n6 2 4294967300\n6 3 13\n0 0 0\n")
MULTIPLES = "2 9 M\n1 1 4294967310\n1 8 4294967296\n1 9 3\n2 1 2\n2 8 30\n2 9 4294967305\n0 0 0\n"

RANKS: list[Answer] = [
    ("rank", "7", X, "rank 2\n"),
    ("rank", "7", Y, "rank 3\n"),
    ("rank", "4294967311", X, "rank 2\n"),
    ("rank", "7", "2 2 M\n1 1 14\n0 0 0\n", "rank 0\n"),
    ("rank", "7", "1 1 M\n1 1 3\n1 1 4\n0 0 0\n", "rank 0\n"),
    ("rank", "2", "2 2 M\n1 1 1\n1 2 1\n2 1 1\n2 2 1\n0 0 0\n", "rank 1\n"),
    ("rank", "7", "1 1 M\n1 1 1\n0 0 0\nanything\n\0", "rank 1\n"),
    ("rank", "7", "1 1 M\n1 1 0/5\n0 0 0\n", "rank 0\n"),
    ("rank", "7", "1 1 M\n0 0 -00\n0 0 0\n", "rank 0\n"),
    ("rank", "3", "3 3 M\n1 2 1\n1 3 2\n2 2 2\n2 3 1\n3 1 1\n0 0 0\n", "rank 2\n"),
    ("rank", "5", "2 3 M\n1 3 4\n2 2 3\n2 3 4\n0 0 0\n", "rank 2\n"),
    ("rank", "7", "0 3 M\n0 0 0\n", "rank 0\n"),
    ("rank", "7", "3 0 M\n0 0 0\n", "rank 0\n"),
    ("rank", "2147483647", WIDE, "rank 2\n"),
    ("rank", "4294967311", WIDE, "rank 3\n"),
    ("rank", "2147483647", HIGH, "rank 3\n"),
    ("rank", "4294967311", HIGH, "rank 2\n"),
    ("rank", "4294967311", MULTIPLES, "rank 1\n"),
]

FORMS: list[Answer] = [
    ("rref", "7", X, "2 3 M\n1 1 1\n1 2 2\n2 3 1\n0 0 0\n"),
    ("rref", "7", "0 5 M\n0 0 0\n", "0 5 M\n0 0 0\n"),
    ("rref", "2147483647", "1 1 M\n1 1 -1\n0 0 0\n", "1 1 M\n1 1 1\n0 0 0\n"),
    ("rref", "7", "1 2 M\n1 1 100000000000000000000000000000000000000000000000000000000000\n1 2 1\n0 0 0\n",
     "1 2 M\n1 1 1\n1 2 3\n0 0 0\n"),
    ("rref", "7", "% made by hand\r\n\r\n2 2 R\r\n2 2 5\r\n# middle\r\n1 1 3\r\n0 0 0\r\n", "2 2 M\n1 1 1\n2 2 1\n0 0 0\n"),
    ("rref", "4294967311", "1 2 M\n1 1 2\n1 2 1\n0 0 0\n", "1 2 M\n1 1 1\n1 2 2147483656\n0 0 0\n"),
    ("rref", "7", "1 2 M\n1 1 1/2\n1 2 -3/4\n0 0 0\n", "1 2 M\n1 1 1\n1 2 2\n0 0 0\n"),
    ("rref", "7", "5 0 M\n0 0 0\n", "0 0 M\n0 0 0\n"),
    ("rref", "2", "2 2 M\n1 1 1\n1 2 1\n2 1 1\n2 2 1\n0 0 0\n", "1 2 M\n1 1 1\n1 2 1\n0 0 0\n"),
    ("rref", "42013", "1 2 M\n1 1 1\n1 2 -3/4\n0 0 0\n", "1 2 M\n1 1 1\n1 2 31509\n0 0 0\n"),
    ("rref", "42013", "1 2 M\n1 1 1\n1 2 123456789012345678901234567890\n0 0 0\n", "1 2 M\n1 1 1\n1 2 20866\n0 0 0\n"),
]

ANSWERS: list[Answer] = [
    ("kernel", "7", X, "1 3 M\n1 1 5\n1 2 1\n0 0 0\n"),
    ("kernel", "7", Y, "0 3 M\n0 0 0\n"),
    ("kernel", "7", "0 5 M\n0 0 0\n", "5 5 M\n1 1 1\n2 2 1\n3 3 1\n4 4 1\n5 5 1\n0 0 0\n"),
    ("kernel", "7", "3 0 M\n0 0 0\n", "0 0 M\n0 0 0\n"),
    ("kernel", "2", "2 2 M\n1 1 1\n1 2 1\n2 1 1\n2 2 1\n0 0 0\n", "1 2 M\n1 1 1\n1 2 1\n0 0 0\n"),
    ("kernel", "7", "1 3 M\n1 2 2\n1 3 3\n0 0 0\n", "2 3 M\n1 1 1\n2 2 2\n2 3 1\n0 0 0\n"),
    ("leftkernel", "7", X, "1 3 M\n1 1 6\n1 2 6\n1 3 1\n0 0 0\n"),
    ("leftkernel", "7", "2 1 M\n0 0 0\n", "2 2 M\n1 1 1\n2 2 1\n0 0 0\n"),
    ("solve", "7", X + "3 1 M\n1 1 1\n3 1 1\n0 0 0\n", "solution\n3 1 M\n3 1 1\n0 0 0\n"),
    ("solve", "7", X + "3 1 M\n3 1 1\n0 0 0\n", "no solution\n1 3 M\n1 1 6\n1 2 6\n1 3 1\n0 0 0\n"),
    ("solve", "7", Y + "3 1 M\n1 1 1\n0 0 0\n", "solution\n3 1 M\n1 1 1\n2 1 6\n0 0 0\n"),
    ("solve", "7", "3 0 M\n0 0 0\n3 1 M\n2 1 1\n0 0 0\n", "no solution\n1 3 M\n1 2 1\n0 0 0\n"),
    ("solve", "7", "3 0 M\n0 0 0\n3 1 M\n0 0 0\n", "solution\n0 1 M\n0 0 0\n"),
    ("inverse", "7", Y, "inverse\n3 3 M\n1 1 1\n2 1 6\n2 2 2\n2 3 6\n3 2 6\n3 3 1\n0 0 0\n"),
    ("inverse", "7", X, "singular\n1 3 M\n1 1 5\n1 2 1\n0 0 0\n"),
    ("inverse", "7", "2 2 M\n1 1 1\n0 0 0\n", "singular\n1 2 M\n1 2 1\n0 0 0\n"),
    ("inverse", "7", "1 1 M\n1 1 3\n0 0 0\n", "inverse\n1 1 M\n1 1 5\n0 0 0\n"),
    ("inverse", "7", "0 0 M\n0 0 0\n", "inverse\n0 0 M\n0 0 0\n"),
    ("grow", "7", "0 3 M\n0 0 0\nrow 1 2 2 4 3 1\nrank\nrow 1 1 2 2\nrow 1 3 2 6 3 1\nrref\nin 1 1\nin\nend\n",
     "rank 1\n2 3 M\n1 1 1\n1 2 2\n2 3 1\n0 0 0\nno\nyes\n"),
    ("grow", "7", "2 2 M\n1 1 3\n2 1 1\n0 0 0\nrank\nin 2 7\nrow 2 1/2\nrank\nend\nno line of it", "rank 1\nyes\nrank 2\n"),
    ("grow", "7", "0 1 M\n0 0 0\nend", ""),
    ("replay", "7", Y + "trace 7 2\n1 1 0\n2 3 1\n", "yes\n"),
    ("replay", "7", "0 0 M\n0 0 0\ntrace 7 0\n", "yes\n"),
    ("rank", "7", X, "rank 2\n"),
    ("rref", "7", X, "2 3 M\n1 1 1\n1 2 2\n2 3 1\n0 0 0\n"),
]

# Almost empty.
LARGE: list[Answer] = [
    ("rank", "2147483647", "1000000 1000000 M\n1000000 1000000 3\n0 0 0\n", "rank 1\n"),
    ("rref", "7", "1000000 1000000 M\n1 1000000 3\n1000000 1 2\n0 0 0\n", "2 1000000 M\n1 1 1\n2 1000000 1\n0 0 0\n"),
    ("rref", "7", "1000000 2147483647 M\n1 2147483647 3\n1000000 1 2\n0 0 0\n", "2 2147483647 M\n1 1 1\n2 2147483647 1\n0 0 0\n"),
]

# The first lines of a certificate of the rank of X and of its form and its kernel basis, the factors, the form and the basis.
RANK_HEAD = "certificate rank 7 2\n2 1\n1 3\n"
RREF_HEAD = "certificate rref 7 2\n2 1\n1 3\n"
KERNEL_HEAD = "certificate kernel 7 2\n2 1\n1 3\n"
FACTORS = "3 2 M\n1 1 2\n1 2 1\n2 1 1\n3 1 3\n3 2 1\n0 0 0\n2 3 M\n1 1 1\n1 2 2\n2 3 1\n0 0 0\n"
FORM = "2 3 M\n1 1 1\n1 2 2\n2 3 1\n0 0 0\n"
BASIS = "1 3 M\n1 1 5\n1 2 1\n0 0 0\n"

# Moduli, matrices, and certificates behind them in three parts: the status of a check, and what is answered or told.
CERTIFICATES: list[tuple[str, str, str, str, str, int, str]] = [
    ("7", X, RANK_HEAD, FACTORS, "", 0, "yes\n"),
    ("7", X, RREF_HEAD, FACTORS, FORM, 0, "yes\n"),
    ("7", X, KERNEL_HEAD, FACTORS, BASIS, 0, "yes\n"),
    ("7", "2 2 M\n0 0 0\n", "certificate rank 7 0\n", "2 0 M\n0 0 0\n0 2 M\n0 0 0\n", "", 0, "yes\n"),
    ("7", X, "% a title\n\ncertificate  rank 007 02\r\n 2 1\n1 003\n", FACTORS, "anything\n", 0, "yes\n"),
    ("7", X, RANK_HEAD, "3 2 M\n1 1 2\n1 2 1\n2 1 1\n3 1 4\n3 2 1\n0 0 0\n2 3 M\n1 1 1\n1 2 2\n2 3 1\n0 0 0\n", "", 1, "no\n"),
    ("7", X, "certificate rank 7 2\n1 3\n2 1\n", FACTORS, "", 1, "no\n"),
    ("7", X, "certificate rank 7 2\n2 1\n2 1\n", FACTORS, "", 1, "no\n"),
    ("7", X, "certificate rank 11 2\n2 1\n1 3\n", FACTORS, "", 1, "no\n"),
    ("7", X, "certificate rank 7 4\n1 1\n2 2\n3 3\n4 4\n", "3 4 M\n0 0 0\n4 3 M\n0 0 0\n", "", 1, "no\n"),
    ("7", X, "certificate rank 7 0\n", "3 0 M\n0 0 0\n0 3 M\n0 0 0\n", "", 1, "no\n"),
    ("7", X, RREF_HEAD, FACTORS, "2 3 M\n1 1 1\n1 2 2\n1 3 1\n2 3 1\n0 0 0\n", 1, "no\n"),
    ("7", X, KERNEL_HEAD, FACTORS, "1 3 M\n1 1 3\n1 2 2\n0 0 0\n", 1, "no\n"),
    ("7", X, RANK_HEAD, "3 2 M\n1 1 2\n1 2 1\n2 1 1\n3 1 3\n3 2 1\n0 0 0\n2 3 M\n1 1 1\n1 2 2\n", "", 3, "error 3 line 24 kind 7\n"),
    ("7", X, "certificate rank 7 2147483647\n", "", "", 3, "error 3 line 12 kind 7\n"),
    ("7", X, "certificate Rank 7 2\n", "", "", 3, "error 3 line 11 kind 9\n"),
    ("7", X, "certificate rank 7 2 x\n", "", "", 3, "error 3 line 11 kind 9\n"),
    ("7", X, "certificate rank 7 2\n0 1\n1 3\n", FACTORS, "", 3, "error 3 line 12 kind 9\n"),
    ("7", X, "certificate rank 7 2\n2147483648 1\n1 3\n", FACTORS, "", 3, "error 3 line 12 kind 9\n"),
    ("7", X, "certificate rank 7\n", "", "", 3, "error 3 line 11 kind 9\n"),
    ("4294967311", X, "certificate rank 4294967311 2\n2 1\n1 3\n", FACTORS, "", 0, "yes\n"),
    ("4294967311", X, "certificate rank 281474976710656 2\n2 1\n1 3\n", FACTORS, "", 3, "error 3 line 11 kind 9\n"),
]


class Answers(unittest.TestCase):
    """What the program answers."""

    def check_ways(self, words: list[str], text: str, known: Ended) -> None:
        """The program ends so in each way."""
        for way in WAYS:
            with self.subTest(words=words + way, text=text):
                self.assertEqual(ended(words + way, text), known)

    def test_answers(self) -> None:
        for command, modulus, text, answer in RANKS + FORMS + ANSWERS + LARGE:
            self.check_ways([command, "--modulus", modulus], text, Ended(0, answer, ""))

    def test_certificates(self) -> None:
        for modulus, matrix, head, factors, behind, status, said in CERTIFICATES:
            known = Ended(status, said, "") if status < 2 else Ended(status, "", said)
            self.check_ways(["check", "--modulus", modulus], matrix + head + factors + behind, known)

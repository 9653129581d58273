"""Words that aren't accepted, texts with faults, and matrices whose shapes don't fit."""
from __future__ import annotations

import unittest

from programs import X, Ended, ended, run

USAGE = "error 2 usage\n"

# Words that aren't accepted.
REFUSED: list[list[str]] = [
    [],
    ["--help"],
    ["-h"],
    ["help"],
    ["--version"],
    ["-V"],
    ["version"],
    ["rank", "--help"],
    ["rank", "-h"],
    ["rank", "help"],
    ["rank", "--version"],
    ["rank", "--workers", "0"],
    ["rank", "--workers", "65"],
    ["rank", "--rounds", "17"],
    ["rank", "--modulus", "1"],
    ["rank", "--modulus", "0"],
    ["rank", "--modulus", "281474976710656"],
    ["rank", "--modulus", "7", "--modulus", "7"],
    ["rank", "--modulus", "7", "--modulus=7"],
    ["rank", "--modulus=7", "--workers", "2", "--modulus=7"],
    ["ranks"],
    ["ran"],
    ["RANK"],
    ["Rank"],
    [""],
    ["", "rank"],
    ["rank", ""],
    ["--"],
    ["--", "rank"],
    ["rank", "--"],
    ["rank", "--", "--modulus", "7"],
    ["rank", "--modulus", "7", "--"],
    ["rank", "--modulus", "--", "7"],
    ["rank", "--modulus="],
    ["rank", "--modulus", ""],
    ["rank", "--modulus", "+7"],
    ["rank", "--modulus=+7"],
    ["rank", "--modulus", "-7"],
    ["rank", "--modulus=-7"],
    ["rank", "--modulus", "-"],
    ["rank", "--modulus", "_7"],
    ["rank", "--modulus", "0x7"],
    ["rank", "--modulus", "7.0"],
    ["rank", "--modulus", "७"],
    ["rank", "--modulus", "é"],
    ["rank", "-é"],
    ["rank", "--mod", "7"],
    ["rank", "--modulus7"],
    ["rank", "--Modulus", "7"],
    ["rank", "-m", "7"],
    ["rank", "-modulus", "7"],
    ["rank", "--modulus=7=7"],
    ["rank", "--modulus==7"],
    ["rank", "--=7"],
    ["rank", "rref"],
    ["--modulus", "7", "rank"],
    ["rank", "--modulus"],
    ["rank", "--modulus", "--workers", "2"],
    ["rank", "7"],
    ["rank", "=7"],
    ["rank", "--kind", "rank"],
    ["rank", "--modulus", "99999999999999999999"],
    ["rank", "--modulus", "18446744073709551623"],
    ["rank", "--workers", "4294967297"],
    ["rank", "--seed", "1"],
    ["pivots", "--rows=1"],
    ["certify"],
    ["certify", "--kind="],
    ["certify", "--kind", ""],
    ["certify", "--kind=Rank"],
    ["certify", "--kind=ran"],
    ["certify", "--kind=ranks"],
    ["certify", "--kind", "leftkernel"],
    ["certify", "--kind", "0"],
    ["certify", "--kind", "-rank"],
    ["certify", "--kind=rank", "--kind=rank"],
    ["certify", "--kind=rank", "--kind", "rref"],
    ["certify", "--kind=rank", "--seed=1"],
    ["certify", "--kind=rank", "--rounds=17"],
    ["certify", "rank"],
    ["check", "--kind=rank"],
    ["drill"],
    ["drill", "--rows=1", "--cols=1", "--per=1"],
    ["drill", "--seed=1", "--cols=1", "--per=1"],
    ["drill", "--seed=1", "--rows=1", "--per=1"],
    ["drill", "--seed=1", "--rows=1", "--cols=1"],
    ["drill", "--seed=1", "--rows=1", "--cols=1", "--per=1", "--seed=1"],
    ["drill", "--seed=18446744073709551616", "--rows=1", "--cols=1", "--per=1"],
    ["drill", "--seed=99999999999999999999", "--rows=1", "--cols=1", "--per=1"],
    ["drill", "--seed=-1", "--rows=1", "--cols=1", "--per=1"],
    ["drill", "--seed=", "--rows=1", "--cols=1", "--per=1"],
    ["drill", "--seed=1", "--rows=0", "--cols=1", "--per=1"],
    ["drill", "--seed=1", "--rows=1000001", "--cols=1", "--per=1"],
    ["drill", "--seed=1", "--rows=1", "--cols=0", "--per=1"],
    ["drill", "--seed=1", "--rows=1", "--cols=1000001", "--per=1"],
    ["drill", "--seed=1", "--rows=1", "--cols=1", "--per=1001"],
    ["drill", "--seed=1", "--rows=1", "--cols=1", "--per=1", "--workers=0"],
    ["drill", "--seed=1", "--rows=1", "--cols=1", "--per=1", "--kind=rank"],
    ["rang"],
    ["rre"],
]

# A command, a text that it refuses modulo 7, the status, and what is told.
Fault = tuple[str, str, int, str]

MISFITS: list[Fault] = [
    ("solve", X + "2 1 M\n0 0 0\n", 4, "error 4 shape 2 1\n"),
    ("solve", X + "2 1 M\n3 1 1\n0 0 0\n", 3, "error 3 line 12 kind 4\n"),
    ("solve", X, 3, "error 3 line 11 kind 6\n"),
    ("inverse", "1 2 M\n0 0 0\n", 4, "error 4 shape 1 2\n"),
]

# Texts with the first fault that a command meets.
FAULTS: list[Fault] = [
    ("rank", "2 2 M\n1 1 1\n1 2 1\n2 2 1\n", 3, "error 3 line 5 kind 7\n"),
    ("rank", "1 1 M\n0 0 7\n0 0 0\n", 3, "error 3 line 2 kind 4\n"),
    ("rank", "", 3, "error 3 line 1 kind 6\n"),
    ("rank", "% only\n", 3, "error 3 line 2 kind 6\n"),
    ("rank", "1 1\n", 3, "error 3 line 1 kind 1\n"),
    ("rank", "1 1 MM\n", 3, "error 3 line 1 kind 1\n"),
    ("rank", "+1 1 M\n", 3, "error 3 line 1 kind 2\n"),
    ("rank", "2147483648 1 M\n", 3, "error 3 line 1 kind 3\n"),
    ("rank", "2 2 M\n3 1 1\n", 3, "error 3 line 2 kind 4\n"),
    ("rank", "2 2 M\n1 3 1\n", 3, "error 3 line 2 kind 5\n"),
    ("rank", "2 2 M\n99999999999999999999 1 1\n", 3, "error 3 line 2 kind 4\n"),
    ("rank", "1 1 M\n1 1 3/7\n", 3, "error 3 line 2 kind 10\n"),
    ("rank", "1 1 M\n1 1 0/0\n", 3, "error 3 line 2 kind 10\n"),
    ("rank", "1 1 M\n1 1 1/\n", 3, "error 3 line 2 kind 2\n"),
    ("rank", "1 1 M\n1 1 /2\n", 3, "error 3 line 2 kind 2\n"),
    ("rank", "1 1 M\n1 1 1/-2\n", 3, "error 3 line 2 kind 2\n"),
    ("rank", "1 1 M\n0 0 0/1\n", 3, "error 3 line 2 kind 4\n"),
    ("rank", "1 1 M\n2 1 1/7\n", 3, "error 3 line 2 kind 4\n"),
    ("rank", "3 3 M\n1 1 2\n0 0", 3, "error 3 line 3 kind 1\n"),
    ("grow", "0 3 M\n0 0 0\nrow 4 1\nend\n", 3, "error 3 line 3 kind 12\n"),
    ("grow", "0 3 M\n0 0 0\nrank\n", 3, "error 3 line 4 kind 7\n"),
    ("replay", "1 1 M\n0 0 0\ntrace 7 1\n1 1\n", 3, "error 3 line 4 kind 11\n"),
    ("replay", "1 1 M\n0 0 0\ntrace 7 2147483647\n", 3, "error 3 line 4 kind 7\n"),
    ("grow", "0 3 M\n0 0 1\nend\n", 3, "error 3 line 2 kind 4\n"),
]

# How many first bytes of X are given, and what is told of them, if there is a fault.
CUT: list[tuple[int, str]] = [
    (0, "error 3 line 1 kind 6\n"),
    (6, "error 3 line 2 kind 7\n"),
    (12, "error 3 line 3 kind 7\n"),
    (18, "error 3 line 4 kind 7\n"),
    (24, "error 3 line 5 kind 7\n"),
    (30, "error 3 line 6 kind 7\n"),
    (36, "error 3 line 7 kind 7\n"),
    (42, "error 3 line 8 kind 7\n"),
    (48, "error 3 line 9 kind 7\n"),
    (54, "error 3 line 10 kind 7\n"),
    (57, "error 3 line 10 kind 1\n"),
    (59, ""),
    (60, ""),
]


class Refusals(unittest.TestCase):
    """What the program refuses."""

    def test_words(self) -> None:
        """Nothing is read."""
        for words in REFUSED:
            with self.subTest(words=words):
                self.assertEqual(run(words, X), (Ended(2, "", USAGE), 0))

    def test_faults_and_shapes(self) -> None:
        """Nothing is put to the output, not even if it takes nothing."""
        for command, text, status, told in MISFITS + FAULTS:
            for full in "", "stdout":
                with self.subTest(command=command, text=text, full=full):
                    self.assertEqual(ended([command, "--modulus", "7"], text, full=full), Ended(status, "", told))

    def test_texts_that_are_cut(self) -> None:
        for length, told in CUT:
            known = Ended(3, "", told) if told else Ended(0, "rank 2\n", "")
            with self.subTest(length=length):
                self.assertEqual(ended(["rank", "--modulus=7"], X[:length]), known)

    def test_output_that_takes_nothing(self) -> None:
        for words in ["rref"], ["certify", "--kind=kernel"], ["trace"]:
            with self.subTest(words=words):
                self.assertEqual(ended([*words, "--modulus=7"], X, full="stdout"), Ended(7, "", "error 7 write\n"))

    def test_error_stream_that_takes_nothing(self) -> None:
        self.assertEqual(ended(["rank", "--workers", "0"], X, full="stderr"), Ended(2, "", ""))

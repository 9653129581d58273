"""Traces of searches: such as are lawful and such as aren't, texts that are none, and what one worker and several leave."""
from __future__ import annotations

import unittest

from programs import Y, Ended, ended

# Entries far apart in the largest matrix.
APART = "2147483647 2147483647 M\n1 1 3\n1 10 1\n70001 6 2\n2147483647 1 1\n2147483647 2147483647 6\n0 0 0\n"

# Ten places, each in a row and a column of its own, in the largest matrix.
TEN = ("1 2147483647", "4 70001", "65537 1", "1000001 13", "1000002 2000000000", "77777778 5", "1073741825 1073741825", "2000000001 901",
       "2147483646 34", "2147483647 2")

# Traces behind Y, and whether they are lawful. The last is spelled otherwise.
REPLAYED: list[tuple[str, bool]] = [
    ("trace 7 0\n", True),
    ("trace 7 2\n1 1 0\n2 2 1\n", True),
    ("trace 7 2\n1 1 0\n2 3 1\n", True),
    ("trace 7 2\n1 1 0\n3 2 0\n", True),
    ("trace 7 3\n1 1 0\n2 2 1\n3 3 1\n", False),
    ("trace 7 1\n1 1 1\n", False),
    ("trace 5 1\n1 1 0\n", False),
    ("trace 5 2\n1 1 0\n2 2 1\n", False),
    ("trace 281474976710655 0\n", False),
    ("trace 7 2\n1 1 0\n4 2 1\n", False),
    ("trace 7 2\n1 1 0\n2 4 1\n", False),
    ("trace 7 1\n2147483647 2147483647 0\n", False),
    ("trace 7 2\n1 1 0\n1 1 1\n", False),
    ("trace 7 2\n2 3 0\n2 2 1\n", False),
    ("trace 7 2\n2 3 0\n3 3 1\n", False),
    ("trace 7 1\n1 2 0\n", False),
    ("trace 7 2\n2 3 0\n3 2 2\n", False),
    ("% a\n\n trace\t007 2\r\n01 1 0\n# b\n2 2 01 \nx y\n", True),
]

# Texts that aren't a trace's, behind a matrix of two lines, with the line and the kind of the first fault.
FAULTS: list[tuple[str, str]] = [
    ("", "error 3 line 3 kind 7\n"),
    ("trace 7\n", "error 3 line 3 kind 11\n"),
    ("traces 7 0\n", "error 3 line 3 kind 11\n"),
    ("trace 281474976710656 0\n", "error 3 line 3 kind 11\n"),
    ("trace 7 2147483648\n", "error 3 line 3 kind 11\n"),
    ("% a\ntrace 7 1 0\n", "error 3 line 4 kind 11\n"),
    ("trace 7 1\n", "error 3 line 4 kind 7\n"),
    ("trace 7 2147483647\n", "error 3 line 4 kind 7\n"),
    ("trace 7 1\n1 1\n", "error 3 line 4 kind 11\n"),
    ("trace 7 1\n0 1 0\n", "error 3 line 4 kind 11\n"),
    ("trace 7 1\n1 2147483648 0\n", "error 3 line 4 kind 11\n"),
    ("trace 7 1\n1 1 2147483648\n", "error 3 line 4 kind 11\n"),
    ("trace 7 2\n1 1 0\n\n# b\n2 2 -1\n", "error 3 line 7 kind 11\n"),
]

# Matrices, and what one worker leaves of them.
GREEDY: list[tuple[str, str]] = [
    (Y, "trace 7 2\n1 1 0\n2 2 1\n"),
    (APART, "trace 7 3\n1 1 0\n70001 6 1\n2147483647 2147483647 2\n"),
]


class Traces(unittest.TestCase):
    """What `replay` and `trace` answer."""

    def test_replayed(self) -> None:
        for trace, is_lawful in REPLAYED:
            with self.subTest(trace=trace):
                known = Ended(0, "yes\n", "") if is_lawful else Ended(1, "no\n", "")
                self.assertEqual(ended(["replay", "--modulus=7"], Y + trace), known)

    def test_faults(self) -> None:
        for trace, told in FAULTS:
            with self.subTest(trace=trace):
                self.assertEqual(ended(["replay", "--modulus=7"], "3 3 M\n0 0 0\n" + trace), Ended(3, "", told))

    def test_one_worker_is_greedy(self) -> None:
        for matrix, trace in GREEDY:
            self.assertEqual(ended(["trace", "--modulus=7"], matrix), Ended(0, trace, ""))

    def test_searches_leave_lawful_traces(self) -> None:
        for matrix, _ in GREEDY:
            for workers in 1, 2, 64:
                with self.subTest(matrix=matrix, workers=workers):
                    trace = ended(["trace", "--modulus=7", f"--workers={workers}"], matrix)
                    self.assertEqual((trace.status, trace.told), (0, ""))
                    self.assertEqual(ended(["replay", "--modulus=7"], matrix + trace.out), Ended(0, "yes\n", ""))

    def test_entries_cost_and_not_sizes(self) -> None:
        """Each of ten entries in rows and columns of their own is a pivot."""
        matrix = "2147483647 2147483647 M\n" + "".join(f"{place} 1\n" for place in TEN) + "0 0 0\n"
        for workers in 1, 2, 64:
            found = ended(["pivots", "--modulus=7", f"--workers={workers}"], matrix)
            first, *pairs = found.out.splitlines()
            self.assertEqual((found.status, first, sorted(pairs)), (0, "pivots 10", sorted(TEN)))

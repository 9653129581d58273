"""The pivots that one worker finds and those that several may find, certificates that are checked, scripts, and changed traces."""
from __future__ import annotations

import unittest
from typing import NamedTuple

from programs import WAYS, X, Y, Ended, ended

# Words, texts, and all that may be answered: by one worker the greedy selection, whatever rounds are asked for; by several any pivots that
# are triangular and maximal.
KNOWN: list[tuple[list[str], str, list[str]]] = [
    (["pivots", "--modulus=7", "--workers=1"], X, ["pivots 2\n1 3\n2 1\n"]),
    (["pivots", "--modulus=7", "--workers", "1", "--rounds", "0"], X, ["pivots 2\n1 3\n2 1\n"]),
    (["pivots", "--modulus=7"], Y, ["pivots 2\n2 2\n1 1\n"]),
    (["pivots", "--modulus=7", "--rounds=16"], Y, ["pivots 2\n2 2\n1 1\n"]),
    (["pivots", "--modulus=7"], "0 5 M\n0 0 0\n", ["pivots 0\n"]),
    (["pivots", "--modulus=7", "--workers", "64"], "0 5 M\n0 0 0\n", ["pivots 0\n"]),
    (["pivots", "--modulus=7", "--workers", "2"], X, ["pivots 2\n1 3\n2 1\n", "pivots 2\n3 3\n2 1\n"]),
    (["pivots", "--modulus=7", "--workers", "2"], Y, ["pivots 2\n2 2\n1 1\n", "pivots 2\n3 2\n1 1\n"]),
    (["pivots", "--modulus=7", "--workers=64", "--rounds=0"], Y, ["pivots 2\n2 2\n1 1\n", "pivots 2\n3 2\n1 1\n"]),
    (["trace", "--modulus=7"], Y, ["trace 7 2\n1 1 0\n2 2 1\n"]),
    (["trace", "--modulus=7", "--workers=64"], Y, ["trace 7 2\n1 1 0\n2 2 1\n", "trace 7 2\n1 1 0\n3 2 1\n"]),
    (["trace", "--workers", "2"], "0 5 M\n0 0 0\n", ["trace 42013 0\n"]),
]

# Words, matrices, and the lines that the certificate begins with.
CERTIFIED: list[tuple[list[str], str, str]] = [
    (["certify", "--modulus=7", "--kind=rank"], Y, "certificate rank 7 3\n2 2\n1 1\n3 3\n"),
    (["certify", "--modulus=7", "--kind=rank", "--rounds=0"], Y, "certificate rank 7 3\n"),
    (["certify", "--modulus=7", "--kind=rref"], Y, "certificate rref 7 3\n2 2\n1 1\n3 3\n"),
    (["certify", "--modulus=7", "--kind=rref", "--rounds=0"], Y, "certificate rref 7 3\n"),
    (["certify", "--modulus=7", "--kind=kernel"], Y, "certificate kernel 7 3\n2 2\n1 1\n3 3\n"),
    (["certify", "--modulus=7", "--kind=kernel", "--rounds=0"], Y, "certificate kernel 7 3\n"),
    (["certify", "--modulus=7", "--kind=rank"], X, "certificate rank 7 2\n1 3\n2 1\n"),
    (["certify", "--modulus=7", "--kind=rank", "--rounds=0"], X, "certificate rank 7 2\n"),
    (["certify", "--modulus=7", "--kind=rref"], X, "certificate rref 7 2\n1 3\n2 1\n"),
    (["certify", "--modulus=7", "--kind=rref", "--rounds=0"], X, "certificate rref 7 2\n"),
    (["certify", "--modulus=7", "--kind=kernel"], X, "certificate kernel 7 2\n1 3\n2 1\n"),
    (["certify", "--modulus=7", "--kind=kernel", "--rounds=0"], X, "certificate kernel 7 2\n"),
    (["certify", "--modulus=7", "--kind=kernel", "--workers=2"], X, "certificate kernel 7 2\n"),
    (["certify", "--modulus=7", "--kind=rref"], "0 5 M\n0 0 0\n", "certificate rref 7 0\n0 0 M\n0 0 0\n0 5 M\n0 0 0\n0 5 M\n0 0 0\n"),
]

# The script: how many rows are appended, how long they are, and every how many rows the form is asked for.
HEIGHT, WIDTH, FORM_EACH = 40, 12, 8

# How many rows and columns the matrix has whose traces are changed.
SIZE = 300

# Heights, widths and entries a row: more rows than the rank, full rank, a dense rest, a rest without one, and sizes where a row costs nothing.
SCATTERED = ((0, 5, 0), (5, 1, 1), (3, 3, 3), (60, 20, 3), (40, 60, 2), (50, 50, 3), (30, 30, 9), (80, 2000, 2), (20, 2147483647, 2))


class Entry(NamedTuple):
    """An entry of a matrix: its row and its column from 1, and its value."""
    row: int
    column: int
    value: int


def scattered(height: int, width: int, per: int = 3) -> list[Entry]:
    """So many entries for each of so many rows of so many columns, from a linear congruential generator."""
    entries, state = [], 1
    for row in range(1, height + 1):
        for _ in range(per):
            place = (state * 1664525 + 1013904223) % 2 ** 32
            state = (place * 1664525 + 1013904223) % 2 ** 32
            entries.append(Entry(row, (place >> 16) % width + 1, (state >> 16) % 7))
    return entries


def matrix_text(height: int, width: int, entries: list[Entry]) -> str:
    """The text of such a matrix, its numbers in four digits."""
    lines = [f"{height:04} {width:04} M", *(f"{row:04} {column:04} {value:04}" for row, column, value in entries), "0 0 0"]
    return "\n".join(lines) + "\n"


def changed(lines: list[str], change: str) -> list[str]:
    """The lines of a trace after its title, of which some are changed."""
    first, second, *others = lines
    if change == "exchanged":
        return [second, first, *others]
    if change == "dead column":
        row, _, version = second.split()
        return [first, f"{row} {first.split()[1]} {version} ", *others]
    if change == "large version":
        return [first + "1", second, *others]
    if change == "missing":
        return lines[:-1]
    return lines


class Workers(unittest.TestCase):
    """What one worker and several answer."""

    def answered(self, words: list[str], text: str) -> str:
        """What is answered."""
        ran = ended(words, text)
        self.assertEqual((ran.status, ran.told), (0, ""))
        return ran.out

    def test_pivots(self) -> None:
        for words, text, answers in KNOWN:
            with self.subTest(words=words, text=text):
                self.assertIn(self.answered(words, text), answers)

    def test_certificates(self) -> None:
        for words, text, begins in CERTIFIED:
            with self.subTest(words=words, text=text):
                certificate = self.answered(words, text)
                self.assertEqual(certificate[:len(begins)], begins)
                self.assertEqual(ended(["check", "--modulus=7"], text + certificate), Ended(0, "yes\n", ""))

    def test_plans(self) -> None:
        """Each plan finds the rank and the form that an elimination without rounds finds."""
        for height, width, per in SCATTERED:
            text = matrix_text(height, width, scattered(height, width, per))
            form = self.answered(["rref", "--modulus=7", "--rounds=0"], text)
            rank, *_ = form.split()
            for way in WAYS:
                with self.subTest(height=height, width=width, way=way):
                    self.assertEqual(self.answered(["rref", "--modulus=7", *way], text), form)
                    self.assertEqual(self.answered(["rank", "--modulus=7", *way], text), f"rank {rank}\n")
                    certificate = self.answered(["certify", "--modulus=7", "--kind=rref", *way], text)
                    head = f"certificate rref 7 {rank}\n"
                    self.assertEqual((certificate[:len(head)], certificate[-len(form):]), (head, form))

    def test_script(self) -> None:
        """A long script is answered as runs on each matrix that it comes to."""
        entries = scattered(HEIGHT, WIDTH)
        script, answers = matrix_text(0, WIDTH, []), ""
        for height in range(1, HEIGHT + 1):
            above = [entry for entry in entries if entry.row <= height]
            terms = "".join(f"{column:04} {value:04} " for row, column, value in above if row == height)
            first = height % (WIDTH - 1) + 1
            script += f"row {terms}\nrank\nin {first:04} 1 {first + 1:04} 2\n"
            matrix = matrix_text(height, WIDTH, above)
            answers += self.answered(["rank", "--modulus=7"], matrix)
            # The row that is asked for is a combination of the others if their transpose takes some column to it.
            columns = matrix_text(WIDTH, height, [Entry(column, row, value) for row, column, value in above])
            wanted = matrix_text(WIDTH, 1, [Entry(first, 1, 1), Entry(first + 1, 1, 2)])
            is_in = self.answered(["solve", "--modulus=7"], columns + wanted).startswith("solution\n")
            answers += "yes\n" if is_in else "no\n"
            if height % FORM_EACH == 0:
                script += "rref\n"
                answers += self.answered(["rref", "--modulus=7"], matrix)
        self.assertEqual(ended(["grow", "--modulus=7"], script + "end\n"), Ended(0, answers, ""))

    def test_changed_traces(self) -> None:
        """A trace of eight workers is replayed as it is, and refused after a change."""
        matrix = matrix_text(SIZE, SIZE, scattered(SIZE, SIZE))
        for change, status, said in (("none", 0, "yes\n"), ("exchanged", 1, "no\n"), ("dead column", 1, "no\n"),
                                     ("large version", 1, "no\n"), ("missing", 3, "kind 7\n")):
            with self.subTest(change=change):
                title, *lines = self.answered(["trace", "--modulus=7", "--workers=8"], matrix).splitlines()
                trace = "\n".join([title, *changed(lines, change)]) + "\n"
                replayed = ended(["replay", "--modulus=7"], matrix + trace)
                self.assertEqual((replayed.status, (replayed.out + replayed.told)[-len(said):]), (status, said))

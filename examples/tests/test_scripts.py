"""Scripts behind matrices, modulo 7, whose answers are known from outside."""
from __future__ import annotations

import unittest

from programs import Ended, ended

# A matrix and the script behind it, line by line, and the lines of the answers.
SCRIPTS: list[tuple[str, str, str]] = [
    ("2 2 M; 1 1 3; 2 1 1; 0 0 0", "% a;  rank; in 1 1/2; in 2 7; row 2 1; ; rank; in 1 1 2 1; end; rank", "rank 1; yes; yes; rank 2; yes"),
    ("0 2 M; 0 0 0", "row 2 3 2 4; rank; row 2 1/2; rref; end", "rank 0; 1 2 M; 1 2 1; 0 0 0"),
    ("0 0 M; 0 0 0", "row; rank; in; rref; end", "rank 0; yes; 0 0 M; 0 0 0"),
    ("3 0 M; 0 0 0", "rref; end", "0 0 M; 0 0 0"),
    # Rows without an entry cost nothing.
    ("2147483647 2 M; 2147483646 2 3; 0 0 0", "rank; rref; in 2 4; in 1 1; end", "rank 1; 1 2 M; 1 2 1; 0 0 0; yes; no"),
    # Columns that come late, and not in their order, with the answers of a plain elimination of all rows.
    ("0 6 M; 0 0 0",
     "row 6 2 5 1; row 4 3 6 1; in 6 2; in 1 3; rank; row 5 3 4 1; rank; rref; row 1 1 6 4; in 1 2 6 1; in 1 1 2 1; row 2 1 4 5; rref; rank; end",
     "no; no; rank 2; rank 3; 3 6 M; 1 4 1; 2 5 1; 3 6 1; 0 0 0; yes; no; 5 6 M; 1 1 1; 2 2 1; 3 4 1; 4 5 1; 5 6 1; 0 0 0; rank 5"),
    ("0 5 M; 0 0 0",
     "row 3 1 5 6; row 1 1 3 6; row 1 6 5 1; rank; in 1 1 5 6; in 3 1 4 1; rref; row 4 2 5 3; row 2 1 4 1; rank; rref; in 2 2 5 3; end",
     "rank 2; yes; no; 2 5 M; 1 1 1; 1 5 6; 2 3 1; 2 5 6; 0 0 0; "
     "rank 4; 4 5 M; 1 1 1; 1 5 6; 2 2 1; 2 5 2; 3 3 1; 3 5 6; 4 4 1; 4 5 5; 0 0 0; no"),
    ("0 7 M; 0 0 0",
     "row 7 1 1 1; row 7 2 2 1; row 7 3 3 1; row 1 3 2 2; rref; in 1 3 3 6; in 5 1; row 5 1 6 1; row 6 1 5 2; rank; rref; in 5 3 6 3; in 4 1; "
     "row 4 4; in 4 1 1 3 3 6; end",
     "3 7 M; 1 1 1; 1 7 1; 2 2 1; 2 7 2; 3 3 1; 3 7 3; 0 0 0; yes; no; "
     "rank 5; 5 7 M; 1 1 1; 1 7 1; 2 2 1; 2 7 2; 3 3 1; 3 7 3; 4 5 1; 5 6 1; 0 0 0; yes; no; yes"),
]

# Lines that are none of a script's, in the third line behind a matrix of three columns.
REFUSED = ["row 4 1", "row 0 1", "row 1", "in 1 1/7", "rank 1", "Rank", "row 1 x", "end 1", "end and more bytes than are read"]


def lines_of(text: str) -> str:
    return text.replace("; ", "\n") + "\n"


class Scripts(unittest.TestCase):
    """What `grow` answers."""

    def test_scripts(self) -> None:
        for matrix, script, answers in SCRIPTS:
            with self.subTest(script=script):
                self.assertEqual(ended(["grow", "--modulus=7"], lines_of(matrix) + lines_of(script)), Ended(0, lines_of(answers), ""))

    def test_refused_lines(self) -> None:
        """The first line that is none of a script's is named, and nothing is answered."""
        for line in REFUSED:
            with self.subTest(line=line):
                text = lines_of("0 3 M; 0 0 0; rank") + line + "\nend\n"
                self.assertEqual(ended(["grow", "--modulus=7"], text), Ended(3, "", "error 3 line 4 kind 12\n"))

"""Matrices that `drill` generates."""
from __future__ import annotations

import unittest

from programs import X, Ended, run

# Options of `drill`, and what is answered.
Drill = tuple[list[str], str]

DRILLS: list[Drill] = [
    (["--seed=0", "--rows=1", "--cols=2", "--per=1", "--modulus=7"], "rank 1\nentries 1\nsum 2\n"),
    (["--seed=0", "--rows=1", "--cols=2", "--per=1"], "rank 1\nentries 1\nsum 2\n"),
    (["--seed=1", "--rows=1", "--cols=2", "--per=2", "--modulus=3"], "rank 0\nentries 0\nsum 0\n"),
    (["--seed=1", "--rows=2", "--cols=2", "--per=1", "--modulus=2"], "rank 1\nentries 1\nsum 1\n"),
    (["--seed=5", "--rows=4", "--cols=4", "--per=0"], "rank 0\nentries 0\nsum 0\n"),
    (["--seed=4", "--rows=1", "--cols=7", "--per=1000", "--modulus=3"], "rank 1\nentries 4\nsum 1\n"),
    (["--seed=3", "--rows=4", "--cols=9", "--per=3", "--modulus=281474976710597"], "rank 4\nentries 11\nsum 11669984082959\n"),
    (["--seed=12345678901234567890", "--rows=3", "--cols=1000000", "--per=2", "--modulus=4294967311"],
     "rank 3\nentries 6\nsum 2917798817\n"),
]

# Such as take longer.
LARGE_DRILLS: list[Drill] = [
    (["--seed=20", "--rows=300", "--cols=300", "--per=4"], "rank 293\nentries 296\nsum 33974\n"),
    (["--seed=20", "--rows=20000", "--cols=30000", "--per=2"], "rank 19616\nentries 25695\nsum 2920\n"),
]


class Generated(unittest.TestCase):
    """What `drill` answers, whatever the workers and the rounds; nothing is read."""

    def check(self, drills: list[Drill], workers: tuple[int, ...], rounds: tuple[int, ...]) -> None:
        """These drills are answered so by each number of workers and rounds."""
        for options, answer in drills:
            for count in workers:
                for most in rounds:
                    words = ["drill", "--workers", str(count), "--rounds", str(most), *options]
                    with self.subTest(words=words):
                        self.assertEqual(run(words, X), (Ended(0, answer, ""), 0))

    def test_drills(self) -> None:
        self.check(DRILLS, (1, 2, 3, 8, 64), (0, 1, 3, 16))
        self.check(LARGE_DRILLS, (1, 2, 8), (0, 3))

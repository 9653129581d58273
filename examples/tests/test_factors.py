"""Factors by the dense elimination alone: valid, of the rank that a plain elimination finds, and the same by any number of workers."""
from __future__ import annotations

import random
import unittest

from programs import Ended, ended

# A modulus, a matrix by its rows, its width, and its rank.
KNOWN: list[tuple[int, list[list[int]], int, int]] = [
    (7, [[1, 0, 0], [1, 1, 1], [1, 1, 2]], 3, 3),
    (7, [[2, 4, 1], [1, 2, 0], [3, 6, 1]], 3, 2),
    (7, [[], [], []], 0, 0),
    (7, [], 3, 0),
    (7, [[0, 0, 0], [0, 0, 0]], 3, 0),
    (2, [[1, 1, 0], [0, 1, 1], [1, 0, 1]], 3, 2),
    (2147483647, [[2147483646, 1], [1, 2147483646]], 2, 1),
    (4294967311, [[4294967310, 2], [3, 4294967305], [0, 1]], 2, 2),
    (42013, [[0, 1, 2, 0, 3, 0, 0, 5], [0, 0, 4, 1, 0, 0, 7, 2], [0, 1, 6, 1, 3, 0, 7, 7], [0, 2, 4, 0, 6, 0, 0, 10],
             [0, 42012, 2, 1, 42010, 0, 7, 42010]], 8, 2),
    # Ones in the first column and on the diagonal, and twos beside it: the second panel finds pivots, too.
    (42013, [[2 if j == i - 1 else int(j in (0, i)) for j in range(67)] for i in range(67)], 67, 67),
]

MODULI = (2, 3, 7, 251, 65521, 42013, 2147483647, 2147483659, 140737488355213)

# Heights, widths, and how many rows the others come from. Of the last, each of four workers can take several pieces.
SIZES = ((1, 1, 1), (3, 5, 3), (7, 9, 7), (64, 64, 64), (65, 70, 65), (130, 40, 130), (40, 130, 40), (200, 20, 3), (20, 200, 3), (400, 12, 5))

# The huge matrix: its size, and how far apart its ten entries are.
HUGE, STEP = 2147483647, 200000000


def drawn(modulus: int, height: int, width: int, rank: int) -> list[list[int]]:
    """So many drawn rows, and under them rows that are each a multiple of one of them and another."""
    draw = random.Random(height * width)
    rows = [[draw.randrange(modulus) for _ in range(width)] for _ in range(min(rank, height))]
    for i in range(rank, height):
        factor, first, second = draw.randrange(modulus), rows[i % rank], rows[i // rank % rank]
        rows.append([(factor * a + b) % modulus for a, b in zip(first, second, strict=True)])
    return rows


def plain_rank(rows: list[list[int]], modulus: int) -> int:
    """The rank by elimination in the plainest way, for a prime modulus."""
    rank, rest = 0, [row[:] for row in rows]
    while rest:
        row = rest.pop()
        lead = next((j for j, value in enumerate(row) if value), None)
        if lead is not None:
            rank += 1
            inverse = pow(row[lead], -1, modulus)
            for other in rest:
                if other[lead]:
                    factor = other[lead] * inverse
                    other[:] = [(a - factor * b) % modulus for a, b in zip(other, row, strict=True)]
    return rank


def text_of(rows: list[list[int]], width: int) -> str:
    lines = [f"{i} {j} {value}\n" for i, row in enumerate(rows, 1) for j, value in enumerate(row, 1) if value]
    return f"{len(rows)} {width} M\n" + "".join(lines) + "0 0 0\n"


class Factors(unittest.TestCase):
    """What `certify` answers without rounds."""

    def certified(self, modulus: int, text: str, rank: int) -> list[str]:
        """The lines of the certificate, which is the same by any number of workers, and valid."""
        words = ["certify", "--kind=rank", "--rounds=0", f"--modulus={modulus}"]
        ran = [ended(words + [f"--workers={workers}"], text) for workers in (1, 2, 4, 8)]
        self.assertEqual(ran, [Ended(0, ran[0].out, "")] * 4)
        self.assertEqual(ended(["check", f"--modulus={modulus}"], text + ran[0].out), Ended(0, "yes\n", ""))
        lines = ran[0].out.splitlines()
        self.assertEqual(lines[0], f"certificate rank {modulus} {rank}")
        return lines

    def test_known(self) -> None:
        for modulus, rows, width, rank in KNOWN:
            with self.subTest(modulus=modulus, rows=rows):
                self.certified(modulus, text_of(rows, width), rank)

    def test_drawn(self) -> None:
        for modulus in MODULI:
            for height, width, rank in SIZES:
                with self.subTest(modulus=modulus, height=height, width=width):
                    rows = drawn(modulus, height, width, rank)
                    self.certified(modulus, text_of(rows, width), plain_rank(rows, modulus))

    def test_huge(self) -> None:
        """Ten entries in rows and columns of their own cost what ten entries cost."""
        places = [(HUGE - k * STEP, k * STEP + 1) for k in range(9, -1, -1)]
        entries = "".join(f"{row} {column} 1\n" for row, column in places)
        lines = self.certified(42013, f"{HUGE} {HUGE} M\n{entries}0 0 0\n", 10)
        pivots, left, right = lines[1:11], lines[11:23], lines[23:]
        self.assertEqual(pivots, [f"{row} {column}" for row, column in places])
        self.assertEqual(left, [f"{HUGE} 10 M", *(f"{row} {k} 1" for k, (row, _) in enumerate(places, 1)), "0 0 0"])
        self.assertEqual(right, [f"10 {HUGE} M", *(f"{k} {column} 1" for k, (_, column) in enumerate(places, 1)), "0 0 0"])

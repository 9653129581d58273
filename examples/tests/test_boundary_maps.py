"""The rank of a boundary map whose first round leaves much, so that `rank` begins anew in the order of a front; and with its cells shuffled."""
from __future__ import annotations

import itertools
import random
import unittest

from programs import ended

Entry = tuple[int, int, int]


def placements(rooks: int) -> list[tuple[int, ...]]:
    """So many rooks on a board of 7 rows and 6 columns, none of which takes another."""
    return sorted(tuple(i * 6 + j for i, j in zip(rows, columns))
                  for rows in itertools.combinations(range(7), rooks) for columns in itertools.permutations(range(6), rooks))


def text(height: int, width: int, entries: list[Entry]) -> str:
    lines = [f"{i + 1} {j + 1} {v}\n" for i, j, v in sorted(entries)]
    return "".join([f"{height} {width} M\n", *lines, "0 0 0\n"])


class BoundaryMaps(unittest.TestCase):
    def test_the_order_of_cells_changes_no_rank(self) -> None:
        cells, faces = placements(5), placements(4)
        number = {face: j for j, face in enumerate(faces)}
        entries = [(i, number[cell[:k] + cell[k + 1:]], (-1) ** k) for i, cell in enumerate(cells) for k in range(5)]
        chance = random.Random(1)
        rows, columns = list(range(len(cells))), list(range(len(faces)))
        chance.shuffle(rows)
        chance.shuffle(columns)
        shuffled = [(rows[i], columns[j], v) for i, j, v in entries]
        for given in (entries, shuffled):
            for workers in ("1", "4"):
                with self.subTest(shuffled=given is shuffled, workers=workers):
                    self.assertEqual(ended(["rank", "--workers", workers], text(len(cells), len(faces), given)).out, "rank 8989\n")


if __name__ == "__main__":
    unittest.main()

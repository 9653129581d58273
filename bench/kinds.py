#!/usr/bin/env python3
"""Writes a matrix of one of the kinds that users have, as a text, to standard output.

usage: bench/kinds.py KIND NUMBER..

  sieve ROWS COLUMNS ENTRIES SEED  relations of a sieve: low columns are common, high ones rare (Zipf), values 1 and -1
  rips POINTS DIMENSION SEED       boundary map of the Vietoris-Rips complex of random points of the square, about 12 neighbours each
  band ROWS WIDTH SEED             six of ten places within WIDTH of the diagonal, and the diagonal
  incidence VERTICES EDGES SEED    incidence matrix of a random directed graph
  subsets N K                      which sets of K points of N lie in which of K + 1
  blocks NUMBER SIZE SEED          dense blocks of half their rank, one after the other
  shuffled SEED FILE               rows and columns of a text in random order
"""

from __future__ import annotations

import itertools
import random
import sys
from collections.abc import Iterable

PRIME = 42013
Row = dict[int, int]


def write(height: int, width: int, rows: Iterable[Row]) -> None:
    out = sys.stdout.write
    out(f"{height} {width} M\n")
    for i, row in enumerate(rows, 1):
        for j in sorted(row):
            if row[j]:
                out(f"{i} {j} {row[j]}\n")
    out("0 0 0\n")


def sieve(height: int, width: int, entries: int, seed: int) -> None:
    chance = random.Random(seed)

    def row() -> Row:
        found: Row = {}
        for _ in range(entries):
            column = min(width, int(width ** chance.random()))
            found[column] = found.get(column, 0) + chance.choice((-1, 1))
        return found

    write(height, width, (row() for _ in range(height)))


def rips(points: int, dimension: int, seed: int) -> None:
    chance = random.Random(seed)
    at = [(chance.random(), chance.random()) for _ in range(points)]
    near = [{j for j in range(i + 1, points) if (at[i][0] - at[j][0]) ** 2 + (at[i][1] - at[j][1]) ** 2 < 12 / points} for i in range(points)]
    faces = facets = [(i,) for i in range(points)]
    for _ in range(dimension):
        faces, facets = facets, [f + (v,) for f in facets for v in sorted(set.intersection(*(near[u] for u in f)))]
    number = {f: j for j, f in enumerate(faces, 1)}
    write(len(facets), len(faces), ({number[f[:t] + f[t + 1 :]]: (-1) ** t for t in range(len(f))} for f in facets))


def band(size: int, width: int, seed: int) -> None:
    chance = random.Random(seed)
    places = lambda i: range(max(1, i - width), min(size, i + width) + 1)
    write(size, size, ({j: chance.randrange(1, PRIME) for j in places(i) if i == j or chance.random() < 0.6} for i in range(1, size + 1)))


def incidence(vertices: int, edges: int, seed: int) -> None:
    chance = random.Random(seed)
    ends = lambda: chance.sample(range(1, vertices + 1), 2)
    write(edges, vertices, ({a: 1, b: -1} for a, b in (ends() for _ in range(edges))))


def subsets(points: int, size: int) -> None:
    number = {it: j for j, it in enumerate(itertools.combinations(range(points), size), 1)}
    sets = list(itertools.combinations(range(points), size + 1))
    write(len(sets), len(number), ({number[it[:t] + it[t + 1 :]]: 1 for t in range(size + 1)} for it in sets))


def blocks(number: int, size: int, seed: int) -> None:
    chance = random.Random(seed)

    def rows() -> Iterable[Row]:
        for block in range(number):
            basis = [[chance.randrange(PRIME) for _ in range(size)] for _ in range(size // 2)]
            for _ in range(size):
                factors = [chance.randrange(PRIME) for _ in basis]
                yield {block * size + j + 1: sum(f * b[j] for f, b in zip(factors, basis)) % PRIME for j in range(size)}

    write(number * size, number * size, rows())


def shuffled(seed: int, path: str) -> None:
    chance = random.Random(seed)
    with open(path) as text:
        height, width = map(int, text.readline().split()[:2])
        entries = [tuple(map(int, line.split())) for line in text]
    row_of, column_of = [list(range(1, n + 1)) for n in (height, width)]
    chance.shuffle(row_of)
    chance.shuffle(column_of)
    moved = sorted((row_of[i - 1], column_of[j - 1], v) for i, j, v in entries if i)
    print(height, width, "M")
    sys.stdout.writelines(f"{i} {j} {v}\n" for i, j, v in moved)
    print("0 0 0")


def main() -> int:
    kinds = {it.__name__: it for it in (sieve, rips, band, incidence, subsets, blocks, shuffled)}
    if len(sys.argv) < 2 or sys.argv[1] not in kinds:
        print(__doc__.strip(), file=sys.stderr)
        return 2
    kinds[sys.argv[1]](*(int(it) if it.isdigit() else it for it in sys.argv[2:]))
    return 0


if __name__ == "__main__":
    sys.exit(main())

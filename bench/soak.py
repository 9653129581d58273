#!/usr/bin/env python3
"""Runs all commands of spasm and spasm_batch on random and structured matrices for so many minutes, and compares the answers.

usage: bench/soak.py MINUTES [--seed S] [--processes P]

Answers of 1 to 64 workers and 0 to 16 rounds are compared with that of one worker and with the textbook program of bench/reference.py
(small matrices), `certify` with `check`, `trace` with `replay`, `pivots` with the definition. It prints cases and differences, and ends
with status 1 at a difference.
"""

from __future__ import annotations

import argparse
import itertools
import multiprocessing
import os
import random
import subprocess
import sys
import time
from pathlib import Path

sys.path.insert(0, str(Path(__file__).parent))
import reference  # noqa: E402

ROOT = Path(__file__).resolve().parent.parent
PROGRAM = os.environ.get("SPASM") or str(ROOT / "spasm")
BATCH = os.environ.get("SPASM_BATCH") or str(ROOT / "spasm_batch")
PRIMES = [2, 3, 7, 101, 42013, 65537, 2147483647, 4294967311, 281474976710597]
Entries = dict[tuple[int, int], int]


def run(program: str, words: list[str], data: bytes) -> tuple[int, str, str]:
    ran = subprocess.run([program, *words], input=data, capture_output=True, timeout=600)
    return ran.returncode, ran.stdout.decode(), ran.stderr.decode()


def value(chance: random.Random) -> int:
    return chance.choice([1, 1, -1, chance.randint(-9, 9), chance.randint(-(10**12), 10**12)])


def scattered(chance: random.Random, m: int, n: int) -> Entries:
    return {(chance.randrange(m), chance.randrange(n)): value(chance) for _ in range(chance.randint(0, 4 * max(m, n)))}


def product(chance: random.Random, m: int, n: int) -> Entries:
    rank, found = chance.randint(1, max(1, min(m, n) // 2)), {}
    left = [[(chance.randrange(rank), value(chance)) for _ in range(2)] for _ in range(m)]
    right = [[(chance.randrange(n), value(chance)) for _ in range(3)] for _ in range(rank)]
    for i, row in enumerate(left):
        for k, a in row:
            for j, b in right[k]:
                found[i, j] = found.get((i, j), 0) + a * b
    return found


def banded(chance: random.Random, m: int, n: int) -> Entries:
    return {(i, i + d): value(chance) for i in range(m) for d in range(-2, 3) if 0 <= i + d < n and chance.random() < 0.8}


def arrow(chance: random.Random, m: int, n: int) -> Entries:
    side = min(m, n)
    return {(i, j): value(chance) for k in range(side) for i, j in ((k, k), (0, k), (k, 0))}


def blocks(chance: random.Random, m: int, n: int) -> Entries:
    size = chance.randint(2, 6)
    return {(i, j): value(chance) for i in range(m) for j in range(n) if i // size == j // size and chance.random() < 0.6}


def zipf(chance: random.Random, m: int, n: int) -> Entries:
    return {(i, min(n - 1, int(1 / (chance.random() + 1e-9)) - 1)): value(chance) for i in range(m) for _ in range(4)}


def boundary(chance: random.Random, m: int, n: int) -> Entries:
    """The map from triples to pairs of some facets on a few points."""
    points = chance.randint(4, 7)
    triples = [it for it in itertools.combinations(range(points), 3) if chance.random() < 0.7][:m]
    pairs = {it: j for j, it in enumerate(itertools.combinations(range(points), 2))}
    return {(i, pairs[tuple(x for x in it if x != it[k])]): (-1) ** k for i, it in enumerate(triples) for k in range(3) if pairs[tuple(x for x in it if x != it[k])] < n}


KINDS = [scattered, product, banded, arrow, blocks, zipf, boundary]


def text(entries: Entries, m: int, n: int) -> bytes:
    lines = [f"{i + 1} {j + 1} {v}" for (i, j), v in sorted(entries.items()) if v]
    return ("\n".join([f"{m} {n} M", *lines, "0 0 0"]) + "\n").encode()


def column(chance: random.Random, m: int) -> bytes:
    return text({(chance.randrange(m), 0): value(chance) for _ in range(chance.randint(0, 4))} if m else {}, m, 1)


class Soak:
    def __init__(self, seed: int) -> None:
        self.seed, self.chance, self.cases, self.differences = seed, random.Random(seed), 0, 0

    def same(self, what: str, data: bytes, got: object, wanted: object) -> None:
        self.cases += 1
        if got != wanted:
            self.differences += 1
            name = f"/tmp/soak-{self.seed}-{self.cases}.sms"
            Path(name).write_bytes(data)
            print(f"DIFFERENCE: {what} on {name}: {str(got)[:300]!r}, wanted {str(wanted)[:300]!r}", flush=True)

    def ways(self) -> list[str]:
        return ["--workers", str(self.chance.choice([1, 2, 3, 4, 8, 64])), "--rounds", str(self.chance.choice([0, 1, 2, 3, 16]))]

    def answers(self, data: bytes, p: list[str], is_small: bool) -> None:
        """Commands with one answer, by several workers and rounds, by one, and by the reference."""
        right = column(self.chance, int(data.split()[0]))
        for command in ["rank", "rref", "kernel", "leftkernel", "inverse", "solve"]:
            given = data + right if command == "solve" else data
            first = run(PROGRAM, [command, *p, "--workers", "1"], given)
            ways = self.ways()
            self.same(f"{command} {' '.join(p + ways)}", given, run(PROGRAM, [command, *p, *ways], given), first)
            if is_small:
                wanted = reference.expected(command, given, int(p[1]))
                self.same(f"{command} {' '.join(p)}", given, first, (wanted.status, wanted.out, wanted.error))

    def certificates(self, data: bytes, p: list[str], is_small: bool) -> None:
        for kind in ("rank", "rref", "kernel"):
            ways = self.ways()
            certificate = run(PROGRAM, ["certify", "--kind", kind, *p, *ways], data)[1].encode()
            self.same(f"check of certify {kind} {' '.join(p + ways)}", data, run(PROGRAM, ["check", *p], data + certificate)[1], "yes\n")
            if is_small:
                self.same(f"certify {kind} {' '.join(p + ways)} by the reference", data, reference.expected("check", data + certificate, int(p[1])).out, "yes\n")

    def searches(self, data: bytes, p: list[str], is_small: bool) -> None:
        ways = self.ways()
        trace = run(PROGRAM, ["trace", *p, *ways], data)[1].encode()
        self.same(f"replay of trace {' '.join(p + ways)}", data, run(PROGRAM, ["replay", *p], data + trace)[1], "yes\n")
        if is_small:
            matrix = reference.read_matrix(reference.Lines(data), int(p[1]))
            said = run(PROGRAM, ["pivots", *p, *ways], data)[1].split("\n")[1:-1]
            pivots = [(int(i) - 1, int(j) - 1) for i, j in (line.split() for line in said)]
            is_well = reference.is_triangular(matrix, pivots) and reference.is_maximal(matrix, pivots) and set(reference.leftmost(matrix)) <= set(pivots)
            self.same(f"pivots {' '.join(p + ways)} by the definition", data, is_well, True)

    def scripts(self, data: bytes, p: list[str]) -> None:
        width = int(data.split()[1])
        lines = []
        for _ in range(self.chance.randint(1, 8)):
            pairs = " ".join(f"{self.chance.randint(1, width)} {value(self.chance)}" for _ in range(self.chance.randint(0, 3))) if width else ""
            lines.append(self.chance.choice([f"row {pairs}", f"in {pairs}", "rank", "rref"]))
        given = data + ("\n".join([*lines, "end"]) + "\n").encode()
        wanted = reference.expected("grow", given, int(p[1]))
        self.same(f"grow {' '.join(p)}", given, run(PROGRAM, ["grow", *p, *self.ways()], given), (wanted.status, wanted.out, wanted.error))

    def batches(self, data: bytes, p: list[str]) -> None:
        questions = [column(self.chance, int(data.split()[0])) for _ in range(self.chance.randint(1, 5))]
        alone = "".join(run(PROGRAM, ["solve", *p], data + it)[1] for it in questions)
        words = ["--count", str(len(questions)), *p, "--workers", str(self.chance.choice([1, 2, 8]))]
        self.same(f"spasm_batch {' '.join(words)}", data + b"".join(questions), run(BATCH, words, data + b"".join(questions)), (0, alone, ""))

    def turn(self) -> None:
        is_small = self.chance.random() < 0.8
        most = 14 if is_small else 220
        m, n = self.chance.randint(0, most), self.chance.randint(0, most)
        m = n if self.chance.random() < 0.3 else m
        entries = self.chance.choice(KINDS)(self.chance, m, n) if m and n else {}
        data, p = text(entries, m, n), ["--modulus", str(self.chance.choice(PRIMES))]
        self.answers(data, p, is_small)
        self.certificates(data, p, is_small)
        self.searches(data, p, is_small)
        if is_small:
            self.scripts(data, p)
            self.batches(data, p)


def soak(seed: int, minutes: float) -> tuple[int, int]:
    it, end = Soak(seed), time.monotonic() + 60 * minutes
    while time.monotonic() < end:
        it.turn()
    return it.cases, it.differences


def main() -> int:
    parser = argparse.ArgumentParser(description=__doc__, formatter_class=argparse.RawDescriptionHelpFormatter)
    parser.add_argument("minutes", type=float)
    parser.add_argument("--seed", type=int, default=1)
    parser.add_argument("--processes", type=int, default=len(os.sched_getaffinity(0)))
    words = parser.parse_args()
    with multiprocessing.Pool(words.processes) as pool:
        found = pool.starmap(soak, [(words.seed * 1000 + k, words.minutes) for k in range(words.processes)])
    cases, differences = (sum(it) for it in zip(*found))
    print(f"{words.minutes:g} minutes, {words.processes} processes, seed {words.seed}: {cases} comparisons, {differences} differences")
    return 1 if differences else 0


if __name__ == "__main__":
    sys.exit(main())

#!/usr/bin/env python3
"""Compares the program's answers with those of Sage, PARI and GAP, on random and structured matrices modulo several primes.

The commands are rank, rref, kernel, leftkernel, solve and inverse, the last on the leading square. Each system that is installed is
started once and answers all cases; the forms of all answers are unique, so they are compared entry by entry. It prints each
difference, and at the end how many cases and answers were compared; the status is 1 if there is a difference or no system.
"""

from __future__ import annotations

import argparse
import importlib.machinery
import importlib.util
import json
import random
import shutil
import subprocess
import sys
import tempfile
from collections import Counter
from pathlib import Path
from typing import Callable, NamedTuple, Optional

HERE = Path(__file__).resolve().parent
ROOT = HERE.parents[1]
sys.path.insert(0, str(ROOT / "python"))

import spasm

Rows = list[list[int]]
PRIMES = (2, 3, 7, 101, 42013, 65521, 65537, 2**31 - 1, 2**48 - 59)
LARGEST_SIDE = 36


class Case(NamedTuple):
    """One matrix A, given by dense rows, and one column b."""

    kind: str
    modulus: int
    rows: Rows
    column: list[int]


def complexes() -> object:
    """The module of tools/complexes."""
    loader = importlib.machinery.SourceFileLoader("complexes", str(ROOT / "tools" / "complexes"))
    module = importlib.util.module_from_spec(importlib.util.spec_from_loader("complexes", loader))
    loader.exec_module(module)
    return module


def nonzero(source: random.Random, p: int) -> int:
    """A residue that isn't 0."""
    return source.randrange(1, p)


def by_places(source: random.Random, p: int, m: int, n: int, is_place: Callable[[int, int], bool]) -> Rows:
    """Rows with random values at these places."""
    return [[nonzero(source, p) if is_place(i, j) else 0 for j in range(n)] for i in range(m)]


def scattered(source: random.Random, p: int, m: int, n: int) -> Rows:
    """Random places of a random density."""
    density = source.choice([0.02, 0.05, 0.1, 0.3, 1])
    return by_places(source, p, m, n, lambda i, j: source.random() < density)


def product(source: random.Random, p: int, m: int, n: int) -> Rows:
    """A product of two sparse matrices, of low rank."""
    r = source.randrange(1, min(m, n) + 1)
    left, right = (by_places(source, p, *shape, lambda i, j: source.random() < 0.3) for shape in ((m, r), (r, n)))
    return [[sum(row[k] * right[k][j] for k in range(r)) % p for j in range(n)] for row in left]


def banded(source: random.Random, p: int, m: int, n: int) -> Rows:
    """A band around the diagonal."""
    width = source.randrange(1, 4)
    return by_places(source, p, m, n, lambda i, j: abs(i - j) <= width)


def arrow(source: random.Random, p: int, m: int, n: int) -> Rows:
    """The first row, the first column and the diagonal, or the last row and column instead."""
    rows = by_places(source, p, m, n, lambda i, j: i == 0 or j == 0 or i == j)
    return rows if source.random() < 0.5 else [row[::-1] for row in rows[::-1]]


def blocks(source: random.Random, p: int, m: int, n: int) -> Rows:
    """Blocks on the diagonal, with rows and columns in random order."""
    size = source.randrange(2, 6)
    rows = by_places(source, p, m, n, lambda i, j: i // size == j // size)
    order = source.sample(range(n), n)
    return [[row[j] for j in order] for row in source.sample(rows, m)]


def zipf(source: random.Random, p: int, m: int, n: int) -> Rows:
    """A few entries a row, at columns of which the k-th is drawn with a weight of 1 / k."""
    weights = [1 / (j + 1) for j in range(n)]
    places = [set(source.choices(range(n), weights, k=4)) for _ in range(m)]
    return by_places(source, p, m, n, lambda i, j: j in places[i])


def boundary(source: random.Random, p: int, m: int, n: int) -> Rows:
    """A boundary map of a chessboard or matching complex, or of random facets; m and n are of no account."""
    made = complexes()
    facets = [tuple(sorted(source.sample(range(8), source.randrange(2, 5)))) for _ in range(8)]
    faces = source.choice([made.chessboard(3, 4), made.matching(5), made.closure(facets)])
    dimension = source.randrange(1, len(faces))
    places = {face: j for j, face in enumerate(faces[dimension - 1])}
    rows = [[0] * len(places) for _ in faces[dimension]]
    for row, face in zip(rows, faces[dimension]):
        for t in range(len(face)):
            row[places[face[:t] + face[t + 1:]]] = (1 if t % 2 == 0 else -1) % p
    return rows


KINDS = (scattered, product, banded, arrow, blocks, zipf, boundary)


def made_case(source: random.Random, number: int) -> Case:
    """A case of the kind whose turn it is. Every other column is A times some x."""
    kind, p = KINDS[number % len(KINDS)], source.choice(PRIMES)
    side = source.randrange(1, LARGEST_SIDE)
    shape = source.choice([(side, side), (side, source.randrange(1, LARGEST_SIDE))])
    rows = kind(source, p, *shape)
    x = [source.randrange(p) for _ in rows[0]]
    is_solvable = source.random() < 0.5
    column = [sum(a * b for a, b in zip(row, x)) % p if is_solvable else source.randrange(p) for row in rows]
    return Case(kind.__name__, p, rows, column)


def told(word: str, matrix: spasm.Matrix) -> list[str]:
    """An answer as the words of a line: a word, the sizes, the values by rows."""
    return [word, *map(str, matrix.shape), *(str(v) for row in matrix.to_rows() for v in row)]


def own_answers(case: Case, source: random.Random) -> dict[str, list[str]]:
    """The program's answers to a case, for random workers and rounds."""
    matrix, side = spasm.Matrix.from_rows(case.rows), min(len(case.rows), len(case.rows[0]))
    square = spasm.Matrix.from_rows([row[:side] for row in case.rows[:side]])
    words = {"modulus": case.modulus, "workers": source.choice([1, 2]), "rounds": source.randrange(4)}
    return {"rank": told("rank", spasm.Matrix.from_rows([[spasm.rank(matrix, **words)]])),
            "rref": told("matrix", spasm.rref(matrix, **words)),
            "kernel": told("matrix", spasm.kernel(matrix, **words)),
            "leftkernel": told("matrix", spasm.left_kernel(matrix, **words)),
            "solve": own_solution(matrix, case.column, words),
            "inverse": own_inverse(square, words)}


def own_solution(matrix: spasm.Matrix, column: list[int], words: dict[str, int]) -> list[str]:
    """The program's solution or refutation."""
    try:
        return told("solution", spasm.solve(matrix, column, **words))
    except spasm.NoSolution as refuted:
        return told("none", refuted.witness)


def own_inverse(matrix: spasm.Matrix, words: dict[str, int]) -> list[str]:
    """The program's inverse or null vector."""
    try:
        return told("inverse", spasm.inverse(matrix, **words))
    except spasm.Singular as refuted:
        return told("singular", refuted.null_vector)


def run_sage(cases: str, folder: Path, answers: Path) -> list[str]:
    """The command by which Sage answers the cases."""
    (folder / "cases.json").write_text(cases)
    return ["sage", "-python", str(HERE / "peer_sage.py"), str(folder / "cases.json"), str(answers)]


def run_pari(cases: str, folder: Path, answers: Path) -> list[str]:
    """The command by which PARI answers the cases."""
    (folder / "cases.gp").write_text(f'{{\ncases = {cases};\n}}\ntarget = "{answers}";\nread("{HERE / "peer.gp"}");\n')
    return ["gp", "-q", "-f", "-s", "64M", "-D", "parisizemax=1G", str(folder / "cases.gp")]


def run_gap(cases: str, folder: Path, answers: Path) -> list[str]:
    """The command by which GAP answers the cases."""
    (folder / "cases.g").write_text(f'Cases := {cases};;\nTarget := "{answers}";;\nRead("{HERE / "peer.g"}");\n')
    return ["gap", "-q", str(folder / "cases.g")]


PEERS = {"sage": run_sage, "gp": run_pari, "gap": run_gap}


def peer_answers(peer: str, cases: list[Case]) -> Optional[dict[tuple[int, str], list[str]]]:
    """A system's answers by case and command; None if it isn't installed. What it says of its own goes to the error stream."""
    if shutil.which(peer) is None:
        return None
    # All three systems read this text of lists as it is.
    text = "[" + ",\n".join(json.dumps([case.modulus, case.rows, case.column]) for case in cases) + "]"
    with tempfile.TemporaryDirectory() as folder:
        answers = Path(folder) / "answers"
        command = PEERS[peer](text, Path(folder), answers)
        subprocess.run(command, stdin=subprocess.DEVNULL, stdout=sys.stderr, cwd=folder, check=False)
        lines = answers.read_text().splitlines() if answers.exists() else []
    return {(int(words[0]) - 1, words[1]): words[2:] for words in (line.split() for line in lines)}


def compared(peer: str, cases: list[Case], own: list[dict[str, list[str]]], words_of: dict[tuple[int, str], list[str]]) -> int:
    """Prints where a system tells another answer or none, and gives how many."""
    differences = 0
    for number, (case, answers) in enumerate(zip(cases, own)):
        for command, answer in answers.items():
            other = words_of.get((number, command))
            if other != answer:
                differences += 1
                print(f"case {number} ({case.kind}, modulo {case.modulus}, {len(case.rows)} x {len(case.rows[0])}) {command}:\n"
                      f"  spasm {' '.join(answer)}\n  {peer} {' '.join(other) if other else 'no answer'}")
    return differences


def main() -> int:
    """Runs the comparison."""
    parser = argparse.ArgumentParser(description=__doc__, formatter_class=argparse.RawDescriptionHelpFormatter)
    parser.add_argument("--cases", type=int, default=50, help="how many matrices (%(default)s)")
    parser.add_argument("--seed", type=int, default=1, help="of the random numbers (%(default)s)")
    options = parser.parse_args()
    source = random.Random(options.seed)
    cases = [made_case(source, number) for number in range(options.cases)]
    own = [own_answers(case, source) for case in cases]
    words = Counter(answers[command][0] for answers in own for command in ("solve", "inverse"))
    differences, peers = 0, []
    for peer in PEERS:
        words_of = peer_answers(peer, cases)
        if words_of is None:
            print(f"{peer} isn't installed: skipped")
            continue
        peers.append(peer)
        differences += compared(peer, cases, own, words_of)
    print("of these " + ", ".join(f"{count} {word}" for word, count in sorted(words.items())))
    print(f"{len(cases)} cases, {sum(map(len, own))} answers, compared with {', '.join(peers) or 'no system'}: {differences} differences")
    return 1 if differences or not peers else 0


if __name__ == "__main__":
    sys.exit(main())

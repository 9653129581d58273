"""Plain elimination of dense rows modulo a prime, by which the tests judge the program."""

from __future__ import annotations

from typing import Optional

Rows = list[list[int]]


def rref(rows: Rows, width: int, p: int) -> tuple[Rows, list[int]]:
    """The reduced echelon form without zero rows, and the columns of its leads."""
    held, leads = [[v % p for v in row] for row in rows], []
    for j in range(width):
        top = len(leads)
        found = next((i for i in range(top, len(held)) if held[i][j]), None)
        if found is None:
            continue
        held[top], held[found] = held[found], held[top]
        scale = pow(held[top][j], -1, p)
        held[top] = [v * scale % p for v in held[top]]
        for i, row in enumerate(held):
            if i != top and row[j]:
                held[i] = [(v - row[j] * w) % p for v, w in zip(row, held[top])]
        leads.append(j)
    return held[:len(leads)], leads


def kernel(rows: Rows, width: int, p: int) -> Rows:
    """The basis of all x with A x = 0 in which each vector ends with a 1 where the others are 0."""
    form, leads = rref(rows, width, p)
    basis = []
    for j in sorted(set(range(width)) - set(leads)):
        vector = [0] * width
        vector[j] = 1
        for row, lead in zip(form, leads):
            vector[lead] = -row[j] % p
        basis.append(vector)
    return basis


def transposed(rows: Rows, width: int) -> Rows:
    """The transpose."""
    return [[row[j] for row in rows] for j in range(width)]


def solve(rows: Rows, width: int, column: list[int], p: int) -> Optional[list[int]]:
    """The x with A x = b that is 0 at every column without a lead; None if there is none."""
    form, leads = rref([row + [b] for row, b in zip(rows, column)], width + 1, p)
    if width in leads:
        return None
    found = [0] * width
    for row, lead in zip(form, leads):
        found[lead] = row[width]
    return found


def witness(rows: Rows, width: int, column: list[int], p: int) -> list[int]:
    """The reduced y with y A = 0 and y b = 1."""
    return solve(transposed(rows, width) + [column], len(rows), [0] * width + [1], p)


def times(left: Rows, right: Rows, width: int, p: int) -> Rows:
    """The product of two matrices, the second of this width."""
    return [[sum(a * row[j] for a, row in zip(line, right)) % p for j in range(width)] for line in left]

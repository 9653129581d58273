"""Answers the cases of judge.py by Sage's dense matrices: sage -python peer_sage.py CASES ANSWERS."""

import json
import sys

from sage.all import GF, block_matrix, matrix, vector


def reduced_solution(A, b):
    """The x with A x = b that is 0 at every column without a lead; None if there is none."""
    try:
        A.solve_right(b)
    except ValueError:
        return None
    form = block_matrix(1, 2, [A, b.column()], subdivide=False).echelon_form()
    x = matrix(A.base_ring(), A.ncols(), 1)
    for row, lead in enumerate(form.pivots()):
        x[lead, 0] = form[row, A.ncols()]
    return x


def refutation(A, b):
    """The row y with y A = 0 and y b = 1, as the reduced solution of the transposed equations."""
    equations = block_matrix(1, 2, [A, b.column()], subdivide=False).transpose()
    return reduced_solution(equations, vector(A.base_ring(), [0] * A.ncols() + [1])).transpose()


def kernel(A):
    """The basis of all x with A x = 0 in which each row ends with a 1 where the others are 0."""
    return A.right_kernel_matrix(basis="pivot")


def answers(A, b):
    """The answers to one case: command, word and matrix."""
    form = A.echelon_form()
    yield "rank", "rank", matrix([[A.rank()]])
    yield "rref", "matrix", form[:A.rank()]
    yield "kernel", "matrix", kernel(A)
    yield "leftkernel", "matrix", kernel(A.transpose())
    x = reduced_solution(A, b)
    yield ("solve", "solution", x) if x is not None else ("solve", "none", refutation(A, b))
    square = A[:min(A.dimensions()), :min(A.dimensions())]
    yield ("inverse", "inverse", square.inverse()) if square.is_invertible() else ("inverse", "singular", kernel(square)[:1])


def main(cases, target):
    """Writes a line for each answer: the case, the command, a word, the sizes and the values by rows."""
    with open(cases) as stream, open(target, "w") as output:
        for number, (p, rows, column) in enumerate(json.load(stream), 1):
            for command, word, answer in answers(matrix(GF(p), rows), vector(GF(p), column)):
                values = [int(v) for row in answer.rows() for v in row]
                print(number, command, word, answer.nrows(), answer.ncols(), *values, file=output)


main(*sys.argv[1:])

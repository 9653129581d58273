"""Exact sparse elimination modulo a prime: the programs `spasm` and `spasm_batch` as Python functions.

    >>> from spasm import Matrix, rank, kernel
    >>> a = Matrix(3, 3, [(0, 0, 2), (0, 1, 4), (0, 2, 1), (1, 0, 1), (1, 1, 2), (2, 0, 3), (2, 1, 6), (2, 2, 1)])
    >>> rank(a, modulus=7)
    2
    >>> kernel(a, modulus=7).to_rows()
    [[5, 1, 0]]

Rows and columns are counted from 0 here; the texts of the program count from 1.
"""

from .certificate import Certificate
from .commands import (certify, check, grow, inverse, kernel, left_kernel, pivots, rank, rref, solve, solve_many)
from .complexes import Homology, betti
from .faults import (NoSolution, NotPrime, OutOfMemory, ProgramFault, ReadFault, ShapeError, Singular, SpasmError,
                     TextError, UsageError, WriteFault)
from .matrix import Matrix
from .primes import is_prime

__all__ = ["Certificate", "Homology", "Matrix", "NoSolution", "NotPrime", "OutOfMemory", "ProgramFault", "ReadFault",
           "ShapeError", "Singular", "SpasmError", "TextError", "UsageError", "WriteFault", "betti", "certify", "check", "grow",
           "inverse", "is_prime", "kernel", "left_kernel", "pivots", "rank", "rref", "solve", "solve_many"]

"""Betti numbers of a complex from its boundary maps, modulo several primes, by runs side by side."""

from __future__ import annotations

import os
from concurrent.futures import ThreadPoolExecutor
from typing import Any, NamedTuple, Optional, Sequence

from .commands import DEFAULT_MODULUS, DEFAULT_ROUNDS, DEFAULT_WORKERS, _rank
from .faults import ShapeError, UsageError
from .matrix import Matrix
from .primes import checked_modulus
from .process import Group

DEFAULT_PRIMES = (2, 3, 5, DEFAULT_MODULUS)


class Homology(NamedTuple):
    """What several primes tell of a complex.

    primes: the primes. sizes: the number of faces in each dimension.
    ranks: for each prime the ranks of the maps out of these dimensions, and a last 0.
    """

    primes: tuple[int, ...]
    sizes: tuple[int, ...]
    ranks: dict[int, tuple[int, ...]]

    def numbers(self, prime: int, reduced: bool = False) -> list[int]:
        """The Betti numbers modulo one of the primes, a number for each dimension.

        reduced: one less in the lowest dimension, as the empty face makes it, if there is a face at all.
        """
        ranks = self.ranks[prime]
        numbers = [size - out - into for size, out, into in zip(self.sizes, ranks, ranks[1:])]
        if reduced and self.sizes and self.sizes[0]:
            numbers[0] -= 1
        return numbers

    def torsion(self, prime: int) -> list[int]:
        """How many summands of the integral homology in each dimension are seen to have an order that the prime divides.

        The rank over the rationals is at least the largest rank that was found, so there are at least as many
        summands as are told. There are no more if one of the primes divides no order at all.
        """
        largest = [max(ranks) for ranks in zip(*self.ranks.values())]
        return [most - rank for most, rank in zip(largest[1:], self.ranks[prime][1:])]


def betti(maps: Sequence[Any], primes: Sequence[int] = DEFAULT_PRIMES, *, jobs: Optional[int] = None,
          workers: int = DEFAULT_WORKERS, rounds: int = DEFAULT_ROUNDS) -> Homology:
    """The Betti numbers of a complex modulo these primes, by the ranks of its boundary maps.

    maps: boundary maps from the lowest dimension to the highest, each as a Matrix, a path or a scipy sparse matrix, with
    a row for each face and a column for each face of one dimension less. The columns of the first map are the lowest
    dimension, if it has any. That one map after another gives 0 is the caller's word.
    jobs: how many runs go side by side, as many as there are processors if it is None.

    Raises ShapeError if the shapes of two maps don't fit or a Betti number would be negative, and what `rank` raises.
    """
    held = [Matrix.of(each) for each in maps]
    checked = tuple(checked_modulus(prime) for prime in dict.fromkeys(primes))
    if not checked:
        raise UsageError("no prime was given")
    sizes = _sizes(held)
    tasks = [(each, prime) for prime in checked for each in held]
    found = iter(_ranks_side_by_side(tasks, jobs or os.cpu_count() or 1, workers, rounds))
    lowest = (0,) if len(sizes) > len(held) else ()
    told = Homology(checked, sizes, {prime: lowest + tuple(next(found) for _ in held) + (0,) for prime in checked})
    for prime in checked:
        if min(told.numbers(prime), default=0) < 0:
            raise ShapeError(f"modulo {prime} a Betti number would be negative: one map after another doesn't give 0")
    return told


def _sizes(maps: Sequence[Matrix]) -> tuple[int, ...]:
    """The number of faces in each dimension. Raises ShapeError if two maps don't fit."""
    for number, (lower, upper) in enumerate(zip(maps, maps[1:]), 1):
        if upper.shape[1] != lower.shape[0]:
            raise ShapeError(f"map {number} (counted from 0) has {upper.shape[1]} columns, and the map before it "
                             f"{lower.shape[0]} rows", *upper.shape)
    rows = tuple(each.shape[0] for each in maps)
    return ((maps[0].shape[1],) if maps and maps[0].shape[1] else ()) + rows


def _ranks_side_by_side(tasks: Sequence[tuple[Matrix, int]], jobs: int, workers: int, rounds: int) -> list[int]:
    """The ranks of these matrices modulo these primes. If one run fails or is interrupted, all end."""
    group = Group()
    with ThreadPoolExecutor(max_workers=jobs) as pool:
        try:
            futures = [pool.submit(_rank, matrix, prime, workers, rounds, group) for matrix, prime in tasks]
            return [future.result() for future in futures]
        except BaseException:
            group.end()
            raise


def table(told: Homology, reduced: bool = False) -> str:
    """Lines of text: the Betti numbers modulo each prime, and the torsion that was seen."""
    lines = ["faces: " + " ".join(map(str, told.sizes))]
    kind = "reduced" if reduced else "unreduced"
    for prime in told.primes:
        lines.append(f"{kind} Betti numbers modulo {prime}: " + " ".join(map(str, told.numbers(prime, reduced))))
    for prime in told.primes:
        for dimension, count in enumerate(told.torsion(prime)):
            if count:
                summands = "summand has" if count == 1 else "summands have"
                lines.append(f"torsion in dimension {dimension}: at least {count} {summands} an order divisible by {prime}")
    return "\n".join(lines) + "\n"

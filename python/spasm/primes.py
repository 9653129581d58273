"""Whether a modulus is one that the program takes, and whether it is prime."""

from __future__ import annotations

from .faults import NotPrime, UsageError

MODULUS_BOUND = 2**48

# By these bases the test of Miller and Rabin errs for no number below 341550071728321, which is above 2^48
# (Jaeschke, "On strong pseudoprimes to several bases", 1993).
BASES = (2, 3, 5, 7, 11, 13, 17)


def is_prime(number: int) -> bool:
    """Whether a number below 2^48 is prime: exact, by the test of Miller and Rabin with fixed bases."""
    if number >= MODULUS_BOUND:
        raise ValueError(f"{number} isn't below 2^48")
    if number < 2:
        return False
    if any(number % base == 0 for base in BASES):
        return number in BASES
    odd, twos = number - 1, 0
    while odd % 2 == 0:
        odd, twos = odd // 2, twos + 1
    return all(_passes(number, base, odd, twos) for base in BASES)


def _passes(number: int, base: int, odd: int, twos: int) -> bool:
    """Whether an odd number, with number - 1 = odd * 2^twos, is a strong probable prime to this base."""
    power = pow(base, odd, number)
    if power in (1, number - 1):
        return True
    for _ in range(twos - 1):
        power = power * power % number
        if power == number - 1:
            return True
    return False


def checked_modulus(modulus: int, prime: bool = True) -> int:
    """The modulus, if it is from 2 to 2^48 - 1 and, if it has to be, prime.

    Raises UsageError if it is out of range, and NotPrime if it is composite.
    """
    if not 2 <= modulus < MODULUS_BOUND:
        raise UsageError(f"the modulus {modulus} isn't from 2 to {MODULUS_BOUND - 1}")
    if prime and not is_prime(modulus):
        raise NotPrime(modulus)
    return modulus

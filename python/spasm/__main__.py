"""python -m spasm COMMAND FILE..: ranks, forms, kernels and inverses of SMS files, and Betti numbers of a complex."""

from __future__ import annotations

import argparse
import os
import sys
from typing import Callable, Optional, Sequence

from . import commands, complexes
from .faults import Singular, SpasmError

MATRIX_COMMANDS = {"rref": commands.rref, "kernel": commands.kernel, "leftkernel": commands.left_kernel,
                   "inverse": commands.inverse}
SINGULAR = "singular: A x = 0 for this row x"


def parsed(words: Optional[Sequence[str]]) -> argparse.Namespace:
    """The words of the command line."""
    parser = argparse.ArgumentParser(prog="python -m spasm", description=__doc__.split(": ", 1)[1])
    commands_of = parser.add_subparsers(dest="command", required=True)
    for name in ("rank", *MATRIX_COMMANDS):
        command = commands_of.add_parser(name, help=f"{name} of the matrix in an SMS file")
        command.add_argument("file")
        command.add_argument("--modulus", type=int, default=commands.DEFAULT_MODULUS, help="a prime below 2^48 (%(default)s)")
        add_run_options(command)
    betti = commands_of.add_parser("betti", help="Betti numbers of a complex from the files of its boundary maps")
    betti.add_argument("files", nargs="+", metavar="file",
                       help="a map from each dimension to the one below it, lowest first: a row for each face")
    add_betti_options(betti)
    return parser.parse_args(words)


def add_run_options(parser: argparse.ArgumentParser) -> None:
    """Options of every run."""
    parser.add_argument("--workers", type=int, default=commands.DEFAULT_WORKERS, help="threads of a run (%(default)s)")
    parser.add_argument("--rounds", type=int, default=commands.DEFAULT_ROUNDS, help="structural rounds (%(default)s)")


def add_betti_options(parser: argparse.ArgumentParser) -> None:
    """Options of `betti`, which tools/betti has too."""
    parser.add_argument("--primes", type=int, nargs="+", default=complexes.DEFAULT_PRIMES, metavar="P",
                        help="the primes (%s)" % " ".join(map(str, complexes.DEFAULT_PRIMES)))
    parser.add_argument("--reduced", action="store_true", help="reduced Betti numbers (unreduced if absent)")
    parser.add_argument("--jobs", type=int, default=os.cpu_count(), help="runs side by side (%(default)s)")
    add_run_options(parser)


def answer_betti(files: Sequence[str], options: argparse.Namespace) -> int:
    """Writes the Betti numbers of the complex in these files."""
    told = complexes.betti(files, options.primes, jobs=options.jobs, workers=options.workers, rounds=options.rounds)
    sys.stdout.write(complexes.table(told, options.reduced))
    return 0


def answer(options: argparse.Namespace) -> int:
    """Writes the answer of a command."""
    if options.command == "betti":
        return answer_betti(options.files, options)
    words = {"modulus": options.modulus, "workers": options.workers, "rounds": options.rounds}
    if options.command == "rank":
        print(commands.rank(options.file, **words))
        return 0
    try:
        found = MATRIX_COMMANDS[options.command](options.file, **words)
    except Singular as told:  # an answer like any other, as it is for the program
        print(SINGULAR, flush=True)
        found = told.null_vector
    found.write(sys.stdout.buffer)
    return 0


def guarded(run: Callable[..., int], *words: object) -> int:
    """The status of a run: 1 and a line on the error stream if it fails, 130 if it is interrupted."""
    try:
        return run(*words)
    except (SpasmError, OSError) as fault:
        print(f"error: {fault}", file=sys.stderr)
        return 1
    except KeyboardInterrupt:
        return 130


if __name__ == "__main__":
    sys.exit(guarded(answer, parsed(None)))

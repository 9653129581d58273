"""Runs of the built programs, and what several tests take: two matrices, and the ways to work out an answer.

The programs are those of SPASM and SPASM_BATCH, else this repository's.
"""
from __future__ import annotations

import os
import pathlib
import subprocess
import tempfile
from typing import NamedTuple

ROOT = pathlib.Path(__file__).resolve().parents[2]
SPASM = os.environ.get("SPASM", str(ROOT / "spasm"))
SPASM_BATCH = os.environ.get("SPASM_BATCH", str(ROOT / "spasm_batch"))

# The third row is the sum of the first two.
X = "3 3 M\n1 1 2\n1 2 4\n1 3 1\n2 1 1\n2 2 2\n3 1 3\n3 2 6\n3 3 1\n0 0 0\n"

# A matrix that has an inverse modulo 7.
Y = "3 3 M\n1 1 1\n2 1 1\n2 2 1\n2 3 1\n3 1 1\n3 2 1\n3 3 2\n0 0 0\n"

# The ways to work out an answer, which change nothing of it: without rounds, by one, by as many as there are by default, and by the most,
# with one worker, two and the most.
WAYS = [[f"--rounds={rounds}", f"--workers={workers}"] for rounds in (0, 1, 3, 16) for workers in (1, 2, 64)]
WAYS.append(["--rounds", "0", "--workers", "2"])


class Ended(NamedTuple):
    """How a run ended: its status, what its output and its error stream hold."""
    status: int
    out: str
    told: str


def run(words: list[str], text: str, program: str = SPASM, full: str = "") -> tuple[Ended, int]:
    """A run with these words on this text, and how many bytes it read; `full` names the stream that takes nothing, if any."""
    with tempfile.TemporaryFile(buffering=0) as source, open("/dev/full" if full else os.devnull, "wb") as nothing:
        source.write(text.encode())
        source.seek(0)
        ran = subprocess.run([program, *words], stdin=source, stdout=nothing if full == "stdout" else subprocess.PIPE,
                             stderr=nothing if full == "stderr" else subprocess.PIPE, check=False)
        return Ended(ran.returncode, (ran.stdout or b"").decode(), (ran.stderr or b"").decode()), source.tell()


def ended(words: list[str], text: str, program: str = SPASM, full: str = "") -> Ended:
    """How such a run ended."""
    return run(words, text, program, full)[0]

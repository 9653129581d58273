#!/usr/bin/env python3
"""Refuses each growth of memory of a run in turn, for every command of spasm and for spasm_batch.

usage: bench/refuse.py [--most N]

By a library that is preloaded (bench/refuse.c, compiled with cc), the first, second, .. call of malloc or realloc of the program is refused.
The run must end with status 8, its line on the error stream and no output, or with the status and bytes that it has without the refusal.
On small inputs each growth is refused, on one of a few thousand entries N of them, evenly apart (300). It ends with status 1 at a difference.
"""

from __future__ import annotations

import argparse
import os
import random
import subprocess
import sys
import tempfile
from pathlib import Path

ROOT = Path(__file__).resolve().parent.parent
PROGRAM = os.environ.get("SPASM") or str(ROOT / "spasm")
BATCH = os.environ.get("SPASM_BATCH") or str(ROOT / "spasm_batch")
PRIME = ["--modulus", "7"]


def program_of(script: str) -> str:
    """The program itself: a script's own growths are none of the program's."""
    name = {"spasm": "spasm_main", "spasm_batch": "spasm_batch"}.get(Path(script).name, "")
    built = ROOT / "crates" / name / "out" / name
    return str(built) if Path(script).parent == ROOT and built.is_file() else script


def random_text(height: int, width: int, per: int) -> bytes:
    chance = random.Random(5)
    lines = [f"{i} {j} {chance.randint(1, 6)}" for i in range(1, height + 1) for j in sorted(chance.sample(range(1, width + 1), per))]
    return ("\n".join([f"{height} {width} M", *lines, "0 0 0"]) + "\n").encode()


def inputs(matrix: bytes, column: bytes) -> list[tuple[str, list[str], bytes]]:
    """Each command with its input, by one worker and some by several."""
    certified = {kind: subprocess.run([PROGRAM, "certify", "--kind", kind, *PRIME], input=matrix, capture_output=True).stdout for kind in ("rank", "rref", "kernel")}
    traced = subprocess.run([PROGRAM, "trace", *PRIME], input=matrix, capture_output=True).stdout
    script = b"row 1 2 2 4\nrank\nrref\nin 1 1\nend\n"
    cases = [(PROGRAM, [command, *PRIME], matrix) for command in ("rank", "rref", "kernel", "leftkernel", "inverse", "pivots", "trace")]
    cases += [(PROGRAM, [command, *PRIME, "--workers", "4"], matrix) for command in ("rank", "rref", "kernel", "inverse")]
    cases += [(PROGRAM, ["rank", *PRIME, "--rounds", "0", "--workers", "4"], matrix)]
    cases += [(PROGRAM, ["solve", *PRIME], matrix + column), (PROGRAM, ["grow", *PRIME], matrix + script), (PROGRAM, ["replay", *PRIME], matrix + traced)]
    cases += [(PROGRAM, ["certify", "--kind", kind, *PRIME], matrix) for kind in certified]
    cases += [(PROGRAM, ["check", *PRIME], matrix + text) for text in certified.values()]
    cases += [(PROGRAM, ["drill", "--seed", "1", "--rows", "9", "--cols", "9", "--per", "3", *PRIME], b"")]
    cases += [(BATCH, ["--count", "3", *PRIME, "--workers", workers], matrix + 3 * column) for workers in ("1", "3")]
    return cases


def run(library: Path, program: str, words: list[str], data: bytes, at: int, count: Path | None = None) -> tuple[int, bytes, bytes]:
    given = {**os.environ, "LD_PRELOAD": str(library), "REFUSE_AT": str(at), **({"REFUSE_COUNT": str(count)} if count else {})}
    ran = subprocess.run([program, *words], input=data, capture_output=True, env=given, timeout=300)
    return ran.returncode, ran.stdout, ran.stderr


def main() -> int:
    parser = argparse.ArgumentParser(description=__doc__, formatter_class=argparse.RawDescriptionHelpFormatter)
    parser.add_argument("--most", type=int, default=300)
    words = parser.parse_args()
    examples = ROOT / "examples"
    small = [((examples / "x.sms").read_bytes(), (examples / "solvable.sms").read_bytes()),
             ((examples / "x.sms").read_bytes(), (examples / "unsolvable.sms").read_bytes()),
             (random_text(6, 6, 3), random_text(6, 1, 1))]
    large = [(random_text(400, 400, 8), random_text(400, 1, 1))]
    refused = differences = ends = 0
    with tempfile.TemporaryDirectory() as made:
        library, count = Path(made) / "refuse.so", Path(made) / "count"
        subprocess.run(["cc", "-O2", "-shared", "-fPIC", "-o", str(library), str(ROOT / "bench" / "refuse.c"), "-ldl"], check=True)
        for matrix, column in [*small, *large]:
            for program, options, data in inputs(matrix, column):
                program = program_of(program)
                wanted = run(library, program, options, data, 0, count)
                growths = int.from_bytes(count.read_bytes(), "little")
                step = max(1, growths // words.most) if (matrix, column) in large else 1
                for at in range(1, growths + 1, step):
                    got = run(library, program, options, data, at)
                    refused += 1
                    ends += got[0] == 8
                    if got != wanted and got != (8, b"", b"error 8 memory\n"):
                        differences += 1
                        print(f"DIFFERENCE: {Path(program).name} {' '.join(options)}, growth {at} of {growths}: status {got[0]}, {got[1][:80]!r}, {got[2][:80]!r}")
    print(f"{refused} growths refused, {ends} runs ended out of memory, {differences} differences")
    return 1 if differences else 0


if __name__ == "__main__":
    sys.exit(main())

#!/usr/bin/env python3
"""Times spasm_rank of the C library beside the program's `rank` by one worker, less its reading.

usage: bench/c_library.py MATRIX.sms ..

The library is c/build/libspasm.so (c/build.sh), the program crates/spasm_main/out/spasm_main. What the program takes to read is shown by
`solve` on the same text, which ends with status 3 behind it, where the right-hand side is missing. Each line has the least of 25 runs.
"""

from __future__ import annotations

import ctypes
import subprocess
import sys
import time
from array import array
from pathlib import Path

ROOT = Path(__file__).resolve().parent.parent
PROGRAM = ROOT / "crates" / "spasm_main" / "out" / "spasm_main"
MODULUS, RUNS = 42013, 25


class Matrix(ctypes.Structure):
    """spasm_matrix"""
    _fields_ = [(name, kind) for array_name, item in (("rows", ctypes.c_uint32), ("columns", ctypes.c_uint32), ("values", ctypes.c_uint64))
                for name, kind in ((array_name, ctypes.POINTER(item)), (f"{array_name}_length", ctypes.c_size_t))]
    _fields_ += [("height", ctypes.c_uint32), ("width", ctypes.c_uint32), ("modulus", ctypes.c_uint64)]


def read(path: Path) -> tuple[Matrix, list[array]]:
    """The matrix of a text, and the arrays that it points to."""
    rows, columns, values = array("I"), array("I"), array("Q")
    with path.open() as lines:
        height, width = (int(word) for word in next(lines).split()[:2])
        for line in lines:
            i, j, v = line.split()
            if i == "0":
                break
            rows.append(int(i) - 1)
            columns.append(int(j) - 1)
            values.append(int(v) % MODULUS)
    made = Matrix(height=height, width=width, modulus=MODULUS)
    for name, numbers, item in (("rows", rows, ctypes.c_uint32), ("columns", columns, ctypes.c_uint32), ("values", values, ctypes.c_uint64)):
        setattr(made, name, (item * len(numbers)).from_buffer(numbers))
        setattr(made, f"{name}_length", len(numbers))
    return made, [rows, columns, values]


def least(run) -> float:
    """The least seconds of the runs."""
    seconds = []
    for _ in range(RUNS):
        begun = time.perf_counter()
        run()
        seconds.append(time.perf_counter() - begun)
    return min(seconds)


def program(path: Path, command: str, status: int) -> str:
    """What the program writes for a text."""
    with path.open() as text:
        ran = subprocess.run([PROGRAM, command, "--workers", "1"], stdin=text, capture_output=True, text=True)
    assert ran.returncode == status, (path, command, ran.returncode, ran.stderr)
    return ran.stdout


def main() -> None:
    library = ctypes.CDLL(str(ROOT / "c" / "build" / "libspasm.so"))
    library.spasm_rank.restype = ctypes.c_uint32
    for path in map(Path, sys.argv[1:]):
        matrix, _kept = read(path)
        rank = ctypes.c_uint32()

        def called() -> None:
            assert library.spasm_rank(ctypes.byref(matrix), ctypes.byref(rank)) == 0

        call = least(called)
        whole = least(lambda: program(path, "rank", 0))
        reading = least(lambda: program(path, "solve", 3))
        assert program(path, "rank", 0) == f"rank {rank.value}\n"
        print(f"{path.name}: rank {rank.value}, spasm_rank {call:.3f} s, the program {whole:.3f} s of which reading {reading:.3f} s", flush=True)


if __name__ == "__main__":
    main()

#!/usr/bin/env python3
"""Tells how long the proof of a crate took and which ten of its functions took longest.

usage: bench/proof_times.py FOLDER..

FOLDER is NAME.kept, in which `./build --check NAME` kept the proof of a crate that it proved from nothing (in ~/.cache/spasm, or where
--work says), or the folder of a crate that `rt check --jobs 1` proved, with nothing else running. The checker writes a file for each part
of a proof as it ends with it; the seconds between one file and the next are those of the latter.
"""

from __future__ import annotations

import re
import sys
from collections import Counter
from pathlib import Path

# A pause, such as that between two runs, counts as no proof.
PAUSE = 120.0


def part_of(file: Path) -> str:
    """The function, definition or lemma file that a file of the checker is about."""
    name = re.sub(r"^Rattle-\w+-", "", file.name.removesuffix(".oantt"))
    words = [word for word in name.split(".") if word not in ("decls", "Lts", "Entry", "Proof", "Answers", "Invariants", "Mir", "TheLinks")]
    return ".".join(words[1:] if words[0] == "proofs" and len(words) > 1 else words)


def times_of(crate: Path) -> Counter[str]:
    own = crate / "out" / "incremental"
    ended = sorted((file.stat().st_mtime, part_of(file)) for file in (own if own.is_dir() else crate).rglob("*.oantt"))
    times: Counter[str] = Counter()
    for (before, _), (after, part) in zip(ended, ended[1:]):
        if after - before < PAUSE:
            times[part] += after - before
    return times


def main() -> int:
    if len(sys.argv) < 2 or "--help" in sys.argv:
        print(__doc__.strip())
        return 0 if "--help" in sys.argv else 2
    for folder in map(Path, sys.argv[1:]):
        times = times_of(folder)
        print(f"{folder.name}: {sum(times.values()):.0f} s")
        for part, seconds in times.most_common(10):
            print(f"  {seconds:6.1f} {part}")
    return 0


if __name__ == "__main__":
    sys.exit(main())

#!/usr/bin/env python3
"""Runs spasm on texts that were made from valid ones by a seed, and compares status, output and fault line with bench/reference.py.

usage: bench/hostile.py [--cases N] [--seed S] [--megabytes M]

Texts have bytes changed, cut, doubled and exchanged; lines exchanged and repeated; numbers of a million digits, lines of 100 MB, a million
void lines, NUL bytes and other encodings. Certificates, traces and scripts are valid ones changed in one place. Each run has M megabytes of
memory (1000) and 60 seconds; a run that ends out of memory (status 8) is told and not compared. How far it has come is told to standard
error, after the large texts and every 500 runs. It ends with status 1 at a difference.
"""

from __future__ import annotations

import argparse
import os
import random
import resource
import subprocess
import sys
from pathlib import Path

sys.path.insert(0, str(Path(__file__).parent))
import reference  # noqa: E402

ROOT = Path(__file__).resolve().parent.parent
PROGRAM = os.environ.get("SPASM") or str(ROOT / "spasm")
PRIMES = [2, 3, 7, 42013, 2147483647, 281474976710597]
PLAIN = ["rank", "rref", "kernel", "leftkernel", "inverse"]
NUMBERS = [b"0", b"1", b"-1", b"7", b"+3", b"00012", b"2147483647", b"2147483648", b"99999999999999999999", b"1/2", b"3/7", b"1/0", b"/2", b"1/",
           b"x", b"-", b"1.5", b"0x1", b"1e3", "١".encode(), b"\xef\xbb\xbf1", b"\x00", b"1" * 1000]


def run(words: list[str], data: bytes, megabytes: int) -> tuple[int, str, str]:
    def limit() -> None:
        resource.setrlimit(resource.RLIMIT_AS, (megabytes * 1_000_000, megabytes * 1_000_000))

    ran = subprocess.run([PROGRAM, *words], input=data, capture_output=True, preexec_fn=limit, timeout=60)
    return ran.returncode, ran.stdout.decode(errors="replace"), ran.stderr.decode(errors="replace")


def matrix_text(chance: random.Random, height: int, width: int, square: bool = False) -> bytes:
    height = width if square else height
    count = chance.randint(0, 2 * max(height, width)) if height and width else 0
    lines = [f"{height} {width} M"]
    for _ in range(count):
        lines.append(f"{chance.randint(1, height)} {chance.randint(1, width)} {chance.choice([1, -1, 2, 5, 42012, '1/2', '-3/5', 10**20])}")
    if chance.random() < 0.2:
        lines.insert(chance.randint(0, len(lines)), chance.choice(["% note", "", "# note", "\t "]))
    return ("\n".join([*lines, "0 0 0"]) + "\n").encode()


def script_text(chance: random.Random, width: int) -> bytes:
    lines = []
    for _ in range(chance.randint(0, 6)):
        word = chance.choice(["row", "in", "rank", "rref"])
        pairs = [f"{chance.randint(1, max(width, 1))} {chance.choice([1, -2, 3, '1/2'])}" for _ in range(chance.randint(0, 3 if width else 0))]
        lines.append(" ".join([word, *pairs]) if word in ("row", "in") else word)
    return ("\n".join([*lines, "end"]) + "\n").encode()


def valid_input(chance: random.Random, command: str, p: int, megabytes: int) -> tuple[bytes, bytes]:
    """A valid matrix text, and what follows it."""
    height, width = chance.randint(0, 7), chance.randint(0, 7)
    text = matrix_text(chance, height, width, command == "inverse" and chance.random() < 0.9)
    matrix = reference.Lines(text)
    reference.read_header(matrix)
    words = ["--modulus", str(p)]
    if command == "solve":
        return text, matrix_text(chance, height, 1)
    if command == "check":
        return text, run(["certify", "--kind", chance.choice(["rank", "rref", "kernel"]), *words], text, megabytes)[1].encode()
    if command == "replay":
        return text, run(["trace", *words], text, megabytes)[1].encode()
    return text, script_text(chance, width) if command == "grow" else b""


def changed(chance: random.Random, text: bytes) -> bytes:
    """The text with one change."""
    lines = text.split(b"\n")
    at = chance.randrange(len(lines))
    place = chance.randrange(len(text)) if text else 0
    way = chance.randrange(12)
    if way == 0:
        return text[:place]
    if way == 1:
        return text[:place] + bytes([chance.randrange(256)]) + text[place + 1:]
    if way == 2:
        return text[:place] + text[place:place + chance.randint(1, 9)] * 2 + text[place:]
    if way == 3:
        return text[:place] + text[place + 1:]
    if way == 4:
        other = chance.randrange(len(lines))
        lines[at], lines[other] = lines[other], lines[at]
    elif way == 5:
        lines.insert(at, lines[chance.randrange(len(lines))])
    elif way == 6:
        lines.pop(at)
    elif way in (7, 8, 9):
        words = lines[at].split(b" ")
        words[chance.randrange(len(words))] = chance.choice(NUMBERS)
        lines[at] = b" ".join(words)
    elif way == 10:
        lines = [line + b"\r" for line in lines]
    else:
        lines.insert(at, chance.choice([b"% \x00\xff", b"\x00", b"\t\t", b"0 0 0", b"0 0 -0", b"\xef\xbb\xbf", text.decode(errors="replace").encode("utf-16")[:40]]))
    return b"\n".join(lines)


def is_small(data: bytes) -> bool:
    """Whether each header of the input is small enough for the reference's dense answers."""
    return not any(len(word) > 4 and word.isdigit() for line in data.split(b"\n") for word in line.split()[:2])


def large_inputs() -> list[tuple[str, bytes]]:
    """Inputs whose size is what is hostile."""
    return [
        ("a number of a million digits", b"1 1 M\n1 1 " + b"9" * 10**6 + b"\n0 0 0\n"),
        ("a divisor of a million digits", b"1 1 M\n1 1 1/" + b"3" * 10**6 + b"\n0 0 0\n"),
        ("a column of a million digits", b"1 1 M\n1 " + b"0" * 10**6 + b"1 5\n0 0 0\n"),
        ("a void line of 100 MB", b"1 1 M\n%" + b"x" * 10**8 + b"\n1 1 1\n0 0 0\n"),
        ("a line of 100 MB of spaces", b"1 1 M\n1" + b" " * 10**8 + b"1 1\n0 0 0\n"),
        ("a word of 100 MB", b"1 1 M\n1 1 " + b"x" * 10**8 + b"\n0 0 0\n"),
        ("a million void lines", b"1 1 M\n" + b"\n" * 10**6 + b"1 1 1\n0 0 0\n"),
        ("a million entries for one place", b"1 1 M\n" + b"1 1 1\n" * 10**6 + b"0 0 0\n"),
        ("a million NUL bytes", b"\x00" * 10**6),
        ("a million lines after the closing line", b"1 1 M\n1 1 1\n0 0 0\n" + b"x\n" * 10**6),
    ]


class Tally:
    def __init__(self) -> None:
        self.cases = self.out_of_memory = self.differences = 0

    def compare(self, words: list[str], data: bytes, wanted: reference.Answer, megabytes: int, name: str) -> None:
        self.cases += 1
        try:
            status, out, error = run(words, data, megabytes)
        except subprocess.TimeoutExpired:
            status, out, error = -1, "", "no end within 60 seconds"
        if status == 8 and out == "":
            self.out_of_memory += 1
        elif status != wanted.status or error != wanted.error or (wanted.out is not None and out != wanted.out):
            self.differences += 1
            print(f"DIFFERENCE in {name}: spasm {' '.join(words)}: status {status}, '{out[:200]}', '{error[:200]}'; wanted {wanted}")
            print(f"  input: {data[:400]!r}", flush=True)
        if self.cases % 500 == 0:
            self.tell()

    def told(self) -> str:
        return f"{self.cases} cases, {self.out_of_memory} of them out of memory, {self.differences} differences"

    def tell(self) -> None:
        """Tells to standard error how far it has come."""
        print(self.told(), file=sys.stderr, flush=True)


def main() -> int:
    parser = argparse.ArgumentParser(description=__doc__, formatter_class=argparse.RawDescriptionHelpFormatter)
    parser.add_argument("--cases", type=int, default=20000)
    parser.add_argument("--seed", type=int, default=1)
    parser.add_argument("--megabytes", type=int, default=1000)
    words = parser.parse_args()
    chance, tally = random.Random(words.seed), Tally()
    commands = [*PLAIN, "solve", "check", "replay", "grow", "pivots", "trace"]
    sys.set_int_max_str_digits(0)
    for name, data in large_inputs():
        for command in ("rank", "rref", "pivots"):
            tally.compare([command, "--modulus", "7"], data, reference.expected(command, data, 7), words.megabytes, name)
    tally.tell()
    for number in range(words.cases):
        command, p = commands[number % len(commands)], chance.choice(PRIMES)
        first, second = valid_input(chance, command, p, words.megabytes)
        if chance.random() < 0.9:
            if second and chance.random() < 0.6:
                second = changed(chance, second)
            else:
                first = changed(chance, first)
        data = first + second
        if is_small(data) or command in ("rank", "rref", "pivots", "solve", "check", "replay", "trace"):
            wanted = reference.expected(command, data, p) if is_small(data) else reference_of_sizes(command, data, p)
            if wanted:
                tally.compare([command, "--modulus", str(p)], data, wanted, words.megabytes, f"case {number}")
    print(f"seed {words.seed}: {tally.told()}")
    return 1 if tally.differences else 0


def reference_of_sizes(command: str, data: bytes, p: int) -> reference.Answer | None:
    """What is expected of an input with large sizes: only its faults, since the reference's answers are dense."""
    try:
        lines = reference.Lines(data)
        reference.read_matrix(lines, p)
        if command == "solve":
            reference.read_matrix(lines, p)
        elif command == "check":
            reference.read_certificate(lines, p)
        elif command == "replay":
            reference.read_trace(lines)
    except reference.Fault as fault:
        return reference.Answer(3, "", f"{fault}\n")
    return None


if __name__ == "__main__":
    sys.exit(main())

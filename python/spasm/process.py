"""Runs of the programs: which program, what it reads, and what its status means.

`answer` is the one place that calls a program. A library with the same calls could take its place there.
"""

from __future__ import annotations

import errno
import itertools
import os
import re
import shutil
import signal
import subprocess
import tempfile
import threading
from contextlib import contextmanager
from pathlib import Path
from typing import BinaryIO, Iterator, NamedTuple, Optional, Sequence

from .faults import (OutOfMemory, ProgramFault, ReadFault, ShapeError, SpasmError, TextError, UsageError,
                     WriteFault)
from .matrix import Matrix
from .texts import copy_text

TERMINATION_SECONDS = 5
SHOWN_CHARACTERS = 80


class Part(NamedTuple):
    """One of the texts that a program reads: what it is called, and the matrix or the lines that it has."""

    name: str
    matrix: Optional[Matrix] = None
    lines: Optional[bytes] = None

    @property
    def source(self) -> str:
        """Its path if it is a file, else its name."""
        return str(self.matrix.path) if self.matrix is not None and self.matrix.path is not None else self.name

    def write(self, target: BinaryIO, modulus: int) -> tuple[int, bool]:
        """Writes it, and gives the number of its lines, and whether it ends where another text can begin."""
        if self.matrix is None:
            target.write(self.lines)
            return self.lines.count(b"\n"), True
        if self.matrix.path is None:
            return self.matrix.write(target, modulus), True
        with open(self.matrix.path, "rb") as source:
            return copy_text(source, target)


class Group:
    """Runs that end together: after `end` none goes on and none begins."""

    def __init__(self) -> None:
        self._lock = threading.Lock()
        self._children: set[subprocess.Popen] = set()
        self._ended = False

    def run(self, words: Sequence[str], **streams: object) -> int:
        """Runs a program, and gives its status. Whatever interrupts the wait ends the program.

        Raises ProgramFault if the group has ended or the program can't be started.
        """
        child = None
        try:
            with _interrupts_held():
                child = self._start(words, **streams)
            return child.wait()
        except BaseException:
            if child is not None:
                _end(child)
            raise
        finally:
            with self._lock:
                self._children.discard(child)

    def _start(self, words: Sequence[str], **streams: object) -> subprocess.Popen:
        """Starts a program."""
        with self._lock:
            if self._ended:
                raise ProgramFault("the run was given up, since another failed or was interrupted")
            try:
                child = subprocess.Popen(words, **streams)
            except OSError as fault:
                raise ProgramFault(f"{words[0]} can't be run: {fault.strerror}") from fault
            self._children.add(child)
            return child

    def end(self) -> None:
        """Ends every run of the group."""
        with self._lock:
            self._ended = True
            children = list(self._children)
        for child in children:
            _end(child)


@contextmanager
def _interrupts_held() -> Iterator[None]:
    """Holds an interrupt of the main thread back to the end, so that no program is started and then forgotten."""
    before = signal.getsignal(signal.SIGINT)
    if threading.current_thread() is not threading.main_thread() or not callable(before):
        yield
        return
    held: list[int] = []
    signal.signal(signal.SIGINT, lambda number, _: held.append(number))
    try:
        yield
    finally:
        signal.signal(signal.SIGINT, before)
    if held:
        signal.raise_signal(signal.SIGINT)


def _end(child: subprocess.Popen) -> None:
    """Ends a program: first politely, then not."""
    child.terminate()
    try:
        child.wait(TERMINATION_SECONDS)
    except subprocess.TimeoutExpired:
        child.kill()
        child.wait()


def program(name: str) -> str:
    """The path of the program `spasm` or `spasm_batch`.

    It is what the environment variable SPASM or SPASM_BATCH names, else the script at the root of the repository in
    which this package stands, else the program of this name on the PATH. Raises ProgramFault if there is none.
    """
    named = os.environ.get(name.upper())
    if named:
        return named
    root = Path(__file__).resolve().parents[2]
    script = root / name
    if (root / "crates.txt").is_file() and script.is_file() and os.access(script, os.X_OK):
        return str(script)
    found = shutil.which(name)
    if found is None:
        raise ProgramFault(f"no program {name}: put it on the PATH, or its path into the variable {name.upper()}")
    return found


@contextmanager
def answer(name: str, words: Sequence[str], parts: Sequence[Part], modulus: int, group: Optional[Group] = None,
           output: Optional["os.PathLike[str]"] = None) -> Iterator[tuple[int, BinaryIO]]:
    """Runs a program on these texts, and gives its status, 0 or 1, and its answer as a stream of bytes.

    The texts and the answer go by files, so that neither side waits for the other. output: the file that gets the
    answer, else a temporary one. Raises what the status stands for.
    """
    group = group or Group()
    with _input(parts, modulus) as (stream, lines), _output(output) as answered, tempfile.TemporaryFile() as errors:
        status = group.run([program(name), *words], stdin=stream, stdout=answered, stderr=errors)
        if status not in (0, 1):
            errors.seek(0)
            raise _fault(status, errors.read().decode("utf-8", "replace").strip(), parts, lines, stream, words)
        answered.seek(0)
        yield status, answered


@contextmanager
def _output(path: Optional["os.PathLike[str]"]) -> Iterator[BinaryIO]:
    """The file that gets the answer."""
    with tempfile.TemporaryFile() if path is None else open(path, "w+b") as stream:
        yield stream


@contextmanager
def _input(parts: Sequence[Part], modulus: int) -> Iterator[tuple[BinaryIO, list[int]]]:
    """The file that the program reads, and how many lines each text but the last has in it."""
    if len(parts) == 1 and parts[0].matrix is not None and parts[0].matrix.path is not None:
        with open(parts[0].matrix.path, "rb") as stream:
            yield stream, []
        return
    with tempfile.TemporaryFile() as stream:
        lines: list[int] = []
        try:
            for part in parts:
                count, is_closed = part.write(stream, modulus)
                lines.append(count)
                if not is_closed:  # what follows would be read as its lines
                    break
            stream.flush()
        except OSError as fault:
            raise _copy_fault(fault)
        stream.seek(0)
        yield stream, lines[:-1]


def _copy_fault(fault: OSError) -> OSError:
    """The fault of a copy into the temporary file."""
    if fault.errno in (errno.ENOSPC, errno.EDQUOT, errno.EFBIG):
        return WriteFault(f"the temporary file in {tempfile.gettempdir()} can't be written: {fault.strerror}")
    return ReadFault(f"the input can't be read to its end: {fault.strerror}") if fault.errno == errno.EIO else fault


def _fault(status: int, told: str, parts: Sequence[Part], lines: Sequence[int], stream: BinaryIO,
           words: Sequence[str]) -> SpasmError:
    """The exception that a status and the fault line on the error stream stand for."""
    numbers = [int(number) for number in re.findall(r"\d+", told)[1:]] if told.startswith("error ") else []
    if status == 2:
        return UsageError(f"the program doesn't take the words {' '.join(words)}")
    if status == 3 and len(numbers) == 2:
        return _text_fault(numbers[0], numbers[1], parts, lines, stream)
    if status in (4, 9) and len(numbers) >= 2:
        return _shape_fault(status, numbers, words[0])
    if status == 6:
        return ReadFault("the input can't be read to its end: " + ", ".join(part.source for part in parts))
    if status == 7:
        return WriteFault("the answer can't be written, as on a full disk")
    if status == 8:
        return OutOfMemory("there is too little memory for this run")
    if status < 0:
        cause = ", as the system does if memory runs out" if status == -signal.SIGKILL else ""
        return ProgramFault(f"the program was ended by the signal {-status}{cause}")
    return ProgramFault(f"the program ended with the status {status}: {told or 'nothing was told'}")


def _text_fault(line: int, kind: int, parts: Sequence[Part], lines: Sequence[int], stream: BinaryIO) -> TextError:
    """The fault of a line, which is counted over all texts, in the text in which it stands."""
    stream.seek(0)
    content = next(itertools.islice(stream, line - 1, line), b"").decode("utf-8", "replace").rstrip("\r\n")
    which = 0
    while which < len(lines) and line > lines[which]:
        line -= lines[which]
        which += 1
    return TextError(parts[which].source, line, kind, content[:SHOWN_CHARACTERS])


def _shape_fault(status: int, numbers: Sequence[int], command: str) -> ShapeError:
    """The fault of a shape. The program counts right-hand sides from 1."""
    wanted = "square" if command == "inverse" else "a column of the height of A"
    shape = f"{numbers[0]} rows and {numbers[1]} columns"
    question = numbers[2] - 1 if len(numbers) > 2 else None
    if status == 9:
        return ShapeError(f"a matrix of {shape} is larger than the program takes here", *numbers[:2])
    which = "" if question is None else f", right-hand side {question} (counted from 0)"
    return ShapeError(f"a matrix of {shape} isn't {wanted}{which}", *numbers[:2], question=question)

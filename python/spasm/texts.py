"""Matrices as text (SMS): lines, words and values, as docs/FORMATS.md has them. Here indices are counted from 1."""

from __future__ import annotations

import re
from fractions import Fraction
from typing import BinaryIO, Iterable, Iterator, Optional, Tuple, Union

from .faults import TextError

Number = Union[int, Fraction]
LARGEST_SIZE = 2147483647
CLOSING = re.compile(rb"^[ \t]*0+[ \t]+0+[ \t]+[+-]?0+[ \t]*\r?\n?$")
VALUE = re.compile(rb"^([+-]?)([0-9]+)(?:/([0-9]+))?$")
PLAIN_ENTRY = re.compile(rb"^([0-9]{1,10}) ([0-9]{1,10}) (-?[0-9]{1,20})\n$")  # as answers have them: read at once
DIGITS_AT_ONCE = 4000  # below the number of digits from which int() refuses


def words(line: bytes) -> list[bytes]:
    """The words of a line; none if it is void, as a comment is."""
    content = line[:-1] if line.endswith(b"\n") else line
    content = content[:-1] if content.endswith(b"\r") else content
    found = [word for word in content.replace(b"\t", b" ").split(b" ") if word]
    return [] if found and found[0][:1] in (b"%", b"#") else found


def natural(word: bytes) -> Optional[int]:
    """The number that a word of digits spells, however many; None for another word."""
    if not (word.isdigit() and word.isascii()):
        return None
    value = 0
    for start in range(0, len(word), DIGITS_AT_ONCE):
        piece = word[start:start + DIGITS_AT_ONCE]
        value = value * 10 ** len(piece) + int(piece)
    return value


def value_of(word: bytes) -> Optional[Number]:
    """The value that a word `a` or `a/b` spells; None for another word, and if b is 0."""
    match = VALUE.match(word)
    if match is None or word.endswith(b"\n"):
        return None
    size = natural(match[2])
    value = -size if match[1] == b"-" else size
    if match[3] is None:
        return value
    divisor = natural(match[3])
    return Fraction(value, divisor) if divisor else None


class Reader:
    """Reads one text after another from a stream of bytes, and counts its lines."""

    def __init__(self, stream: BinaryIO, source: str) -> None:
        self.stream, self.source, self.line = stream, source, 0

    def next_words(self) -> list[bytes]:
        """The words of the next line that isn't void; none at the end of the input."""
        for line in self.stream:
            self.line += 1
            found = words(line)
            if found:
                return found
        self.line += 1
        return []

    def fault(self, kind: int, found: Iterable[bytes] = ()) -> TextError:
        """The fault of this kind at the line that was read last."""
        content = b" ".join(found).decode("utf-8", "replace")
        return TextError(self.source, self.line, kind, content[:80])

    def header(self) -> Tuple[int, int]:
        """Reads the header of a text: its rows and columns. Raises TextError."""
        found = self.next_words()
        if not found:
            raise self.fault(6)
        if len(found) != 3 or not (len(found[2]) == 1 and found[2].isalpha()):
            raise self.fault(1, found)
        rows, columns = natural(found[0]), natural(found[1])
        if rows is None or columns is None:
            raise self.fault(2, found)
        if max(rows, columns) > LARGEST_SIZE:
            raise self.fault(3, found)
        return rows, columns

    def entries(self, rows: int, columns: int) -> Iterator[Tuple[int, int, Number]]:
        """Reads the entries of a text and its closing line: (row, column, value) in the text's order. Raises TextError."""
        for line in self.stream:
            self.line += 1
            plain = PLAIN_ENTRY.match(line)
            if plain:
                row, column, value = map(int, plain.groups())
                if 1 <= row <= rows and 1 <= column <= columns:
                    yield row, column, value
                    continue
            found = words(line)
            if found:
                entry = self._entry(found, rows, columns)
                if entry is None:
                    return
                yield entry
        self.line += 1
        raise self.fault(7)

    def _entry(self, found: list[bytes], rows: int, columns: int) -> Optional[Tuple[int, int, Number]]:
        """The entry of a line of these words; None for a closing line. Raises TextError."""
        if len(found) != 3:
            raise self.fault(1, found)
        row, column, value = natural(found[0]), natural(found[1]), value_of(found[2])
        if row is None or column is None or not VALUE.match(found[2]):
            raise self.fault(2, found)
        if row == column == value == 0 and b"/" not in found[2]:
            return None
        if not 1 <= row <= rows:
            raise self.fault(4, found)
        if not 1 <= column <= columns:
            raise self.fault(5, found)
        if value is None:
            raise self.fault(10, found)
        return row, column, value


def copy_text(stream: BinaryIO, target: BinaryIO) -> Tuple[int, bool]:
    """Copies one text with its lines as they are, from its header to its closing line.

    Gives the number of lines, and whether there was a closing line: a text without one is copied to its end, and the
    program then tells what is wrong with it.
    """
    lines, in_entries = 0, False
    for line in stream:
        lines += 1
        target.write(line)
        if in_entries and CLOSING.match(line):
            if not line.endswith(b"\n"):
                target.write(b"\n")
            return lines, True
        in_entries = in_entries or bool(words(line))
    return lines, False

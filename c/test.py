#!/usr/bin/env python3
"""Calls libspasm through ctypes and judges what it answers: the worked examples, bad input, random matrices, many threads at once.

usage: c/test.py [FOLDER]

The library is FOLDER/libspasm.so, or that of c/build. Random matrices are judged by the program, if crates/spasm_main/out/spasm_main is
built, and by the plain elimination of python/tests. The header is compared with the exports of crates/spasm_c: no proof does that.
"""

from __future__ import annotations

import ctypes
import random
import re
import subprocess
import sys
import threading
import unittest
from pathlib import Path

ROOT = Path(__file__).resolve().parent.parent
FOLDER = Path(sys.argv.pop(1)) if len(sys.argv) > 1 and not sys.argv[1].startswith("-") else ROOT / "c" / "build"
PROGRAM = ROOT / "crates" / "spasm_main" / "out" / "spasm_main"
CRATE = ROOT / "crates" / "spasm_c" / "src"
sys.path.insert(0, str(ROOT / "python" / "tests"))
import plain  # noqa: E402

OK, REFUTED, SINGULAR, BAD_INPUT, NO_MEMORY, NO_ROOM = 0, 1, 1, 3, 8, 10
MATRIX_CALLS = ("spasm_rref", "spasm_kernel", "spasm_left_kernel", "spasm_inverse")


def array_fields(names: dict[str, type]) -> list[tuple[str, type]]:
    """The fields of a struct for arrays: of each the pointer and the length."""
    return [field for name, kind in names.items() for field in ((name, ctypes.POINTER(kind)), (f"{name}_length", ctypes.c_size_t))]


ARRAYS = {"rows": ctypes.c_uint32, "columns": ctypes.c_uint32, "values": ctypes.c_uint64}
SIZES = [("height", ctypes.c_uint32), ("width", ctypes.c_uint32), ("modulus", ctypes.c_uint64)]


class Matrix(ctypes.Structure):
    """spasm_matrix"""
    _fields_ = array_fields(ARRAYS) + SIZES


class Room(ctypes.Structure):
    """spasm_room"""
    _fields_ = array_fields(ARRAYS) + [("needed", ctypes.c_size_t), ("height", ctypes.c_uint32)]


class Places(ctypes.Structure):
    """spasm_places"""
    _fields_ = array_fields({"rows": ctypes.c_uint32, "columns": ctypes.c_uint32}) + [("needed", ctypes.c_size_t)]


LIBRARY = ctypes.CDLL(str(FOLDER / "libspasm.so"))
for name in ("version", "rank", "rref", "kernel", "left_kernel", "solve", "inverse", "pivots"):
    getattr(LIBRARY, f"spasm_{name}").restype = ctypes.c_uint32
LIBRARY.spasm_processor.restype = ctypes.c_char_p

Triples = list[tuple[int, int, int]]


def items(kind: type, numbers: list[int]) -> ctypes.Array:
    """An array that no pointer to is null, even if it is empty."""
    return (kind * max(1, len(numbers)))(*numbers)


def matrix(triples: Triples, height: int, width: int, p: int, **lengths: int) -> Matrix:
    """A matrix as C passes it. A length that is named stands in place of the right one."""
    made = Matrix(height=height, width=width, modulus=p)
    for place, (array, kind) in enumerate(ARRAYS.items()):
        setattr(made, array, items(kind, [triple[place] for triple in triples]))
        setattr(made, f"{array}_length", lengths.get(array, len(triples)))
    return made


def room_for(kind: type, places: int) -> ctypes.Structure:
    """Room for as many entries, with numbers that no answer has."""
    room = kind(needed=77)
    for array, number in ARRAYS.items():
        if hasattr(room, array):
            setattr(room, array, items(number, [99] * places))
            setattr(room, f"{array}_length", places)
    return room


def written(room: Room, places: int) -> Triples:
    """The entries at the first places."""
    return [(room.rows[k], room.columns[k], room.values[k]) for k in range(places)]


def call(name: str, *given: Matrix) -> tuple[int, int, Triples]:
    """The status, the height and the entries that a call answers: first without room, and then with just enough."""
    export = getattr(LIBRARY, name)
    arguments = [ctypes.byref(it) for it in given]
    room = room_for(Room, 0)
    status = export(*arguments, ctypes.byref(room))
    if status == NO_ROOM:
        needed, height = room.needed, room.height
        room = room_for(Room, needed)
        status = export(*arguments, ctypes.byref(room))
        assert (room.needed, room.height) == (needed, height)
    return status, room.height, written(room, room.needed if status < BAD_INPUT else 0)


def rank(given: Matrix) -> tuple[int, int]:
    """The status and the rank; 77 if none was written."""
    told = ctypes.c_uint32(77)
    status = LIBRARY.spasm_rank(ctypes.byref(given), ctypes.byref(told))
    return status, told.value


def pivots(given: Matrix) -> tuple[int, list[tuple[int, int]]]:
    """The status and the pivots."""
    room = room_for(Places, min(given.height, given.width))
    status = LIBRARY.spasm_pivots(ctypes.byref(given), ctypes.byref(room))
    return status, [(room.rows[k], room.columns[k]) for k in range(room.needed if status == OK else 0)]


def dense(triples: Triples, height: int, width: int, p: int) -> plain.Rows:
    """The rows of a matrix."""
    rows = [[0] * width for _ in range(height)]
    for i, j, v in triples:
        rows[i][j] = (rows[i][j] + v) % p
    return rows


def sparse(rows: plain.Rows) -> Triples:
    """The entries other than 0, row by row and by ascending columns."""
    return [(i, j, v) for i, row in enumerate(rows) for j, v in enumerate(row) if v]


def column(numbers: list[int], p: int) -> Matrix:
    """A right side."""
    return matrix([(i, 0, v) for i, v in enumerate(numbers) if v], len(numbers), 1, p)


def random_matrix(source: random.Random, p: int) -> tuple[Triples, int, int]:
    """Entries in any order, some of them at one place."""
    height, width = source.randrange(0, 9), source.randrange(0, 9)
    count = source.randrange(0, height * width + 1) if height and width else 0
    return [(source.randrange(height), source.randrange(width), source.randrange(p)) for _ in range(count)], height, width


def text(triples: Triples, height: int, width: int) -> str:
    """A matrix as the program reads it."""
    return "".join([f"{height} {width} M\n", *(f"{i + 1} {j + 1} {v}\n" for i, j, v in triples), "0 0 0\n"])


def answer_of_program(command: str, given: str, p: int) -> list[list[str]]:
    """The lines that the program writes, as words."""
    ran = subprocess.run([PROGRAM, command, "--modulus", str(p)], input=given, capture_output=True, text=True, check=True)
    return [line.split() for line in ran.stdout.splitlines()]


def read(lines: list[list[str]]) -> tuple[int, Triples]:
    """The height and entries of a matrix that the program wrote."""
    return int(lines[0][0]), [(int(i) - 1, int(j) - 1, int(v)) for i, j, v in lines[1:-1]]


class HeaderTest(unittest.TestCase):
    """The header has what the crate has."""

    def setUp(self) -> None:
        self.header = re.sub(r"/\*.*?\*/", "", (ROOT / "c" / "spasm.h").read_text(), flags=re.DOTALL)
        self.sources = {file.stem: file.read_text() for file in CRATE.glob("*.rt")}

    def test_functions(self) -> None:
        declared = re.findall(r"^uint32_t (spasm_\w+)\((.*?)\);", self.header, re.MULTILINE | re.DOTALL)
        exported = re.findall(r'^pub extern "C" fn (spasm_\w+)\((.*?)\)\s*->', self.sources["lib"], re.MULTILINE | re.DOTALL)

        def count(parameters: str) -> int:
            given = [it.strip() for it in parameters.split(",")]
            return sum(2 if "&[" in it or "&mut [" in it else 1 for it in given if it and it != "void" and it != "alloc: Global")

        self.assertEqual({name: count(words) for name, words in declared}, {name: count(words) for name, words in exported})
        self.assertEqual(len(exported), 8)

    def test_structs(self) -> None:
        for struct, module, kind in (("matrix", "given", Matrix), ("room", "room", Room), ("places", "places", Places)):
            body = re.search(rf"typedef struct spasm_{struct} {{(.*?)}}", self.header, re.DOTALL).group(1)
            declared = re.findall(r"(\w+) (\*?)(\w+);", body)
            source = re.search(r"#\[repr\(C\)\]\npub struct \w+<'a> {(.*?)\n}", self.sources[module], re.DOTALL).group(1)
            fields = re.findall(r"pub (\w+): (.*),", source)
            wanted = []
            for name, type_name in fields:
                slice_of = re.search(r"\[(\w+)\]", type_name)
                wanted += [(f"{slice_of.group(1)}_t", "*", name), ("size_t", "", f"{name}_length")] if slice_of else [
                    ("size_t" if type_name == "usize" else f"{type_name}_t", "", name)]
            self.assertEqual([tuple(it.replace("uint", "u") for it in field) for field in declared], wanted)
            self.assertEqual([name for name, _ in kind._fields_], [name for _, _, name in wanted])

    def test_statuses(self) -> None:
        declared = {name: int(number) for name, number in re.findall(r"(SPASM_\w+) = (\d+)", self.header)}
        constants = {name: int(number) for name, number in re.findall(r"pub const (SPASM_\w+): u32 = (\d+);", self.sources["status"])}
        self.assertEqual(declared, constants)
        self.assertEqual(list(declared.values()), [OK, REFUTED, SINGULAR, BAD_INPUT, NO_MEMORY, NO_ROOM])

    def test_only_exports_are_seen(self) -> None:
        said = subprocess.run(["nm", "-D", "--defined-only", FOLDER / "libspasm.so"], capture_output=True, text=True, check=True).stdout
        self.assertEqual(sorted(line.split()[2] for line in said.splitlines()),
                         sorted(["spasm_processor", *re.findall(r'pub extern "C" fn (spasm_\w+)', self.sources["lib"])]))


class WorkedExampleTest(unittest.TestCase):
    """The matrices of examples/ modulo 7."""

    x = [(0, 0, 2), (0, 1, 4), (0, 2, 1), (1, 0, 1), (1, 1, 2), (2, 0, 3), (2, 1, 6), (2, 2, 1)]

    def test_x(self) -> None:
        x = matrix(self.x, 3, 3, 7)
        self.assertEqual(rank(x), (OK, 2))
        self.assertEqual(call("spasm_rref", x), (OK, 2, [(0, 0, 1), (0, 1, 2), (1, 2, 1)]))
        self.assertEqual(call("spasm_kernel", x), (OK, 1, [(0, 0, 5), (0, 1, 1)]))
        self.assertEqual(call("spasm_left_kernel", x), (OK, 1, [(0, 0, 6), (0, 1, 6), (0, 2, 1)]))
        self.assertEqual(call("spasm_inverse", x), (SINGULAR, 1, [(0, 0, 5), (0, 1, 1)]))
        status, found = pivots(x)
        self.assertEqual(status, OK)
        self.assertIn((1, 0), found)

    def test_systems(self) -> None:
        x = matrix(self.x, 3, 3, 7)
        self.assertEqual(call("spasm_solve", x, column([1, 0, 1], 7)), (OK, 3, [(2, 0, 1)]))
        self.assertEqual(call("spasm_solve", x, column([0, 0, 1], 7)), (REFUTED, 1, [(0, 0, 6), (0, 1, 6), (0, 2, 1)]))

    def test_identity(self) -> None:
        diagonal = [(k, k, 1) for k in range(4)]
        self.assertEqual(call("spasm_inverse", matrix(diagonal, 4, 4, 7)), (OK, 4, diagonal))
        self.assertEqual(call("spasm_kernel", matrix(diagonal, 4, 4, 7)), (OK, 0, []))

    def test_added_up(self) -> None:
        # examples/fractions.sms: a place is given twice.
        fractions = matrix([(1, 1, 6), (1, 0, 3), (0, 1, 3), (1, 0, 5), (0, 0, 4)], 2, 2, 7)
        self.assertEqual(call("spasm_rref", fractions), (OK, 1, [(0, 0, 1), (0, 1, 6)]))

    def test_version(self) -> None:
        self.assertGreaterEqual(LIBRARY.spasm_version(), 10000)
        self.assertIn(LIBRARY.spasm_processor(), (b"x86-64-v2", b"x86-64-v3"))


class BadInputTest(unittest.TestCase):
    """What is refused, with nothing written."""

    one = [(0, 0, 1)]
    # a modulus of 1 and of 2^48, a row, a column and a value out of range, sizes above 2^31
    bad = [(one, 2, 2, 1), (one, 2, 2, 1 << 48), ([(2, 0, 1)], 2, 2, 7), ([(0, 2, 1)], 2, 2, 7), ([(0, 0, 7)], 2, 2, 7),
           ([], 2**31 + 1, 2, 7), ([], 2, 2**31 + 1, 7)]

    def test_matrices(self) -> None:
        given = [matrix(*it) for it in self.bad] + [matrix(self.one, 2, 2, 7, **{array: 0}) for array in ARRAYS]
        for it in given:
            self.assertEqual(rank(it), (BAD_INPUT, 77))
            for name in MATRIX_CALLS:
                self.refuses(name, it)
            self.refuses("spasm_solve", it, column([1, 0], 7))
            self.refuses("spasm_solve", matrix(self.one, 2, 2, 7), it)
            self.assertEqual(LIBRARY.spasm_pivots(ctypes.byref(it), ctypes.byref(room_for(Places, 3))), BAD_INPUT)

    def test_shapes(self) -> None:
        self.refuses("spasm_inverse", matrix(self.one, 2, 3, 7))
        self.refuses("spasm_inverse", matrix([], 2**30 + 1, 2**30 + 1, 7))
        self.refuses("spasm_solve", matrix(self.one, 2, 2, 7), column([1, 0, 0], 7))
        self.refuses("spasm_solve", matrix(self.one, 2, 2, 7), column([1, 0], 11))
        self.refuses("spasm_solve", matrix(self.one, 2, 2, 7), matrix(self.one, 2, 2, 7))

    def test_no_room(self) -> None:
        x = matrix(WorkedExampleTest.x, 3, 3, 7)
        room = room_for(Room, 2)
        self.assertEqual(LIBRARY.spasm_rref(ctypes.byref(x), ctypes.byref(room)), NO_ROOM)
        self.assertEqual((room.needed, room.height, written(room, 2)), (3, 2, [(99, 99, 99)] * 2))
        # each array has to be long enough
        room = room_for(Room, 3)
        room.columns_length = 2
        self.assertEqual(LIBRARY.spasm_rref(ctypes.byref(x), ctypes.byref(room)), NO_ROOM)
        self.assertEqual(written(room, 2), [(99, 99, 99)] * 2)

    def refuses(self, name: str, *given: Matrix) -> None:
        room = room_for(Room, 3)
        self.assertEqual(getattr(LIBRARY, name)(*(ctypes.byref(it) for it in given), ctypes.byref(room)), BAD_INPUT)
        self.assertEqual((room.needed, room.height, written(room, 3)), (77, 0, [(99, 99, 99)] * 3))


class RandomTest(unittest.TestCase):
    """Random matrices, beside plain elimination and the program."""

    moduli = (2, 3, 7, 65521, 2**32 - 5, 2**48 - 59)

    def test_plain_elimination(self) -> None:
        source = random.Random(48)
        for turn in range(300):
            self.judge(source, self.moduli[turn % len(self.moduli)])

    def judge(self, source: random.Random, p: int) -> None:
        triples, height, width = random_matrix(source, p)
        rows = dense(triples, height, width, p)
        # entries in order are taken in another way
        given = matrix(source.choice([triples, sparse(rows)]), height, width, p)
        form, leads = plain.rref(rows, width, p)
        left = plain.kernel(plain.transposed(rows, width), height, p)
        self.assertEqual(rank(given), (OK, len(leads)))
        self.assertEqual(call("spasm_rref", given), (OK, len(form), sparse(form)))
        self.assertEqual(call("spasm_kernel", given), (OK, width - len(leads), sparse(plain.kernel(rows, width, p))))
        self.assertEqual(call("spasm_left_kernel", given), (OK, height - len(leads), sparse(left)))
        self.judge_system(source, given, rows, width, p)
        if height == width:
            self.judge_inverse(given, rows, width, p)
        status, found = pivots(given)
        self.assertEqual(status, OK)
        self.assertLessEqual(len(found), len(leads))
        for k, (i, j) in enumerate(found):
            self.assertTrue(rows[i][j] and not any(rows[i][other] for _, other in found[:k]))

    def judge_system(self, source: random.Random, given: Matrix, rows: plain.Rows, width: int, p: int) -> None:
        side = [source.randrange(p) for _ in rows]
        if source.randrange(2):
            side = [line[0] for line in plain.times(rows, [[source.randrange(p)] for _ in range(width)], 1, p)]
        found = plain.solve(rows, width, side, p)
        answer = call("spasm_solve", given, column(side, p))
        if found is None:
            self.assertEqual(answer, (REFUTED, 1, sparse([plain.witness(rows, width, side, p)])))
        else:
            self.assertEqual(answer, (OK, width, [(j, 0, v) for j, v in enumerate(found) if v]))

    def judge_inverse(self, given: Matrix, rows: plain.Rows, width: int, p: int) -> None:
        status, _, found = call("spasm_inverse", given)
        null = plain.kernel(rows, width, p)
        if null:
            self.assertEqual((status, found), (SINGULAR, sparse(null[:1])))
        else:
            unit = [[int(i == j) for j in range(width)] for i in range(width)]
            self.assertEqual((status, plain.times(rows, dense(found, width, width, p), width, p)), (OK, unit))

    @unittest.skipUnless(PROGRAM.is_file(), "the program isn't built")
    def test_program(self) -> None:
        source = random.Random(84)
        for turn in range(40):
            p = self.moduli[turn % len(self.moduli)]
            triples, height, width = random_matrix(source, p)
            given, words = matrix(triples, height, width, p), text(triples, height, width)
            self.assertEqual(["rank", str(rank(given)[1])], answer_of_program("rank", words, p)[0])
            for command, name in (("rref", "rref"), ("kernel", "kernel"), ("leftkernel", "left_kernel")):
                self.assertEqual(call(f"spasm_{name}", given)[1:], read(answer_of_program(command, words, p)))
            side = [(i, 0, source.randrange(1, p)) for i in range(height)]
            said, *lines = answer_of_program("solve", words + text(side, height, 1), p)
            wanted = (OK if said == ["solution"] else REFUTED, *read(lines))
            self.assertEqual(call("spasm_solve", given, matrix(side, height, 1, p)), wanted)
            lines = answer_of_program("pivots", words, p)[1:]
            self.assertEqual(pivots(given)[1], [(int(i) - 1, int(j) - 1) for i, j in lines])


class ThreadsTest(unittest.TestCase):
    """Several threads of the caller call at once: ctypes lets go of the interpreter's lock."""

    def test_at_once(self) -> None:
        source = random.Random(7)
        triples = [(source.randrange(300), source.randrange(300), source.randrange(1, 65521)) for _ in range(1500)]
        given = matrix(triples, 300, 300, 65521)
        wanted, answers = (rank(given), call("spasm_rref", given)), []
        threads = [threading.Thread(target=lambda: answers.append((rank(given), call("spasm_rref", given)))) for _ in range(8)]
        for thread in threads:
            thread.start()
        for thread in threads:
            thread.join()
        self.assertEqual(answers, [wanted] * 8)


if __name__ == "__main__":
    unittest.main(argv=[sys.argv[0], "-q", *sys.argv[1:]])

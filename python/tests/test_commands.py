"""Every function on worked examples, on random matrices beside a plain elimination, and on each fault."""

from __future__ import annotations

import os
import random
import signal
import subprocess
import sys
import tempfile
import time
import unittest
from fractions import Fraction
from pathlib import Path

ROOT = Path(__file__).resolve().parents[2]
sys.path[:0] = [str(ROOT / "python"), str(ROOT / "python" / "tests")]

import plain
import spasm
from spasm import Matrix

try:
    import scipy.sparse
except ImportError:
    scipy = None

# The third row is the sum of the first two; modulo 7 the second column is twice the first.
EXAMPLE = [[2, 4, 1], [1, 2, 0], [3, 6, 1]]


def random_rows(source: random.Random, height: int, width: int, density: float, p: int) -> plain.Rows:
    """Dense rows with about this part of their values not 0."""
    return [[source.randrange(p) if source.random() < density else 0 for _ in range(width)] for _ in range(height)]


class Examples(unittest.TestCase):
    """Answers that were found by hand."""

    def setUp(self) -> None:
        self.matrix = Matrix.from_rows(EXAMPLE)

    def test_rank(self) -> None:
        self.assertEqual(spasm.rank(self.matrix, modulus=7), 2)
        self.assertEqual(spasm.rank(ROOT / "examples" / "x.sms", modulus=7, workers=2, rounds=0), 2)
        self.assertEqual(spasm.rank(Matrix(0, 5)), 0)

    def test_rref(self) -> None:
        self.assertEqual(spasm.rref(self.matrix, modulus=7).to_rows(), [[1, 2, 0], [0, 0, 1]])

    def test_kernels(self) -> None:
        self.assertEqual(spasm.kernel(self.matrix, modulus=7).to_rows(), [[5, 1, 0]])
        self.assertEqual(spasm.left_kernel(self.matrix, modulus=7).to_rows(), [[6, 6, 1]])

    def test_solve(self) -> None:
        self.assertEqual(spasm.solve(self.matrix, [3, 1, 4], modulus=7).flat(), [1, 0, 1])
        with self.assertRaises(spasm.NoSolution) as caught:
            spasm.solve(self.matrix, [0, 0, 1], modulus=7)
        self.assertEqual(caught.exception.witness.shape, (1, 3))
        self.assertEqual(caught.exception.witness.flat(), [6, 6, 1])

    def test_solve_many(self) -> None:
        first, second, third = spasm.solve_many(self.matrix, [[3, 1, 4], [0, 0, 1], Matrix(3, 1)], modulus=7, workers=2)
        self.assertEqual(first.flat(), [1, 0, 1])
        self.assertIsInstance(second, spasm.NoSolution)
        self.assertEqual(second.witness.flat(), [6, 6, 1])
        self.assertEqual(third.flat(), [0, 0, 0])
        self.assertEqual(spasm.solve_many(self.matrix, [], modulus=7), [])

    def test_inverse(self) -> None:
        self.assertEqual(spasm.inverse(Matrix.from_rows([[1, 2], [3, 4]]), modulus=7).to_rows(), [[5, 1], [5, 3]])
        with self.assertRaises(spasm.Singular) as caught:
            spasm.inverse(self.matrix, modulus=7)
        self.assertEqual(caught.exception.null_vector.flat(), [5, 1, 0])

    def test_pivots(self) -> None:
        self.assertEqual(spasm.pivots(Matrix.from_rows([[0, 1, 1], [1, 1, 0]])), [(1, 0), (0, 1)])
        self.assertEqual(spasm.pivots(Matrix.from_rows([[6]]), modulus=6), [])

    def test_certificates(self) -> None:
        for kind, claim in (("rank", None), ("rref", [[1, 2, 0], [0, 0, 1]]), ("kernel", [[5, 1, 0]])):
            told = spasm.certify(self.matrix, kind=kind, modulus=7)
            self.assertEqual((told.kind, told.modulus, told.rank), (kind, 7, 2))
            self.assertEqual(claim, told.claim and told.claim.to_rows())
            self.assertEqual(plain.times(told.left.to_rows(), told.right.to_rows(), 3, 7), EXAMPLE)
            self.assertTrue(spasm.check(self.matrix, told, modulus=7))
            self.assertFalse(spasm.check(Matrix.from_rows([[1, 0, 0]] * 3), told, modulus=7))
            with tempfile.TemporaryDirectory() as folder:
                told.write(Path(folder) / "text")
                self.assertTrue(spasm.check(self.matrix, Path(folder) / "text", modulus=7))
                self.assertEqual(spasm.Certificate.read(Path(folder) / "text"), told)

    def test_grow(self) -> None:
        steps = [("row", [(1, 2), (2, 4)]), ("rank",), ("row", [(0, 1)]), ("in", [(0, 3), (1, 1), (2, 2)]), ("in", [(1, 1)]), ("rref",)]
        answers = spasm.grow(Matrix(0, 3), steps, modulus=7)
        self.assertEqual(answers[:3], [1, True, False])
        self.assertEqual(answers[3].to_rows(), [[1, 0, 0], [0, 1, 2]])

    def test_an_answer_in_a_file(self) -> None:
        with tempfile.TemporaryDirectory() as folder:
            path = Path(folder) / "form.sms"
            form = spasm.rref(self.matrix, modulus=7, output=path)
            self.assertEqual(path.read_text(), "2 3 M\n1 1 1\n1 2 2\n2 3 1\n0 0 0\n")
            self.assertEqual(form.path, path)
            self.assertEqual(spasm.rank(form, modulus=7), 2)

    def test_files_as_both_texts(self) -> None:
        with tempfile.TemporaryDirectory() as folder:
            left, right = Path(folder) / "a", Path(folder) / "b"
            left.write_bytes(b"% two\n2 2 M\n1 1 1\r\n2 2 1/2\n0 0 0\nnot read\n")
            right.write_bytes(b"2 1 M\n2 1 3\n0 0 -00")
            self.assertEqual(spasm.solve(left, right, modulus=7).flat(), [0, 6])

    def test_betti_of_a_circle_and_a_projective_plane(self) -> None:
        circle = Matrix.from_rows([[-1, 1, 0], [-1, 0, 1], [0, -1, 1]])
        told = spasm.betti([Matrix(3, 0), circle], [2, 3], jobs=2)
        self.assertEqual(told.sizes, (3, 3))
        self.assertEqual([told.numbers(2), told.numbers(3, reduced=True)], [[1, 1], [0, 1]])
        self.assertEqual(spasm.betti([circle], [5], jobs=1).numbers(5), [1, 1])
        # One cell in each dimension, with the boundary maps 0 and 2.
        plane = spasm.betti([Matrix(1, 1), Matrix.from_rows([[2]])], [2, 3], jobs=2)
        self.assertEqual([plane.numbers(2), plane.numbers(3)], [[1, 1, 1], [1, 0, 0]])
        self.assertEqual([plane.torsion(2), plane.torsion(3)], [[0, 1, 0], [0, 0, 0]])

    @unittest.skipIf(scipy is None, "scipy isn't installed")
    def test_scipy(self) -> None:
        matrix = scipy.sparse.csr_matrix(EXAMPLE)
        self.assertEqual(spasm.rank(matrix, modulus=7), 2)
        self.assertEqual(spasm.rref(matrix, modulus=7).to_scipy().toarray().tolist(), [[1, 2, 0], [0, 0, 1]])
        self.assertEqual(spasm.rank(scipy.sparse.csr_matrix([[True, False], [True, True]])), 2)
        self.assertEqual(Matrix(0, 3).to_scipy().shape, (0, 3))
        with self.assertRaises(TypeError):
            spasm.rank(matrix.astype("float64"))


class Matrices(unittest.TestCase):
    """What a Matrix is made from, and its text."""

    def test_entries_are_summed_and_fractions_kept(self) -> None:
        matrix = Matrix(2, 2, [(0, 0, 3), (0, 0, -3), (1, 0, Fraction(1, 2)), (1, 1, 10**40)])
        self.assertEqual(matrix.sums(), {(1, 0): Fraction(1, 2), (1, 1): 10**40})
        self.assertEqual(matrix, Matrix(2, 2, [(1, 1, 10**40), (1, 0, Fraction(1, 2))]))
        self.assertEqual(spasm.rref(matrix, modulus=7).to_rows(), [[1, 2 * 10**40 % 7]])

    def test_text_and_back(self) -> None:
        matrix = Matrix(3, 2, [(2, 1, -5), (0, 0, Fraction(-3, 4))])
        with tempfile.TemporaryDirectory() as folder:
            matrix.write(Path(folder) / "text")
            self.assertEqual((Path(folder) / "text").read_text(), "3 2 M\n3 2 -5\n1 1 -3/4\n0 0 0\n")
            self.assertEqual(Matrix.read(Path(folder) / "text"), matrix)
            self.assertEqual(list(Matrix.read(Path(folder) / "text").transposed().entries()), [(1, 2, -5), (0, 0, Fraction(-3, 4))])

    def test_numbers_of_many_digits(self) -> None:
        with tempfile.TemporaryDirectory() as folder:
            path = Path(folder) / "text"
            path.write_text("0" * 9000 + "1 1 M\n1 1 1" + "0" * 9000 + "\n0 0 0\n")
            self.assertEqual(list(Matrix.read(path).entries()), [(0, 0, 10**9000)])

    def test_what_is_refused(self) -> None:
        for wrong in (1.0, "1", None, 1j):
            with self.assertRaises(TypeError):
                Matrix(1, 1, [(0, 0, wrong)])
        for entry in ((2, 0, 1), (0, 2, 1), (-1, 0, 1)):
            with self.assertRaises(spasm.ShapeError):
                Matrix(2, 2, [entry])
        for shape in ((-1, 0), (0, 2**31)):
            with self.assertRaises(spasm.ShapeError):
                Matrix(*shape)
        with self.assertRaises(spasm.ShapeError):
            Matrix.from_rows([[1], [1, 2]])
        with self.assertRaises(TypeError):
            spasm.rank([[1]])
        with self.assertRaises(FileNotFoundError):
            spasm.rank("no such file")


class Primes(unittest.TestCase):
    """The test of the modulus."""

    def test_small_numbers_beside_a_sieve(self) -> None:
        sieve = [False, False] + [True] * 19998
        for number in range(2, 142):
            if sieve[number]:
                sieve[number * number::number] = [False] * len(sieve[number * number::number])
        self.assertEqual([spasm.is_prime(number) for number in range(20000)], sieve)

    def test_large_numbers(self) -> None:
        # The largest prime below 2^48; strong pseudoprimes to the bases up to 2, 3, 5, 7, 11 and 13; a product of two primes.
        self.assertTrue(spasm.is_prime(2**48 - 59))
        for composite in (2047, 1373653, 25326001, 3215031751, 2152302898747, 3474749660383, 16777183 * 16777199, 561):
            self.assertFalse(spasm.is_prime(composite), composite)
        with self.assertRaises(ValueError):
            spasm.is_prime(2**48)

    def test_where_a_prime_is_needed(self) -> None:
        matrix = Matrix.from_rows([[1]])
        for call in (spasm.rank, spasm.rref, spasm.kernel, spasm.left_kernel, spasm.inverse, spasm.certify):
            with self.assertRaises(spasm.NotPrime) as caught:
                call(matrix, modulus=42015)
            self.assertEqual(caught.exception.modulus, 42015)
        self.assertEqual(spasm.pivots(matrix, modulus=42015), [(0, 0)])
        self.assertEqual(spasm.rank(matrix, modulus=2**48 - 59), 1)


class Faults(unittest.TestCase):
    """Each exception, and what it tells."""

    def setUp(self) -> None:
        folder = tempfile.TemporaryDirectory()
        self.addCleanup(folder.cleanup)
        self.folder = Path(folder.name)
        self.matrix = Matrix.from_rows(EXAMPLE)

    def text(self, name: str, content: str) -> Path:
        """A file with this content."""
        (self.folder / name).write_text(content)
        return self.folder / name

    def with_program(self, content: str, name: str = "SPASM") -> None:
        """Lets a shell script stand for the program during the test."""
        script = self.text("program", "#!/bin/sh\n" + content)
        script.chmod(0o755)
        before = os.environ.get(name)
        os.environ[name] = str(script)
        self.addCleanup(lambda: os.environ.pop(name) if before is None else os.environ.update({name: before}))

    def test_text(self) -> None:
        path = self.text("a.sms", "% first\n2 2 M\n1 1 1\n3 1 1\n0 0 0\n")
        with self.assertRaises(spasm.TextError) as caught:
            spasm.rank(path)
        fault = caught.exception
        self.assertEqual((fault.source, fault.line, fault.kind, fault.kind_name, fault.content), (str(path), 4, 4, "Row", "3 1 1"))
        self.assertIn("a.sms, line 4: the row isn't from 1 to the number of rows (Row): '3 1 1'", str(fault))
        for content, line, kind in (("", 1, 6), ("1 1\n", 1, 1), ("x 1 M\n", 1, 2), ("1 2147483648 M\n", 1, 3), ("1 1 M\n", 2, 7),
                                    ("1 1 M\n1 2 1\n", 2, 5), ("1 1 M\n1 1 1/7\n0 0 0\n", 2, 10), ("1 1 M\n1 1 1.5\n0 0 0\n", 2, 2)):
            with self.assertRaises(spasm.TextError) as caught:
                spasm.rank(self.text("b.sms", content), modulus=7)
            self.assertEqual((caught.exception.line, caught.exception.kind), (line, kind), content)
        for content, line, kind in (("1 1 M\n1 1 1\n", 3, 7), ("1 1 M\n1 1\n", 2, 1), ("1 1 M\n2 1 1\n", 2, 4), ("1 1 M\n1 2 1\n", 2, 5),
                                    ("1 1 M\n# void\n1 1 1/0\n", 3, 10), ("1 1 M\n1 1 0x1\n", 2, 2), ("1 1 M\n0 0 0/1\n", 2, 4)):
            with self.assertRaises(spasm.TextError) as caught:
                list(Matrix.read(self.text("c.sms", content)).entries())
            self.assertEqual((caught.exception.line, caught.exception.kind), (line, kind), content)
            with self.assertRaises(spasm.TextError) as caught:
                spasm.rank(self.text("c.sms", content))
            self.assertEqual((caught.exception.line, caught.exception.kind), (line, kind), content)

    def test_which_text(self) -> None:
        wrong = self.text("b.sms", "3 1 M\n1 2 1\n0 0 0\n")
        open_text = self.text("a.sms", "3 3 M\n1 1 1\n")
        for matrix, column, source, line, kind in ((self.matrix, wrong, str(wrong), 2, 5), (open_text, [1, 2, 3], str(open_text), 3, 7),
                                                   (open_text, wrong, str(open_text), 3, 7),
                                                   (self.matrix, Matrix(3, 1, [(0, 0, Fraction(1, 7))]), "right-hand side", 2, 10)):
            with self.assertRaises(spasm.TextError) as caught:
                spasm.solve(matrix, column, modulus=7)
            self.assertEqual((caught.exception.source, caught.exception.line, caught.exception.kind), (source, line, kind))
        with self.assertRaises(spasm.TextError) as caught:
            spasm.check(self.matrix, self.text("cert", "certificate rank 7 1\n1 1\n"), modulus=7)
        self.assertEqual((caught.exception.source, caught.exception.line, caught.exception.kind), (str(self.folder / "cert"), 3, 6))
        with self.assertRaises(spasm.TextError) as caught:
            spasm.grow(self.matrix, [("row", [(0, 1)]), ("in", [(3, 1)])], modulus=7)
        self.assertEqual((caught.exception.source, caught.exception.line, caught.exception.kind_name), ("script", 2, "Script"))

    def test_shape(self) -> None:
        with self.assertRaises(spasm.ShapeError) as caught:
            spasm.inverse(Matrix(2, 3))
        self.assertEqual((caught.exception.rows, caught.exception.columns), (2, 3))
        self.assertIn("isn't square", str(caught.exception))
        with self.assertRaisesRegex(spasm.ShapeError, "isn't a column of the height of A"):
            spasm.solve(self.matrix, [1, 2])
        with self.assertRaises(spasm.ShapeError) as caught:
            spasm.solve_many(self.matrix, [[1, 2, 3], [1, 2]])
        self.assertEqual((caught.exception.rows, caught.exception.question), (2, 1))
        with self.assertRaises(spasm.ShapeError):
            spasm.inverse(Matrix(2**30 + 1, 2**30 + 1))
        with self.assertRaises(spasm.ShapeError):
            spasm.betti([Matrix(3, 2), Matrix(1, 2)], [2], jobs=1)
        with self.assertRaises(spasm.ShapeError):
            spasm.betti([Matrix.from_rows([[1]]), Matrix.from_rows([[1]])], [2], jobs=1)

    def test_usage(self) -> None:
        for words in ({"modulus": 1}, {"modulus": 2**48}, {"workers": 0}, {"workers": 65}, {"rounds": -1}, {"rounds": 17}):
            with self.assertRaises(spasm.UsageError):
                spasm.rank(self.matrix, **words)
        for call in (lambda: spasm.certify(self.matrix, kind="form"), lambda: spasm.grow(self.matrix, [("ask",)]),
                     lambda: spasm.betti([self.matrix], [])):
            with self.assertRaises(spasm.UsageError):
                call()

    def test_memory(self) -> None:
        self.with_program(f"ulimit -v 20000\nexec {spasm.process.program('spasm')} \"$@\"\n")
        self.assertEqual(spasm.rank(self.matrix, modulus=7), 2)
        with self.assertRaises(spasm.OutOfMemory):
            spasm.rank(Matrix(200000, 200000, ((i, i, 1) for i in range(200000))))

    def test_read_and_write(self) -> None:
        if os.access("/proc/self/mem", os.R_OK):
            with self.assertRaises(spasm.ReadFault):
                spasm.rank(Matrix._lazy((1, 1), lambda: [], Path("/proc/self/mem")))
        if os.access("/dev/full", os.W_OK):
            with self.assertRaises(spasm.WriteFault):
                spasm.rref(self.matrix, modulus=7, output="/dev/full")

    def test_programs_that_fail(self) -> None:
        for content, told in (("kill -9 $$", "signal 9"), ("echo it did not build >&2; exit 70", "it did not build"),
                              ("echo no rank", "unknown form"), ("exit 1", "unknown form")):
            with self.subTest(content):
                self.with_program(content + "\n")
                with self.assertRaises(spasm.ProgramFault) as caught:
                    spasm.rank(self.matrix)
                self.assertIn(told, str(caught.exception))
        os.environ["SPASM"] = str(self.folder / "none")
        with self.assertRaises(spasm.ProgramFault):
            spasm.rank(self.matrix)

    def test_an_interrupt_ends_the_program(self) -> None:
        for call in ("spasm.rank(m)", "spasm.betti([m], [2, 3, 5], jobs=2)"):
            with self.subTest(call):
                self.with_program(f"echo $$ >> {self.folder}/running\nexec sleep 60\n")
                # A shell that runs the tests in the background has interrupts ignored.
                code = ("import signal, sys; signal.signal(signal.SIGINT, signal.default_int_handler); "
                        f"sys.path.insert(0, {str(ROOT / 'python')!r}); import spasm; m = spasm.Matrix(1, 1); {call}")
                begun = time.monotonic()
                running = subprocess.Popen([sys.executable, "-c", code], stderr=subprocess.PIPE)
                wanted = 1 if "rank" in call else 2
                while len(self.process_ids()) < wanted and time.monotonic() < begun + 20:
                    time.sleep(0.05)
                running.send_signal(signal.SIGINT)
                self.assertIn(b"KeyboardInterrupt", running.communicate(timeout=20)[1])
                self.assertLess(time.monotonic(), begun + 30)
                self.assertEqual(len(self.process_ids()), wanted)
                for process in self.process_ids():
                    self.assertRaises(ProcessLookupError, os.kill, process, 0)
                (self.folder / "running").unlink()

    def process_ids(self) -> list[int]:
        """The programs that were started."""
        path = self.folder / "running"
        return [int(word) for word in path.read_text().split()] if path.exists() else []


class CommandLine(unittest.TestCase):
    """python -m spasm."""

    def test_answers_and_faults(self) -> None:
        example, faulty = str(ROOT / "examples" / "x.sms"), str(ROOT / "examples" / "faulty.sms")
        for words, status, output, told in (
                (["rank", example, "--modulus", "7"], 0, "2\n", ""),
                (["kernel", example, "--modulus=7", "--workers", "2"], 0, "1 3 M\n1 1 5\n1 2 1\n0 0 0\n", ""),
                (["betti", example, "--primes", "7", "--jobs", "1"], 0, "faces: 3 3\nunreduced Betti numbers modulo 7: 1 1\n", ""),
                (["rank", faulty], 1, "", "faulty.sms, line 4: the row isn't"),
                (["rank", example, "--modulus", "9"], 1, "", "error: the modulus 9 isn't prime\n"),
                (["inverse", example, "--modulus", "7"], 0,
                 "singular: A x = 0 for this row x\n1 3 M\n1 1 5\n1 2 1\n0 0 0\n", ""),
                (["rank", "none"], 1, "", "No such file"),
                (["rang", example], 2, "", "invalid choice")):
            with self.subTest(words):
                run = subprocess.run([sys.executable, "-m", "spasm", *words], cwd=ROOT / "python", capture_output=True, text=True)
                self.assertEqual((run.returncode, run.stdout), (status, output))
                self.assertIn(told, run.stderr)


class RandomMatrices(unittest.TestCase):
    """The program beside a plain elimination."""

    def test_forms_and_kernels(self) -> None:
        source = random.Random(1)
        for case in range(40):
            p = source.choice([2, 3, 7, 42013, 65537, 2**31 - 1, 2**48 - 59])
            height, width = source.randrange(8), source.randrange(8)
            rows = random_rows(source, height, width, source.choice([0.2, 0.5, 1]), p)
            matrix, words = Matrix.from_rows(rows, width), {"modulus": p, "workers": 1 + case % 2, "rounds": case % 4}
            with self.subTest(case=case, p=p):
                form, _ = plain.rref(rows, width, p)
                self.assertEqual(spasm.rank(matrix, **words), len(form))
                self.assertEqual(spasm.rref(matrix, **words).to_rows(), form)
                self.assertEqual(spasm.kernel(matrix, **words).to_rows(), plain.kernel(rows, width, p))
                self.assertEqual(spasm.left_kernel(matrix, **words).to_rows(), plain.kernel(plain.transposed(rows, width), height, p))
                self.assertEqual(spasm.grow(matrix, [("rank",)], modulus=p), [len(form)])

    def test_solutions_and_inverses(self) -> None:
        source = random.Random(2)
        for case in range(40):
            p, size = source.choice([2, 5, 42013, 2**48 - 59]), source.randrange(1, 7)
            rows = random_rows(source, size, size, source.choice([0.5, 1]), p)
            column = random_rows(source, 1, size, 1, p)[0]
            with self.subTest(case=case, p=p):
                self.assert_solved(rows, size, column, p)
                self.assert_inverted(rows, size, p)

    def assert_solved(self, rows: plain.Rows, size: int, column: list[int], p: int) -> None:
        """The solution or the witness, by both programs."""
        matrix, wanted = Matrix.from_rows(rows), plain.solve(rows, size, column, p)
        many = spasm.solve_many(matrix, [column, [0] * size], modulus=p)
        self.assertEqual(many[1].flat(), [0] * size)
        if wanted is not None:
            self.assertEqual(spasm.solve(matrix, column, modulus=p).flat(), wanted)
            self.assertEqual(many[0].flat(), wanted)
            return
        with self.assertRaises(spasm.NoSolution) as caught:
            spasm.solve(matrix, column, modulus=p)
        self.assertEqual(caught.exception.witness.flat(), plain.witness(rows, size, column, p))
        self.assertEqual(many[0].witness.flat(), plain.witness(rows, size, column, p))

    def assert_inverted(self, rows: plain.Rows, size: int, p: int) -> None:
        """The inverse, or a null vector."""
        matrix, null = Matrix.from_rows(rows), plain.kernel(rows, size, p)
        if null:
            with self.assertRaises(spasm.Singular) as caught:
                spasm.inverse(matrix, modulus=p)
            self.assertEqual(caught.exception.null_vector.flat(), null[0])
            return
        unit = [[int(i == j) for j in range(size)] for i in range(size)]
        self.assertEqual(plain.times(rows, spasm.inverse(matrix, modulus=p).to_rows(), size, p), unit)


if __name__ == "__main__":
    unittest.main()

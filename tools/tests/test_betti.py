"""Betti numbers that are known from the literature or by hand, as tools/betti writes them."""

from __future__ import annotations

import subprocess
import sys
import tempfile
import unittest
from pathlib import Path

ROOT = Path(__file__).resolve().parents[2]

# The projective plane by its triangulation with six vertices.
PLANE = "1 2 5\n1 2 6\n1 3 4\n1 3 6\n1 4 5\n2 3 4\n2 3 5\n2 4 6\n3 5 6\n4 5 6\n"

# Words of tools/complexes, the facets they read, words of tools/betti, and the lines that are wanted.
CASES = [
    ("chessboard 5 5", None, "--primes 3 42013",
     ["faces: 25 200 600 600 120", "unreduced Betti numbers modulo 3: 1 0 1 57 0", "unreduced Betti numbers modulo 42013: 1 0 0 56 0",
      "torsion in dimension 2: at least 1 summand has an order divisible by 3"]),
    ("matching 7", None, "--primes 3 42013",
     ["faces: 21 105 105", "unreduced Betti numbers modulo 3: 1 1 21", "unreduced Betti numbers modulo 42013: 1 0 20",
      "torsion in dimension 1: at least 1 summand has an order divisible by 3"]),
    ("matching 7", None, "--primes 42013 --reduced", ["faces: 21 105 105", "reduced Betti numbers modulo 42013: 0 0 20"]),
    ("facets TEXT", PLANE, "--primes 2 3",
     ["faces: 6 15 10", "unreduced Betti numbers modulo 2: 1 1 1", "unreduced Betti numbers modulo 3: 1 0 0",
      "torsion in dimension 1: at least 1 summand has an order divisible by 2"]),
    ("facets TEXT", "1\n2\n", "--primes 2", ["faces: 2", "unreduced Betti numbers modulo 2: 2"]),
    ("facets TEXT", "1 2\n2 3\n1 3\n", "--primes 5 --reduced", ["faces: 3 3", "reduced Betti numbers modulo 5: 0 1"]),
]

FAULTS = [
    ({}, "has no file d0.sms"),
    ({"d0.sms": "1 0 M\n0 0 0\n", "d2.sms": "1 1 M\n0 0 0\n"}, "has no file d1.sms"),
    ({"d1.sms": "1 2 M\n0 0 0\n", "d2.sms": "1 2 M\n0 0 0\n"}, "map 1 (counted from 0) has 2 columns"),
    ({"d1.sms": "1 1 M\n1 1 1\n0 0 0\n", "d2.sms": "1 1 M\n1 1 1\n0 0 0\n"}, "one map after another doesn't give 0"),
    ({"d1.sms": "1 1 M\n1 2 1\n0 0 0\n"}, "d1.sms, line 2: the column isn't from 1 to the number of columns"),
]


class Betti(unittest.TestCase):
    """Runs of the tool on folders that tools/complexes or the test wrote."""

    def setUp(self) -> None:
        folder = tempfile.TemporaryDirectory()
        self.addCleanup(folder.cleanup)
        self.folder = Path(folder.name)

    def run_tool(self, name: str, words: str) -> subprocess.CompletedProcess:
        """Runs a tool."""
        command = [sys.executable, str(ROOT / "tools" / name), *words.split()]
        return subprocess.run(command, cwd=self.folder, capture_output=True, text=True)

    def test_complexes(self) -> None:
        for number, (complex_words, text, words, lines) in enumerate(CASES):
            with self.subTest(complex_words, words=words):
                if text is not None:
                    (self.folder / "TEXT").write_text(text)
                self.assertEqual(self.run_tool("complexes", f"{complex_words} --output {number}").stderr, "")
                run = self.run_tool("betti", f"{number} {words} --jobs 2")
                self.assertEqual((run.stderr, run.stdout.splitlines()), ("", lines))

    def test_faults(self) -> None:
        for number, (files, told) in enumerate(FAULTS):
            with self.subTest(told):
                (self.folder / str(number)).mkdir()
                for name, content in files.items():
                    (self.folder / str(number) / name).write_text(content)
                run = self.run_tool("betti", f"{number} --jobs 1")
                self.assertEqual(run.returncode, 1)
                self.assertIn(told, run.stderr)
        (self.folder / "one").mkdir()
        (self.folder / "one" / "d1.sms").write_text("1 1 M\n0 0 0\n")
        self.assertIn("the modulus 4 isn't prime", self.run_tool("betti", "one --primes 4").stderr)


if __name__ == "__main__":
    unittest.main()

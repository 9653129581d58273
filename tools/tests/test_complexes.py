"""The complexes that tools/complexes writes: numbers of faces, maps that follow one another to 0, and what it refuses."""

from __future__ import annotations

import subprocess
import sys
import tempfile
import unittest
from pathlib import Path

ROOT = Path(__file__).resolve().parents[2]
sys.path.insert(0, str(ROOT / "python"))

from spasm import Matrix

# Words, the text they read, and the numbers of faces by dimension, counted by hand or by their formulas.
CASES = [
    ("chessboard 2 2", None, [4, 2]),
    ("chessboard 2 3", None, [6, 6]),
    ("chessboard 5 5", None, [25, 200, 600, 600, 120]),
    ("matching 2", None, [1]),
    ("matching 4", None, [6, 3]),
    ("matching 7", None, [21, 105, 105]),
    ("facets TEXT", "# a hollow triangle with a tail\na b\nb c\na c\nc d\n", [4, 4]),
    ("facets TEXT", "2 10 9\n", [3, 3, 1]),
    ("facets TEXT", "", []),
    ("rips TEXT --radius 1", "0 0\n1 0\n0 1\n1 1\n", [4, 4]),
    ("rips TEXT --radius 3/2 --dimension 3", "0,0\n1,0\n0,1\n1,1\n", [4, 6, 4, 1]),
    ("rips TEXT --radius 1.5 --dimension 1", "0 0\n1 0\n0 1\n1 1\n", [4, 6]),
    ("rips TEXT --radius 0.3", "0.1\n0.4\n0.8\n", [3, 1]),
    ("rips TEXT --radius 2 --distances", "0 1 3\n1 0 2\n3 2 0\n", [3, 2]),
    ("rips TEXT --radius 2 --distances", "0\n1 0\n3 2 0\n", [3, 2]),
]

FAULTS = [
    ("facets TEXT", "a b a\n", "line 1: a vertex stands twice"),
    ("rips TEXT --radius 1", "0 0\nx 1\n", "line 2: not all words are numbers"),
    ("rips TEXT --radius 1", "0 0\n1\n", "not all points have as many coordinates"),
    ("rips TEXT --radius 1 --distances", "0 1\n2 0\n", "the distances aren't symmetric"),
    ("rips TEXT --radius 1 --distances", "0\n1 0\n1 2 3 0\n", "point 3 has 4 distances"),
    ("facets NONE", None, "No such file"),
]


class Complexes(unittest.TestCase):
    """Runs of the tool in a folder of their own."""

    def setUp(self) -> None:
        folder = tempfile.TemporaryDirectory()
        self.addCleanup(folder.cleanup)
        self.folder = Path(folder.name)

    def run_tool(self, words: str, text: str | None, output: str) -> subprocess.CompletedProcess:
        """Runs the tool with TEXT standing for a file of this content."""
        if text is not None:
            (self.folder / "TEXT").write_text(text)
        command = [sys.executable, str(ROOT / "tools" / "complexes"), *words.split(), "--output", output]
        return subprocess.run(command, cwd=self.folder, capture_output=True, text=True)

    def maps(self, output: str) -> list[Matrix]:
        """The maps in a folder."""
        return [Matrix.read(self.folder / output / f"d{k}.sms") for k in range(len(list((self.folder / output).iterdir())))]

    def test_faces_and_maps(self) -> None:
        for number, (words, text, sizes) in enumerate(CASES):
            with self.subTest(words, text=text):
                self.assertEqual(self.run_tool(words, text, str(number)).stderr, "")
                maps = self.maps(str(number))
                self.assertEqual([each.shape for each in maps], list(zip(sizes, [0] + sizes)))
                for lower, upper in zip(maps, maps[1:]):
                    self.assert_zero_product(upper, lower)
                for dimension, each in enumerate(maps):
                    self.assertEqual(len(each.sums()), sizes[dimension] * (dimension + 1) * (dimension > 0))

    def assert_zero_product(self, upper: Matrix, lower: Matrix) -> None:
        """One map after another gives 0."""
        rows: dict[int, list] = {}
        for i, j, v in lower.entries():
            rows.setdefault(i, []).append((j, v))
        sums: dict[tuple[int, int], int] = {}
        for i, k, v in upper.entries():
            for j, w in rows.get(k, []):
                sums[i, j] = sums.get((i, j), 0) + v * w
        self.assertEqual(set(sums.values()) - {0}, set())

    def test_a_text_as_it_is_written(self) -> None:
        self.run_tool("facets TEXT", "1 2 3\n", "out")
        self.assertEqual((self.folder / "out" / "d0.sms").read_text(), "3 0 M\n0 0 0\n")
        self.assertEqual((self.folder / "out" / "d1.sms").read_text(), "3 3 M\n1 1 -1\n1 2 1\n2 1 -1\n2 3 1\n3 2 -1\n3 3 1\n0 0 0\n")
        self.assertEqual((self.folder / "out" / "d2.sms").read_text(), "1 3 M\n1 1 1\n1 2 -1\n1 3 1\n0 0 0\n")

    def test_the_same_words_give_the_same_files(self) -> None:
        for output in ("first", "second"):
            self.run_tool("matching 6", None, output)
        for dimension in range(3):
            first, second = ((self.folder / output / f"d{dimension}.sms").read_bytes() for output in ("first", "second"))
            self.assertEqual(first, second)

    def test_faults(self) -> None:
        for words, text, told in FAULTS:
            with self.subTest(words, text=text):
                run = self.run_tool(words, text, "out")
                self.assertEqual(run.returncode, 1)
                self.assertIn(told, run.stderr)
                self.assertTrue(run.stderr.startswith("error: ") and run.stderr.count("\n") == 1, run.stderr)
        self.run_tool("matching 7", None, "larger")
        self.assertIn("maps of another complex: d2.sms", self.run_tool("matching 4", None, "larger").stderr)
        self.assertEqual(self.run_tool("cubes 4", None, "out").returncode, 2)


if __name__ == "__main__":
    unittest.main()

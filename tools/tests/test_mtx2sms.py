"""Tests of tools/mtx2sms: tables of files with their texts or faults."""
import pathlib
import subprocess
import unittest

TOOL = pathlib.Path(__file__).resolve().parents[1] / "mtx2sms"
BANNER = "%%MatrixMarket matrix "


def run(text: str) -> subprocess.CompletedProcess:
    """The tool's run on a file with this text, which comes by standard input."""
    return subprocess.run([TOOL], input=text, capture_output=True, text=True)


TEXTS = [
    ("coordinate integer general", "2 3 2\n1 3 -5\n2 1 7\n", "2 3 M\n1 3 -5\n2 1 7\n0 0 0\n"),
    ("coordinate integer general", "% a comment\n\n1 1 1\n% another\n1 1 123456789012345678901234567890\n",
     "1 1 M\n1 1 123456789012345678901234567890\n0 0 0\n"),
    ("coordinate pattern general", "2 2 2\n1 2\n2 1\n", "2 2 M\n1 2 1\n2 1 1\n0 0 0\n"),
    ("coordinate real general", "2 2 3\n1 1 1.0\n1 2 -2e1\n2 2 0.0\n", "2 2 M\n1 1 1\n1 2 -20\n0 0 0\n"),
    ("coordinate integer symmetric", "2 2 2\n1 1 4\n2 1 5\n", "2 2 M\n1 1 4\n2 1 5\n1 2 5\n0 0 0\n"),
    ("coordinate pattern symmetric", "2 2 1\n2 1\n", "2 2 M\n2 1 1\n1 2 1\n0 0 0\n"),
    ("coordinate integer skew-symmetric", "2 2 1\n2 1 5\n", "2 2 M\n2 1 5\n1 2 -5\n0 0 0\n"),
    ("COORDINATE Integer GENERAL", "1 1 0\n", "1 1 M\n0 0 0\n"),
    ("array integer general", "2 3\n1\n2\n3\n0\n5\n6\n", "2 3 M\n1 1 1\n2 1 2\n1 2 3\n1 3 5\n2 3 6\n0 0 0\n"),
    ("array real symmetric", "2 2\n1.\n2.\n3.\n", "2 2 M\n1 1 1\n2 1 2\n1 2 2\n2 2 3\n0 0 0\n"),
    ("array integer skew-symmetric", "3 3\n1\n2\n3\n",
     "3 3 M\n2 1 1\n1 2 -1\n3 1 2\n1 3 -2\n3 2 3\n2 3 -3\n0 0 0\n"),
    ("array integer general", "0 5\n", "0 5 M\n0 0 0\n"),
    ("coordinate integer general", f"1 1 1\n1 1 +{'9' * 5000}\n", f"1 1 M\n1 1 {'9' * 5000}\n0 0 0\n"),
]

FAULTS = [
    ("coordinate complex general", "1 1 1\n1 1 1 0\n", "line 1: 'complex' isn't supported"),
    ("coordinate integer hermitian", "1 1 1\n1 1 1\n", "line 1: 'hermitian' isn't supported"),
    ("vector integer general", "1\n", "line 1: 'vector' isn't supported"),
    ("array pattern general", "1 1\n", "line 1: an array has no pattern"),
    ("coordinate integer", "1 1 1\n1 1 1\n", "line 1: the first line"),
    ("coordinate integer general", "", "line 2: the file ends where its sizes are due"),
    ("coordinate integer general", "% c\n1 1\n", "line 3: 3 sizes are due"),
    ("coordinate integer general", "2147483648 1 0\n", "line 2: a size is above"),
    ("coordinate integer symmetric", "2 3 0\n", "line 2: a symmetric matrix is square"),
    ("coordinate integer general", "-1 1 0\n", "line 2: the size '-1'"),
    ("coordinate integer general", "2 2 2\n1 1 1\n", "line 4: the file ends after 1 of 2"),
    ("coordinate integer general", "2 2 1\n1 1 1\n1 2 1\n", "line 4: after 1 entries no line is due"),
    ("coordinate integer general", "2 2 1\n3 1 1\n", "line 3: the row 3"),
    ("coordinate integer general", "2 2 1\n0 1 1\n", "line 3: the row 0"),
    ("coordinate integer general", "2 2 1\n1 3 1\n", "line 3: the column 3"),
    ("coordinate integer general", "2 2 1\n1 1\n", "line 3: an entry has 3 words"),
    ("coordinate pattern general", "2 2 1\n1 1 1\n", "line 3: an entry has 2 words"),
    ("coordinate integer general", "2 2 1\n1 1 1.0\n", "line 3: '1.0' isn't an integer"),
    ("coordinate real general", "2 2 1\n1 1 0.5\n", "line 3: '0.5' isn't an integer"),
    ("coordinate real general", "2 2 1\n1 1 1e300\n", "line 3: '1e300' isn't an integer"),
    ("coordinate real general", "2 2 1\n1 1 nan\n", "line 3: 'nan' isn't an integer"),
    ("coordinate integer general", "2 2 1\n1 1 1_0\n", "line 3: '1_0' isn't an integer"),
    ("coordinate real general", "2 2 1\n1 1 1_0\n", "line 3: '1_0' isn't a number"),
    ("coordinate real general", "2 2 1\n1 1 one\n", "line 3: 'one' isn't a number"),
    ("coordinate integer symmetric", "2 2 1\n1 2 1\n", "line 3: a symmetric matrix has entries on and below"),
    ("coordinate integer skew-symmetric", "2 2 1\n1 1 1\n", "line 3: a skew-symmetric matrix has zeros"),
    ("array integer general", "1 2\n1 2\n", "line 3: a line of an array has one value"),
]


class MatrixMarket(unittest.TestCase):
    """Files and what becomes of them."""

    def test_texts(self) -> None:
        for words, file, text in TEXTS:
            with self.subTest(words=words, file=file):
                ran = run(f"{BANNER}{words}\n{file}")
                self.assertEqual((ran.returncode, ran.stdout, ran.stderr), (0, text, ""))

    def test_faults(self) -> None:
        for words, file, fault in FAULTS:
            with self.subTest(words=words, file=file):
                ran = run(f"{BANNER}{words}\n{file}")
                self.assertEqual(ran.returncode, 1)
                self.assertIn(f"mtx2sms: {fault}", ran.stderr)
                self.assertNotIn("0 0 0", ran.stdout)

    def test_no_matrix_market(self) -> None:
        for text in ("", "2 2 M\n1 1 1\n0 0 0\n"):
            with self.subTest(text=text):
                ran = run(text)
                self.assertEqual((ran.returncode, ran.stdout), (1, ""))
                self.assertIn("line 1: the first line", ran.stderr)

    def test_byte_order_mark(self) -> None:
        self.assertEqual(run(f"\ufeff{BANNER}array integer general\n1 1\n5\n").stdout, "1 1 M\n1 1 5\n0 0 0\n")

    def test_a_file_that_is_not_there(self) -> None:
        ran = subprocess.run([TOOL, "/no/such/file"], capture_output=True, text=True)
        self.assertEqual(ran.returncode, 1)
        self.assertIn("/no/such/file", ran.stderr)


if __name__ == "__main__":
    unittest.main()

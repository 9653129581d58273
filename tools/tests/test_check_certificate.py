"""Tests of tools/check_certificate: tables with answers by hand, and random certificates and faults beside `spasm check` if SPASM names it."""
import os
import pathlib
import random
import subprocess
import unittest

ROOT = pathlib.Path(__file__).resolve().parents[2]
TOOL = ROOT / "tools" / "check_certificate"

# Modulo 7 the matrix has rank 2: its third row is the sum of the first two, and the first is 2 times the second but at column 3.
MATRIX = (ROOT / "examples" / "x.sms").read_text()
RANK = (ROOT / "examples" / "x.cert").read_text()
FACTORS = RANK[RANK.index("2 1\n"):]
FORM = "2 3 M\n1 1 1\n1 2 2\n2 3 1\n0 0 0\n"
KERNEL = "1 3 M\n1 1 5\n1 2 1\n0 0 0\n"
RREF_CLAIM = f"certificate rref 7 2\n{FACTORS}{FORM}"
KERNEL_CLAIM = f"certificate kernel 7 2\n{FACTORS}{KERNEL}"


def run(text: str, *words: str) -> subprocess.CompletedProcess:
    """The tool's run on this text."""
    return subprocess.run([TOOL, *words], input=text.encode(), capture_output=True)


# Each is a certificate and whether it is valid for the matrix modulo 7: the valid ones, and each condition broken.
CLAIMS = [
    ("a rank", RANK, True),
    ("a form", RREF_CLAIM, True),
    ("a kernel", KERNEL_CLAIM, True),
    ("another prime", RANK.replace("rank 7 2", "rank 5 2"), False),
    ("L of another height", RANK.replace("3 2 M", "4 2 M"), False),
    ("U of another width", RANK.replace("2 3 M", "2 4 M"), False),
    ("a smaller rank", RANK.replace("rank 7 2\n2 1\n", "rank 7 1\n"), False),
    ("a row twice", RANK.replace("2 1\n1 3\n", "2 1\n2 3\n", 1), False),
    ("a column twice", RANK.replace("2 1\n1 3\n", "2 1\n1 1\n", 1), False),
    ("a row above the height", RANK.replace("2 1\n1 3\n", "2 1\n4 3\n", 1), False),
    ("pivots in another order", RANK.replace("2 1\n1 3\n", "1 3\n2 1\n", 1), False),
    ("another value in L", RANK.replace("3 1 3\n", "3 1 4\n"), False),
    ("another value in U", RANK.replace("1 2 2\n", "1 2 3\n"), False),
    ("a value by another residue", RANK.replace("3 1 3\n", "3 1 -4\n"), True),
    ("a value by a fraction", RANK.replace("3 1 3\n", "3 1 6/2\n"), True),
    ("a form with a row less", f"certificate rref 7 2\n{FACTORS}1 3 M\n1 1 1\n1 2 2\n0 0 0\n", False),
    ("a form with a zero row", f"certificate rref 7 2\n{FACTORS}2 3 M\n1 1 1\n1 2 2\n0 0 0\n", False),
    ("a form that isn't reduced", f"certificate rref 7 2\n{FACTORS}2 3 M\n1 1 1\n1 2 2\n1 3 1\n2 3 1\n0 0 0\n", False),
    ("a form with another lead", f"certificate rref 7 2\n{FACTORS}2 3 M\n1 1 1\n1 2 2\n2 3 2\n0 0 0\n", False),
    ("a form with rows exchanged", f"certificate rref 7 2\n{FACTORS}2 3 M\n2 1 1\n2 2 2\n1 3 1\n0 0 0\n", False),
    ("another form", f"certificate rref 7 2\n{FACTORS}2 3 M\n1 1 1\n1 2 3\n2 3 1\n0 0 0\n", False),
    ("a kernel with no row", f"certificate kernel 7 2\n{FACTORS}0 3 M\n0 0 0\n", False),
    ("a kernel vector that isn't scaled", f"certificate kernel 7 2\n{FACTORS}1 3 M\n1 1 3\n1 2 2\n0 0 0\n", False),
    ("no kernel vector", f"certificate kernel 7 2\n{FACTORS}1 3 M\n1 1 4\n1 2 1\n0 0 0\n", False),
    ("comments and blank lines", RANK.replace("\n", "\n# a comment\n\n"), True),
    ("line ends with a carriage return", RANK.replace("\n", "\r\n"), True),
    ("what comes later isn't read", RANK + "anything\n", True),
]

# Each is an input and the fault line's end.
FAULTS = [
    ("", "line 1 kind 6"),
    ("1 1\n", "line 1 kind 1"),
    ("1 1 MM\n", "line 1 kind 1"),
    ("1 x M\n", "line 1 kind 2"),
    ("\ufeff1 1 M\n0 0 0\n", "line 1 kind 2"),
    ("2147483648 1 M\n", "line 1 kind 3"),
    ("1 1 M\n", "line 2 kind 7"),
    ("1 1 M\n1 1\n", "line 2 kind 1"),
    ("1 1 M\n1 1 1.5\n", "line 2 kind 2"),
    ("1 1 M\n1 1 1/-2\n", "line 2 kind 2"),
    ("1 1 M\n2 1 1\n", "line 2 kind 4"),
    ("1 1 M\n0 0 0/1\n", "line 2 kind 4"),
    ("1 1 M\n1 0 1\n", "line 2 kind 5"),
    ("1 1 M\n1 1 1/14\n", "line 2 kind 10"),
    ("1 1 M\n00 0 -0\n", "line 3 kind 7"),
    ("1 1 M\n0 0 0\ncertificate rank 7\n", "line 3 kind 9"),
    ("1 1 M\n0 0 0\ncertificate form 7 0\n", "line 3 kind 9"),
    ("1 1 M\n0 0 0\ncertificate rank 281474976710656 0\n", "line 3 kind 9"),
    ("1 1 M\n0 0 0\ncertificate rank 7 2147483648\n", "line 3 kind 9"),
    ("1 1 M\n0 0 0\ncertificate rank 7 1\n0 1\n", "line 4 kind 9"),
    ("1 1 M\n0 0 0\ncertificate rank 7 1\n", "line 4 kind 7"),
    ("1 1 M\n0 0 0\ncertificate rank 7 0\n", "line 4 kind 6"),
    ("1 1 M\n0 0 0\ncertificate rank 7 0\n1 0 M\n0 0 0", "line 6 kind 6"),
]


class Checking(unittest.TestCase):
    """What the checker answers."""

    def test_claims(self) -> None:
        for name, claim, valid in CLAIMS:
            with self.subTest(claim=name):
                ran = run(MATRIX + claim, "--modulus", "7")
                self.assertEqual((ran.returncode, ran.stdout, ran.stderr), (0, b"yes\n", b"") if valid else (1, b"no\n", b""))

    def test_faults(self) -> None:
        for text, end in FAULTS:
            with self.subTest(text=text):
                ran = run(text, "--modulus", "7")
                self.assertEqual((ran.returncode, ran.stdout, ran.stderr.decode()), (3, b"", f"error 3 {end}\n"))

    def test_files(self) -> None:
        files = [str(ROOT / "examples" / name) for name in ("x.sms", "x.cert")]
        self.assertEqual(run("", "--modulus", "7", *files).stdout, b"yes\n")
        self.assertEqual(run("", *files).stdout, b"no\n")
        self.assertEqual(run("", "/no/such/file").returncode, 6)
        self.assertEqual(run("", "--modulus", "1").returncode, 2)


@unittest.skipUnless(os.environ.get("SPASM"), "SPASM names no program")
class BesideTheProgram(unittest.TestCase):
    """Certificates of random matrices, some with one line changed, which the program is asked about too."""

    def setUp(self) -> None:
        self.random = random.Random(1)

    def matrix(self) -> str:
        """A random small matrix."""
        height, width = self.random.randrange(6), self.random.randrange(6)
        places = [(i, j) for i in range(1, height + 1) for j in range(1, width + 1) if self.random.random() < 0.4]
        return f"{height} {width} M\n" + "".join(f"{i} {j} {self.random.randrange(-9, 9)}\n" for i, j in places) + "0 0 0\n"

    def changed(self, text: str) -> str:
        """The text with one word of one line changed."""
        lines = text.split("\n")
        line = self.random.randrange(len(lines))
        words = lines[line].split(" ")
        words[self.random.randrange(len(words))] = self.random.choice(["0", "1", "2", "3", "5", "x", "", "1/5", "-1"])
        lines[line] = " ".join(words)
        return "\n".join(lines)

    def test_random_certificates(self) -> None:
        seen = set()
        for case in range(60):
            modulus = self.random.choice(["2", "5", "42013", "281474976710597"])
            matrix = self.matrix()
            program = [os.environ["SPASM"], "certify", "--modulus", modulus, "--kind", self.random.choice(["rank", "rref", "kernel"])]
            claim = subprocess.run(program, input=matrix.encode(), capture_output=True, check=True).stdout.decode()
            text = matrix + (claim if case % 4 == 0 else self.changed(claim))
            wanted = subprocess.run([os.environ["SPASM"], "check", "--modulus", modulus], input=text.encode(), capture_output=True)
            ran = run(text, "--modulus", modulus)
            with self.subTest(text=text, modulus=modulus):
                self.assertEqual((ran.returncode, ran.stdout, ran.stderr), (wanted.returncode, wanted.stdout, wanted.stderr))
            seen.add(wanted.returncode)
        self.assertEqual(seen, {0, 1, 3})


if __name__ == "__main__":
    unittest.main()

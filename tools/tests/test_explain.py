"""Tests of tools/explain: inputs, their fault lines and what is said of them; `spasm` gives the same fault lines if SPASM names it."""
import os
import pathlib
import subprocess
import tempfile
import unittest

TOOL = pathlib.Path(__file__).resolve().parents[1] / "explain"

# A command, what is sent, the fault line, and a piece of what is said of it.
TEXTS: list[tuple[str, bytes, str, str]] = [
    ("rank", b"2 2 M\n3 1 1\n0 0 0\n", "error 3 line 2 kind 4", "line 2, '3 1 1': the row isn't from 1 to the height; the header's height"),
    ("rank", b"2 3 M\n3 1 1\n0 0 0\n", "error 3 line 2 kind 4", "the header has the height first"),
    ("rank", b"2 2 M\n0 1 1\n0 0 0\n", "error 3 line 2 kind 4", "seems to count from 0"),
    ("rank", b"2 2 M\n1 0 1\n0 0 0\n", "error 3 line 2 kind 5", "seems to count from 0"),
    ("rank", b"2 2 M\n1 3 1\n0 0 0\n", "error 3 line 2 kind 5", "the header's width or the column is wrong"),
    ("rank", b"2 2\n1 1 1\n0 0 0\n", "error 3 line 1 kind 1", "such as `3 4 M`"),
    ("rank", b"%%MatrixMarket matrix coordinate integer general\n2 2 1\n1 1 1\n", "error 3 line 2 kind 1", "tools/mtx2sms"),
    ("rank", b"\x1f\x8b\x08\x00\x00\x00\n1 1 1\n", "error 3 line 1 kind 1", "`zcat FILE |`"),
    ("rank", "1 1 M\n".encode("utf-16"), "error 3 line 1 kind 1", "it may be UTF-16"),
    ("rank", b"\xef\xbb\xbf1 1 M\n0 0 0\n", "error 3 line 1 kind 2", "byte order mark"),
    ("rank", b"\xef\xbb\xbf% x\n1 1 M\n0 0 0\n", "error 3 line 1 kind 1", "byte order mark"),
    ("rank", b"1 1 M\n1,1,1\n", "error 3 line 2 kind 1", "separated by spaces"),
    ("rank", b"1 1 M\n1 1\n0 0 0\n", "error 3 line 2 kind 1", "the value is missing"),
    ("rank", b"1 1 M\n1 1 0.5\n0 0 0\n", "error 3 line 2 kind 2", "write it as a fraction"),
    ("rank", b"1 1 M\n1 -1 5\n0 0 0\n", "error 3 line 2 kind 2", "an index has no sign"),
    ("rank", b"1 1 M\n1 1 1/7\n0 0 0\n", "error 3 line 2 kind 10", "take another prime"),
    ("rank", b"3000000000 1 M\n0 0 0\n", "error 3 line 1 kind 3", "at most 2147483647"),
    ("rank", b"", "error 3 line 1 kind 6", "the end of the input: the input ends where a header is due; the input is empty"),
    ("rank", b"1 1 M\n1 1 1\n", "error 3 line 3 kind 7", "the closing line `0 0 0` is missing"),
    ("solve", b"1 1 M\n1 1 1\n0 0 0\n", "error 3 line 4 kind 6", "the command reads another text"),
    ("solve", b"1 1 M\n1 1 1\n1 1 M\n1 1 1\n0 0 0\n", "error 3 line 3 kind 2", "`0 0 0` of the text before is missing"),
    ("solve", b"1 1 M\n1 1 1\n0 0 01 1 M\n1 1 1\n0 0 0\n", "error 3 line 3 kind 1", "no line end"),
    ("solve", b"2 2 M\n0 0 0\n0 1 1\n1 0 1\n1 1 1\n", "error 3 line 3 kind 1", "counted from 0"),
    ("solve", b"2 2 M\n0 0 0\n1 2 M\n0 0 0\n", "error 4 shape 1 2", "this one is a row"),
    ("solve", b"2 2 M\n0 0 0\n3 1 M\n0 0 0\n", "error 4 shape 3 1", "the height differs"),
    ("inverse", b"2 3 M\n0 0 0\n", "error 4 shape 2 3", "`inverse` wants a square matrix"),
    ("rang", b"", "error 2 usage", "a command comes first"),
    ("check", b"1 1 M\n0 0 0\n1 1 M\n0 0 0\n", "error 3 line 3 kind 9", "a text of a matrix stands where a certificate is due"),
    ("check", b"1 1 M\n0 0 0\ntrace 7 0\n", "error 3 line 3 kind 9", "which `replay` reads"),
    ("check", b"2 2 M\n1 1 1\n2 2 1\n0 0 0\ncertificate rank 7 1\n1 1\n2 2\n", "error 3 line 7 kind 1", "a header is due here"),
    ("replay", b"1 1 M\n0 0 0\ncertificate rank 7 0\n", "error 3 line 3 kind 11", "which `check` reads"),
    ("grow", b"1 1 M\n0 0 0\nrow 1\nend\n", "error 3 line 3 kind 12", "a column has no value"),
    ("grow", b"1 1 M\n0 0 0\nrow 0 1\nend\n", "error 3 line 3 kind 12", "columns are counted from 1"),
    ("grow", b"1 1 M\n0 0 0\nrow 2 1\nend\n", "error 3 line 3 kind 12", "above the width"),
    ("grow", b"1 1 M\n0 0 0\nrows\nend\n", "error 3 line 3 kind 12", "misspelled"),
    ("grow", b"1 1 M\n0 0 0\nrank\n", "error 3 line 4 kind 7", "a script ends with `end`"),
]

# A fault line for which no file is given, and a piece of what is said of it.
ALONE = [
    ("error 6 read", "the input failed"),
    ("error 7 write", "the output failed"),
    ("error 8 memory", "too little memory"),
    ("error 9 wide 2147483647 2", "the matrix is 2147483647 x 2"),
    ("error 4 shape 2 1 question 7", "right-hand side 7 is 2 x 1"),
    ("error 3 line 5 kind 8", "line 5: the input is longer"),
    ("some words\nerror 6 read\n", "the input failed"),
]


def run(fault: str, *files: str, text: str = "") -> subprocess.CompletedProcess:
    """The tool's run."""
    return subprocess.run([TOOL, fault, *files], input=text, capture_output=True, text=True)


class Explaining(unittest.TestCase):
    """What is said of faults."""

    def setUp(self) -> None:
        folder = tempfile.TemporaryDirectory()
        self.addCleanup(folder.cleanup)
        self.folder = pathlib.Path(folder.name)

    def test_texts(self) -> None:
        for number, (_, sent, fault, said) in enumerate(TEXTS):
            path = self.folder / f"{number}.sms"
            path.write_bytes(sent)
            with self.subTest(sent=sent):
                ran = run(fault, str(path))
                self.assertEqual((ran.returncode, ran.stdout.count("\n"), ran.stderr), (0, 1, ""))
                self.assertIn(said, ran.stdout)

    @unittest.skipUnless(os.environ.get("SPASM"), "SPASM names no program")
    def test_fault_lines_are_the_program_s(self) -> None:
        for command, sent, fault, _ in TEXTS:
            with self.subTest(command=command, sent=sent):
                ran = subprocess.run([os.environ["SPASM"], command, "--modulus", "7"], input=sent, capture_output=True)
                self.assertEqual(ran.stderr.decode(), f"{fault}\n")

    def test_fault_lines_alone(self) -> None:
        for fault, said in ALONE:
            with self.subTest(fault=fault):
                self.assertIn(said, run(fault).stdout)
                self.assertIn(said, run("-", text=fault).stdout)

    def test_two_files_are_one_input(self) -> None:
        first, second = self.folder / "a.sms", self.folder / "b.sms"
        first.write_text("1 1 M\n1 1 1\n0 0 0\n")
        second.write_text("1 1 M\n2 1 1\n0 0 0\n")
        self.assertIn(f"line 5 (line 2 of {second}), '2 1 1'", run("error 3 line 5 kind 4", str(first), str(second)).stdout)
        first.write_text("1 1 M\n1 1 1\n0 0 0")
        self.assertIn("'0 0 01 1 M'", run("error 3 line 3 kind 1", str(first), str(second)).stdout)

    def test_other_lines(self) -> None:
        for fault in ("", "error 3 line 1 kind 13", "rank 2", "error 5"):
            with self.subTest(fault=fault):
                ran = run(fault)
                self.assertEqual((ran.returncode, ran.stdout), (1, ""))
        self.assertIn("/no/such/file", run("error 3 line 1 kind 1", "/no/such/file").stderr)


if __name__ == "__main__":
    unittest.main()

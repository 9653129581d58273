"""Tests of examples/run_blocks: which outputs a page's lines match, and that a page with another output fails."""
import importlib.machinery
import importlib.util
import pathlib
import subprocess
import tempfile
import unittest

SCRIPT = pathlib.Path(__file__).resolve().parents[2] / "examples" / "run_blocks"
loader = importlib.machinery.SourceFileLoader("run_blocks", str(SCRIPT))
run_blocks = importlib.util.module_from_spec(importlib.util.spec_from_loader("run_blocks", loader))
loader.exec_module(run_blocks)

# What a page shows, what a command prints, and whether they fit.
OUTPUTS = [
    ("rank 2\n", "rank 2\n", True),
    ("rank 2\n", "rank 3\n", False),
    ("rank 2\n", "rank 2\nrank 2\n", False),
    ("", "", True),
    ("", "rank 2\n", False),
    ("rank 2\n", "", False),
    ("a...c\n", "abbc\n", True),
    ("a...c\n", "ab\nc\n", False),
    ("a.c\n", "abc\n", False),
    ("a\n...\nd\n", "a\nb\nc\nd\n", True),
    ("a\n...\nd\n", "a\nd\n", True),
    ("a\n...\nd\n", "a\nb\nc\n", False),
    ("...\n", "", True),
]

# What a page has, and the end of what is printed with the status.
PAGES = [
    ("```console\n$ echo one\none\n$ echo two > file; cat file\ntwo\n```\n", "1 passed, 0 failed, 0 skipped\n", 0),
    ("```console\n$ echo one\ntwo\n```\n```console\n$ echo one\none\n```\n", "1 passed, 1 failed, 0 skipped\n", 1),
    ("```console\n# needs no_such_tool\n$ no_such_tool\n```\n", "0 passed, 0 failed, 1 skipped\n", 1),
    ("```console\n$ echo one \\\n  two\none two\n```\n", "1 passed, 0 failed, 0 skipped\n", 0),
    ("```console\n$ touch file\n```\n```console\n$ ls file\n...: ...\n```\n", "2 passed, 0 failed, 0 skipped\n", 0),
    ("```sh\n$ false\n```\n", "0 passed, 0 failed, 0 skipped\n", 1),
]


class Blocks(unittest.TestCase):
    """Blocks of pages."""

    def test_outputs(self) -> None:
        for shown, printed, fits in OUTPUTS:
            with self.subTest(shown=shown, printed=printed):
                self.assertEqual(run_blocks.pattern_of(shown).fullmatch(printed) is not None, fits)

    def test_pages(self) -> None:
        with tempfile.TemporaryDirectory() as name:
            page = pathlib.Path(name, "page.md")
            for text, end, status in PAGES:
                with self.subTest(text=text):
                    page.write_text(text)
                    ran = subprocess.run([SCRIPT, str(page)], capture_output=True, text=True)
                    self.assertEqual((ran.stdout[-len(end):], ran.returncode, ran.stderr), (end, status, ""))


if __name__ == "__main__":
    unittest.main()

"""Tests of tools/spy, by pivots that a program of the test's own gives."""
import os
import pathlib
import re
import subprocess
import tempfile
import unittest
import xml.etree.ElementTree as tree

TOOL = pathlib.Path(__file__).resolve().parents[1] / "spy"
SVG = "{http://www.w3.org/2000/svg}"


class Drawing(unittest.TestCase):
    """What is drawn."""

    def setUp(self) -> None:
        folder = tempfile.TemporaryDirectory()
        self.addCleanup(folder.cleanup)
        self.folder = pathlib.Path(folder.name)

    def drawn(self, text: str, pivots: str, status: int = 0) -> subprocess.CompletedProcess:
        """The tool's run on a text, of which the program says these pivots."""
        program, matrix = self.folder / "program", self.folder / "matrix.sms"
        program.write_text(f"#!/bin/sh\nprintf '{pivots}'\nexit {status}\n")
        program.chmod(0o755)
        matrix.write_text(text)
        return subprocess.run([TOOL, str(matrix)], capture_output=True, text=True, env=os.environ | {"SPASM": str(program)})

    def pictures(self, svg: str) -> list[set[tuple[int, int]]]:
        """The cells of each picture: its row and column."""
        root = tree.fromstring(svg)
        groups = [group for group in root.iter(f"{SVG}g") if "scale" in group.get("transform", "")]
        return [{(int(float(row)), int(float(column)) + step)
                 for path in group for column, row, count in re.findall(r"M([\d.]+) ([\d.]+)h([\d.]+)", path.get("d"))
                 for step in range(max(round(float(count)), 1))} for group in groups]

    def test_order(self) -> None:
        ran = self.drawn("# a comment\n3 3 M\n1 1 1\n\n2 2 1\n3 3 1\n1 3 1\n0 0 0\n", "pivots 2\\n3 3\\n1 1\\n")
        self.assertEqual((ran.returncode, ran.stderr), (0, ""))
        # Rows 3, 1, 2 and columns 3, 1, 2 come in this order.
        self.assertEqual(self.pictures(ran.stdout), [{(0, 0), (0, 2), (1, 1), (2, 2)}, {(0, 0), (1, 0), (1, 1), (2, 2)}])
        self.assertIn("as given: 3 x 3, 4 entries", ran.stdout)
        self.assertIn("in the order of 2 pivots", ran.stdout)
        self.assertIn('d="M0 0H400V400z"', ran.stdout)

    def test_cells_are_at_most_600(self) -> None:
        for height, width, cells in ((1200, 1200, (600, 600)), (6000, 3, (600, 3)), (3, 6000, (3, 600)), (2147483647, 2147483647, (600, 600))):
            with self.subTest(height=height, width=width):
                ran = self.drawn(f"{height} {width} M\n1 1 1\n{height} {width} 1\n0 0 0\n", "pivots 0\\n")
                last = cells[0] - 1, cells[1] - 1
                self.assertEqual(self.pictures(ran.stdout), [{(0, 0), last}] * 2)

    def test_no_entries(self) -> None:
        for size in ("0 0", "0 5", "5 0", "5 5"):
            with self.subTest(size=size):
                ran = self.drawn(f"{size} M\n0 0 0\n", "pivots 0\\n")
                self.assertEqual((ran.returncode, self.pictures(ran.stdout)), (0, [set(), set()]))

    def test_a_fault_of_the_program_is_the_tool_s(self) -> None:
        ran = self.drawn("1 1 M\n2 1 1\n0 0 0\n", "", 3)
        self.assertEqual((ran.returncode, ran.stdout), (3, ""))


if __name__ == "__main__":
    unittest.main()

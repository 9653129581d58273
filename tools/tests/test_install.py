"""Tests of ./install, on a copy of it with files in the place of built programs."""
import pathlib
import shutil
import subprocess
import tempfile
import unittest

ROOT = pathlib.Path(__file__).resolve().parents[2]
BUILT = {"crates/spasm_main/out/spasm_main": "bin/spasm", "crates/spasm_batch/out/spasm_batch": "bin/spasm_batch"}
PAGES = {"docs/spasm.1": "share/man/man1/spasm.1", "docs/spasm_batch.1": "share/man/man1/spasm_batch.1"}
LIBRARY = {"c/build/libspasm.a": "lib/libspasm.a", "c/build/libspasm.so": "lib/libspasm.so", "c/spasm.h": "include/spasm.h"}
# What pkg-config reads, as c/build.sh writes it and as it is installed.
BUILT_NAMES = "Name: spasm\nCflags: -I/a root/c\nLibs: -L/a root/c/build -lspasm\n"
NAMES = "Name: spasm\nCflags: -I${pcfiledir}/../../include\nLibs: -L${pcfiledir}/.. -lspasm\n"


class Installing(unittest.TestCase):
    """What is copied and taken away."""

    def setUp(self) -> None:
        folder = tempfile.TemporaryDirectory()
        self.addCleanup(folder.cleanup)
        self.root, self.prefix = pathlib.Path(folder.name, "a root"), pathlib.Path(folder.name, "a prefix")
        self.root.mkdir()
        shutil.copy(ROOT / "install", self.root)
        self.put(PAGES)

    def put(self, files: dict[str, str]) -> None:
        """Makes files of the root, each with its own path as content."""
        for name in files:
            path = self.root / name
            path.parent.mkdir(parents=True, exist_ok=True)
            path.write_text(name)
            path.chmod(0o755)

    def run_install(self, *words: str) -> subprocess.CompletedProcess:
        """A run of the script."""
        return subprocess.run([self.root / "install", *words], capture_output=True, text=True)

    def installed(self) -> dict[str, str]:
        """The files below the prefix, with the paths that they come from."""
        return {path.read_text(): str(path.relative_to(self.prefix)) for path in self.prefix.rglob("*") if path.is_file()}

    def test_without_the_library(self) -> None:
        self.put(BUILT)
        for _ in range(2):
            self.assertEqual(self.run_install(str(self.prefix)).returncode, 0)
            self.assertEqual(self.installed(), BUILT | PAGES)
        self.assertTrue((self.prefix / "bin/spasm").stat().st_mode & 0o100)
        self.assertFalse((self.prefix / "share/man/man1/spasm.1").stat().st_mode & 0o100)

    def test_with_the_library_and_away_again(self) -> None:
        self.put(BUILT | LIBRARY)
        (self.root / "c/build/spasm.pc").write_text(BUILT_NAMES)
        self.assertEqual(self.run_install(str(self.prefix)).returncode, 0)
        self.assertEqual(self.installed(), BUILT | PAGES | LIBRARY | {NAMES: "lib/pkgconfig/spasm.pc"})
        self.assertEqual((self.root / "c/build/spasm.pc").read_text(), BUILT_NAMES)
        other = self.prefix / "bin/other"
        other.write_text("other")
        self.assertEqual(self.run_install("--uninstall", str(self.prefix)).returncode, 0)
        self.assertEqual(list(self.prefix.iterdir()), [self.prefix / "bin"])
        self.assertEqual(self.installed(), {"other": "bin/other"})

    def test_not_built(self) -> None:
        ran = self.run_install(str(self.prefix))
        self.assertEqual(ran.returncode, 1)
        self.assertIn("run ./build first", ran.stderr)
        self.assertFalse(self.prefix.exists())

    def test_words(self) -> None:
        for words, status in (((), 2), (("",), 2), (("--unknown",), 2), (("--help",), 0), (("a", "b"), 2)):
            with self.subTest(words=words):
                self.assertEqual(self.run_install(*words).returncode, status)


if __name__ == "__main__":
    unittest.main()

"""Tests of tools/bundle: what it makes runs without the sources, with no program on the PATH but python3."""
import os
import shutil
import subprocess
import sys
import tempfile
import unittest
from pathlib import Path
from typing import List

from .helpers import EXAMPLES, TOOLS, any_library

from explorer.errors import ExploreError
from explorer.finding import default_program, found_program


class BundleTest(unittest.TestCase):
    def setUp(self) -> None:
        directory = tempfile.TemporaryDirectory()
        self.addCleanup(directory.cleanup)
        self.directory = Path(directory.name)
        self.folder = self.directory / "pmem"

    def bundle(self, *words: str) -> "subprocess.CompletedProcess[str]":
        return subprocess.run([sys.executable, str(TOOLS / "bundle"), *words], stdin=subprocess.DEVNULL, stdout=subprocess.PIPE,
                              stderr=subprocess.PIPE, universal_newlines=True)

    def here(self, *words: str, text: str = "", **variables: str) -> "subprocess.CompletedProcess[str]":
        """Runs a command in the folder, with nothing but python3 on the PATH."""
        bin_folder = self.directory / "bin"
        bin_folder.mkdir(exist_ok=True)
        if not (bin_folder / "python3").exists():
            (bin_folder / "python3").symlink_to(sys.executable)
        found = str(bin_folder / words[0]) if words[0] == "python3" else words[0]
        return subprocess.run([found, *words[1:]], cwd=self.folder, input=text, env={"PATH": str(bin_folder), **variables}, stdout=subprocess.PIPE,
                              stderr=subprocess.PIPE, universal_newlines=True)

    def test_a_folder_to_hand_out(self) -> None:
        try:
            program = found_program(default_program())
        except ExploreError as error:
            self.skipTest(str(error))
        made = self.bundle(str(self.folder), "--program", program, "--library", str(any_library().parent))
        self.assertEqual((made.returncode, made.stderr), (0, ""))
        trace = (EXAMPLES / "first.trace").read_text()
        wanted = (EXAMPLES / "first.out").read_text()
        for words in (["program/pmem", "run"], ["/bin/bash", "pmem", "run"]):
            ran = self.here(*words, text=trace)
            self.assertEqual((ran.stdout, ran.stderr, ran.returncode), (wanted, "", 0))
        self.assertIn("\nthe program: the one of this bundle: ", self.here("/bin/bash", "pmem", "--version").stdout)
        self.assertIn("The program was named when this was made", (self.folder / "START.txt").read_text())
        checked = self.here("lessons/check")
        self.assertEqual((checked.returncode, checked.stderr), (0, ""), checked.stdout)
        self.assertRegex(checked.stdout, r"\n[1-9][0-9]+ passed, 0 failed\n$")
        handed = self.here("lessons/handout", str(self.directory / "lab"))
        self.assertEqual((handed.returncode, handed.stdout.count("\n")), (0, 4), handed.stderr)
        explored = self.here("tools/explore", "steps", "examples/first.trace")
        self.assertEqual((explored.returncode, explored.stderr), (0, ""))
        self.assertTrue(explored.stdout.endswith("persist steps\n"))
        stored = self.here("python3", "examples/python/store.py", PYTHONPATH="python")
        self.assertEqual((stored.returncode, stored.stderr), (0, ""))
        asked = self.here("python3", "-c", "import pmem; print(pmem.way_of())", PYTHONPATH="python")
        self.assertEqual(asked.stdout, f"<the library {self.folder.resolve()}/lib/libpmem.so>\n", asked.stderr)
        self.assertEqual(self.here("python3", "tools/explore", "--version").stdout, f"explore {(TOOLS.parent / 'VERSION').read_text()}")
        self.assertEqual(self.sums(), ["0 failed"])
        (self.folder / "examples" / "first.out").write_text("other\n")
        (self.folder / "examples" / "first.trace").unlink()
        (self.folder / "docs" / "more.md").write_text("added\n")
        (self.folder / "lib" / "deep").symlink_to(self.folder / "docs")
        self.assertEqual(self.sums(), ["examples/first.out: FAILED", "examples/first.trace: FAILED", "docs/more.md: ADDED", "lib/deep: ADDED",
                                       "4 failed"])

    def test_what_belongs_to_it(self) -> None:
        """Only what git tracks is packed, and no link out of the repository."""
        top = self.directory / "top"
        (top / "docs").mkdir(parents=True)
        for name in ("bundle", "explorer"):
            (top / "tools").mkdir(exist_ok=True)
            shutil.copytree(TOOLS / name, top / "tools" / name) if name == "explorer" else shutil.copy(TOOLS / name, top / "tools" / name)
        shutil.copytree(TOOLS.parent / "python" / "pmem", top / "python" / "pmem")
        for name, text in (("VERSION", "1.2.3\n"), ("README.md", "read\n"), ("docs/one.md", "one\n"), ("lib/libpmem.a", "a"),
                           ("lib/libpmem.so", "s")):
            (top / name).parent.mkdir(exist_ok=True)
            (top / name).write_text(text)
        git = ["git", "-C", str(top), "-c", "user.name=x", "-c", "user.email=x@y"]
        for words in (["init", "-q"], ["add", "VERSION", "README.md", "docs"], ["commit", "-qm", "x"]):
            subprocess.run([*git, *words], check=True)
        (top / "docs" / ".env").write_text("secret\n")
        words = [sys.executable, str(top / "tools" / "bundle"), str(self.folder), "--program", "/bin/true", "--library", str(top / "lib")]
        made = subprocess.run(words, stdout=subprocess.PIPE, stderr=subprocess.PIPE, universal_newlines=True)
        self.assertEqual((made.returncode, made.stderr), (0, ""))
        found = sorted(str(path.relative_to(self.folder)) for path in self.folder.rglob("*") if path.is_file())
        self.assertEqual(found, ["README.md", "SHA256SUMS", "START.txt", "VERSION", "check_sums", "docs/one.md", "lib/libpmem.a", "lib/libpmem.so",
                                 "program/pmem"])
        self.assertIn("There is no license yet", (self.folder / "START.txt").read_text())
        (top / "docs" / "two.md").symlink_to("/etc/hostname")
        subprocess.run([*git, "add", "docs/two.md"], check=True)
        shutil.rmtree(self.folder)
        made = subprocess.run(words, stdout=subprocess.PIPE, stderr=subprocess.PIPE, universal_newlines=True)
        self.assertEqual((made.returncode, made.stdout, made.stderr.count("\n")), (1, "", 1))
        self.assertIn("docs/two.md leads out of the repository", made.stderr)
        self.assertFalse(self.folder.exists())

    def sums(self) -> List[str]:
        """What the check of the sums says, except how many passed."""
        lines = self.here("./check_sums").stdout.splitlines()
        return [*lines[:-1], lines[-1].split(", ")[1]]

    def test_what_cannot_be_made(self) -> None:
        shutil.copy("/bin/true", self.directory / "true")
        for words, told in (([str(self.directory), "--program", "/bin/true"], "exists already"),
                            ([str(self.folder), "--program", str(self.directory)], "is not a program"),
                            ([str(self.folder), "--program", str(TOOLS / "bundle")], "is a script"),
                            ([str(self.directory / "true" / "x"), "--program", "/bin/true", "--library", str(self.directory)], "cannot make")):
            made = self.bundle(*words)
            self.assertEqual((made.returncode, made.stdout, made.stderr.count("\n")), (1, "", 1), made.stderr)
            self.assertIn(told, made.stderr)
            self.assertFalse(os.path.lexists(self.folder))


if __name__ == "__main__":
    unittest.main()

"""The version stands in one place, the file VERSION. What repeats it, and what prints it, has the same."""
import os
import re
import subprocess
import sys
import unittest

from .helpers import TOOLS

TOP = TOOLS.parent
VERSION = (TOP / "VERSION").read_text()


class VersionTest(unittest.TestCase):
    def said(self, *words: str) -> str:
        ended = subprocess.run(words, stdin=subprocess.DEVNULL, stdout=subprocess.PIPE, stderr=subprocess.PIPE, universal_newlines=True,
                               check=False)
        self.assertEqual((ended.returncode, ended.stderr), (0, ""), words)
        return ended.stdout

    def test_one_number(self) -> None:
        self.assertRegex(VERSION, r"\A[0-9]+\.[0-9]+\.[0-9]+\n\Z")
        version = VERSION.strip()
        texts = {
            "include/pmem.h": rf'^#define PMEM_VERSION "{re.escape(version)}"$',
            "python/pmem/__init__.py": rf'^__version__ = "{re.escape(version)}"$',
            "CITATION.cff": rf'^version: {re.escape(version)}$',
        }
        for name, line in texts.items():
            self.assertEqual(len(re.findall(line, (TOP / name).read_text(), re.M)), 1, name)

    def test_commands(self) -> None:
        version = VERSION.strip()
        self.assertEqual(self.said("bash", str(TOP / "pmem"), "--version").splitlines()[0], f"pmem {version}")
        for name, says in (("explore", "explore"), ("library", "library"), ("release", "release")):
            self.assertEqual(self.said(sys.executable, str(TOOLS / name), "--version"), f"{says} {version}\n")

    def test_python(self) -> None:
        said = subprocess.run([sys.executable, "-c", "import pmem; print(pmem.__version__)"], env={**os.environ, "PYTHONPATH": str(TOP / "python")},
                              stdout=subprocess.PIPE, universal_newlines=True, check=True).stdout
        self.assertEqual(said, VERSION)

    def test_no_other_number(self) -> None:
        """The projects of Python have no number of their own."""
        for name in ("pyproject.toml", "python/pyproject.toml"):
            text = (TOP / name).read_text()
            self.assertNotRegex(text, r'(?m)^version = "')
            self.assertIn('dynamic = ["version"]', text)


if __name__ == "__main__":
    unittest.main()

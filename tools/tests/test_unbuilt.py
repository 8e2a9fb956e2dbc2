"""What `explore` and lessons/check do if there is no program, and nothing to build one of; and with other programs."""
import os
import shutil
import signal
import subprocess
import sys
import tempfile
import unittest
from pathlib import Path

ROOT = Path(__file__).resolve().parents[2]


class UnbuiltTest(unittest.TestCase):
    def setUp(self) -> None:
        directory = tempfile.TemporaryDirectory()
        self.addCleanup(directory.cleanup)
        self.root = Path(directory.name)
        for name in ("tools/explorer", "python/pmem", "lessons", "examples", "crates/pmem/src"):
            shutil.copytree(ROOT / name, self.root / name)
        for name in ("pmem", "crates.txt", "tools/explore"):
            shutil.copy(ROOT / name, self.root / name)
        self.environment = {name: text for name, text in os.environ.items() if name != "PMEM_PROGRAM"}
        (self.root / "bin").mkdir()
        self.script("bin/rt", 'echo "$*" >>"$STATE"')
        self.environment.update(PATH=f"{self.root}/bin:{os.environ['PATH']}", STATE=str(self.root / "calls"))

    def script(self, name: str, text: str) -> None:
        """Writes a program for the shell."""
        path = self.root / name
        path.parent.mkdir(parents=True, exist_ok=True)
        path.write_text(f"#!/bin/sh\n{text}\n")
        path.chmod(0o755)

    def run_here(self, *words: str) -> "subprocess.CompletedProcess[str]":
        return subprocess.run([sys.executable, *words], cwd=self.root, env=self.environment, stdin=subprocess.DEVNULL,
                              stdout=subprocess.PIPE, stderr=subprocess.PIPE, universal_newlines=True)

    def test_no_program_is_said_and_nothing_is_proved(self) -> None:
        for words in (["tools/explore", "steps", "examples/first.trace"], ["tools/explore", "cuts", "examples/first.trace"],
                      ["tools/explore", "sweep", "examples/first.trace"], ["lessons/check"]):
            found = self.run_here(*words)
            self.assertEqual((found.returncode, found.stdout), (1, ""), found.stderr)
            self.assertTrue(found.stderr.startswith("pmem: this folder has no program, and nothing to build one of\n"), found.stderr)
            self.assertLessEqual(found.stderr.count("\n"), 2)
        self.assertFalse((self.root / "calls").exists())

    def test_a_program_that_is_none(self) -> None:
        for name in ("none", "lessons"):
            self.environment["PMEM_PROGRAM"] = str(self.root / name)
            found = self.run_here("lessons/check")
            self.assertEqual((found.returncode, found.stdout, found.stderr.count("\n")), (1, "", 1), found.stderr)
            self.assertIn("which is not a program", found.stderr)

    def test_the_program_of_a_bundle_is_asked(self) -> None:
        shutil.rmtree(self.root / "crates")
        self.script("program/pmem", 'echo "$*" >>"$STATE"; echo ok')
        self.environment["PATH"] = ""
        self.run_here("tools/explore", "sweep", "examples/first.trace")
        self.run_here("lessons/check")
        calls = (self.root / "calls").read_text().splitlines()
        self.assertEqual((calls[0].split(" ")[0], calls[1]), ("run", "run"))

    def test_an_interrupt_of_the_lessons(self) -> None:
        self.script("waiting", 'echo "$*" >>"$STATE"; exec sleep 60')
        self.environment["PMEM_PROGRAM"] = str(self.root / "waiting")
        with subprocess.Popen([sys.executable, "lessons/check"], cwd=self.root, env=self.environment, stdin=subprocess.DEVNULL,
                              stdout=subprocess.PIPE, stderr=subprocess.PIPE, universal_newlines=True,
                              start_new_session=True) as run:
            while not (self.root / "calls").exists():
                self.assertIsNone(run.poll())
            os.killpg(run.pid, signal.SIGINT)
            self.assertEqual(run.communicate(timeout=240), ("", "lessons/check: interrupted\n"))
        self.assertEqual(run.returncode, 130)

    def test_an_interrupt_of_the_lessons_amid_their_imports(self) -> None:
        for name in ("subprocess", "goals"):
            text = f"""
import os, runpy, signal, sys, time
class Finder:
    def find_spec(self, name, path, target=None):
        if name == {name!r}:
            os.kill(os.getpid(), signal.SIGINT)
            time.sleep(0.1)
sys.meta_path.insert(0, Finder())
runpy.run_path("lessons/check", run_name="__main__")
"""
            found = subprocess.run([sys.executable, "-c", text], cwd=self.root, env=self.environment, stdin=subprocess.DEVNULL,
                                   stdout=subprocess.PIPE, stderr=subprocess.PIPE, universal_newlines=True, check=False)
            self.assertEqual((found.returncode, found.stdout, found.stderr), (130, "", "lessons/check: interrupted\n"), name)


if __name__ == "__main__":
    unittest.main()

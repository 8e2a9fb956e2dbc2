"""The program gets along with the stack that docs/FORMATS.md names, whatever it is asked; ./pmem sees to it that it has that."""
import os
import re
import resource
import shutil
import subprocess
import tempfile
import unittest
from typing import List, Tuple

from .helpers import EXAMPLES, TOOLS, program_path

SAID = re.compile(r"at most (\d+) kB of stack")


def run(words: List[str], trace: bytes, stack: int) -> Tuple[int, bytes]:
    """The status and the output with this much stack, in bytes; 0 leaves it as it is."""
    def limit() -> None:
        if stack:
            resource.setrlimit(resource.RLIMIT_STACK, (stack, resource.getrlimit(resource.RLIMIT_STACK)[1]))
    ended = subprocess.run([program_path(), *words], input=trace, stdout=subprocess.PIPE, preexec_fn=limit, check=False)
    return ended.returncode, ended.stdout


class StackTest(unittest.TestCase):
    def test_each_machine_and_cipher(self) -> None:
        (said,) = SAID.findall((TOOLS.parent / "docs" / "FORMATS.md").read_text(encoding="utf-8"))
        traces = {"run": "power_cut", "wear": "wear", "txn": "txn", "tree": "tree"}
        cases = [[machine, "--suite", suite, log][:count] for machine in traces for suite in ("weak", "blur", "aes")
                 for log, count in (("", 3), ("--log", 4))]
        cases += [["run", "--levels", "6"], ["run", "--levels", "1"]]
        for words in cases:
            with self.subTest(words):
                trace = (EXAMPLES / f"{traces[words[0]]}.trace").read_bytes()
                due = run(words, trace, 0)
                self.assertIn(due[0], (0, 6))
                self.assertEqual(run(words, trace, 1024 * int(said)), due)
        for line in ("make 7 200", "sample 7 200", "check", ""):
            with self.subTest(line):
                self.assertEqual(run(line.split(), b"", 1024 * int(said)), run(line.split(), b"", 0))


class LauncherTest(unittest.TestCase):
    """./pmem raises a limit that is too low, or says so."""

    def made(self, soft: int, hard: int) -> Tuple[int, bytes, bytes]:
        """The status, the output and the messages of ./pmem under these limits of the stack, in bytes."""
        ended = subprocess.run([str(TOOLS.parent / "pmem"), "make", "7", "1"], stdout=subprocess.PIPE, stderr=subprocess.PIPE, check=False,
                               env={**os.environ, "PMEM_PROGRAM": program_path()},
                               preexec_fn=lambda: resource.setrlimit(resource.RLIMIT_STACK, (soft, hard)))
        return ended.returncode, ended.stdout, ended.stderr

    def test_its_number_is_that_of_the_page(self) -> None:
        (said,) = SAID.findall((TOOLS.parent / "docs" / "FORMATS.md").read_text(encoding="utf-8"))
        self.assertIn(f"\nstack_kb={said}\n", (TOOLS.parent / "pmem").read_text(encoding="utf-8"))

    def test_limits(self) -> None:
        due = run(["make", "7", "1"], b"", 0)
        hard = resource.getrlimit(resource.RLIMIT_STACK)[1]
        for soft in (100 << 10, 600 << 10):
            self.assertEqual(self.made(soft, hard), (*due, b""))
        self.assertEqual(self.made(600 << 10, 600 << 10), (*due, b""))
        for size in (100, 511):
            self.assertEqual(self.made(size << 10, size << 10), (
                1, b"stop memory\n", b"pmem: the limit of the stack is %d kB and cannot be raised, but the program needs 512 kB (ulimit -s 512)\n"
                % size))

    def test_the_program_has_what_was_raised(self) -> None:
        """Also if the program itself is asked for its limit."""
        with tempfile.TemporaryDirectory() as folder:
            program = os.path.join(folder, "program")
            with open(program, "w", encoding="ascii") as file:
                file.write("#!/bin/sh\nulimit -S -s\n")
            os.chmod(program, 0o755)
            hard = resource.getrlimit(resource.RLIMIT_STACK)[1]
            ended = subprocess.run([str(TOOLS.parent / "pmem"), "run"], stdout=subprocess.PIPE, env={**os.environ, "PMEM_PROGRAM": program},
                                   preexec_fn=lambda: resource.setrlimit(resource.RLIMIT_STACK, (100 << 10, hard)), check=True)
        self.assertEqual(ended.stdout, b"512\n")


class NotTextTest(unittest.TestCase):
    """An argument that is not UTF-8 is refused like every other invalid argument. Without ./pmem, the native program ends with status 1."""

    def test_by_the_launcher(self) -> None:
        for word in (b"\xff", b"--suite=\xc3", "\u00e9".encode(), b"run\x80"):
            ended = subprocess.run([str(TOOLS.parent / "pmem").encode(), b"run", word], input=b"stat\n", stdout=subprocess.PIPE,
                                   stderr=subprocess.PIPE, env={**os.environ, "PMEM_PROGRAM": program_path()}, check=False)
            self.assertEqual((ended.returncode, ended.stdout, ended.stderr), (2, b"stop words\n", b""))

    def test_a_folder_whose_name_is_not_text(self) -> None:
        """The native program doesn't take such a path as its own name, so ./pmem gives it another one."""
        with tempfile.TemporaryDirectory() as folder:
            place = os.path.join(os.fsencode(folder), b"\xff")
            shutil.copy(os.path.realpath(program_path()).encode(), place)
            ended = subprocess.run([str(TOOLS.parent / "pmem"), "make", "7", "1"], stdout=subprocess.PIPE, check=False,
                                   env={**os.environ, "PMEM_PROGRAM": os.fsdecode(place)})
        self.assertEqual((ended.returncode, ended.stdout), run(["make", "7", "1"], b"", 0))

    def test_by_the_program_itself(self) -> None:
        ended = subprocess.run([os.path.realpath(program_path()).encode(), b"run", b"\xff"], stdout=subprocess.PIPE, check=False)
        self.assertIn((ended.returncode, ended.stdout), ((2, b"stop words\n"), (1, b"")))


if __name__ == "__main__":
    unittest.main()

"""The examples of docs/EXPLORE.md are what the commands print."""
import os
import re
import shlex
import subprocess
import sys
from pathlib import Path
from typing import List, Tuple

from .helpers import EXAMPLES, EXPLORE, TOOLS, ExploreTest, program_path

PAGE = TOOLS.parent / "docs" / "EXPLORE.md"
# What isn't run here: other programs, pictures and sessions, and what would take long.
LEFT_OUT = ("valgrind", "gcc", "tools/record", "tools/explore import lackey", "tools/explore import pmemcheck", "tools/explore shell",
            "tools/explore draw", "tools/explore import csv store.csv", "tools/explore cuts store.trace", "tools/explore convert",
            "tools/explore sweep database.txn")


def examples() -> List[Tuple[str, str]]:
    """Each command of the page, with what stands below it."""
    found = []
    for block in re.findall(r"^```\n(\$ .*?)^```$", PAGE.read_text(encoding="utf-8"), re.MULTILINE | re.DOTALL):
        for part in re.split(r"^\$ ", block, flags=re.MULTILINE)[1:]:
            command, _, output = part.partition("\n")
            found.append((command, output))
    return found


class PageTest(ExploreTest):
    def run_in(self, command: str) -> "subprocess.CompletedProcess[str]":
        """Runs a command of the page in the test's directory."""
        words, _, name = command.partition(" > ")
        line = words.replace("tools/explore", f"{shlex.quote(sys.executable)} {shlex.quote(str(EXPLORE))}").replace(
            "./pmem", shlex.quote(os.path.abspath(program_path())))
        ran = subprocess.run(["sh", "-c", line], cwd=self.directory, stdout=subprocess.PIPE, stderr=subprocess.PIPE, universal_newlines=True,
                             env={**os.environ, "PMEM_PROGRAM": os.path.abspath(program_path())}, check=False)
        if name:
            Path(self.path(name)).write_text(ran.stdout, encoding="utf-8")
            ran.stdout = ""
        return ran

    def assert_shows(self, shown: str, printed: str) -> None:
        """The page shows what was printed; a line `..` stands for any lines, blanks between columns for any number of blanks then."""
        if "\n..\n" not in f"\n{shown}":
            self.assertEqual(printed, shown)
            return
        lines = iter([" ".join(line.split()) for line in printed.splitlines()])
        for line in shown.splitlines():
            if line != "..":
                self.assertIn(" ".join(line.split()), lines, f"not printed, or not in this order: {line}")

    def test_examples(self) -> None:
        os.symlink(EXAMPLES, self.path("examples"))
        count = 0
        for command, output in examples():
            if command.startswith("cat "):
                self.file(command[4:], output)
            elif not command.startswith(LEFT_OUT):
                count += 1
                with self.subTest(command):
                    ran = self.run_in(command)
                    self.assertEqual(ran.stderr, "")
                    self.assert_shows(output, ran.stdout)
                    self.assertEqual(ran.returncode, 3 if " fails " in output else 0)
        self.assertGreater(count, 13)

    def test_each_option_of_the_page_is_one_of_a_command(self) -> None:
        text = PAGE.read_text(encoding="utf-8")
        known = set()
        names = ("steps", "cuts", "sweep", "compare", "endurance", "attacks", "bounds", "figure", "draw", "export", "convert", "shell")
        for words in (["--help"], *([name, "--help"] for name in names),
                      *(["import", kind, "--help"] for kind in ("csv", "lackey", "pmemcheck"))):
            known |= set(re.findall(r"--[a-z][a-z-]*", self.output(*words)))
        ran = subprocess.run([sys.executable, str(TOOLS / "record"), "--help"], stdout=subprocess.PIPE, universal_newlines=True, check=True)
        known |= set(re.findall(r"--[a-z][a-z-]*", ran.stdout))
        others = {"--log", "--tool", "--trace-mem", "--log-file", "--log-stores", "--print-summary"}
        self.assertEqual(sorted(set(re.findall(r"(?<![\w-])--[a-z][a-z-]*", text)) - known - others), [])

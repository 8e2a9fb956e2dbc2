"""What pages show of runs is what the program does: commands at the terminal with their output, and tables of commands
with their replies."""
import os
import re
import subprocess
import tempfile
import unittest
from pathlib import Path
from typing import Iterator, List, Optional, Sequence, Tuple

from .helpers import TOOLS, program_path

TOP = TOOLS.parent
# The pages whose every example is run.
PAGES = ("README.md", "docs/HOW_IT_WORKS.md", "docs/TUTORIAL.md", "docs/FAQ.md", "docs/LIMITS.md", "docs/DESIGNS.md")
BLOCK = re.compile(r"^```console\n(.*?)^```$", re.M | re.S)
# A table whose first columns are commands and their replies; a comment just above it may give the machine and options.
TABLE = re.compile(r"(?:^<!-- (\w+[^\n]*?) -->\n+)?^\| Command \| Reply \|[^\n]*\n\|[-| :]+\|\n((?:\|[^\n]*\n)+)", re.M)
QUOTE = re.compile(r"`([^`]*)`")
# `11..11` in a command is a line of 64 such bytes.
WHOLE_LINE = re.compile(r"\b([0-9a-f]{2})\.\.\1\b")
# Stands between the outputs of two commands.
END = "-- the end of a command --"
# What the commands of pages need besides Python.
NEEDED = {"draw": "matplotlib"}


def console(text: str) -> Iterator[Tuple[str, List[str]]]:
    """The commands of a page's blocks, each with the lines that the page shows below it."""
    for block in BLOCK.finditer(text):
        lines = block[1].splitlines()
        at = 0
        while at < len(lines):
            if not lines[at].startswith("$ "):
                raise AssertionError(f"a block that doesn't begin with a command: {lines[at]}")
            command = [lines[at][2:]]
            while command[-1].endswith("\\"):
                at += 1
                command.append(lines[at].lstrip())
            at += 1
            shown = []
            while at < len(lines) and not lines[at].startswith("$ "):
                shown.append(lines[at])
                at += 1
            yield "\n".join(command), shown


def fits(shown: str, line: str) -> bool:
    """Whether a line is the one shown, in which `..` within a word stands for what is left out of it."""
    return bool(re.fullmatch(r"\S*".join(map(re.escape, shown.rstrip().split(".."))), line.rstrip()))


def fit(shown: Sequence[str], lines: Sequence[str]) -> bool:
    """Whether these are the lines shown, of which `..` alone on a line stands for any number."""
    if not shown:
        return not lines
    if shown[0].strip() == "..":
        return any(fit(shown[1:], lines[at:]) for at in range(len(lines) + 1))
    return bool(lines) and fits(shown[0], lines[0]) and fit(shown[1:], lines[1:])


def tables(text: str) -> Iterator[Tuple[str, List[str], List[str]]]:
    """The words of the command line, the commands and the replies of each table of a page."""
    for table in TABLE.finditer(text):
        rows = [re.split(r"(?<!\\)\|", row.strip())[1:3] for row in table[2].strip().split("\n")]
        commands = [command for row in rows for command in QUOTE.findall(row[0])]
        yield table[1] or "run", commands, [reply for row in rows for reply in QUOTE.findall(row[1])]


def trace_of(commands: Sequence[str]) -> str:
    return "".join(WHOLE_LINE.sub(lambda found: found[1] * 64, command) + "\n" for command in commands)


def missing_module(command: str) -> Optional[str]:
    """A module that the command needs and that isn't there."""
    for word, module in NEEDED.items():
        if f"explore {word} " in command and subprocess.run(["python3", "-c", f"import {module}"], capture_output=True).returncode:
            return module
    return None


class PageExamplesTest(unittest.TestCase):
    def setUp(self) -> None:
        """A folder that has all of the repository by links, so that what a command writes is written there."""
        directory = tempfile.TemporaryDirectory()
        self.addCleanup(directory.cleanup)
        self.folder = Path(directory.name)
        for path in TOP.iterdir():
            if path.name not in (".git", "out"):
                (self.folder / path.name).symlink_to(path)
        self.environment = {**os.environ, "PMEM_PROGRAM": os.path.abspath(program_path()), "COLUMNS": "120", "NO_COLOR": "1"}
        self.environment.pop("PMEM_LIBRARY", None)

    def texts(self) -> Iterator[Tuple[str, str]]:
        for page in PAGES:
            path = TOP / page
            if path.exists():
                yield page, path.read_text(encoding="utf-8")

    def outputs(self, commands: Sequence[str]) -> List[List[str]]:
        """What each of the commands prints, run one after the other by one shell."""
        script = "".join(f"{command}\nprintf '\\n{END}\\n'\n" for command in commands)
        done = subprocess.run(["bash", "-c", script], cwd=self.folder, env=self.environment, stdin=subprocess.DEVNULL,
                              stdout=subprocess.PIPE, stderr=subprocess.STDOUT, universal_newlines=True, check=False)
        parts = done.stdout.split(f"\n{END}\n")
        self.assertEqual(len(parts), len(commands) + 1, done.stdout)
        return [part.rstrip("\n").split("\n") if part.strip() else [] for part in parts[:-1]]

    def test_commands_print_what_pages_show(self) -> None:
        run = 0
        for page, text in self.texts():
            examples = list(console(text))
            printed_by_each = self.outputs([command for command, _ in examples])
            for (command, lines), printed in zip(examples, printed_by_each):
                with self.subTest(page=page, command=command):
                    lacks = missing_module(command)
                    if lacks:
                        self.skipTest(f"{lacks} is missing: {command}")
                    self.assertTrue(fit(lines, printed), "it printed\n" + "\n".join(printed))
                    run += 1
        self.assertGreater(run, 3)

    def test_tables_of_commands_have_their_replies(self) -> None:
        run = 0
        for page, text in self.texts():
            for words, commands, replies in tables(text):
                with self.subTest(page=page, commands=commands):
                    done = subprocess.run([self.environment["PMEM_PROGRAM"], *words.split()], input=trace_of(commands), cwd=self.folder,
                                          stdout=subprocess.PIPE, universal_newlines=True, check=False)
                    self.assertTrue(fit(replies, done.stdout.splitlines()), f"it printed\n{done.stdout}")
                    run += 1
        self.assertGreater(run, 0)


class CheckTest(unittest.TestCase):
    """What the checks themselves find."""

    def test_blocks_are_read(self) -> None:
        text = "text\n```console\n$ one \\\n  two   # why\nshown\n$ three\n```\n```sh\nfour\n```\n"
        self.assertEqual(list(console(text)), [("one \\\ntwo   # why", ["shown"]), ("three", [])])
        with self.assertRaises(AssertionError):
            list(console("```console\nno command\n```\n"))

    def test_lines_fit(self) -> None:
        self.assertTrue(fit(["ok", "line 00..00 0", "..", "end"], ["ok", f"line {'00' * 64} 0", "a", "b", "end"]))
        others: List[List[str]] = [["ok"], ["ok", "line 00 1 00 0", "end"], ["ok", "line 00100 0", "more"], []]
        for lines in others:
            self.assertFalse(fit(["ok", "line 00..00 0", "..", "end"], lines))
        self.assertFalse(fit([], ["more"]))

    def test_tables_are_read(self) -> None:
        text = ("<!-- wear --every 1 -->\n\n| Command | Reply | Why |\n|---|---|---|\n| `write 0 0a..0a`, `on` | `ok`, `already` | `no` |\n"
                "\n| Command | Answer |\n|---|---|\n| `x` | `y` |\n")
        self.assertEqual(list(tables(text)), [("wear --every 1", ["write 0 0a..0a", "on"], ["ok", "already"])])
        self.assertEqual(trace_of(["write 0 0a..0a", "on"]), f"write 0 {'0a' * 64}\non\n")


if __name__ == "__main__":
    unittest.main()

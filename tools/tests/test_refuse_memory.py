"""tools/refuse_memory: its traces are answered so by the program, and what it says of runs in which a growth of memory is refused,
by a script in the place of `rt`."""
import importlib.machinery
import importlib.util
import json
import os
import subprocess
import sys
import unittest
from typing import Any

from .helpers import TOOLS, ExploreTest, program_path

TOOL = TOOLS / "refuse_memory"

# Instead of `rt try`: the last command of each case allocates memory in growth 2, and none does from 3 on; growth 1 is the
# words'. WRONG says what else goes wrong.
RT = """
import json, os, sys
words = sys.argv[1:]
folder, growth = words[words.index("--cases") + 1], int(words[words.index("--fail-alloc") + 1])
rows = json.loads(os.environ["ROWS"])
with open(os.environ["CALLS"], "a") as calls:
    calls.write(" ".join(words[words.index("--") + 1:]) + "\\n")
for name in sorted(os.listdir(folder)):
    whole = "".join(reply + "\\n" for _, reply in rows[name])
    before = "".join(reply + "\\n" for _, reply in rows[name][:-1])
    status, output = {1: (1, ""), 2: (1, before + "stop memory\\n")}.get(growth, (0, whole))
    if growth == 2:
        status, output = {"": (status, output), "goes on": (0, before), "no stop": (1, before), "status": (4, output)}[os.environ["WRONG"]]
    if not (growth == 2 and os.environ["LOST"]):
        print(f"== {name}\\n{output}", end="")
        print(f"case={name} run=ended status={status} x", file=sys.stderr)
"""


def tool() -> Any:
    """The tool as a module, without a compiled copy next to it."""
    sys.dont_write_bytecode = True
    loader = importlib.machinery.SourceFileLoader("refuse_memory", str(TOOL))
    spec = importlib.util.spec_from_loader("refuse_memory", loader)
    assert spec is not None
    module = importlib.util.module_from_spec(spec)
    loader.exec_module(module)
    return module


class RefuseMemoryTest(ExploreTest):
    def refuse(self, *words: str, wrong: str = "", lost: str = "") -> "subprocess.CompletedProcess[str]":
        """Runs the tool."""
        machine = words[0] if words[:1] and not words[0].isdigit() else "run"
        (self.directory / "bin").mkdir(exist_ok=True)
        self.script("bin/rt", RT)
        environment = {**os.environ, "PATH": f"{self.directory}/bin:{os.environ['PATH']}", "WRONG": wrong, "LOST": lost,
                       "ROWS": json.dumps(tool().TRACES.get(machine, {})), "CALLS": self.path("calls"), "PYTHONDONTWRITEBYTECODE": "1"}
        return subprocess.run([sys.executable, str(TOOL), *words], env=environment, stdout=subprocess.PIPE, stderr=subprocess.PIPE,
                              universal_newlines=True, check=False)

    def test_its_traces_are_answered_so(self) -> None:
        module = tool()
        self.assertEqual(set(module.TRACES), {"run", "wear", "txn", "tree"})
        for machine, traces in module.TRACES.items():
            for name, rows in traces.items():
                given = "".join(command + "\n" for command, _ in rows)
                found = subprocess.run([program_path(), *module.WORDS[machine]], input=given, stdout=subprocess.PIPE,
                                       universal_newlines=True, check=False)
                self.assertEqual((found.returncode, found.stdout), (0, module.output_of(rows)), (machine, name))

    def test_each_machine(self) -> None:
        for word, machine in (("", "run --suite weak"), ("wear", "wear --every 1 --suite weak"), ("txn", "txn --suite weak"),
                              ("tree", "tree --suite weak")):
            found = self.refuse(*word.split())
            lines = found.stdout.splitlines()
            self.assertEqual((found.returncode, found.stderr, lines[-1]), (0, "", "0 wrong"), machine)
            self.assertTrue(lines[0].startswith("growth 1: ") and lines[0].endswith(" words"), lines)
            self.assertTrue(lines[2].startswith("growth 3: ") and lines[2].endswith(" whole"), lines)
            self.assertTrue(all(line.endswith(": 2 growths refused") for line in lines[3:-1]), lines)
            self.assertEqual((self.directory / "calls").read_text().splitlines()[-1], machine)

    def test_what_is_wrong_is_counted(self) -> None:
        for wrong in ("goes on", "no stop", "status"):
            found = self.refuse("tree", wrong=wrong)
            self.assertEqual((found.returncode, found.stdout.splitlines()[-1]), (1, "2 wrong"), wrong)
        found = self.refuse("tree", "2", lost="1")
        self.assertEqual((found.returncode, found.stderr.splitlines()[-1]), (2, "growth 2: a run has no end"))

    def test_some_growths_and_wrong_words(self) -> None:
        self.assertEqual([line.split(":")[0] for line in self.refuse("wear", "2", "2").stdout.splitlines()],
                         ["growth 2", "moves", "0 wrong"])
        self.assertEqual(self.refuse("3").stdout.splitlines()[0], "growth 3: cuts whole, tables whole")
        for words in (["walk"], ["run", "0"], ["run", "1", "2", "3"], ["tree", "x"]):
            found = self.refuse(*words)
            self.assertEqual((found.returncode, found.stdout), (2, ""), words)
            self.assertIn("tools/refuse_memory [run|wear|txn|tree] [FIRST [LAST]]", found.stderr)


if __name__ == "__main__":
    unittest.main()

"""The explorer as a module, and its types."""
import os
import re
import shutil
import subprocess
import sys
import unittest
from pathlib import Path
from typing import List

from .helpers import EXAMPLES, TOOLS, WRITE

import explorer

ROOT = TOOLS.parent


def scripts() -> List[str]:
    """The files without an ending that python3 runs."""
    return sorted(str(path.relative_to(ROOT)) for folder in ("tools", "tools/tests", "lessons", ".ci")
                  for path in (ROOT / folder).iterdir()
                  if path.is_file() and not path.suffix and path.read_bytes().startswith(b"#!/usr/bin/env python3\n"))


class ModuleTest(unittest.TestCase):
    def test_a_trace_is_asked(self) -> None:
        found = explorer.open_trace(WRITE.encode(), loss=1)
        self.assertEqual([command.word for command in found.commands], ["post", "drain"])
        self.assertEqual([reply.answer for reply in found.replies][0], "ok")
        self.assertEqual([len(traced.steps) for traced in found.steps()], [0, int(found.replies[1].answer.split(" ")[1])])
        self.assertEqual([len(traced.steps) for traced in found.steps(range(1, 2))], [0])
        self.assertGreater(len(found.cuts()), len(found.steps()[1].steps))
        costs = found.costs([explorer.Settings(loss=loss) for loss in (1, 4)])
        self.assertEqual([cost.settings.loss for cost in costs], [1, 4])

    def test_other_machines_and_files(self) -> None:
        found = explorer.open_trace(EXAMPLES / "tree.trace", machine_name="tree")
        self.assertEqual(len(found.replies), len(found.commands))

    def test_what_is_wrong_is_told(self) -> None:
        for given, words, told in ((b"read 0\n", {}, "the trace, line 1: too few or too many words"),
                                   (b"", {"program": "/nowhere"}, "cannot run the program /nowhere"),
                                   (b"", {"machine_name": "tree", "loss": 1}, "pmem tree has no option --loss")):
            with self.subTest(told), self.assertRaisesRegex(explorer.ExploreError, re.escape(told)):
                explorer.open_trace(given, **words)  # type: ignore[arg-type]

    def test_its_words_are_there(self) -> None:
        self.assertEqual([name for name in explorer.__all__ if not hasattr(explorer, name)], [])
        example = [line[4:] for line in (explorer.__doc__ or "").splitlines() if line.startswith("    ")]
        result = subprocess.run([sys.executable, "-c", "\n".join(example)], cwd=ROOT, stdout=subprocess.PIPE,
                                stderr=subprocess.PIPE, universal_newlines=True, check=False)
        # a note says what the comparison leaves out, as on the command line
        self.assertEqual((result.returncode, result.stderr), (0, "explore: examples/power_cut.trace: left out: 4 cut, 1 stat\n"))
        self.assertIn("drain 0 cut kept 4\n", result.stdout)


class TypesTest(unittest.TestCase):
    def test_all_is_typed(self) -> None:
        if not shutil.which("mypy"):
            self.skipTest("mypy isn't there")
        folders = ["tools/explorer", "tools/tests", "tools/pagemaker", "tools/portablemaker", "tools/librarymaker", "tools/releasemaker",
                   "tools/calls.py", "lessons/goals.py", "lessons/grading.py"]
        result = subprocess.run(["mypy", "--cache-dir", os.devnull, *folders, *scripts()], cwd=ROOT, stdout=subprocess.PIPE,
                                stderr=subprocess.STDOUT, universal_newlines=True, check=False)
        self.assertEqual(result.returncode, 0, result.stdout)

    def test_style(self) -> None:
        """By ruff with the settings of pyproject.toml, or by the two tools whose rules those are."""
        sources = [*scripts(), *(str(path.relative_to(ROOT)) for folder in ("tools", "lessons", "python")
                                 for path in sorted((ROOT / folder).rglob("*.py")))]
        checks = [["ruff", "check", "--no-cache"]] if shutil.which("ruff") else [["pyflakes3"], [
            "pycodestyle", "--max-line-length=150", "--select=E5,E7,E9,W1,W2,W3,W6,E11,E30", "--ignore=E704"]]
        if not all(shutil.which(words[0]) for words in checks):
            self.skipTest("neither ruff nor pyflakes3 and pycodestyle are there")
        for words in checks:
            result = subprocess.run([*words, *sources], cwd=ROOT, stdout=subprocess.PIPE, stderr=subprocess.STDOUT,
                                    universal_newlines=True, check=False)
            self.assertEqual(result.returncode, 0, result.stdout)

    def test_scripts_are_found(self) -> None:
        self.assertIn("tools/explore", scripts())
        self.assertIn(str(Path("lessons") / "check"), scripts())


if __name__ == "__main__":
    unittest.main()

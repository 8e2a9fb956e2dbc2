"""`bench`: what the ciphers of a run are, and the table."""
import os
import subprocess
import sys
import unittest
from pathlib import Path
from typing import Dict, List

from .helpers import TOOLS, ExploreTest, program_path

BENCH = TOOLS / "bench"

SMALL = ("--commands", "0", "--pages", "1", "--reads", "2")

# A program that does nothing, instead of the one that makes ciphers.
NOTHING = "import sys\nassert sys.argv[1] in ('hash', 'encrypt') and int(sys.argv[2]) >= 0\n"

# A program that answers each `stat` by other counts: tags rise by 7 and digests by 5. It notes its words.
COUNTING = """\
import os, sys
with open(os.path.join(os.path.dirname(sys.argv[0]), "words"), "a") as words:
    print(*sys.argv[1:], file=words)
if sys.argv[1] == "make":
    print("on\\nread 0 0\\nstat")
asked = 0
for line in sys.stdin if sys.argv[1] == "run" else ():
    if line == "stat\\n":
        asked += 1
        print("stat 1 2 3", 7 * asked, 5 * asked)
    else:
        print("seal 0 0.1 00")
        print("ok")
"""


class BenchTest(ExploreTest):
    def bench(self, *words: str) -> "subprocess.CompletedProcess[str]":
        """Runs `bench` on these words, with a program that makes no ciphers."""
        nothing = self.script("nothing", NOTHING)
        return subprocess.run([sys.executable, str(BENCH), "--rate", nothing, "--library", self.path("none"), "--repeat", "1", *words],
                              stdin=subprocess.DEVNULL, stdout=subprocess.PIPE, stderr=subprocess.PIPE,
                              universal_newlines=True, check=False)

    def rows(self, *words: str) -> Dict[str, List[str]]:
        """The words of each row after its name."""
        result = self.bench(*words)
        self.assertEqual((result.returncode, result.stderr), (0, ""))
        lines = result.stdout.splitlines()
        self.assertEqual(lines[0].split(), "seconds memory MB compressions blocks these take ratio".split())
        self.assertTrue(lines[-1].startswith("a compression takes "), lines[-1])
        return {line[:10].rstrip(): line[10:].split() for line in lines[1:-1]}

    def test_ciphers_of_formatting_and_recovery(self) -> None:
        # A write makes a tag, and fetches a path of five and makes it again. A recovery tries 16 minors of each of
        # a page's 64 lines, the second one 15 of the line that was written; its digests are four for each of four
        # nodes, and one.
        tags, digests = 1 + 1024 + 1 + 1023, 2 * (5 + 5 + 17)
        program = os.environ.get("PMEM_PROGRAM") or str(TOOLS.parent / "crates" / "pmem" / "out" / "pmem")
        if not os.access(program, os.X_OK):
            program = program_path()
        rows = self.rows("--program", program, "--levels", "4", *SMALL)
        self.assertEqual(list(rows), ["sample", "defaults", "4 levels", "weak", "recovery", "empty", "reads", "python", "cat"])
        compressions = {name: [int(word) for word in words[2:4]] for name, words in rows.items() if len(words) > 2}
        two, four = [3 * 1024 + 2 * 21 + 2, 4 * 1024], [3 * 16_384 + 2 * 341 + 2, 4 * 16_384]
        self.assertEqual(compressions["sample"], two)
        self.assertEqual(compressions["defaults"], two)
        self.assertEqual(compressions["4 levels"], four)
        self.assertEqual(compressions["empty"], four)
        self.assertEqual(compressions["recovery"], [four[0] + 3 * tags + 2 * digests, four[1] + 2 * 4])
        for name, words in rows.items():
            self.assertEqual(len(words), 2 if name in ("weak", "reads", "python", "cat") else 6, name)

    def test_trials_are_no_pads(self) -> None:
        rows = self.rows("--program", self.script("counting", COUNTING), *SMALL)
        # The `stat` behind the trace is the fourth: one on either side of the `on`, and the trace's own.
        tags, digests, trials = 1024 + 4 * 7, 21 + 4 * 5, 7
        self.assertEqual(rows["defaults"][2:4], [str(3 * tags + 2 * digests + 2), str(4 * (tags - trials))])
        # The large memories have six levels, and a program asked so answers the same here.
        tags, digests = tags + 262_144 - 1024, digests + 5461 - 21
        self.assertEqual(rows["six levels"][2:4], [str(3 * tags + 2 * digests + 2), str(4 * (tags - trials))])
        asked = Path(self.path("words")).read_text().splitlines()
        for words in ("run", "run --levels 6", "run --levels 6 --sets 64 --ways 8 --loss 16", "run --suite weak"):
            self.assertIn(words, asked)

    def test_failures(self) -> None:
        for script, text in (
            ("import sys\nsys.exit(3)\n", "ended with status 3\n"),
            ("import sys\nprint('ok')\n", "does not answer as pmem does"),
        ):
            result = self.bench("--program", self.script("program", script), *SMALL)
            self.assertEqual((result.returncode, result.stdout), (1, ""))
            self.assertTrue(result.stderr.startswith("bench: "), result.stderr)
            self.assertIn(text, result.stderr)
        result = self.bench("--program", self.path("none"))
        self.assertEqual((result.returncode, result.stdout), (1, ""))
        self.assertIn("cannot be run: No such file or directory\n", result.stderr)

    def test_words(self) -> None:
        for words in (["--pages", "513"], ["--levels", "7"], ["--commands", "x"], ["--repeat"], ["--repeat", "0"], ["all"]):
            self.assertEqual(self.bench(*words).returncode, 2)


if __name__ == "__main__":
    unittest.main()

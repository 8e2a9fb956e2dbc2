"""How far a contract reaches: the counting by a small repository, and PROMISES' tables by this one."""
import re
import subprocess
import sys
import tempfile
import unittest
from pathlib import Path
from typing import Dict, List, Tuple

TOP = Path(__file__).resolve().parents[2]

# Two crates: a low one with a chain of definitions and one that nothing reaches, and one above with a function.
SMALL: Dict[str, str] = {
    "low/specs/Base.antt": "-- The base.\nuse Rattle.std.specs.Prelude.{ℕ}\n\n-- a sort\npub data Sort : Type 0 where\n  asked : Sort\n"
    "  skipped : Sort\n\nabbrev pub one : ℕ\none = 1\n\n-- not reached\nabbrev pub lonely : ℕ\nlonely = 7\n",
    "low/specs/Pair.antt": "use Rattle.low.specs.Base.{one, asked as wanted}\n\npub record Pair : Type 0 where\n"
    "  -- one of them\n  pub first : Sort\n\nunfoldable pub two : ℕ\ntwo = one + one\n\nabbrev pub sort : Sort\nsort = wanted\n",
    "high/specs/Clause.antt": "use Rattle.low.specs.Pair as pairs\n\nabbrev pub Holds : ℕ → Type 0\nHolds n =\n    n ≡ pairs.two\n",
    "high/src/calls.rt": "ghost use Rattle.std.specs.Prelude.{ℕ};\nghost use Rattle.high.specs.Clause.{Holds};\n"
    "ghost use Rattle.low.specs.Pair.{sort};\n\n/// Calls.\npub fn call(n: u64) -> u64\n    requires small { n < 4 }\n"
    "    ensures held { Holds\n        result }\n    ensures { sort ≡ sort }\n{\n    2\n}\n\npub fn other() -> u64\n"
    "    ensures else { sort ≡ sort }\n{\n    3\n}\n",
}


def counts(top: Path, *words: str) -> List[Tuple[str, int, int]]:
    """What the script prints for these words: names, definitions and lines."""
    told = subprocess.run([sys.executable, str(top / "tools/reach"), *words], capture_output=True, text=True, check=True)
    rows = [line.replace(",", "").split() for line in told.stdout.splitlines()]
    return [(name, int(definitions), int(lines)) for name, definitions, lines in rows]


def table(page: str, first: str) -> List[Tuple[str, int, int]]:
    """The table of a page whose first column has this head."""
    _, _, rest = page.partition(f"| {first} | definitions | lines |\n|---|---|---|\n")
    rows = []
    for line in rest.splitlines():
        row = re.match(r"\| `(\w+)` \| ([\d,]+) \| ([\d,]+) \|", line)
        if not row:
            break
        rows.append((row[1], int(row[2].replace(",", "")), int(row[3].replace(",", ""))))
    return rows


class SmallTest(unittest.TestCase):
    """A repository whose counts are worked out by hand."""

    def setUp(self) -> None:
        self.folder = tempfile.TemporaryDirectory()
        self.addCleanup(self.folder.cleanup)
        self.top = Path(self.folder.name)
        for name, text in SMALL.items():
            path = self.top / "crates" / name
            path.parent.mkdir(parents=True, exist_ok=True)
            path.write_text(text, encoding="utf-8")
        (self.top / "tools").mkdir()
        (self.top / "tools/reach").write_text((TOP / "tools/reach").read_text(encoding="utf-8"), encoding="utf-8")

    def test_clauses_reach_what_they_name(self) -> None:
        # Holds, two and one: 3 + 2 + 2 lines. sort and the type of its constructor: 2 + 3 lines.
        self.assertEqual(counts(self.top, "high/calls.rt", "call"), [("small", 0, 0), ("held", 3, 7), ("ensures", 2, 5), ("all", 5, 12)])

    def test_definitions_reach_what_they_name(self) -> None:
        self.assertEqual(counts(self.top, "--of", "low/Pair", "two", "Pair"), [("two", 2, 4), ("Pair", 1, 2)])

    def test_names_that_are_not_there_are_refused(self) -> None:
        for words in (["high/calls.rt", "none"], ["--of", "low/Pair", "two", "none"]):
            told = subprocess.run([sys.executable, str(self.top / "tools/reach"), *words], capture_output=True, text=True)
            self.assertEqual((told.returncode, told.stdout), (1, ""))
            self.assertIn("none", told.stderr)


class PromisesTest(unittest.TestCase):
    """The numbers of PROMISES are those of the repository as it stands."""

    def test_the_page_has_the_counts(self) -> None:
        page = (TOP / "docs/PROMISES.md").read_text(encoding="utf-8")
        clauses = counts(TOP)
        told = table(page, "clause")
        self.assertTrue(told)
        self.assertEqual(told, [row for row in clauses if row[1] > 2], "tools/reach --markdown prints them")
        heads = table(page, "headline of a task")
        self.assertEqual([name for name, _, _ in heads], ["HasRun", "HasSampled", "HasCheckedTrace", "HasTextPut"])
        self.assertEqual(heads, counts(TOP, "--of", "pmem_cli/HasRun", *(name for name, _, _ in heads)))

    def test_what_a_user_sees_knows_no_engine(self) -> None:
        told = subprocess.run([sys.executable, str(TOP / "tools/reach"), "--crates", "call"], capture_output=True, text=True, check=True)
        crates = set(told.stdout.split())
        self.assertIn("plain_model", crates)
        inner = {"pmem_engine", "pmem_recovery", "meta_cache", "meta_path", "commit_regs", "call_plan", "page_reencrypt", "stop_loss"}
        self.assertEqual(crates & inner, set())


if __name__ == "__main__":
    unittest.main()

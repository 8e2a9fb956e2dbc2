"""Tests of tools/search_first over a made crate, with a stand-in for the toolchain's rt."""
import os
import shutil
import signal
import subprocess
import sys
import tempfile
import time
import unittest
from pathlib import Path

TOOLS = Path(__file__).resolve().parents[1]

# It refuses each line with a call that isn't among those that a test accepts, and keeps the text of every check.
RT = r"""#!/usr/bin/env python3
import os, re, shutil, sys, time
from pathlib import Path
state = Path(os.environ["STATE"])
if sys.argv[1] == "fmt":
    (state / "formatted").write_text(os.getcwd())
    sys.exit()
number = len(list(state.glob("check-*")))
shutil.copytree("proofs", state / f"check-{number}")
(state / "place").write_text(os.getcwd())
(state / "words").write_text(" ".join(sys.argv[1:]))
while (state / "waits").exists():
    time.sleep(0.05)
def listed(name):
    path = state / name
    return path.read_text().splitlines() if path.exists() else []
refused = kept = 0
for path in sorted(Path("proofs").glob("**/*.antt")):
    # a file with an attempt that can't be read is refused at that place alone
    unread = [at for at, line in enumerate(path.read_text().split("\n"), 1)
              if " steps 100000" in line and line.split(" = ")[-1][:-13] in listed("unreadable")]
    if unread:
        refused += 1
        print(f"./{path}:{unread[0]}:5: error: this line starts too far left")
        continue
    for at, line in enumerate(path.read_text().split("\n"), 1):
        call = re.search(r"cons _ |\b(?:search|grind) (?:\([^=]*?\)|\w+)(?= steps|;| in$|$)", line)
        if line.startswith("use ") or not call and "wrong" not in line:
            continue
        is_limited = " steps 100000" in line
        is_accepted = call and call[0] in listed("accepted")
        kept += bool(is_accepted and not is_limited)
        if not is_accepted and not (call and is_limited and call[0] in listed("limited")):
            refused += 1
            print(f"./{path}:{at}:5: error: `here`: no proof was found")
# a slow one takes more than twice as long as the check before it
while kept and listed("slow") and time.process_time() < 0.3 + 2 * float(listed("spent")[-1]):
    pass
(state / "spent").write_text(f"{time.process_time()}\n")
if not listed("silent"):
    print("logic=" + ("not-proved" if refused else "proved functions=1"))
sys.exit(1 if refused else 0)
"""

LAWS = """\
-- What holds of sums.
use Rattle.std.proofs.Common.{ℕ, ◌≡◌, ◌+◌, ◌∙◌, sym, ap}
use Rattle.low.specs.Sums.{sum_of}
use Rattle.low.proofs.Parts.{sum-nil, sum-cons}

-- a sum of two
pub sum-two : (a b : ℕ) → sum_of a b ≡ a + b
sum-two a b =
    ap sum_of (sum-nil a)
    ∙ sym (sum-cons a b)

module _ (c : ℕ) where
  sum-three : (a b : ℕ) → sum_of a c ≡ b
  sum-three zero b =
      sum-nil c
  sum-three (suc a) b =
      sum-cons a
      (sum-three a b)

  both : (a : ℕ) → IsBoth a
  both a = record {
    first =
        sum-nil
        a;
    second = sum-two a c;
  }

  held : (a : ℕ) → a ≡ c
  held a =
      let same : a ≡ c =
      sum-cons a
      c in
      elim a [
        | zero ↦
            sum-nil
            same
        | suc b ↦ same
      ]

  counted : (a : ℕ) → IsKept (sum_of a c)
  counted a =
      sum-cons (sum_of a c)
      (sum-two a c)
"""


class SearchFirstTest(unittest.TestCase):
    """A small repository with the script, and an rt that proves nothing."""

    def setUp(self) -> None:
        directory = tempfile.TemporaryDirectory()
        self.addCleanup(directory.cleanup)
        self.root = Path(directory.name) / "repository"
        self.state = Path(directory.name) / "state"
        self.bin = Path(directory.name) / "bin"
        self.rooms = Path(directory.name) / "rooms"
        for path in (self.state, self.bin, self.rooms, self.root / "tools"):
            path.mkdir(parents=True)
        for crate in ("high", "low", "lowest"):
            self.write(f"crates/{crate}/src/lib.rt", f"{crate} as it stands\n")
            self.write(f"crates/{crate}/proofs/Laws.antt", LAWS if crate == "low" else "-- nothing to try\n")
            for kept in (f"rlib/{crate}.rlib/format", "incremental/one"):
                self.write(f"crates/{crate}/out/{kept}", "what was built\n")
        self.write("crates/low/specs/Sums.antt", "sum_of : ℕ → ℕ → ℕ\nsum_of a b =\n    a + b\n")
        self.write("crates.txt", "# lowest last\nhigh: low lowest sha2\nlow staticlib: lowest sha2\nlowest: sha2\n")
        self.write("HANDLES", "Handles allowed: none.\n")
        for name in ("search_first", "proof_text.py"):
            shutil.copy(TOOLS / name, self.root / "tools" / name)
        (self.bin / "rt").write_text(RT)
        (self.bin / "rt").chmod(0o755)
        self.environment = {**os.environ, "PATH": f"{self.bin}:{os.environ['PATH']}", "STATE": str(self.state),
                            "TMPDIR": str(self.rooms)}

    def write(self, name: str, text: str) -> None:
        path = self.root / name
        path.parent.mkdir(parents=True, exist_ok=True)
        path.write_text(text, encoding="utf-8")

    def accept(self, *calls: str, name: str = "accepted") -> None:
        (self.state / name).write_text("\n".join(calls), encoding="utf-8")

    def laws(self) -> str:
        return (self.root / "crates/low/proofs/Laws.antt").read_text(encoding="utf-8")

    def words(self, *words: str) -> "list[str]":
        return [sys.executable, str(self.root / "tools" / "search_first"), *words]

    def ran(self, *words: str) -> "subprocess.CompletedProcess[str]":
        """Runs the script; it leaves nothing behind, and touches only proofs."""
        result = subprocess.run(self.words(*words), env=self.environment, stdin=subprocess.DEVNULL, stdout=subprocess.PIPE,
                                stderr=subprocess.PIPE, universal_newlines=True, check=False)
        self.assertEqual(os.listdir(self.rooms), [])
        self.assertEqual((self.root / "crates/low/src/lib.rt").read_text(), "low as it stands\n")
        self.assertEqual((self.root / "crates/low/specs/Sums.antt").read_text(encoding="utf-8"), "sum_of : ℕ → ℕ → ℕ\nsum_of a b =\n    a + b\n")
        return result

    def test_whole_bodies(self) -> None:
        self.accept("search (rules, sum-nil, sum-cons)", "grind (arith, common_steps, sum-cons, (sum-three a b))")
        result = self.ran("--slower", "low")
        self.assertEqual((result.returncode, result.stderr), (0, ""))
        self.assertIn("low: 6 bodies tried, 2 now one call, 0 with a call inside, 0 with arguments left out; lines 43 to 40; ", result.stdout)
        expected = LAWS.replace("Common.{ℕ, ◌≡◌, ◌+◌, ◌∙◌, sym, ap}", "Common.{arith, rules, ℕ, ◌≡◌, ◌+◌}")
        expected = expected.replace("use Rattle.std.proofs.Common",
                                    "use Rattle.std.proofs.lemmas.Grind.{common_steps}\nuse Rattle.std.proofs.Common", 1)
        expected = expected.replace("sum-two a b =\n    ap sum_of (sum-nil a)\n    ∙ sym (sum-cons a b)",
                                    "sum-two a b = search (rules, sum-nil, sum-cons)")
        expected = expected.replace("sum-three (suc a) b =\n      sum-cons a\n      (sum-three a b)",
                                    "sum-three (suc a) b = grind (arith, common_steps, sum-cons, (sum-three a b))")
        self.assertEqual(self.laws(), expected)
        self.assertEqual((self.state / "formatted").read_text(), (self.state / "place").read_text())

    def test_calls_inside(self) -> None:
        self.accept("search (rules, sum-cons)")
        result = self.ran("--slower", "--calls", "steps", "low")
        self.assertIn("low: 6 bodies tried, 0 now one call, 1 with a call inside, 0 with arguments left out; lines 43 to 41; ", result.stdout)
        expected = LAWS.replace("{ℕ, ◌≡◌", "{rules, ℕ, ◌≡◌").replace("let same : a ≡ c =\n      sum-cons a\n      c in",
                                                                     "let same : a ≡ c = search (rules, sum-cons) in")
        self.assertEqual(self.laws(), expected)

    def test_fields_and_branches(self) -> None:
        self.accept("search (rules, sum-nil)")
        result = self.ran("--slower", "--calls", "steps", "low")
        self.assertIn("0 now one call, 2 with a call inside, 0 with arguments left out; lines 43 to 39; ", result.stdout)
        self.assertIn("    first = search (rules, sum-nil);\n    second = sum-two a c;\n", self.laws())
        self.assertIn("        | zero ↦ search (rules, sum-nil)\n        | suc b ↦ same\n", self.laws())

    def test_arguments_left_out(self) -> None:
        self.accept("cons _ ")
        result = self.ran("--slower", "low")
        self.assertIn("0 now one call, 0 with a call inside, 1 with arguments left out; lines 43 to 42; ", result.stdout)
        self.assertEqual(self.laws(), LAWS.replace("sum-cons (sum_of a c)\n      (sum-two a c)", "sum-cons _ (sum-two a c)"))

    def test_names_that_common_passes_on(self) -> None:
        self.write("crates/low/proofs/Common.antt", "pub use Rattle.low.specs.Sums.{sum_of}\npub use Rattle.low.proofs.Parts.{sum-nil, sum-cons}\n")
        text = LAWS.replace("Rattle.low.proofs.Parts.{sum-nil", "Rattle.low.proofs.Common.{sum_of, sum-nil")
        text = text.replace("use Rattle.low.specs.Sums.{sum_of}\n", "")
        self.write("crates/low/proofs/Laws.antt", text)
        self.ran("low")
        trial = (self.state / "check-0/Laws.antt").read_text(encoding="utf-8")
        self.assertIn("sum-two-try0 a b = search (rules, sum-nil, sum-cons) steps 100000\n", trial)

    def test_copies_stand_beside_the_lemmas(self) -> None:
        self.ran("low")
        trial = (self.state / "check-0/Laws.antt").read_text(encoding="utf-8")
        self.assertIn("\nsum-two-try0 : (a b : ℕ) → sum_of a b ≡ a + b\nsum-two-try0 a b = search (rules, sum-nil, sum-cons) steps 100000\n", trial)
        self.assertIn("  sum-three-try5 zero b =\n      sum-nil c\n  sum-three-try5 (suc a) b = grind", trial)
        lines = [line for line in trial.split("\n") if "-try" not in line]
        for line in LAWS.split("\n")[4:]:
            self.assertIn(line, lines)
        self.assertEqual((self.state / "words").read_text(), "check --jobs 1 --short-goals")

    def test_nothing_accepted(self) -> None:
        result = self.ran("low")
        self.assertIn("low: 6 bodies tried, 0 now one call, 0 with a call inside, 0 with arguments left out; lines 43 to 43; ", result.stdout)
        self.assertEqual(self.laws(), LAWS)

    def test_what_the_whole_refuses_is_put_back(self) -> None:
        self.accept("search (rules, sum-nil, sum-cons)")
        self.accept("search (rules, sum-nil)", name="limited")
        result = self.ran("--slower", "low")
        self.assertIn("1 now one call, 0 with a call inside, 0 with arguments left out; lines 43 to 41; ", result.stdout)
        self.assertIn("sum-two a b = search (rules, sum-nil, sum-cons)\n", self.laws())
        self.assertIn("    first =\n        sum-nil\n        a;\n", self.laws())

    def test_slower_is_left(self) -> None:
        self.accept("search (rules, sum-nil, sum-cons)")
        self.accept("yes", name="slow")
        result = self.ran("low")
        self.assertEqual(result.returncode, 1)
        self.assertIn("low: left as it was: it would take longer to check", result.stdout)
        self.assertEqual(self.laws(), LAWS)
        result = self.ran("--slower", "low")
        self.assertEqual(result.returncode, 0)
        self.assertIn("sum-two a b = search (rules, sum-nil, sum-cons)\n", self.laws())

    def test_dry(self) -> None:
        self.accept("search (rules, sum-nil, sum-cons)")
        result = self.ran("--dry", "--slower", "low")
        self.assertIn("1 now one call", result.stdout)
        self.assertEqual((result.returncode, self.laws()), (0, LAWS))

    def test_what_is_not_proved_is_left(self) -> None:
        self.accept("search (rules, sum-nil, sum-cons)")
        text = LAWS.replace("sum-nil c", "wrong c")
        self.write("crates/low/proofs/Laws.antt", text)
        result = self.ran("low")
        self.assertEqual((result.returncode, self.laws()), (1, text))
        self.assertIn("low: left as it was: proofs/Laws.antt: the trial is refused although no call is tried", result.stdout)
        self.write("crates/low/proofs/Laws.antt", LAWS)
        self.accept("yes", name="silent")
        result = self.ran("low")
        self.assertEqual((result.returncode, self.laws()), (1, LAWS))
        self.assertIn("the check ended without a verdict", result.stdout)

    def test_a_file_that_is_not_read_is_tried_again(self) -> None:
        self.accept("search (rules, sum-nil, sum-cons)")
        self.accept("grind (arith, common_steps, sum-nil, sum-cons)", name="unreadable")
        result = self.ran("--slower", "low")
        self.assertIn("1 now one call", result.stdout)
        self.assertIn("sum-two a b = search (rules, sum-nil, sum-cons)\n", self.laws())
        self.assertIn("sum-two-try1 ", (self.state / "check-0/Laws.antt").read_text(encoding="utf-8"))
        self.assertNotIn("sum-two-try1 ", (self.state / "check-1/Laws.antt").read_text(encoding="utf-8"))
        self.assertNotIn("checked_to_the_end", self.laws())

    def test_memory_is_bounded(self) -> None:
        (self.state / "waits").write_text("")
        result = self.ran("--memory", "0.001", "low")
        self.assertEqual((result.returncode, self.laws()), (1, LAWS))
        self.assertIn("low: left as it was: a check held more than 0.001 GB", result.stdout)

    def test_what_it_begins_with(self) -> None:
        (self.state / "waits").write_text("")
        child = subprocess.Popen(self.words("low"), env=self.environment, stdin=subprocess.DEVNULL, stdout=subprocess.PIPE,
                                 stderr=subprocess.PIPE, universal_newlines=True, start_new_session=True)
        self.addCleanup(child.kill)
        until = time.monotonic() + 240
        while not (self.state / "words").exists():
            self.assertLess(time.monotonic(), until)
            time.sleep(0.05)
        place = Path((self.state / "place").read_text())
        kept = sorted(str(path.relative_to(place.parent)) for path in place.parent.glob("*/out/**/*") if path.is_file())
        self.assertEqual(kept, ["low/out/incremental/one", "lowest/out/rlib/lowest.rlib/format"])
        os.killpg(child.pid, signal.SIGINT)
        _, complained = child.communicate(timeout=240)
        self.assertEqual((child.returncode, complained), (130, "search_first: interrupted\n"))
        self.assertEqual(os.listdir(self.rooms), [])
        self.assertEqual(self.laws(), LAWS)

    def test_what_it_needs(self) -> None:
        for words, why in (("none", "no folder crates/none/proofs"), ("--calls rules,guess low", "no call 'guess'"), ("", "CRATE")):
            with self.subTest(words):
                result = self.ran(*words.split())
                self.assertEqual((result.returncode, result.stdout), (2, ""))
                self.assertIn(why, result.stderr)
        self.environment["PATH"] = str(self.state)
        result = self.ran("low")
        self.assertEqual((result.returncode, result.stdout), (2, ""))
        self.assertIn("rt is not on the PATH", result.stderr)


if __name__ == "__main__":
    unittest.main()

"""Tests of tools/plant_random over a made crate, with a stand-in for the toolchain's rt."""
import json
import os
import re
import shutil
import signal
import subprocess
import sys
import tempfile
import time
import unittest
from collections import Counter
from pathlib import Path
from typing import Any, Dict, List, Set, Tuple

from body_text import KINDS, Function, difference, drawn, functions_of, plants_of

TOOLS = Path(__file__).resolve().parents[1]

SUMS = """\
//! Sums.
ghost use Rattle.std.specs.Prelude.{◌≡◌, ◌+◌};

pub struct Sum {
    total: u32,
}

impl Sum {
    /// Adds one up to `last`.
    pub fn add(&mut self, low: u32, last: u32) -> bool
        requires { last < 2 }
        // It says 1 + 1.
        ensures { self.new ≡ low + last * 10 }
    {
        if self.total + 1 <= last {
            self.total += low;
            lines_apart(low, 3);
            return false;
        }
        self.total = larger(low, last); // 7
        true
    }
}

impl From<u8> for Sum {
    fn from(value: u8) -> Sum {
        let total = u32::from(value);
        Sum { total }
    }
}

/// A law: lines are apart.
pub fn lines_apart(one: u32, other: u32)
    ensures { one < 5 }
{
    let _ = one + other;
}

fn larger(one: u32, other: u32) -> u32
    ensures { result ≡ 6 }
{
    one.max(other)
}

#[cfg(test)]
mod tests {
    #[test]
    fn adds() {
        assert_eq!(1 + 1, 2);
    }
}
"""

ANSWERS = "pub returns : goal.returns\nreturns c = search rules\n"

# A body that isn't the original one is judged by the rules of the test: a pattern of the whole text, and the answer.
RT = r"""#!/usr/bin/env python3
import json, os, re, sys, time
from pathlib import Path
state = Path(os.environ["STATE"])
paths = [word for at, word in enumerate(sys.argv) if sys.argv[at - 1] == "--only"]
text = Path("src/lib.rt").read_text()
has_answers = Path("proofs/larger/Answers.antt").exists()
with open(state / "calls", "a") as calls:
    calls.write(json.dumps([paths, text, has_answers]) + "\n")
(state / "place").write_text(os.getcwd())
rules = json.loads((state / "rules").read_text())
original = (state / "original").read_text()
def body(of, path):
    name = path.split("::")[-1]
    return re.search(r"^( *)(?:pub )?fn " + name + r"\b.*?^\1\}$", of, re.M | re.S)[0]
came = {}
for path in paths:
    if body(text, path) == body(original, path):
        came[path] = "answers left out" if not has_answers and path == "larger" else "proved"
    else:
        came[path] = next((said for pattern, said in rules if re.search(pattern, body(text, path))), "refused")
for path, said in came.items():
    line = text[:text.index(body(text, path))].count("\n") + 3
    if said == "unread":
        print(f"src/lib.rt:{line}:9: error[mismatched-types]: expected `u32`, found `bool`")
if "unread" in came.values():
    sys.exit(1)
if "waits" in came.values():
    while True: time.sleep(0.05)
if "spins" in came.values():
    while True: pass
if "grows" in came.values():
    kept = bytearray(400_000_000); time.sleep(60)
for path, said in came.items():
    line = text[:text.index(body(text, path))].count("\n") + 2
    if said == "refused":
        print(f"note: src/lib.rt:{line}:1: it is not proved that what the function ensures holds (`returns`); "
              "the facts known there allow values at which this goal is false")
        print(f"fn low::{path}: no proof: expected answers in ./proofs/x/Answers.antt; `search` did not prove `returns`, `steps`")
    elif said == "answers left out":
        print(f"fn low::{path}: no proof: expected answers in ./proofs/x/Answers.antt; `search` did not prove `returns`")
    elif said == "unfit" and has_answers:
        print(f"./proofs/larger/Answers.antt:3:4: error: `returns`: no proof was found")
        print(f"fn low::{path}: not proved")
    elif said == "unfit":
        print(f"fn low::{path}: no proof: expected answers in ./proofs/x/Answers.antt; `search` did not prove `returns`, `steps`")
    elif said == "gone":
        print(f"./proofs/larger/Answers.antt:3:4: error: `c.x` has no field `x`")
        print(f"fn low::{path}: not proved")
    elif said == "silent":
        print("antt ran out of stack")
    else:
        print(f"fn low::{path}: {said}")
sys.exit(0 if all(said == "proved" for said in came.values()) else 1)
"""


def functions(text: str = SUMS) -> Dict[str, Function]:
    return {it.path: it for it in functions_of("src/lib.rt", text)}


class BodiesTest(unittest.TestCase):
    """What is changed, and how."""

    def plants(self, path: str, text: str = SUMS) -> Set[str]:
        """The plants of a function, each as its kind, the old lines and the new ones."""
        types: Dict[str, Set[Tuple[str, ...]]] = {"larger": {("u32", "u32")}, "lines_apart": {("u32", "u32")}}
        found = plants_of(text, functions(text)[path], types, {"lines_apart"})
        told = {(it.kind, difference("f", text, it)) for it in found}
        self.assertEqual(len(told), len(found))
        lines = [(kind, [line for line in diff.split("\n")[3:]]) for kind, diff in told]
        return {f"{kind}: {' / '.join(re.sub('^([-+]) *', r'1 ', line).replace('1 ', line[0], 1) for line in diff)}" for kind, diff in lines}

    def test_names_functions_as_a_check_does(self) -> None:
        self.assertEqual(set(functions()), {"Sum::add", "SumFromu8::from", "lines_apart", "larger"})
        self.assertEqual([path for path, it in functions().items() if it.is_law], ["lines_apart"])
        self.assertEqual(functions()["Sum::add"].types, ("u32", "u32"))
        text = "impl<'a, K: Start<u8> + Entry> Board for Logged<'_, K> {\n    fn f() {\n        g();\n    }\n}\n"
        inner = [it.path for it in functions_of("src/parts/one.rt", text)]
        self.assertEqual(inner, ["parts::one::LoggedBoard::f"])

    def test_changes_one_place_of_a_body_in_each_way(self) -> None:
        self.assertEqual(self.plants("Sum::add"), {
            "operator: -if self.total + 1 <= last { / +if self.total - 1 <= last {",
            "constant: -if self.total + 1 <= last { / +if self.total + 2 <= last {",
            "constant: -if self.total + 1 <= last { / +if self.total + 0 <= last {",
            "comparison: -if self.total + 1 <= last { / +if self.total + 1 < last {",
            "comparison: -if self.total + 1 <= last { / +if self.total + 1 > last {",
            "condition: -if self.total + 1 <= last { / +if !(self.total + 1 <= last) {",
            "operator: -self.total += low; / +self.total -= low;",
            "statement: -self.total += low;",
            "statement: -return false;",
            "constant: -return false; / +return true;",
            "statement: -self.total = larger(low, last); // 7 / +// 7",
            "arguments: -self.total = larger(low, last); // 7 / +self.total = larger(last, low); // 7",
            "constant: -true / +false",
        })

    def test_changes_methods_and_leaves_names_of_values(self) -> None:
        self.assertEqual(self.plants("larger"), {"operator: -one.max(other) / +one.min(other)"})
        self.assertEqual(self.plants("SumFromu8::from"), set())

    def test_swaps_no_arguments_of_different_types(self) -> None:
        text = "fn f() {\n    g(1, true);\n}\n\nfn g(one: u8, other: bool) {\n    h();\n}\n"
        known = plants_of(text, functions(text)["f"], {"g": {("u8", "bool")}}, set())
        unknown = plants_of(text, functions(text)["f"], {}, set())
        self.assertNotIn("arguments", {it.kind for it in known})
        self.assertIn("arguments", {it.kind for it in unknown})

    def test_leaves_patterns_types_and_ranges_of_records(self) -> None:
        text = "fn f(s: S) -> u8 {\n    match s {\n        S::One { .. } | S::Two => 4_u8,\n        _ if s < 0x0f => b'a',\n    }\n}\n"
        changed = {(it.kind, text[it.at:it.end], it.new) for it in plants_of(text, functions(text)["f"], {}, set())}
        self.assertEqual(changed, {
            ("constant", "4_u8", "5_u8"), ("constant", "4_u8", "3_u8"), ("constant", "0x0f", "0x10"), ("constant", "0x0f", "0xe"),
            ("constant", "b'a'", "b'b'"), ("comparison", "<", "<="), ("comparison", "<", ">="), ("condition", "s < 0x0f", "!(s < 0x0f)")})

    def test_draws_by_seed_each_kind_alike(self) -> None:
        plants = plants_of(SUMS, functions()["Sum::add"], {}, {"lines_apart"})
        self.assertEqual(drawn(plants, "5"), drawn(plants, "5"))
        self.assertEqual(sorted(drawn(plants, "5")), sorted(plants))
        first = Counter(drawn(plants, str(seed))[0].kind for seed in range(600))
        self.assertEqual(set(first), set(KINDS))
        self.assertGreater(min(first.values()), 60)


class PlantRandomTest(unittest.TestCase):
    """A small repository with the script, and an rt that proves nothing."""

    def setUp(self) -> None:
        directory = tempfile.TemporaryDirectory()
        self.addCleanup(directory.cleanup)
        self.root = Path(directory.name) / "repository"
        self.state, self.bin, self.rooms = (Path(directory.name) / name for name in ("state", "bin", "rooms"))
        for path in (self.state, self.bin, self.rooms, self.root / "tools"):
            path.mkdir(parents=True)
        for name, text in (("crates/low/src/lib.rt", SUMS), ("crates/low/proofs/larger/Answers.antt", ANSWERS), ("crates.txt", "low: kit\n"),
                           ("HANDLES", "Handles allowed: none.\n")):
            self.write(name, text)
        for name in ("plant_random", "body_text.py"):
            shutil.copy(TOOLS / name, self.root / "tools" / name)
        (self.state / "original").write_text(SUMS)
        self.rules([])
        (self.bin / "rt").write_text(RT)
        (self.bin / "rt").chmod(0o755)
        self.environment = {**os.environ, "PATH": f"{self.bin}:{os.environ['PATH']}", "STATE": str(self.state), "TMPDIR": str(self.rooms)}

    def write(self, name: str, text: str) -> None:
        path = self.root / name
        path.parent.mkdir(parents=True, exist_ok=True)
        path.write_text(text)

    def rules(self, rules: List[List[str]]) -> None:
        (self.state / "rules").write_text(json.dumps(rules))

    def run_it(self, *words: str, status: int = 0) -> str:
        command = [sys.executable, str(self.root / "tools" / "plant_random"), *(words or ("low",)), "--look", "0.05"]
        ran = subprocess.run(command, stdin=subprocess.DEVNULL, stdout=subprocess.PIPE, stderr=subprocess.STDOUT, encoding="utf-8",
                             env=self.environment, cwd=self.root, check=False)
        self.assertEqual(ran.returncode, status, ran.stdout)
        self.assertEqual(list(self.rooms.iterdir()), [], "the room is left")
        self.assertEqual((self.root / "crates/low/src/lib.rt").read_text(), SUMS)
        return ran.stdout

    def records(self) -> Dict[str, Dict[str, Any]]:
        return {path.stem: json.loads(path.read_text()) for path in sorted((self.root / "out" / "plants").glob("**/*.json"))}

    def calls(self) -> List[Any]:
        path = self.state / "calls"
        return [json.loads(line) for line in path.read_text().splitlines()] if path.exists() else []

    def test_counts_a_plant_in_each_function(self) -> None:
        said = self.run_it()
        self.assertEqual(set(self.records()), {"low.Sum::add.0".replace("::", "."), "low.larger.0"})
        record = self.records()["low.larger.0"]
        expected = {"crate": "low", "function": "larger", "kind": "operator", "file": "src/lib.rt", "line": 42, "proof": "answers by hand",
                    "verdict": "refused", "evidence": "tactic", "open": ["returns", "steps"], "values": True}
        self.assertEqual({name: record[name] for name in expected}, expected)
        self.assertEqual(record["diff"].split("\n")[3:], ["-    one.max(other)", "+    one.min(other)"])
        self.assertIn("low::larger: operator: refused (tactic)", said)

    def test_tries_functions_together_unless_one_calls_the_other(self) -> None:
        self.run_it()
        self.assertEqual([sorted(paths) for paths, _, _ in self.calls()], [["Sum::add"], ["Sum::add"], ["larger"], ["larger"]])
        self.assertEqual([text == SUMS for _, text, _ in self.calls()], [True, False, True, False])

    def test_checks_nothing_as_it_stands_if_it_is_proved(self) -> None:
        self.run_it("low", "--as-proved")
        self.assertEqual([text == SUMS for _, text, _ in self.calls()], [False, False])
        self.assertEqual(len(self.records()), 2)

    def test_goes_on_where_it_stopped(self) -> None:
        self.run_it("low", "--count", "1")
        self.assertEqual(len(self.records()), 1)
        before = len(self.calls())
        self.run_it("low")
        self.assertEqual(len(self.records()), 2)
        self.assertEqual(len({paths[0] for paths, _, _ in self.calls()[before:]}), 1)
        before = len(self.calls())
        self.run_it("low")
        self.assertEqual(len(self.calls()), before)

    def test_draws_another_plant_if_one_does_not_compile(self) -> None:
        self.run_it()
        first = self.records()["low.Sum.add.0"]
        shutil.rmtree(self.root / "out")
        self.rules([[re.escape(first["diff"].split("\n+")[-1].split("\n")[0]) if "\n+    " in first["diff"] else ".", "unread"]])
        self.run_it()
        records = self.records()
        self.assertEqual(records["low.Sum.add.0"]["verdict"], "not compiled")
        self.assertNotIn("low.Sum.add.0", [name for name, it in records.items() if it["verdict"] == "refused"])

    def test_gives_the_turn_away_if_no_plant_compiles(self) -> None:
        self.rules([["one.min", "unread"]])
        said = self.run_it("low", "--count", "2")
        self.assertEqual(self.records()["low.larger.0"]["verdict"], "not compiled")
        self.assertNotIn("larger", said)
        self.assertIn("| all | 1 | 1 | 0 | 0 | 0 |", self.run_it("low", "--markdown"))

    def test_tells_accepted_plants_and_lists_them(self) -> None:
        self.rules([["one.min", "proved"]])
        self.assertIn("low::larger: operator: accepted", self.run_it())
        self.assertEqual(self.run_it("low", "--list", "--verdict", "accepted"),
                         "low::larger: operator: accepted\n  @@ -42 +42 @@\n  -    one.max(other)\n  +    one.min(other)\n")
        self.assertEqual(self.run_it("low", "--markdown"), "\n".join([
            "| Crate | Tried | Refused | Of these only by an answer by hand | Accepted | Not decided |", "|---|---|---|---|---|---|",
            "| `low` | 2 | 1 | 0 | 1 | 0 |", "| all | 2 | 1 | 0 | 1 | 0 |", ""]))

    def test_tries_once_more_without_answers(self) -> None:
        self.rules([["one.min", "unfit"]])
        self.assertIn("low::larger: operator: refused (answers)", self.run_it())
        self.assertIn("| all | 2 | 2 | 1 | 0 | 0 |", self.run_it("low", "--markdown"))
        self.assertIn("low::larger: operator: refused (without answers)", self.run_it("low", "--without-answers"))
        self.assertIn("| all | 2 | 2 | 0 | 0 | 0 |", self.run_it("low", "--markdown"))
        record = self.records()["low.larger.0"]
        self.assertEqual((record["answered by hand"], record["without answers"], record["unfit"]),
                         (["returns"], ["returns", "steps"], ["returns"]))
        self.assertEqual([has_answers for paths, _, has_answers in self.calls() if paths == ["larger"]], [True, True, False])
        self.assertEqual((self.root / "crates/low/proofs/larger/Answers.antt").read_text(), ANSWERS)

    def test_says_if_only_an_answer_is_refused(self) -> None:
        self.rules([["one.min", "unfit"]])
        (self.bin / "rt").write_text(RT.replace("did not prove `returns`, `steps`", "did not prove `returns`"))
        self.assertIn("low::larger: operator: refused (answers)", self.run_it("low", "--without-answers"))
        self.assertIn("| all | 2 | 2 | 1 | 0 | 0 |", self.run_it("low", "--markdown"))
        self.assertEqual(self.run_it("low", "--without-answers"), "")

    def test_counts_no_plant_that_takes_a_name_away(self) -> None:
        self.rules([["one.min", "gone"]])
        self.run_it()
        self.assertEqual(self.records()["low.larger.0"]["verdict"], "a name is gone")

    def test_ends_a_check_at_its_limits(self) -> None:
        cases: List[Tuple[str, List[str], str]] = [
            ("spins", ["--seconds", "0.5"], "the check took more than 0.5 processor seconds"),
            ("grows", ["--memory", "0.3"], "the check held more than 0.3 GB"), ("silent", [], "antt ran out of stack")]
        for said, words, why in cases:
            with self.subTest(said):
                shutil.rmtree(self.root / "out", ignore_errors=True)
                self.rules([["one.min", said]])
                self.run_it("low", *words)
                record = self.records()["low.larger.0"]
                self.assertEqual(record["verdict"], "not decided")
                self.assertIn(why, record["message"])

    def test_decides_nothing_if_the_code_as_it_stands_reaches_a_limit(self) -> None:
        (self.state / "original").write_text(SUMS.replace("one.max(other)", "one"))
        self.rules([["one.max", "spins"]])
        self.run_it("low", "--seconds", "0.5")
        record = self.records()["low.larger.0"]
        self.assertEqual((record["verdict"], record["message"]),
                         ("not decided", "as it stands, the check took more than 0.5 processor seconds"))

    def test_leaves_out_what_is_not_proved_as_it_stands(self) -> None:
        (self.state / "original").write_text(SUMS.replace("one.max(other)", "one"))
        self.assertIn("low::larger: not proved as it stands", self.run_it())
        self.assertEqual(self.records()["low.larger.0"]["verdict"], "not proved as it stands")

    def test_waits_for_libraries(self) -> None:
        self.write("crates.txt", "low: lower\nlower:\n")
        self.write("crates/lower/src/lib.rt", "//! Nothing.\n")
        self.assertIn("low: not tried yet: the libraries of the crates below it are missing", self.run_it(status=1))
        self.write("crates/lower/out/rlib/lower.rlib/format", "")
        self.run_it()

    def test_leaves_nothing_behind_if_it_is_interrupted(self) -> None:
        self.rules([[".", "waits"]])
        with subprocess.Popen([sys.executable, str(self.root / "tools" / "plant_random"), "low", "--look", "0.05"], stdin=subprocess.DEVNULL,
                              stdout=subprocess.DEVNULL, stderr=subprocess.DEVNULL, env=self.environment) as command:
            while len(self.calls()) < 2 and command.poll() is None:
                time.sleep(0.05)
            command.send_signal(signal.SIGTERM)
            self.assertEqual(command.wait(timeout=240), 130)
        self.assertEqual(list(self.rooms.iterdir()), [])
        self.assertEqual(self.records(), {})

    def test_refuses_wrong_words(self) -> None:
        self.assertIn("there is no crate high", self.run_it("high", status=2))
        self.assertIn("--count", self.run_it("low", "--count", "0", status=2))


if __name__ == "__main__":
    unittest.main()

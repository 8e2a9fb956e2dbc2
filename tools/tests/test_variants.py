"""Variants of the questions: thirty seeds give thirty questions, each can be answered, the answer to one isn't that to another, and the
page draws the same values."""
import csv
import io
import json
import os
import re
import shutil
import subprocess
import sys
import tempfile
import unittest
from concurrent.futures import ThreadPoolExecutor
from pathlib import Path
from typing import Any, Dict, List, Tuple

from .helpers import TOOLS, program_path
from .test_goals import LESSONS, all_tasks, answers_of, task_named

sys.path.insert(0, str(LESSONS))

import goals  # noqa: E402
import grading  # noqa: E402
import variants  # noqa: E402

SEEDS = range(1, 31)
TRIED = (1, 2, 17, 30)
# A page has 16 pages of lines to choose from, of which one is the lesson's own.
FEW = {"lesson-7": 15}
A, B, C = "11" * 64, "22" * 64, "33" * 64
COMPARE = """
import {readFileSync} from 'node:fs';
import {goalOf} from './goal.mjs';
import {variedText, variedTrace} from './variants.mjs';
const cases = JSON.parse(readFileSync('cases.json', 'utf8'));
process.stdout.write(JSON.stringify(cases.map(({goal, seed, trace, text}) => {
  const {given, shown, says} = goalOf(goal, seed);
  return [given, says, variedTrace(trace, shown, given), variedText(text, shown, given)];
})));
"""


def goal_text(task: grading.Task) -> str:
    """A task's goal as it is written."""
    return (Path(task.folder) / "goal").read_text(encoding="utf-8")


def replies_of(words: List[str], trace: str) -> List[str]:
    """What the program prints."""
    return grading.replies_to(program_path(), words, trace, 60).splitlines()


def answer_by_hand(name: str, given: Dict[str, str]) -> str:
    """An answer to the variants that the lesson's own answer doesn't cover, as a student would make it."""
    line = int(given["$a"])
    if name == "first-2":  # the pad of the line is its cipher for a text that is known
        cipher = replies_of(["run"], f"post 0 {line} {A}\ndrain 0\npeek {line}\n")[-1].split()[1]
        pad = "".join(f"{value ^ 0x11:02x}" for value in bytes.fromhex(cipher))
        return f"post 0 {line} {pad}\ndrain 0\npeek {line}\n"
    if name == "first-4":
        return f"post 0 {line} {A}\ndrain 0\n" * int(given["$count"]) + f"off\non\npeek {given['$block']}\n"
    assert name == "lesson-6"
    lines = [(line + 64 * page) % 1024 for page in range(3)]
    return "loss 1\n" + "".join(f"post 0 {at} {A}\ndrain 0\n" for at in lines) + "off\non\n"


def answer_to(task: grading.Task, seed: int) -> str:
    """A right answer to a variant."""
    goal = goals.goal_of(goal_text(task), seed)
    if task.name() in ("first-2", "first-4", "lesson-6"):
        return answer_by_hand(task.name(), goal.given)
    return variants.varied_trace((answers_of(task) / "trace").read_text(), goal.shown, goal.given)


def verdict_on(task: grading.Task, seed: int, trace: str) -> bool:
    """Whether a trace reaches the goal of a variant."""
    return grading.judge(program_path(), task, trace, 60, seed) is None


class DrawTest(unittest.TestCase):
    """What is drawn, from rules that are written down here."""

    def test_values(self) -> None:
        rules = {"$a": {"from": 10, "to": 19}, "$b": "1024 + $a / 4 * 2 + 3 * $a", "$c": {"from": 0, "to": 1},
                 "$d": {"byte": "1 + 1", "value": "2 * $c"}}
        found = variants.drawn(rules, 3)
        self.assertEqual(found, {"$a": str(10 + 3 * 617 % 10), "$b": str(1024 + 11 // 4 * 2 + 33), "$c": str(3 * 401 % 2),
                                 "$d": "000002" + "00" * 61})

    def test_traces_and_texts(self) -> None:
        shown = {"$a": "5", "$porta": "0", "$bita": "8"}
        values = {"$a": "613", "$porta": "3", "$bita": "9"}
        given = "# Line 5 at port 0, 5 times\npost 0 5 0505\nread 0 5\nfence 0\nflip 5 8\ncut 5\nback 5\nmove 5 8\nloss 8\npart 0 5 5 00\n"
        made = ("# Line 613 at port 3, 5 times\npost 3 613 0505\nread 3 613\nfence 3\nflip 613 9\ncut 5\nback 613\nmove 613 8\nloss 8\n"
                "part 3 613 5 00\n")
        self.assertEqual(variants.varied_trace(given, shown, values), made)
        self.assertEqual(variants.varied_text("Line 5, under 5.1 or 0.5, has 15 and f5.", shown, values),
                         "Line 613, under 5.1 or 0.5, has 15 and f5.")


class VariantsTest(unittest.TestCase):
    """All tasks."""

    def test_thirty_seeds_give_thirty_questions(self) -> None:
        for task in all_tasks():
            given = {tuple(sorted(goals.goal_of(goal_text(task), seed).given.items())) for seed in SEEDS}
            with self.subTest(task.name()):
                self.assertEqual(len(given), FEW.get(task.name(), len(SEEDS)))

    def test_numbers_that_are_exchanged_are_told_apart(self) -> None:
        for task in all_tasks():
            shown = goals.goal_of(goal_text(task)).shown
            for kind in ("port", "line", "bit"):
                values = [value for name, value in shown.items() if variants.kind_of(name) == kind and len(value) < 9]
                with self.subTest(task.name(), kind=kind):
                    self.assertEqual(len(set(values)), len(values))

    def test_what_is_said_has_no_names_left(self) -> None:
        for task in all_tasks():
            for seed in SEEDS:
                goal = goals.goal_of(goal_text(task), seed)
                says = [goal.says, *re.findall(r'"say": "([^"]*)"', goal_text(task))]
                for sentence in says:
                    self.assertNotIn("$", variants.filled(sentence, goal.given), (task.name(), seed))
                    self.assertNotIn("$", variants.filled(sentence, goals.goal_of(goal_text(task)).given), task.name())

    def test_each_can_be_answered_by_its_own_answer_only(self) -> None:
        cases: List[Tuple[grading.Task, int, str, str, bool]] = []
        for task in all_tasks():
            for seed in TRIED:
                goal = goals.goal_of(goal_text(task), seed)
                start = variants.varied_trace((Path(task.folder) / "trace").read_text(), goal.shown, goal.given)
                cases += [(task, seed, "its answer", answer_to(task, seed), True), (task, seed, "where it begins", start, False),
                          (task, seed, "its neighbour's answer", answer_to(task, seed + 1), False)]
        with ThreadPoolExecutor(4) as pool:
            found = list(pool.map(lambda case: verdict_on(case[0], case[1], case[3]), cases))
        for (task, seed, what, trace, is_right), verdict in zip(cases, found):
            with self.subTest(task.name(), seed=seed, what=what):
                self.assertEqual(verdict, is_right, trace)

    def test_the_page_draws_the_same(self) -> None:
        node = shutil.which("node")
        if node is None:
            self.skipTest("node isn't there")
        cases: List[Dict[str, Any]] = []
        wanted = []
        for task in all_tasks():
            page, trace = ((Path(task.folder) / name).read_text(encoding="utf-8") for name in ("README.md", "trace"))
            for seed in (*TRIED, variants.MOST_SEED):
                goal = goals.goal_of(goal_text(task), seed)
                cases.append({"goal": goal_text(task), "seed": seed, "trace": trace, "text": page})
                wanted.append([goal.given, goal.says, variants.varied_trace(trace, goal.shown, goal.given),
                               variants.varied_text(page, goal.shown, goal.given)])
        with tempfile.TemporaryDirectory() as folder:
            for name in ("goal", "variants"):
                text = (TOOLS.parent / "page" / "src" / f"{name}.js").read_text()
                Path(folder, f"{name}.mjs").write_text(re.sub(r"from '\./(\w+)\.js'", r"from './\1.mjs'", text))
            Path(folder, "compare.mjs").write_text(COMPARE)
            Path(folder, "cases.json").write_text(json.dumps(cases))
            said = subprocess.run([node, "compare.mjs"], cwd=folder, stdout=subprocess.PIPE, check=True)
        self.assertEqual(json.loads(said.stdout.decode()), wanted)


class CommandsTest(unittest.TestCase):
    """lessons/variant, and lessons/grade with seeds."""

    def run_tool(self, tool: str, *words: str, given: bytes = b"") -> Tuple[int, str, str]:
        ran = subprocess.run([sys.executable, str(LESSONS / tool), *words], input=given, stdout=subprocess.PIPE, stderr=subprocess.PIPE, check=False,
                             env={**os.environ, "PMEM_PROGRAM": program_path()})
        return ran.returncode, ran.stdout.decode(), ran.stderr.decode()

    def test_a_question(self) -> None:
        status, said, _ = self.run_tool("variant", "--lesson", "0", "7")
        line = 64 + 7 * 617 % 960
        self.assertEqual(status, 0)
        self.assertIn(f"Line {line} is written. In which line of the device is its tag", said)
        self.assertIn("`lessons/grade --seed 7 --lesson 0 TRACE`", said)
        _, answer, _ = self.run_tool("variant", "--lesson", "0", "7", "--answer")
        self.assertIn(f"\npeek {1024 + line // 4}\n", answer)
        self.assertEqual(self.run_tool("grade", "--seed", "7", "--lesson", "0", "-", given=answer.encode())[:2], (0, "reached\n"))
        status, said, _ = self.run_tool("grade", "--seed", "8", "--lesson", "0", "-", given=answer.encode())
        self.assertEqual((status, said.split(":")[0]), (1, "not reached"))
        status, said, _ = self.run_tool("grade", "--seed", "4", "1", "-", given=b"stat\n")
        self.assertTrue(said.endswith(f" The three lines are {4 * 617 % 320}, {320 + 4 * 401 % 320} and {640 + 4 * 229 % 384}, "
                                      "in this order.\n"), said)

    def test_what_it_refuses(self) -> None:
        for words in (("1",), ("9", "1"), ("1", "0"), ("1", "10000"), ("1", "x"), ("--class", "/nowhere", "1"), ("--first", "2", "5", "--answer")):
            self.assertEqual(self.run_tool("variant", *words)[0], 2, words)
        for words in (("--seed", "0", "1", "-"), ("--seeds", "x", "1", "-"), ("--seed", "1", "."), ("--seeds", "/nowhere", ".")):
            self.assertEqual(self.run_tool("grade", *words)[0], 2, words)

    def test_a_class(self) -> None:
        with tempfile.TemporaryDirectory() as folder:
            Path(folder, "names").write_text("ada\nbob\ncleo\n")
            status, table, _ = self.run_tool("variant", "1", "--class", f"{folder}/names", "--page", "https://school.example/pmem.html")
            rows = list(csv.DictReader(io.StringIO(table)))
            self.assertEqual((status, [(row["student"], row["seed"]) for row in rows]), (0, [("ada", "1"), ("bob", "2"), ("cleo", "3")]))
            self.assertEqual(rows[1]["link"], "https://school.example/pmem.html#lesson=exercise-1&seed=2")
            Path(folder, "seeds.csv").write_text(table)
            os.mkdir(f"{folder}/class")
            for name in ("ada", "bob", "dora"):  # all have ada's answer
                Path(folder, "class", f"{name}-exercise-1.trace").write_text(answer_to(task_named("exercise-1"), 1))
            status, said, told = self.run_tool("grade", f"{folder}/class", "--seeds", f"{folder}/seeds.csv", "--tasks", "exercise-1")
            verdicts = [(row["student"], row["verdict"]) for row in csv.DictReader(io.StringIO(said))]
            self.assertEqual(verdicts, [("ada", "reached"), ("bob", "not reached"), ("cleo", "no file"), ("dora", "not judged")])
            self.assertEqual(status, 2)
            self.assertIn("the table of seeds does not have this student", said)


if __name__ == "__main__":
    unittest.main()

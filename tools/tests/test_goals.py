"""Goals and the grader: right and wrong answers to each task, the same in Python and in the page's JavaScript; files that can't be
judged; a class."""
import base64
import csv
import io
import json
import os
import re
import shutil
import subprocess
import sys
import tempfile
import unittest
import urllib.parse
import zlib
from concurrent.futures import ThreadPoolExecutor
from pathlib import Path
from typing import Any, Dict, List, Optional, Tuple

from .goal_answers import ANSWERS, Answer
from .helpers import TOOLS, program_path

LESSONS = TOOLS.parent / "lessons"
sys.path.insert(0, str(LESSONS))

import goals  # noqa: E402
import grading  # noqa: E402

JUDGE = """
import {readFileSync} from 'node:fs';
import {goalOf, missing} from './goal.mjs';
const cases = JSON.parse(readFileSync('cases.json', 'utf8'));
process.stdout.write(JSON.stringify(cases.map(({goal, run, options}) => missing(goalOf(goal), run, options))));
"""


def task_named(name: str) -> grading.Task:
    """The task of a name as lesson-2."""
    kind, number = name.split("-")
    task = grading.task_of(kind, int(number))
    assert task is not None, name
    return task


def all_tasks() -> List[grading.Task]:
    """Every lesson and exercise with a goal."""
    return [task for kind in ("first", "lesson", "exercise") for number in range(100) for task in [grading.task_of(kind, number)] if task]


def answers_of(task: grading.Task) -> Path:
    """The folder of a task's answers."""
    return LESSONS / "answers" / Path(task.folder).resolve().relative_to(LESSONS.resolve())


def given_answers() -> List[Answer]:
    """The answers of the lessons themselves, which are right, and the traces that they begin with, which aren't."""
    found = []
    for task in all_tasks():
        for folder, is_right in ((Path(task.folder), False), (answers_of(task), True)):
            found.append(Answer(task.name(), is_right, "as given", (folder / "trace").read_text()))
    return found


def case_of(answer: Answer) -> Tuple[Dict[str, Any], Optional[str]]:
    """An answer as what goal.js is given, and what is missing in it by goals.py."""
    task = task_named(answer.task)
    machine, words = grading.words_for(task, answer.trace)
    options = grading.options_of(words)
    replies = grading.replies_to(program_path(), [machine, *words], answer.trace, 60)
    assert grading.fault_of(replies) is None, (answer, replies)
    text, run = (Path(task.folder) / "goal").read_text(), goals.run_of(answer.trace, replies)
    return {"goal": text, "run": run, "options": options}, goals.missing(goals.goal_of(text), run, options)


class AnswersTest(unittest.TestCase):
    """The verdicts of people, those of goals.py and those of goal.js."""

    answers: List[Answer]
    cases: List[Tuple[Dict[str, Any], Optional[str]]]

    @classmethod
    def setUpClass(cls) -> None:
        cls.answers = ANSWERS + given_answers()
        with ThreadPoolExecutor(4) as pool:
            cls.cases = list(pool.map(case_of, cls.answers))

    def test_verdicts_are_those_of_people(self) -> None:
        for answer, (_, why) in zip(self.answers, self.cases):
            with self.subTest(task=answer.task, why=answer.why):
                self.assertEqual(why is None, answer.is_right, why)

    def test_each_task_has_right_and_wrong_answers(self) -> None:
        for task in all_tasks():
            verdicts = [answer.is_right for answer in ANSWERS if answer.task == task.name()]
            self.assertGreaterEqual(min(verdicts.count(True), verdicts.count(False)), 2, task.name())

    def test_what_is_said_is_a_sentence_and_no_pattern(self) -> None:
        for answer, (_, why) in zip(self.answers, self.cases):
            if why is not None:
                self.assertRegex(why, r"^[A-Z][^$*]*[.?]$", answer)
                self.assertNotIn("->", why, answer)

    def test_the_page_judges_alike(self) -> None:
        node = shutil.which("node")
        if node is None:
            self.skipTest("node isn't there")
        with tempfile.TemporaryDirectory() as folder:
            for name in ("goal", "variants"):
                text = (TOOLS.parent / "page" / "src" / f"{name}.js").read_text()
                Path(folder, f"{name}.mjs").write_text(re.sub(r"from '\./(\w+)\.js'", r"from './\1.mjs'", text))
            Path(folder, "judge.mjs").write_text(JUDGE)
            Path(folder, "cases.json").write_text(json.dumps([case for case, _ in self.cases]))
            said = subprocess.run([node, "judge.mjs"], cwd=folder, stdout=subprocess.PIPE, check=True)
        self.assertEqual(json.loads(said.stdout.decode()), [why for _, why in self.cases])


class StepsTest(unittest.TestCase):
    """What the entries of a goal mean, on a run that is written down here."""

    RUN = [("post 0 05 AA", "ok"), ("cut 3", "ok"), ("drain 0", "cut lost 3"), ("read 0 5", f"line {goals.ZEROS} 0")]

    def missing(self, *steps: Any) -> Any:
        return goals.missing(goals.goal_of(json.dumps({"parts": [{"say": "Part.", "steps": list(steps)}]})), self.RUN)

    def test_what_is_reached(self) -> None:
        reached: List[List[Any]] = [
            ["post * 5 aa -> ok"], ["cut $n -> ok", "drain * -> cut lost $n"], ["post|part * $a * -> ok", "read * $a -> line zeros *"],
            ["drain ... -> cut ..."], [{"at most": 1, "of": "cut|off"}], [{"never": "off -> ..."}],
            ["cut $n -> ok", {"one of": ["off -> ok", "* ... -> cut ..."]}], [{"any order": ["read ... -> ...", "cut $n -> ok"]}],
            [{"any order": ["read ... -> ...", ["cut $n -> ok", "drain * -> cut lost $n"]]}],
            ["post * $a $x -> ok", {"different": ["$a", "$x", "zeros"]}]]
        for steps in reached:
            with self.subTest(steps):
                self.assertIsNone(self.missing(*steps))

    def test_what_is_not(self) -> None:
        unreached: List[List[Any]] = [
            ["drain * -> cut kept *"], ["drain * -> ...", "post ... -> ok"], [{"at most": 0, "of": "cut"}], ["post 0 5 -> ok"],
            ["read * $a -> line $x *", {"different": ["$x", "zeros"]}], [{"never": "cut $n -> ok"}],
            [{"any order": ["cut $n -> ok", "cut $n -> ok", "cut $m -> ok"]}, "cut * -> ok"],
            [{"one of": ["off -> ok", ["drain ... -> ...", "cut ... -> ok"]]}]]
        for steps in unreached:
            with self.subTest(steps):
                self.assertEqual(self.missing(*steps), "Part.")

    def test_a_step_has_its_own_sentence(self) -> None:
        self.assertEqual(self.missing("cut 3 -> ok", {"see": "off -> ok", "say": "Step."}), "Step.")

    def test_the_goal_that_the_page_on_goals_shows(self) -> None:
        page = (TOOLS.parent / "docs" / "PLAYGROUND.md").read_text(encoding="utf-8")
        goal = goals.goal_of(page.partition("\n## Goals\n")[2].split("```\n")[1])
        for last, why in (("cut 4\ndrain 0\n", None), ("cut 3\ndrain 0\n", "No write of this line is kept after one step more.")):
            trace = f"post 0 5 {'11' * 64}\ncut 3\ndrain 0\non\npost 0 5 {'11' * 64}\n{last}"
            replies = grading.replies_to(program_path(), ["run"], trace, 60)
            self.assertEqual(goals.missing(goal, goals.run_of(trace, replies)), why)

    def test_what_is_no_goal(self) -> None:
        for text in ("", "[]", "{}", '{"parts": [{"steps": ["a -> b"]}]}', '{"parts": [{"say": "x", "steps": []}]}',
                     '{"parts": [{"say": "x", "steps": ["a"]}]}', '{"parts": [{"say": "x", "steps": [{"see": "a -> b", "sya": "y"}]}]}',
                     '{"parts": [{"say": "x", "steps": [{"one of": ["a"]}]}]}', '{"parts": [], "other": 1}'):
            with self.subTest(text), self.assertRaises(ValueError):
                goals.goal_of(text)


class GradeTest(unittest.TestCase):
    """The command."""

    def setUp(self) -> None:
        self.folder = Path(tempfile.mkdtemp())
        self.addCleanup(shutil.rmtree, str(self.folder))

    def grade(self, *words: str, given: bytes = b"", **environment: str) -> Tuple[int, str, str]:
        ran = subprocess.run([sys.executable, str(LESSONS / "grade"), *words], input=given, stdout=subprocess.PIPE, stderr=subprocess.PIPE,
                             env={**os.environ, "PMEM_PROGRAM": program_path(), **environment}, check=False)
        return ran.returncode, ran.stdout.decode(), ran.stderr.decode()

    def right(self, task: str) -> str:
        return (answers_of(task_named(task)) / "trace").read_text()

    def wrong(self, task: str) -> str:
        return (Path(task_named(task).folder) / "trace").read_text()

    def test_one_trace(self) -> None:
        self.assertEqual(self.grade("--lesson", "2", "-", given=self.right("lesson-2").encode()), (0, "reached\n", ""))
        status, said, _ = self.grade("5", "-", given=self.wrong("exercise-5").encode())
        self.assertEqual((status, said.split(":")[0]), (1, "not reached"))
        self.assertEqual(self.grade("--lesson", "2", "-", given=b"drain 0\nread x 0\n"),
                         (1, "not reached: Line 2 of the trace has a word that is not a number.\n", ""))
        unfit: List[List[str]] = [
            [], ["9", "x"], ["1", "/nowhere"], ["x", "y"], ["--lesson", "2"], ["--lesson", "77", "x"], ["--seconds", "0", "1", "x"]]
        for words in unfit:
            self.assertEqual(self.grade(*words)[0], 2, words)

    def test_what_cant_be_read(self) -> None:
        text = self.right("lesson-2")
        for given, says in ((text.encode("utf-8-sig"), "byte order mark"), (text.encode("utf-16"), "UTF-16"), (text.encode("utf-16-le"), "UTF-16"),
                            (b"\xe9 0\n", "not UTF-8"), (b"#" * 2_000_001, "more than 2000000 bytes"),
                            (b"# pmem: run --log 1\n", "are not known: --log 1"), (b"# pmem: txn\n", "the task is for `pmem run`")):
            status, said, why = self.grade("--lesson", "2", "-", given=given)
            self.assertEqual((status, said), (2, ""), says)
            self.assertIn(says, why)
        self.assertEqual(self.grade("--lesson", "2", "-", given=text.replace("\n", "\r\n").encode())[0], 0)

    def test_links_of_the_page(self) -> None:
        trace = self.right("lesson-6")
        body = trace.split("\n", 1)[1].rstrip("\n")
        packed = zlib.compressobj(9, zlib.DEFLATED, -15)
        data = base64.urlsafe_b64encode(packed.compress(body.encode()) + packed.flush()).decode().rstrip("=")
        plain = "~".join(urllib.parse.quote(re.sub(r"\b(\w\w)\1{63}\b", r"\1x64", line), safe="").replace("_", "%5F").replace("~", "%7E")
                         .replace("%20", "_") for line in body.split("\n"))
        for link in (f"https://school.example/page/pmem.html#lesson=06&machine=run&options=--loss_1&z={data}&at=3.0",
                     f"#lesson=06&machine=run&options=--loss_1&trace={plain}&at=3.0\n"):
            self.assertEqual(grading.trace_of_link(link), trace)
            self.assertEqual(self.grade("--lesson", "6", "-", given=link.encode()), (0, "reached\n", ""))
        self.assertEqual(self.grade("--lesson", "6", "-", given=link.replace("--loss_1", "--loss_2").encode())[0], 1)
        for link, says in (("https://school.example/pmem.html#lesson=06&at=3.0", "has no trace"), ("#machine=run&z=@@@", "is damaged"),
                           (f"#machine=run&z={data[:40]}", "is damaged"), ("#machine=run&trace=%E0%A4%A", "is damaged")):
            status, _, why = self.grade("--lesson", "6", "-", given=link.encode())
            self.assertEqual(status, 2)
            self.assertIn(says, why)

    def test_no_program(self) -> None:
        status, said, why = self.grade("--lesson", "2", "-", given=b"", PMEM_PROGRAM=str(self.folder / "none"))
        self.assertEqual((status, said, why.count("\n")), (2, "", 1))
        self.assertIn("which is not a program", why)

    def test_a_run_without_end(self) -> None:
        program = self.folder / "waiting"
        program.write_text("#!/bin/sh\nexec sleep 60\n")
        program.chmod(0o755)
        status, _, why = self.grade("--seconds", "0.3", "--lesson", "2", "-", PMEM_PROGRAM=str(program))
        self.assertEqual((status, why), (2, "grade: not judged: the run takes longer than 0.3 s\n"))

    def put(self, path: str, text: bytes) -> None:
        (self.folder / path).parent.mkdir(exist_ok=True)
        (self.folder / path).write_bytes(text)

    def test_a_class(self) -> None:
        self.put("ada/lesson-2.trace", self.right("lesson-2").encode())
        self.put("ada/Exercise 01.txt", self.right("exercise-1").encode())
        self.put("bob-lesson-2.trace", self.wrong("lesson-2").encode())
        self.put("=cmd-lesson-2.trace", self.right("lesson-2").encode("utf-16"))
        self.put("bob/notes.md", b"x")
        self.put("bob/.DS_Store", b"x")
        status, said, told = self.grade(str(self.folder), "--tasks", "lesson-2,exercise-1")
        rows = list(csv.DictReader(io.StringIO(said)))
        self.assertEqual([(row["student"], row["task"], row["verdict"], row["file"]) for row in rows], [
            ("'=cmd", "exercise-1", "no file", ""), ("'=cmd", "lesson-2", "not judged", "'=cmd-lesson-2.trace"),
            ("ada", "exercise-1", "reached", "ada/Exercise 01.txt"), ("ada", "lesson-2", "reached", "ada/lesson-2.trace"),
            ("bob", "", "not judged", "bob/notes.md"), ("bob", "exercise-1", "no file", ""),
            ("bob", "lesson-2", "not reached", "bob-lesson-2.trace")])
        self.assertEqual((status, told), (2, "grade: 3 students, 2 reached, 1 not reached, 2 not judged, 2 no file\n"))

    def test_names_of_files_are_shown_escaped(self) -> None:
        """A file's name may have anything in it except a slash."""
        for name in ("ann\x1b[31m-lesson-2.trace", "b\nob-lesson-2.trace", os.fsdecode(b"c\xff-lesson-2.trace"), "\tdan-lesson-2.trace"):
            self.put(name, self.right("lesson-2").encode())
        _, said, _ = self.grade(str(self.folder))
        self.assertTrue(all(line.isprintable() for line in said.splitlines()), said)
        self.assertEqual(len(said.splitlines()), 5)
        self.assertIn("ann\\x1b[31m-lesson-2.trace", said)

    def test_the_best_of_two_files_counts(self) -> None:
        self.put("ada/first lesson-2.trace", self.right("lesson-2").encode())
        self.put("ada/second lesson-2.trace", self.wrong("lesson-2").encode())
        status, said, _ = self.grade(str(self.folder))
        self.assertEqual((status, [row["verdict"] for row in csv.DictReader(io.StringIO(said))]), (0, ["reached"]))


if __name__ == "__main__":
    unittest.main()

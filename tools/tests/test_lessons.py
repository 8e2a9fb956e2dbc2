"""The lessons as a teacher needs them: each says how long it takes and what it needs, explains each command and reply at its first
mention, and has its answers in another folder."""
import json
import os
import re
import shutil
import subprocess
import sys
import tempfile
import unittest
from pathlib import Path
from typing import Dict, List, Sequence, Set, Tuple

from .helpers import TOOLS, program_path

LESSONS = TOOLS.parent / "lessons"
sys.path.insert(0, str(LESSONS))

import goals  # noqa: E402

HEAD = re.compile(r"^About (\d+) minutes, (easy|medium|hard)\. Needs ([^.]+)\.$", re.M)
REFERENCE = json.loads((TOOLS.parent / "page" / "src" / "reference.json").read_text(encoding="utf-8"))


def numbered(folder: str) -> List[str]:
    """The folders of lessons below one, in their order."""
    return [f"{folder}{path.name}" for path in sorted((LESSONS / folder).iterdir()) if re.match(r"\d+-", path.name)]


STEPS, MAIN, EXERCISES = numbered("first/"), numbered(""), numbered("exercises/")


def text_of(name: str) -> str:
    """A lesson's page."""
    return (LESSONS / name / "README.md").read_text(encoding="utf-8")


def machine_of(name: str) -> str:
    """A lesson's machine."""
    file = LESSONS / name / "machine"
    return file.read_text(encoding="utf-8").strip() if file.is_file() else "run"


def fits(form: str, text: str) -> bool:
    """Whether a command or a reply has a form, as `post <port> <a> <line>`."""
    words, wanted = text.split(), form.split()
    return len(words) == len(wanted) and all(one.startswith("<") or one == other for one, other in zip(wanted, words))


def row_of(rows: Sequence[Dict[str, str]]) -> str:
    """The one row of the reference that fits, as a text that tells it from the others."""
    assert rows, "the reference lacks a row"
    return " | ".join(rows[0][key] for key in ("machines", "of", "form") if key in rows[0])


def reply_row(machine: str, word: str, reply: str) -> str:
    """The row of a reply to a command, or of a mark before it."""
    marks = [row for row in REFERENCE["marks"] if fits(row["form"], reply)]
    return row_of(marks or [row for row in REFERENCE["replies"] if machine in row["machines"].split() and word in row["of"].split()
                            and fits(row["form"], reply)])


def command_row(machine: str, word: str) -> str:
    """The row of a command."""
    return row_of([row for row in REFERENCE["commands"] if machine in row["machines"].split() and row["form"].split()[0] == word])


def commands_in(folder: Path) -> List[str]:
    """The commands of a trace."""
    return [line for line in (folder / "trace").read_text().splitlines() if line.strip() and not line.startswith("#")]


def rows_in(name: str) -> Set[str]:
    """The rows of all commands and replies of a lesson's run, and of the commands of its answer; replies that only say `ok` are left out."""
    machine = machine_of(name)
    found = {command_row(machine, command.split()[0]) for command in commands_in(LESSONS / "answers" / name)}
    replies = iter((LESSONS / name / "replies").read_text().splitlines())
    for command in commands_in(LESSONS / name):
        word = command.split()[0]
        found.add(command_row(machine, word))
        for reply in replies:
            found |= {reply_row(machine, word, reply)} if reply != "ok" else set()
            if re.match(r"(seal|begin) [0-9]", reply) is None:
                break
    return found


def explained_in(name: str) -> Set[str]:
    """The rows that a lesson's page explains in its table of what is new."""
    machine, found = machine_of(name), set()
    section = re.search(r"^## New here\n(.*?)^## ", text_of(name), re.M | re.S)
    for line in (section[1] if section else "").splitlines():
        codes = re.findall(r"`([^`]*)`", line.split("|")[1]) if line.startswith("| `") else []
        if len(codes) == 1:
            found.add(command_row(machine, codes[0].split()[0]))
        if len(codes) == 2 and codes[1] != "ok":
            found.add(reply_row(machine, codes[0].split()[0], codes[1]))
    return found


class PagesTest(unittest.TestCase):
    """The pages of the lessons and exercises."""

    def test_each_says_how_long_it_takes_and_what_it_needs(self) -> None:
        table = (LESSONS / "README.md").read_text(encoding="utf-8")
        for name in [*STEPS, *MAIN, *EXERCISES]:
            with self.subTest(name):
                head = HEAD.findall(text_of(name))
                self.assertEqual(len(head), 1)
                row = next(line for line in table.splitlines() if line.startswith("|") and f"({name}/README.md)" in line)
                self.assertEqual(row.split("|")[-3:-1], [f" {head[0][0]} ", f" {head[0][1]} "])

    def test_each_command_and_reply_is_explained_where_it_first_occurs(self) -> None:
        known: Set[str] = set()
        for name in [*STEPS, *MAIN]:
            explained, wanted = explained_in(name), rows_in(name)
            known |= explained
            with self.subTest(name):
                self.assertEqual(wanted - known, set())
                self.assertEqual(explained - wanted, set())

    def test_what_is_to_be_explained_is_found(self) -> None:
        first = rows_in(STEPS[0])
        for row in ("run | post <port> <a> <line>", "run | on | on <trials> <digests> <s>", "seal <a> <counter> <tag>", "run wear txn tree | off"):
            self.assertIn(row, first)

    def test_each_has_a_question_with_a_goal(self) -> None:
        for name in [*STEPS, *MAIN, *EXERCISES]:
            with self.subTest(name):
                goals.goal_of((LESSONS / name / "goal").read_text(encoding="utf-8"))
                self.assertIn("lessons/grade", text_of(name))
                if name not in EXERCISES:
                    self.assertIn("\n## A question\n", text_of(name))


class AnswersTest(unittest.TestCase):
    """The answers, in a folder that students needn't have."""

    def test_answers_are_in_their_own_folder(self) -> None:
        for name in [*STEPS, *MAIN, *EXERCISES]:
            with self.subTest(name):
                self.assertTrue((LESSONS / "answers" / name / "trace").is_file())
                self.assertNotIn("answers/", text_of(name))
                files = {path.name for path in (LESSONS / name).iterdir()}
                self.assertLessEqual(files, {"README.md", "goal", "machine", "options", "picture.svg", "replies", "status", "trace"})

    def test_each_thing_to_try_next_has_an_answer(self) -> None:
        for name in [*STEPS, *MAIN]:
            asked = items_of(text_of(name))
            answered = items_of((LESSONS / "answers" / name / "README.md").read_text(encoding="utf-8"))
            with self.subTest(name):
                self.assertGreaterEqual(len(asked), 1)
                self.assertEqual(sorted(asked), sorted(answered))
                for path in (LESSONS / "answers" / name).glob("next-*.trace"):
                    self.assertIn(re.sub("[a-z]", "", path.stem[5:]), asked)


class CheckTest(unittest.TestCase):
    """lessons/check, on a copy of a few lessons."""

    def setUp(self) -> None:
        self.folder = Path(tempfile.mkdtemp())
        self.addCleanup(shutil.rmtree, str(self.folder))
        for name in ("check", "goals.py", "grading.py", "variants.py", STEPS[0], EXERCISES[0], f"answers/{STEPS[0]}", f"answers/{EXERCISES[0]}"):
            (self.folder / name).parent.mkdir(parents=True, exist_ok=True)
            if (LESSONS / name).is_dir():
                shutil.copytree(str(LESSONS / name), str(self.folder / name))
            else:
                shutil.copy(str(LESSONS / name), str(self.folder / name))

    def check(self) -> Tuple[int, str]:
        ran = subprocess.run([sys.executable, str(self.folder / "check")], stdout=subprocess.PIPE, check=False,
                             env={**os.environ, "PMEM_PROGRAM": program_path()})
        return ran.returncode, ran.stdout.decode()

    def test_with_and_without_answers(self) -> None:
        status, said = self.check()
        self.assertEqual((status, said.count("answers/") > 3, "0 failed" in said), (0, True, True), said)
        shutil.rmtree(str(self.folder / "answers"))
        status, said = self.check()
        self.assertEqual((status, said.splitlines()[0]), (0, "note: lessons/answers is not there, so answers are not checked"), said)

    def test_what_a_new_lesson_lacks_is_named(self) -> None:
        new = self.folder / "77-new"
        new.mkdir()
        (new / "README.md").write_text("# 77. New\n\n![x](picture.svg)\n")
        (new / "trace").write_text("stat\n")
        (new / "options").write_text("")
        status, said = self.check()
        self.assertEqual(status, 1)
        self.assertIn("77-new: FAILED: there is no file replies: ./pmem run < ", said)
        self.assertIn("makes replies, and prints the status", said)
        self.assertIn("77-new, its goal: FAILED: there is no file", said)

    def test_other_replies_are_seen(self) -> None:
        for name in (f"{STEPS[0]}/replies", f"answers/{STEPS[0]}/next-1.replies"):
            path = self.folder / name
            text = path.read_text()
            path.write_text(text.replace("on 256 9 5", "on 255 9 5"))
            status, said = self.check()
            self.assertEqual((status, "FAILED" in said), (1, True), name)
            path.write_text(text)


def items_of(text: str) -> Dict[str, str]:
    """The numbered items of what to try next."""
    section = text.partition("## What to try next\n")[2].partition("\n## ")[0]
    return dict(re.findall(r"^(\d+)\. (.*)$", section, re.M))


if __name__ == "__main__":
    unittest.main()

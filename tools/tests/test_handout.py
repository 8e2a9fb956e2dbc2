"""The handouts of a lab: sheets, slides and a key, made of the lessons."""
import base64
import html
import json
import os
import re
import subprocess
import sys
import tempfile
import unittest
from html.parser import HTMLParser
from pathlib import Path
from typing import Dict, List, Optional, Tuple

from . import browser
from .test_goals import LESSONS

TASKS = {"first-1": "first/1-a-write-waits", "lesson-12": "12-a-transaction-and-its-header", "exercise-1": "exercises/1-lose-the-second-of-three"}
EMPTY = {"meta", "link", "br", "hr", "img"}


class Parsed(HTMLParser):
    """The text of a page, its addresses, and what is nested wrongly."""

    def __init__(self, text: str) -> None:
        super().__init__()
        self.open: List[str] = []
        self.wrong: List[str] = []
        self.addresses: List[Tuple[str, str]] = []
        self.text = ""
        self.feed(text)
        self.wrong += self.open

    def handle_starttag(self, tag: str, attrs: List[Tuple[str, Optional[str]]]) -> None:
        self.addresses += [(tag, value or "") for name, value in attrs if name in ("href", "src")]
        if tag not in EMPTY:
            self.open.append(tag)

    def handle_endtag(self, tag: str) -> None:
        if self.open and self.open[-1] == tag:
            self.open.pop()
        else:
            self.wrong.append(f"/{tag}")

    def handle_data(self, data: str) -> None:
        self.text += data


def flat(text: str) -> str:
    """A text with single spaces."""
    return re.sub(r"\s+", " ", text)


def question_in(folder: str) -> str:
    """The first sentence of a lesson's question, as its page has it, without markup."""
    page = (LESSONS / folder / "README.md").read_text(encoding="utf-8")
    section = page.partition("## A question\n")[2] or page.partition("\n")[2]
    return flat(re.sub("[`*]", "", section.strip().split("\n\n")[0]))


class HandoutTest(unittest.TestCase):
    """The files, made once with a class of three."""

    folder: "tempfile.TemporaryDirectory[str]"
    files: Dict[str, str]

    @classmethod
    def setUpClass(cls) -> None:
        cls.folder = tempfile.TemporaryDirectory(prefix="pmem-handout-")
        names = Path(cls.folder.name, "seeds.csv")
        names.write_text("student,seed\nada,1\nBob B. <b>,2\ncleo,3\n")
        cls.files = {}
        made: Dict[str, List[str]] = {"plain": [], "class": ["--seeds", str(names)]}
        for name, words in made.items():
            status, _, why = cls.run_tool(f"{cls.folder.name}/{name}", "--tasks", ",".join(TASKS), *words)
            assert status == 0, why
            for path in Path(cls.folder.name, name).rglob("*.html"):
                cls.files[f"{name}/{path.relative_to(Path(cls.folder.name, name)).as_posix()}"] = path.read_text(encoding="utf-8")

    @classmethod
    def tearDownClass(cls) -> None:
        cls.folder.cleanup()

    @classmethod
    def run_tool(cls, *words: str) -> Tuple[int, str, str]:
        ran = subprocess.run([sys.executable, str(LESSONS / "handout"), *words], stdout=subprocess.PIPE, stderr=subprocess.PIPE, check=False)
        return ran.returncode, ran.stdout.decode(), ran.stderr.decode()

    def test_files(self) -> None:
        self.assertEqual(sorted(self.files), [
            "class/students/Bob-B.-b.html", "class/students/ada.html", "class/students/cleo.html", "class/students/pmem.html",
            "class/teacher/answers.html", "class/teacher/slides.html", "plain/students/pmem.html", "plain/students/sheet.html",
            "plain/teacher/answers.html", "plain/teacher/slides.html"])

    def test_pages_are_whole_and_fetch_nothing(self) -> None:
        for name, text in self.files.items():
            if name.endswith("pmem.html"):
                continue
            with self.subTest(name):
                parsed = Parsed(text)
                self.assertEqual(parsed.wrong, [])
                self.assertNotIn("<script", text)
                for tag, address in parsed.addresses:
                    self.assertRegex(address, r"^data:" if tag != "a" else r"^(pmem\.html#lesson=|https://)")

    def test_each_has_the_question(self) -> None:
        for name in ("plain/students/sheet.html", "plain/teacher/slides.html", "plain/teacher/answers.html"):
            text = flat(Parsed(self.files[name]).text)
            for folder in TASKS.values():
                with self.subTest(name, folder=folder):
                    self.assertIn(question_in(folder), text)

    def test_minutes_are_added_up(self) -> None:
        minutes = [int(re.findall(r"(?m)^About (\d+) minutes", (LESSONS / folder / "README.md").read_text())[0]) for folder in TASKS.values()]
        self.assertIn(f"<td>All</td><td>{sum(minutes)}</td>", self.files["plain/students/sheet.html"])

    def test_students_get_no_answer(self) -> None:
        for name, text in self.files.items():
            if "/students/" not in name:
                continue
            with self.subTest(name):
                for folder in TASKS.values():
                    answer = (LESSONS / "answers" / folder / "README.md").read_text().split("\n\n")[1]
                    self.assertNotIn(flat(answer)[:60], flat(Parsed(text).text))
        lessons = json.loads(re.findall(r'id="lessons">(.*?)</script>', self.files["plain/students/pmem.html"], re.S)[0])
        self.assertEqual([lesson["id"] for lesson in lessons if lesson["answer"] or '"about"' in lesson["goal"] or "../" in lesson["text"]], [])

    def test_each_student_has_a_variant(self) -> None:
        for seed, name in enumerate(("ada", "Bob-B.-b", "cleo"), 1):
            text = flat(Parsed(self.files[f"class/students/{name}.html"]).text)
            lines = [seed * 617 % 320, 320 + seed * 401 % 320, 640 + seed * 229 % 384]
            self.assertIn(f"Variant {seed}. The three lines are {lines[0]}, {lines[1]} and {lines[2]}, in this order.", text)
            self.assertIn(f"pmem.html#lesson=exercise-1&amp;seed={seed}", self.files[f"class/students/{name}.html"])
        self.assertIn(f"Name: {html.escape('Bob B. <b>')}.", self.files["class/students/Bob-B.-b.html"])

    def test_what_is_refused(self) -> None:
        with tempfile.TemporaryDirectory() as folder:
            for words in ((), ("--tasks", "x"), (f"{folder}/new", "--tasks", "lesson-99"), (f"{folder}/new", "--seeds", "/nowhere"),
                          (self.folder.name,), (f"{folder}/new", "--tasks")):
                self.assertEqual(self.run_tool(*words)[0], 2, words)
            Path(folder, "seeds.csv").write_text("student,seed\na b,1\na-b,2\n")
            self.assertEqual(self.run_tool(f"{folder}/new", "--seeds", f"{folder}/seeds.csv")[0], 2)
            self.assertFalse(os.path.exists(f"{folder}/new"))

    @unittest.skipUnless(browser.is_here(), "chromium or chromedriver isn't there")
    def test_in_a_browser(self) -> None:
        """A slide is a printed page; the page without answers runs, and opens what the sheet links to."""
        with browser.Browser() as shown:
            shown.of_session("/url", {"url": browser.address_of(f"{self.folder.name}/plain/teacher/slides.html")})
            printed = base64.b64decode(shown.develop("Page.printToPDF", landscape=True)["data"])
            slides = self.files["plain/teacher/slides.html"].count("<section>")
            self.assertEqual(len(re.findall(rb"/Type ?/Page\b", printed)), slides)
            self.assertEqual(shown.run("return [...document.images].filter(it => !it.naturalWidth).length"), 0)
            shown.of_session("/url", {"url": browser.address_of(f"{self.folder.name}/class/students/cleo.html")})
            shown.click("section:nth-of-type(3) p a")
            shown.wait("return document.body.dataset.ready", 240)
            self.assertEqual(shown.run("return [pmem.state.lesson, pmem.state.seed]"), ["exercise-1", 3])
            self.assertNotIn("Show an answer", shown.text("#lesson"))
            shown.click("#judge")
            self.assertIn("Not yet", shown.text("#verdict"))
            self.assertEqual(shown.errors(), [])


if __name__ == "__main__":
    unittest.main()

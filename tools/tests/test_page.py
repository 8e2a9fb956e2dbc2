"""The page that runs the program: what it is made of, and what it does in a real browser."""
import re
import subprocess
import sys
import tempfile
import time
import unittest
from functools import lru_cache
from pathlib import Path
from typing import List, Tuple
from unittest import mock

from . import browser
from .helpers import TOOLS, program_path

TOP = TOOLS.parent
sys.path.insert(0, str(TOP / "lessons"))
sys.path.insert(0, str(TOOLS))

import goals  # noqa: E402
from pagemaker import assemble, command_line, sources  # noqa: E402
from pagemaker.markdown import html_of  # noqa: E402
from portablemaker.wasm import Module  # noqa: E402

PAGE = TOP / "page" / "pmem.html"
SEEDS = range(1, 11)
SAMPLE = 150
COUNTED = "const before = pmem.program.runs; CALL; return pmem.program.runs - before"
ANSWER = "const said = pmem.program.engine.answer(arguments[0], arguments[1]); return [said.text, said.status]"


@lru_cache(maxsize=None)
def printed(words: Tuple[str, ...], text: str) -> Tuple[str, int]:
    """What the program prints, and its status: asked once, for each browser."""
    ran = subprocess.run([program_path(), *words], input=text.encode(), stdout=subprocess.PIPE, check=False)
    return ran.stdout.decode(), ran.returncode


def program(words: List[str], text: str) -> Tuple[str, int]:
    """What the program prints, and its status."""
    return printed(tuple(words), text)


def given_runs() -> List[Tuple[str, List[str], str]]:
    """Every lesson, answer, exercise and example: a name, its words and its trace."""
    runs = []
    for lesson in sources.lessons():
        runs.append((lesson["id"], [lesson["machine"], *lesson["words"]], lesson["trace"]))
        if lesson["answer"]:
            answer = lesson["answer"]
            runs.append((f"{lesson['id']}, its answer", [answer["machine"], *answer["words"]], answer["trace"]))
    return runs


class SourcesTest(unittest.TestCase):
    """What the page is made of."""

    def test_page_is_what_its_sources_make(self) -> None:
        self.assertEqual(command_line.page_differs(), [])

    def test_a_replaced_module_is_seen(self) -> None:
        """By the bytes of the page's module, whatever the page says of it."""
        page = PAGE.read_text(encoding="utf-8")
        form = assemble.unpacked(assemble.element_of(page, "module"))
        self.assertIn(b"refused", form)
        other = page.replace(assemble.element_of(page, "module"), assemble.packed(form.replace(b"refused", b"welcome")))
        with mock.patch.object(command_line, "kept", lambda: other):
            self.assertEqual(len(command_line.page_differs()), 1)

    def test_page_is_small_and_whole(self) -> None:
        page = PAGE.read_text(encoding="utf-8")
        self.assertLess(len(page.encode()), 1_500_000)
        shell = re.sub(r"<script.*?</script>", "", page, flags=re.S)
        self.assertEqual(re.findall(r"\b(?:src|srcset)=|<link(?! rel=\"icon\" href=\"data:)|@import|url\(", shell), [])
        self.assertEqual(re.findall(r"\bfetch\(|XMLHttpRequest|WebSocket|\bimport\(", sources.script()), [])

    def test_module_asks_for_three_functions_alone(self) -> None:
        made = assemble.unpacked(assemble.element_of(PAGE.read_text(encoding="utf-8"), "module"))
        module = Module(made)
        self.assertEqual(sorted(f"{it.module}.{it.name}" for it in module.imports), ["host.arg", "host.read", "host.write"])
        self.assertFalse(module.is_long)  # for every browser

    def test_modules_of_the_script_have_each_name_once(self) -> None:
        names = re.findall(r"^(?:async )?(?:function\*? |class |const |let )([A-Za-z_]+)", sources.script(), re.M)
        self.assertEqual(sorted(names), sorted(set(names)))
        self.assertEqual({f"{name}.js" for name in sources.MODULES}, {it.name for it in (TOP / "page" / "src").glob("*.js")})

    def test_each_lesson_has_its_own_name(self) -> None:
        names = [lesson["id"] for lesson in sources.lessons()]
        self.assertEqual(len(set(names)), len(names))
        with tempfile.TemporaryDirectory() as folder:
            for number in (1, 10, 11):
                place = Path(folder, "lessons", "exercises", f"{number}-x")
                place.mkdir(parents=True)
                (place / "README.md").write_text(f"# Exercise {number}. X\n")
                (place / "trace").write_text("stat\n")
            with mock.patch.object(sources, "TOP", folder), mock.patch.object(sources, "EXAMPLES", ()):
                self.assertEqual([lesson["id"] for lesson in sources.lessons()], ["exercise-1", "exercise-10", "exercise-11"])

    def test_pages_become_html(self) -> None:
        self.assertEqual(html_of("# A\n\nb `<c>` **d**\n\n| e | f |\n|---|---|\n| g | h |\n\n- i\n  j\n- k\n\nm\n\n    l\n"),
                         "<h2>A</h2><p>b <code>&lt;c&gt;</code> <b>d</b></p>"
                         '<table><thead><tr><th scope="col">e</th><th scope="col">f</th></tr></thead><tbody><tr><td>g</td><td>h</td></tr>'
                         "</tbody></table><ul><li>i j</li><li>k</li></ul><p>m</p><pre>l</pre>")

    def test_nothing_of_a_page_becomes_an_attribute_or_a_script(self) -> None:
        self.assertEqual(html_of('[x](https://a"onmouseover="b)'), '<p><a href="https://a&quot;onmouseover=&quot;b">x</a></p>')
        self.assertEqual(html_of("[x](javascript:b) <script>c</script>"), "<p>x &lt;script&gt;c&lt;/script&gt;</p>")
        began = time.process_time()
        for text in ("[", "`", "*", "[a]("):
            html_of(text * 20_000)
        self.assertLess(time.process_time() - began, 10)


@unittest.skipUnless(browser.is_here(), "chromium or chromedriver isn't there")
class BrowserTest(unittest.TestCase):
    """The page in chromium, opened as a file."""

    shown: browser.Browser

    @classmethod
    def setUpClass(cls) -> None:
        cls.shown = browser.Browser()

    @classmethod
    def tearDownClass(cls) -> None:
        cls.shown.close()

    def open(self, moment: str) -> browser.Browser:
        self.shown.open(browser.address_of(str(PAGE)) + moment)
        self.assertEqual(self.shown.errors(), [])
        return self.shown

    def tearDown(self) -> None:
        self.assertEqual(self.shown.errors(), [])

    def at(self) -> Tuple[int, int]:
        place = self.shown.run("return pmem.state.at")
        return place["command"], place["step"]

    def test_same_bytes_as_the_program(self) -> None:
        page = self.open("")
        runs = given_runs()
        for seed in SEEDS:
            trace, _ = program(["make", str(seed), str(SAMPLE)], "")
            runs.append((f"sample {seed}", ["run"], trace))
        for name, words, trace in runs:
            with self.subTest(name):
                found = page.run(ANSWER, words, trace)
                self.assertEqual(tuple(found), program(words, trace))

    def test_cut_by_clicks(self) -> None:
        page = self.open("#lesson=01")
        self.assertIn("A torn write", page.text("#lesson"))
        page.click("#next")
        self.assertEqual(self.at(), (1, 0))
        for _ in range(4):
            page.click("#next")
        self.assertEqual(self.at(), (1, 4))
        self.assertIn("Step 5 of 7", page.text("#now"))
        page.wait("return document.querySelector('#now').innerText.includes('cut kept 4')")
        page.click("#cut")
        self.assertIn("cut kept 4", page.text("#rows"))
        self.assertIn("power is off", page.text("#now"))
        page.click("#on")
        self.assertIn("on 256 9 8", page.text("#rows"))
        page.click("#read")
        self.assertIn("line 0\t11..11", page.text("#found"))
        page.click("#undo")
        page.click("#undo")
        self.assertNotIn("cut kept 4", page.text("#rows"))
        page.wait("return location.hash.includes('at=1.4')", 120)

    def test_attack_by_clicks(self) -> None:
        page = self.open("#lesson=04&at=2.0&line=5")
        page.click(".bytes button:nth-child(1)")
        page.click(".bits button:nth-child(8)")
        self.assertIn("flip 5 0", page.text("#rows"))
        self.assertEqual(self.at(), (3, 0))
        page.run("document.querySelector('#typed').value = 'read 0 5'; document.querySelector('#own').requestSubmit()")
        self.assertIn("refused data 5 0", page.text("#rows"))

    def test_exhibit_by_clicks(self) -> None:
        page = self.open("#lesson=08")
        page.click("#last")
        self.assertIn("An exhibit: forged", page.text("#exhibit"))
        page.click("#exhibit .bar button")
        self.assertEqual(page.text("#checked"), "holds")
        page.run("const t = document.querySelector('#exhibit textarea'); t.value = t.value.replace('7071', '7171')")
        page.click("#exhibit .bar button")
        self.assertEqual(page.text("#checked"), "fails")

    def test_answer_by_clicks(self) -> None:
        page = self.open("#lesson=01")
        page.click("#judge")
        self.assertIn("Not yet. Power doesn't fail in the second write after three steps.", page.text("#verdict"))
        page.click("#edit")
        page.run("const t = document.querySelector('#text'); t.value = t.value.replace('cut 2', 'cut 3')")
        page.click("#editing button")
        page.click("#judge")
        self.assertIn("Yes", page.text("#verdict"))

    def test_keyboard_alone(self) -> None:
        page = self.open("#lesson=02")
        page.press("ArrowDown", "ArrowDown", "ArrowDown", "o")
        self.assertEqual(self.at(), (4, 0))
        page.press("ArrowDown", "ArrowDown", "ArrowDown", "ArrowDown", "ArrowRight")
        self.assertEqual(self.at(), (8, 1))
        page.press("ArrowLeft", "c")
        self.assertIn("cut 0", page.text("#rows"))
        page.press("u", "End")
        self.assertEqual(self.at(), (21, 0))
        page.press("Home", "r")
        self.assertIn("lines 0 to 1023\tzeros", page.text("#found"))
        page.press("?")
        self.assertTrue(page.run("return document.querySelector('#keys').open"))
        page.press("Escape")
        self.assertFalse(page.run("return document.querySelector('#keys').open"))

    def test_every_lesson_opens_with_few_runs(self) -> None:
        page = self.open("")
        for lesson in sources.lessons():
            with self.subTest(lesson["id"]):
                runs = page.run(COUNTED.replace("CALL", "pmem.open(arguments[0])"), lesson["id"])
                self.assertLessEqual(runs, 12)
                self.assertEqual(page.run("return pmem.model.commands.length"), len(sources.commands_of(lesson["trace"])))
                self.assertEqual(page.run("return pmem.model.fault"), None)
                self.assertLessEqual(page.run(COUNTED.replace("CALL", "pmem.forward()")), 4)

    def test_goals_are_judged_alike(self) -> None:
        page = self.open("")
        for lesson in sources.lessons():
            if not lesson["goal"]:
                continue
            for part in (lesson, lesson["answer"]):
                text, _ = program([part["machine"], *part["words"]], part["trace"])
                run = goals.run_of(part["trace"], text)
                with self.subTest(lesson["id"]):
                    here = page.run("return pmem.missing(arguments[0], arguments[1])", lesson["goal"], run)
                    self.assertEqual(here, goals.missing(goals.goal_of(lesson["goal"]), run))

    def test_address_is_a_case(self) -> None:
        page = self.open("#machine=run&options=--suite_weak&trace=post_0_5_77x64~drain_0~flip_5_0~flip_5_8~read_0_5&at=2.0&line=5")
        self.assertEqual(page.run("return pmem.model.exhibit.split(' ')[0]"), "forged")
        self.assertEqual(self.at(), (2, 0))
        self.assertIn("Line 5: data line 5", page.text("#bytes"))

    def test_faults_of_a_trace_are_told(self) -> None:
        page = self.open("#machine=run&trace=post_0_0_11x64~red_0_0&at=2.0")
        self.assertIn("stop line 2 1: no such command", page.text("#rows"))


@unittest.skipUnless(browser.has_firefox(), "firefox-esr isn't there")
class FirefoxTest(unittest.TestCase):
    """The page in Firefox, opened as a file."""

    shown: browser.Firefox

    @classmethod
    def setUpClass(cls) -> None:
        cls.shown = browser.Firefox()

    @classmethod
    def tearDownClass(cls) -> None:
        cls.shown.close()

    def open(self, moment: str) -> browser.Firefox:
        self.shown.open(browser.address_of(str(PAGE)) + moment)
        self.shown.wait("return document.body.dataset.idle === String(pmem.round)")
        return self.shown

    def test_lessons_have_the_same_bytes(self) -> None:
        page = self.open("#lesson=02&at=12.3")
        self.assertEqual(page.run("return document.body.dataset.ready"), "live")
        self.assertIn("cut lost 3", page.run("return document.querySelector('#now').innerText"))
        for name, words, trace in given_runs():
            with self.subTest(name):
                found = page.run(ANSWER, words, trace)
                self.assertEqual(tuple(found), program(words, trace))

    def test_trace_in_a_link_and_in_the_history(self) -> None:
        page = self.open("#machine=run&trace=" + "~".join("post_0_%d_11x64~drain_0" % at for at in range(40)) + "&at=3.0")
        before = page.run("return history.length")
        count = page.run("document.querySelector('#cut').click(); return pmem.state.lines.length")
        self.assertEqual(count, 81)
        page.wait("return history.length > %d && location.hash.includes('z=')" % before, 120)
        address = page.run("return location.hash")
        page.run("history.back()")
        page.wait("return pmem.state.lines.length === 80", 120)
        self.open(address)
        self.assertEqual(page.run("return pmem.state.lines.length"), count)
        self.open("#machine=run&options=--levels_9&trace=stat")
        self.assertIn("--levels 9", page.run("return document.querySelector('#notice').innerText"))

    def test_accessible(self) -> None:
        page = self.open("#lesson=05&at=4.3&line=5")
        self.assertIn("80a0", page.run("return document.querySelector('#chip').innerText"))
        self.assertEqual(page.run((TOOLS / "tests" / "accessibility.js").read_text(encoding="utf-8")), [])


if __name__ == "__main__":
    unittest.main()

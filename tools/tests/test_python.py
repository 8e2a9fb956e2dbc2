"""The Python package, by the program and, if it can be built of what is proved, by the library: outputs byte for byte, typed calls,
copies, wrong use, random calls."""
import ast
import copy
import doctest
import gc
import html.parser
import os
import pickle
import random
import re
import shutil
import subprocess
import sys
import textwrap
import threading
import unittest
from pathlib import Path
from typing import Any, Callable, Dict, Iterator, List, Optional, Tuple
from unittest import mock

from .helpers import EXAMPLES, FORGED, TOOLS, ExploreTest, any_library, lesson_words, program_path
from .test_outputs import SESSIONS, WORDS, read_session

TOP = TOOLS.parent
PACKAGE = TOP / "python"
sys.path.insert(0, str(PACKAGE))

import pmem  # noqa: E402
from pmem import answers, grammar, sessions, ways  # noqa: E402

KINDS: Dict[str, Callable[..., Any]] = {
    "run": pmem.Controller, "wear": pmem.LevelledMemory, "txn": pmem.TransactionMemory, "tree": pmem.TreeController,
}
ONES, TWOS, ZEROS = b"\x11" * 64, b"\x22" * 64, bytes(64)
Case = Tuple[List[str], bytes]


def setUpModule() -> None:
    """The program that was built is run itself: ./pmem looks at all sources each time, which takes longer than a session."""
    built = TOP / "crates" / "pmem" / "out" / "pmem"
    program = os.environ.get("PMEM_PROGRAM") or (str(built) if os.access(built, os.X_OK) else program_path())
    patch = mock.patch.dict(os.environ, {"PMEM_PROGRAM": program})
    patch.start()
    unittest.addModuleCleanup(patch.stop)


def opened(words: List[str], through: Any) -> Any:
    """The session of these words."""
    options: Dict[str, Any] = {}
    for name, value in zip(words[1::2], words[2::2]):
        is_key = name.endswith("key")
        is_word, is_switch = name in ("--suite", "--queue"), name in ("--shadow", "--combine")
        options[name[2:].replace("-", "_")] = (
            value if is_word else value == "on" if is_switch else bytes.fromhex(value) if is_key else int(value))
    return KINDS[words[0]](through=through, **options)


def due(words: List[str], given: bytes) -> Tuple[int, bytes]:
    """The program's status and output."""
    result = subprocess.run([program_path(), *words], input=given, stdout=subprocess.PIPE, check=False)
    return result.returncode, result.stdout


def cases() -> Iterator[Tuple[str, Case]]:
    """The words and the trace of each lesson, each question's answer, each example, each session, and ten samples."""
    for trace in sorted((TOP / "lessons").glob("[0-9]*/**/trace")):
        yield str(trace.parent.relative_to(TOP)), (lesson_words(trace.parent), trace.read_bytes())
    for trace in sorted(EXAMPLES.glob("*.trace")):
        yield trace.name, (WORDS.get(trace.stem, "run").split(), trace.read_bytes())
    for path in sorted(SESSIONS.glob("*.txt")):
        words, _, text, _ = read_session(path.read_text())
        yield path.name, (words, text.encode())
    for seed in range(10):
        yield f"sample {seed}", (["run", "--levels", "1"] if seed % 2 else ["run"], due(["make", str(seed), "250"], b"")[1])


class WayTest:
    """What both ways have to pass. `by` is the way."""

    by: ways.Way
    random_calls, longest_random = 100_000, 200

    def controller(self, **options: Any) -> pmem.Controller:
        controller = pmem.Controller(through=self.by, **options)
        self.addCleanup(controller.close)  # type: ignore[attr-defined]
        return controller

    def test_outputs(self: Any) -> None:
        count = 0
        for name, (words, given) in cases():
            with self.subTest(name):
                status, output = due(words, given)
                whole = pmem.answer(words, given, self.by)
                self.assertEqual((whole.status, whole.data), (status, output))
                self.assertEqual("".join(answer.reply for answer in whole.answers), whole.text)
                count += 1
                with opened(words, self.by) as session:
                    told = [session.tell(line) for line in pmem.Trace(given).lines]
                    self.assertEqual("".join(answer.reply for answer in told if answer), output.decode())
                    self.assertEqual(session.is_over, status == 6)
        self.assertGreater(count, 60)

    def test_stops(self: Any) -> None:
        for words, trace in ((["run"], b"stat\nread 0 x\nstat\n"), (["tree"], b"snap\n" + b"x" * 1025 + b"\n"), (["nonsense"], b"stat\n"), ([], b""),
                             (["run", "--levels", "7"], b""), (["check"], b"stat\n"), (["sample", "7", "20"], b""), (["run"], b"stat\r\n\nstat")):
            status, output = due(words, trace)
            whole = pmem.answer(words, trace, self.by)
            self.assertEqual((whole.status, whole.data), (status, output), words)
            self.assertEqual(whole.stop, output.decode().splitlines()[-1] if status else None)
            self.assertIsInstance(whole.replies, list)

    def test_cut_lost_and_kept(self: Any) -> None:
        controller = self.controller()
        self.assertEqual(controller.post(0, 0, ONES), pmem.Ok())
        controller.cut(3)
        with self.assertRaises(pmem.PowerCut) as lost:
            controller.drain(0)
        self.assertEqual((lost.exception.answer, lost.exception.kept), (pmem.Cut(3, False), False))
        with self.assertRaises(pmem.PowerIsOff):
            controller.read(0, 0)
        self.assertEqual(controller.on(), pmem.Recovered(256, 9, 2))
        self.assertEqual(controller.read(0, 0), pmem.Line(ZEROS, 0))
        controller.post(0, 0, ONES)
        controller.cut(4)
        with self.assertRaises(pmem.PowerCut) as kept:
            controller.drain(0)
        self.assertTrue(kept.exception.kept)
        self.assertEqual([(mark.line, mark.counter) for mark in kept.exception.marks if isinstance(mark, pmem.Seal)], [(0, pmem.Counter(0, 1))])
        self.assertEqual(controller.marks, kept.exception.marks)
        self.assertEqual(controller.on(), pmem.Recovered(256, 9, 8))
        self.assertEqual(controller.read(0, 0).data, ONES)

    def test_copies(self: Any) -> None:
        """A copy goes on by itself: each cut of a write, as docs/MACHINE.md has it."""
        controller = self.controller()
        controller.post(0, 0, ONES)
        for steps in range(8):
            with copy.copy(controller) as trial:
                trial.cut(steps)
                if steps == 7:
                    self.assertEqual(trial.drain(0).steps, 7)
                    continue
                with self.assertRaises(pmem.PowerCut) as cut:
                    trial.drain(0)
                self.assertEqual(cut.exception.answer, pmem.Cut(steps, steps > 3, None, cut.exception.marks))
                trial.on()
                self.assertEqual(trial.read(0, 0).data, ONES if steps > 3 else ZEROS)
        self.assertEqual(len(controller.trace.commands), 1)
        self.assertEqual(controller.drain(0).steps, 7)

    def test_each_cut(self: Any) -> None:
        """A write of seven steps, cut at each of them: lost before its fourth step, kept from then on (docs/MACHINE.md, A cut)."""
        controller = self.controller()
        controller.post(0, 0, ONES)
        trials = []
        for trial in pmem.each_cut(controller):
            with trial as memory:
                memory.drain(0)
                self.assertEqual(memory.read(0, 0).data, ONES)  # reached without a cut only
            self.assertEqual(memory.read(0, 0).data, ZEROS if trial.kept is False else ONES)
            trials.append((trial.steps, trial.is_cut, trial.kept))
            memory.post(1, 9, TWOS)
            self.assertEqual(memory.fence(1).drained, 1)  # nothing is cut behind the block
        self.assertEqual(trials, [*((steps, True, steps > 3) for steps in range(7)), (7, False, None)])
        self.assertTrue(memory.is_closed)
        self.assertEqual((pmem.persist_steps(controller, lambda memory: memory.drain(0)), len(controller.trace.commands)), (7, 1))
        self.assertEqual(pmem.persist_steps(controller, lambda memory: None), 0)

    def test_cuts_within(self: Any) -> None:
        """Recovery can be cut too; a cut that the block itself catches counts; other errors leave the loop."""
        controller = self.controller(suite="weak")
        controller.post(0, 0, ONES)
        for trial in pmem.each_cut(controller, recover=False):
            with trial as memory:
                memory.drain(0)
            if trial.is_cut:
                with self.assertRaises(pmem.PowerIsOff):
                    memory.read(0, 0)
                for second in pmem.each_cut(memory):
                    with second as again:
                        again.on()
                    self.assertEqual(again.read(0, 0).data, ONES if trial.kept else ZEROS)
        caught = 0
        for trial in pmem.each_cut(controller):
            with trial as memory:
                try:
                    memory.drain(0)
                except pmem.PowerCut:
                    caught += 1
                    memory.on()
            self.assertEqual(trial.is_cut, trial.steps < 7)
        self.assertEqual(caught, 7)
        with self.assertRaises(pmem.QueueEmpty):
            for trial in pmem.each_cut(controller):
                with trial as memory:
                    memory.drain(5)
        with self.assertRaises(RuntimeError):
            for trial in pmem.each_cut(controller):
                pass
        loop = pmem.each_cut(controller)
        trial = next(loop)
        with trial as memory:
            memory.drain(0)
        with self.assertRaises(RuntimeError), trial:
            pass
        self.assertEqual(repr(trial), "<power fails after 0 persist steps, cut: cut lost 0>")

    def test_logs(self: Any) -> None:
        """The log of each command is that of the program, and no part of how answers compare. docs/FORMATS.md has these three."""
        controller = self.controller(suite="weak", log=True)
        self.assertEqual(controller.accesses, ())
        answer = controller.read(0, 0)
        read, write, latch = pmem.AccessKind.READ, pmem.AccessKind.WRITE, pmem.AccessKind.LATCH
        self.assertEqual((answer, answer.log.tags, answer.log.digests), (pmem.Line(ZEROS, 0), 1, 3))
        self.assertEqual(controller.accesses, tuple(pmem.Access(read, line) for line in (1280, 1281, 1285, 0, 1024)))
        self.assertEqual((controller.post(0, 0, ONES).log, controller.accesses), (pmem.Log((), 0, 0), ()))
        controller.drain(0)
        self.assertEqual([(access.kind, access.line) for access in controller.accesses], [
            (write, 1302), (write, 1302), (write, 1301), (read, 1024), (latch, 2), (write, 0), (write, 1024), (latch, 0)])
        with controller.copy() as second:
            self.assertEqual((second.accesses, second.stat().log), (controller.accesses, pmem.Log((), 0, 0)))
        self.assertEqual(len(controller.device()), controller.layout.lines)
        for words, trace in ((["run", "--log"], (EXAMPLES / "power_cut.trace").read_bytes()),
                             (["tree", "--log"], (EXAMPLES / "tree.trace").read_bytes()), (["run", "--suite", "weak", "--log"], FORGED.encode()),
                             (["wear", "--log", "--levels=1"], b"write 0 " + b"11" * 64)):
            whole = pmem.answer(words, trace, self.by)
            self.assertEqual((whole.status, whole.data), due(words, trace))
            self.assertEqual("".join(answer.reply for answer in whole.answers), whole.text)
        with self.assertRaises(ValueError):
            self.controller(suite="weak").accesses

    def test_refusals(self: Any) -> None:
        controller = self.controller()
        for error, call, words in (
            (pmem.OutOfRange, controller.read, (0, 1024)), (pmem.QueueEmpty, controller.drain, (1,)), (pmem.NothingToTurn, controller.turn, ()),
            (pmem.NothingDirty, controller.flush, ()), (pmem.PowerIsOn, controller.on, ()), (pmem.NoSnapshot, controller.back, (0,)),
            (IndexError, controller.loss, (3,)), (IndexError, controller.flip, (0, 512)), (pmem.OutOfRange, controller.move, (0, 1303)),
        ):
            with self.assertRaises(error):
                call(*words)
        for _ in range(16):
            controller.post(3, 9, ONES)
        with self.assertRaises(pmem.QueueFull):
            controller.part(3, 9, 63, b"x")
        self.assertEqual(controller.fence(3).drained, 16)
        controller.flip(5, 0)
        with self.assertRaises(pmem.Refused) as refused:
            controller.read(0, 5)
        self.assertEqual(refused.exception.answer, pmem.RefusedData(5, 0))
        controller.snap()
        controller.poke(1285, ZEROS)
        controller.off()
        with self.assertRaises(pmem.Refused) as refused:
            controller.on()
        self.assertIsInstance(refused.exception.answer, pmem.RefusedCounter)
        controller.back(1285)
        self.assertEqual(controller.peek(1285).data[:1], controller.device()[1285][:1])

    def test_exhibit(self: Any) -> None:
        controller = self.controller(suite="weak")
        for line in FORGED.splitlines()[:2]:
            controller.tell(line)
        with self.assertRaises(pmem.BreakShown) as shown:
            controller.read(0, 5)
        exhibit = shown.exception.exhibit
        self.assertIsInstance(exhibit, pmem.Forged)
        self.assertTrue(controller.check(exhibit))
        self.assertFalse(pmem.check(exhibit, suite="weak", tag_key=b"another", through=self.by))
        self.assertFalse(pmem.check(exhibit, through=self.by))
        self.assertTrue(controller.is_over)
        for call in (controller.stat, controller.device, controller.copy().stat):
            with self.assertRaises(pmem.SessionOver):
                call()
        self.assertEqual(pmem.answer("run --suite weak", FORGED, self.by).exhibit, exhibit)
        with self.assertRaises(pmem.BadWords):
            pmem.check(exhibit, tag_key=b"", through=self.by)

    def test_line_faults(self: Any) -> None:
        """A line that isn't in the grammar is reported with its kind, and the session goes on."""
        controller = self.controller()
        controller.post(0, 1, ONES)
        for line, kind in (("READ 0 0", 1), ("read 0", 2), ("read x 0", 3), ("read 9 x", 4), ("post 0 0 " + "1" * 127, 5), ("x" * 1025, 6),
                           ("stat\nstat", 1), ("#" * 1025, 6)):
            with self.assertRaises(pmem.LineFault) as fault:
                controller.tell(line)
            self.assertEqual(fault.exception.kind, kind, line[:20])
            # Without the package's own rules, the same comes from the program.
            if "\n" not in line and "#" not in line:
                with mock.patch.object(sessions, "fault_of", return_value=None), self.assertRaises(pmem.LineFault) as fault:
                    controller.tell(line)
                self.assertEqual(fault.exception.kind, kind, line[:20])
        for skipped in ("", " \t\r", "# read"):
            self.assertIsNone(controller.tell(skipped))
        self.assertEqual(controller.tell(b" stat\t\r"), pmem.Stat(0, 0, 0, 0, 0))
        self.assertEqual(controller.drain(0).steps, 7)

    def test_other_sessions(self: Any) -> None:
        with pmem.LevelledMemory(every=1, through=self.by) as memory:
            self.assertEqual(memory.place(1021), pmem.Place(1021))
            self.assertEqual(memory.write(0, ONES), pmem.Stepped(17))
            self.assertEqual(memory.place(1021).place, 1022)
            memory.off()
            self.assertIsInstance(memory.on(), pmem.WearOpened)
            self.assertEqual(memory.read(0).data, ONES)
        with pmem.TransactionMemory(through=self.by) as store:
            with self.assertRaises(pmem.NoTransaction):
                store.commit()
            with self.assertRaises(KeyError), store.transaction():
                store.put(0, ONES)
                raise KeyError
            with store.transaction():
                store.put(0, TWOS)
                with self.assertRaises(pmem.TransactionOpen):
                    store.begin()
            store.off()
            self.assertIsInstance(store.on(), pmem.LogOpened)
            self.assertEqual(store.read(0).data, TWOS)
        with pmem.TreeController(levels=1, sets=1, through=self.by) as tree:
            tree.write(0, ONES)
            tree.cut(2)
            with self.assertRaises(pmem.PowerCut) as cut:
                tree.write(4, TWOS)
            self.assertEqual((cut.exception.kept, tree.on(), tree.read(4).data), (True, pmem.TreeRecovered(5, 5), TWOS))
            tree.poke(0, ZEROS)
            with self.assertRaises(pmem.Refused):
                tree.read(0)

    def test_device(self: Any) -> None:
        for options in ({}, {"levels": 1, "sets": 64, "ways": 8}):
            with pmem.Controller(suite="weak", through=self.by, **options) as controller:
                device = controller.device()
                self.assertEqual((len(device), controller.peek(len(device) - 1).data), (controller.layout.lines, device[-1]))
                with self.assertRaises(pmem.OutOfRange):
                    controller.peek(len(device))
                controller.flip(7, 3)
                self.assertEqual(controller.device().differences(device), [7])
        self.assertEqual([pmem.Layout().part_of(place) for place in (1023, 1024, 1284, 1285, 1301, 1302)],
                         ["data lines", "tag lines", "tree nodes", "counter blocks", "shadow lines of counter blocks", "shadow lines of tree nodes"])

    def test_closed(self: Any) -> None:
        controller = self.controller()
        controller.close()
        controller.close()
        self.assertTrue(controller.is_closed)
        for call in (controller.stat, controller.copy, controller.device, controller.__enter__, lambda: controller.tell("")):
            with self.assertRaises(pmem.SessionClosed):
                call()
        with self.assertRaises(TypeError):
            pickle.dumps(controller)

    def test_two_at_once(self: Any) -> None:
        first, second = self.controller(), self.controller(levels=1)
        first.post(0, 0, ONES)
        with self.assertRaises(pmem.QueueEmpty):
            second.drain(0)
        first.drain(0)
        self.assertEqual((first.read(0, 0).data, second.read(0, 0).data), (ONES, ZEROS))

    def test_threads(self: Any) -> None:
        """Calls of threads that share a session come one after the other: each gets its own answer."""
        controller = self.controller(suite="weak", levels=1)
        wrong: List[str] = []

        def write(port: int) -> None:
            for place in range(8):
                controller.post(port, 8 * port + place, bytes([port]) * 64)
                if controller.read(port, 8 * port + place).data != bytes([port]) * 64:
                    wrong.append(f"port {port}")
            if controller.fence(port).drained != 8:
                wrong.append(f"fence {port}")

        threads = [threading.Thread(target=write, args=(port,)) for port in range(4)]
        for thread in threads:
            thread.start()
        for thread in threads:
            thread.join()
        self.assertEqual((wrong, len(controller.trace.commands)), ([], 4 * 17))
        self.assertEqual([controller.read(7, 8 * port).data[0] for port in range(4)], [0, 1, 2, 3])

    def test_fork(self: Any) -> None:
        """A forked process has the session too, and the two go on by themselves."""
        with pmem.Controller(through=self.by) as controller:
            controller.post(0, 0, ONES)
            child = os.fork()
            if child == 0:
                try:
                    os._exit(controller.drain(0).steps)
                finally:
                    os._exit(1)
            self.assertEqual(os.waitpid(child, 0)[1] >> 8, 7)
            self.assertEqual(controller.drain(0).steps, 7)

    def test_random_calls(self: Any) -> None:
        """Each random session answers line by line what one run of its trace answers; lines that aren't in the grammar leave nothing
        behind."""
        chance, calls, shown = random.Random(7), 0, 0
        while calls < self.random_calls:
            words = chance.choice((["run", "--suite", "weak", "--levels", "1"], ["run", "--suite", "blur", "--levels", "1", "--sets", "1"],
                                   ["wear", "--suite", "weak", "--levels", "1", "--every", "2"], ["txn", "--suite", "weak", "--levels", "1"],
                                   ["tree", "--suite", "weak", "--levels", "1", "--sets", "1"]))
            with opened(words, self.by) as session:
                replies = []
                for _ in range(chance.randrange(self.longest_random)):
                    calls += 1
                    try:
                        told = session.tell(random_line(chance, words[0]))
                    except (pmem.LineFault, pmem.SessionOver):
                        continue
                    replies.append(told.reply if told else "")
                shown += session.is_over
                self.assertEqual("".join(replies), pmem.answer(words, session.trace, self.by).text)
        self.assertGreaterEqual(shown, self.random_calls // 10_000)


def random_line(chance: random.Random, session: str) -> str:
    """A command, in one of fifty with a word too many, or wrong."""
    name = chance.choice(list(grammar.GRAMMAR[session]))
    makers: Dict[str, Callable[[], str]] = {
        "port": lambda: str(chance.randrange(2)), "number": lambda: str(chance.choice((chance.randrange(8), chance.randrange(400)))),
        "line": lambda: f"{chance.randrange(256):02x}" * 64, "part": lambda: f"{chance.randrange(256):02x}" * chance.randrange(1, 9),
    }
    words = [name, *(makers[rule]() for rule in grammar.GRAMMAR[session][name].split())]
    if chance.randrange(50) == 0:
        words[chance.randrange(len(words))] = chance.choice(("x", "1 1", "9" * 21, "#"))
    return " ".join(words)


class ProgramTest(WayTest, unittest.TestCase):
    @classmethod
    def setUpClass(cls) -> None:
        cls.by = ways.Program(os.environ["PMEM_PROGRAM"])

    def test_interrupted_child(self) -> None:
        """If the child is ended from outside, that is reported, and the session goes on with another one."""
        with pmem.Controller(through=self.by) as controller:
            controller.post(0, 0, ONES)
            child = controller._channel._process  # type: ignore[union-attr]
            child.kill()
            child.wait()
            with self.assertRaises(pmem.ProgramFailed):
                controller.stat()
            self.assertEqual(controller.drain(0).steps, 7)
            self.assertEqual(len(controller.trace.commands), 2)

    def test_children_end(self) -> None:
        """A session that is left without being closed ends its child."""
        controller = pmem.Controller(through=self.by)
        child = controller._channel._process  # type: ignore[union-attr]
        del controller
        gc.collect()
        self.assertIsNotNone(child.poll())

    def test_most_lines(self) -> None:
        with mock.patch.object(ways, "MOST_LINES", 2), pmem.Controller(through=self.by) as controller:
            controller.stat()
            controller.stat()
            with self.assertRaises(pmem.TooManyLines):
                controller.stat()


class LibraryTest(WayTest, unittest.TestCase):
    @classmethod
    def setUpClass(cls) -> None:
        cls.by = ways.Library(any_library())

    def test_faults_of_lines(self) -> None:
        """What the library answers to lines that the package itself refuses before it sends them."""
        channel = self.by.open(["run", "--suite", "weak"])
        told = [channel.tell(line) for line in (b"STAT", b"read 0", b"read x 0", b"read 9 0", b"poke 0 0", b"x" * 1025, b"stat\n", b" # stat", b"")]
        self.assertEqual(told, [(status, b"") for status in (51, 52, 53, 54, 55, 56, 51, 0, 0)])
        self.assertEqual(channel.tell(b"stat"), (0, b"stat 0 0 0 0 0\n"))
        channel.close()
        channel.close()
        self.assertEqual(channel.tell(b"stat"), (64, b""))


class ChildTest(ExploreTest):
    """The errors if the program is missing, or isn't pmem."""

    def raises(self, error: Any, text: str, body: str) -> None:
        with self.assertRaises(error) as raised, pmem.Controller(through=ways.Program(self.script("program", body))) as controller:
            controller.stat()
            controller.stat()
        self.assertIn(text, str(raised.exception))

    def test_other_programs(self) -> None:
        stat = "print('stat 1 2 3 4 5', flush=True)\n"
        for error, text, body in (
            (pmem.ProgramFailed, "is not one of pmem", "print('stat 01 2 3 4 5')"), (pmem.ProgramFailed, "is not one of pmem", "print('hello')"),
            (pmem.ProgramFailed, "is not one of pmem", "print('seal 0 0.1 xx')\nprint('stat 1 2 3 4 5')"),
            (pmem.ProgramFailed, "ended with status 3", stat + "import sys\nsys.exit(3)"),
            (pmem.NoMemory, "no memory", stat + "print('stop memory')"),
            (pmem.TooManyLines, "1,000,000", stat + "print('stop lines')"), (pmem.BadWords, "run", "print('stop words')"),
            (pmem.LineFault, "hex digits", "print('stop line 1 5')"), (pmem.ProgramFailed, "stop it", "print('stop it all')"),
        ):
            with self.subTest(body):
                self.raises(error, text, body)

    def test_nothing_there(self) -> None:
        with self.assertRaises(pmem.ProgramFailed) as failed:
            pmem.Controller(through=ways.Program(self.path("none")))
        self.assertIn("cannot be run: No such file", str(failed.exception))
        with self.assertRaises(pmem.ProgramFailed):
            ways.Library(self.file("libpmem.so", "no library"))
        with self.assertRaises(ValueError):
            pmem.Controller(through="both")
        shutil.copytree(PACKAGE / "pmem", self.directory / "lone" / "deep" / "pmem")
        environment = {name: value for name, value in os.environ.items() if not name.startswith("PMEM_")}
        environment.update(PATH=str(self.directory), PYTHONPATH=str(self.directory / "lone" / "deep"))
        ended = subprocess.run([sys.executable, "-c", "import pmem; pmem.Controller()"], env=environment, stdout=subprocess.PIPE,
                               stderr=subprocess.PIPE, universal_newlines=True, check=False)
        self.assertIn("NotFound: neither the program nor the library was found: in a checkout run tools/library", ended.stderr)

    def test_places(self) -> None:
        """The library of a checkout is taken if it is built from the sources as they stand; its program is what ./pmem says."""
        source, library = self.directory / "crates" / "pmem" / "src" / "main.rt", self.directory / "out" / "libpmem.so"
        self.file("crates.txt", "")
        for path in (source, library):
            path.parent.mkdir(parents=True, exist_ok=True)
            path.write_text("")
            path.chmod(0o755)
        os.utime(library, (2e9, 2e9))
        os.utime(source, (1.9e9, 1.9e9))
        self.assertEqual(ways._checkout_file.__wrapped__(self.directory, "out", "libpmem.so"), str(library))
        os.utime(source, (2.1e9, 2.1e9))
        self.assertIsNone(ways._checkout_file.__wrapped__(self.directory, "out", "libpmem.so"))
        self.assertIsNone(ways._checkout_program.__wrapped__(self.directory))
        self.file("VERSION", "1.2.3\n")
        self.script("pmem", "import sys\nprint(' '.join(sys.argv[1:]), '/a place')")
        self.assertEqual(ways._checkout_program.__wrapped__(self.directory), "--where /a place")
        self.script("pmem", "import sys\nsys.exit(126)")
        with self.assertRaises(pmem.NotFound) as raised:
            ways._checkout_program.__wrapped__(self.directory)
        self.assertIn("status 126", str(raised.exception))
        with mock.patch.dict(os.environ, {"PMEM_PROGRAM": "here", "PMEM_LIBRARY": str(self.directory)}):
            self.assertEqual((ways.find_program(), ways.find_library()), ("here", str(self.directory / "libpmem.so")))

    def test_which_way(self) -> None:
        """The library comes first, unless only the program is named."""
        with mock.patch.object(ways, "Library", lambda path: ("library", path)), mock.patch.object(ways, "Program", lambda path: ("program", path)):
            for library, program, due_way in (("l", "p", "library"), ("", "p", "program"), ("l", "", "library")):
                with mock.patch.dict(os.environ, {"PMEM_LIBRARY": library, "PMEM_PROGRAM": program}):
                    self.assertEqual(pmem.way_of()[0], due_way)  # type: ignore[index]
                    if program:
                        self.assertEqual(pmem.way_of("program"), ("program", "p"))


class TextTest(unittest.TestCase):
    """Answers, arguments and pages, without a program."""

    def example(self, form: str) -> str:
        """A text of a form: its first word, and a value for each place."""
        values = {"N": "18446744073709551615", "L": "0a" * 64, "T": "b0" * 16, "C": "18446744073709551615.127"}
        return " ".join(values[word[0]] if ":" in word else word for word in form.split(" "))

    def test_answers(self) -> None:
        """Each answer of each command is read from its text, gives that text again, and no other text is read as it."""
        count = 0
        mark = pmem.read_mark("seal 5 0.1 " + "b0" * 16)
        for session, commands in answers.FORMS.items():
            self.assertEqual(set(commands), set(grammar.GRAMMAR[session]))
            for command, forms in commands.items():
                for form in forms:
                    text = self.example(form)
                    answer = pmem.read_answer(session, command, text, (mark,))
                    self.assertEqual((str(answer), answer.reply), (text, f"{mark}\n{text}\n"))
                    self.assertEqual(eval(repr(answer), vars(pmem)), answer)  # noqa: S307
                    hash(answer)
                    if not isinstance(answer, pmem.Done):
                        with self.assertRaises(pmem.NotDone) as raised:
                            sessions.raise_not_done(answer)
                        self.assertIsNot(type(raised.exception), pmem.NotDone)
                        self.assertEqual((str(raised.exception), raised.exception.marks), (text, (mark,)))
                    for wrong in (text + " ", " " + text, text + " 0", text.replace("18446744073709551615", "01"),
                                  text.replace("0a", "0A"), "nonsense"):
                        if wrong != text:
                            with self.assertRaises(pmem.ProgramFailed):
                                pmem.read_answer(session, command, wrong)
                    count += 1
        self.assertGreater(count, 130)

    def test_answers_of_the_page(self) -> None:
        """The answers of `run` are those of the table in docs/FORMATS.md, and the exhibits of the five commands that it names."""
        page = (TOP / "docs" / "FORMATS.md").read_text()
        rows = page[page.index("| Command | Done | Otherwise |"):].split("\n\n")[0].splitlines()[2:]
        found: Dict[str, set] = {}
        for row in rows:
            names, *texts = [re.findall("`([^`]*)`", cell) for cell in row.split("|")[1:-1]]
            forms = [form for text in texts for one in text for form in (
                [one.replace("<place>", "data <a>"), one.replace("<place>", "meta <x>")] if "<place>" in one else [one])]
            for name in names:
                found[name] = {re.sub("<hex>", "L", re.sub("<kept>|<found>", "T", form)) for form in forms}
                if name in ("drain", "fence", "read", "turn", "on"):
                    found[name] |= {"clash N L L", "forged N C L T", "twin N N N N L T"}
                found[name] = {re.sub("<[a-z]+>", "N", form) for form in found[name]}
        self.assertEqual({name: {re.sub(":[a-z]+", "", form) for form in forms} for name, forms in answers.FORMS["run"].items()}, found)

    def test_marks(self) -> None:
        for text in ("begin 3", "seal 1023 5.127 " + "0f" * 16):
            self.assertEqual(str(pmem.read_mark(text)), text)
        for text in ("begin", "begin 03", "seal 1 2 " + "0f" * 16, "seal 1 2.3 0f"):
            with self.assertRaises(pmem.ProgramFailed):
                pmem.read_mark(text)

    def test_arguments(self) -> None:
        """What no line could say is refused before anything is sent."""
        with pmem.Controller(through="program") as controller:
            for call in (lambda: controller.post(8, 0, ONES), lambda: controller.post(0, -1, ONES), lambda: controller.post(0, 0, ONES[1:]),
                         lambda: controller.part(0, 0, 0, b""), lambda: controller.part(0, 0, 0, bytes(65)), lambda: controller.cut(2**64)):
                self.assertRaises(ValueError, call)
            for wrong in (lambda: controller.post(0, 0, 64), lambda: controller.drain("0"), lambda: controller.cut(1.0)):  # type: ignore
                self.assertRaises(TypeError, wrong)
            for name, at_fault in (
                ("port", lambda: controller.post(8, 0, ONES)), ("line", lambda: controller.read(0, -1)), ("data", lambda: controller.post(0, 0, b"")),
                ("start", lambda: controller.part(0, 0, 2**64, b"a")), ("bit", lambda: controller.flip(0, "1")),
                ("place", lambda: controller.peek(None)), ("to", lambda: controller.move(0, 1.5)), ("steps", lambda: controller.cut(-1)),
                ("levels", lambda: pmem.Controller(levels="2")), ("loss", lambda: pmem.Controller(loss=3)),
                ("key", lambda: pmem.Controller(key="00")),
                ("tag_key", lambda: pmem.Controller(tag_key=bytes(65))), ("suite", lambda: pmem.Controller(suite="AES")),
                ("every", lambda: pmem.LevelledMemory(every=0)), ("through", lambda: pmem.Controller(through="both")),
            ):
                with self.assertRaisesRegex((ValueError, TypeError), rf"^{name} must "):
                    at_fault()
            self.assertEqual(len(controller.trace.commands), 0)
            controller.post(0, 0, bytearray(64))
            controller.part(0, 0, 0, memoryview(b"ab"))

    def test_options(self) -> None:
        """An option is refused if and only if the program refuses its word."""
        with mock.patch.object(sessions, "way_of", return_value=mock.Mock()):
            for name, values in (("levels", (0, 1, 6, 7)), ("sets", (0, 1, 64, 65)), ("ways", (0, 1, 8, 9)), ("loss", (0, 1, 3, 16, 32)),
                                 ("major", (0, 2**64 - 1, 2**64)), ("every", (0, 1, 1_000_000, 1_000_001)), ("suite", ("aes", "weak", "blur", "AES")),
                                 ("key", (bytes(15), bytes(16), bytes(17))), ("tag_key", (b"", b"a", bytes(64), bytes(65)))):
                for value in values:
                    given = value.hex() if isinstance(value, bytes) else str(value)
                    small = [] if name == "levels" else ["--levels", "1"]
                    is_taken = due(["wear", *small, "--" + name.replace("_", "-"), given], b"")[0] == 0 if value != 6 or name != "levels" else True
                    try:
                        pmem.LevelledMemory(**{name: value})
                    except ValueError:
                        self.assertFalse(is_taken, (name, value))
                    else:
                        self.assertTrue(is_taken, (name, value))

    def test_pages(self) -> None:
        """What notebooks show is well formed, and says what it is about."""
        output = pmem.answer("run", (EXAMPLES / "power_cut.trace").read_bytes() + b"read 0 <b>&\n", "program")
        with pmem.Controller(through="program") as controller:
            controller.post(0, 0, ONES)
            shown = {"cut kept 4": output, "drain": output.trace, "1111": controller, "counter blocks": controller.device(),
                     "ok 7": controller.drain(0), "seal 0 0.1": controller.marks[0]}
        for text, page in ((text, thing._repr_html_()) for text, thing in shown.items()):
            self.assertIn(text, page)
            self.assertNotIn("<b>", page)
            Balanced(page).close()

    def test_traces(self) -> None:
        trace = pmem.Trace.of(["# first", "stat"]) + pmem.Trace.of("\r\n stat\t") + pmem.Trace.of(b"snap")
        self.assertEqual([(command.number, str(command)) for command in trace.commands], [(2, "stat"), (4, "stat"), (5, "snap")])
        self.assertEqual(pmem.Trace.load(EXAMPLES / "first.trace").data, (EXAMPLES / "first.trace").read_bytes())
        self.assertEqual(pmem.Trace.sample(7, 20, "program").data, due(["make", "7", "20"], b"")[1])
        with self.assertRaises(pmem.BadWords):
            pmem.Trace.sample(7, -1, "program")


class Balanced(html.parser.HTMLParser):
    """A page whose elements are all ended, in their order."""

    def __init__(self, page: str) -> None:
        super().__init__()
        self.open: List[str] = []
        self.feed(page)

    def handle_starttag(self, tag: str, attrs: List[Tuple[str, Optional[str]]]) -> None:
        if tag != "br":
            self.open.append(tag)

    def handle_endtag(self, tag: str) -> None:
        if self.open.pop() != tag:
            raise ValueError(f"</{tag}> ends another element")

    def close(self) -> None:
        super().close()
        if self.open:
            raise ValueError(f"not ended: {self.open}")


class SourcesTest(unittest.TestCase):
    def paths(self) -> List[Path]:
        found = [*PACKAGE.glob("pmem/*.py"), *PACKAGE.glob("build_backend/*.py"), *EXAMPLES.glob("python/*.py")]
        self.assertGreater(len(found), 8)
        return found

    def test_oldest_python(self) -> None:
        for path in self.paths():
            ast.parse(path.read_text(), str(path), feature_version=(3, 9))

    def test_types(self) -> None:
        mypy = "/usr/bin/mypy" if os.access("/usr/bin/mypy", os.X_OK) else shutil.which("mypy")
        if not mypy:
            self.skipTest("mypy isn't there")
        ended = subprocess.run([mypy, "--cache-dir", os.devnull], cwd=PACKAGE, stdout=subprocess.PIPE,
                               stderr=subprocess.STDOUT, universal_newlines=True, check=False)
        self.assertEqual(ended.returncode, 0, ended.stdout)

    def test_docstrings(self) -> None:
        with mock.patch.object(sessions, "way_of", return_value=ways.way_of("program")):
            results = doctest.testmod(sessions)
        self.assertEqual(results.attempted, 2)
        self.assertEqual(results.failed, 0)

    def example(self, name: str) -> List[str]:
        ended = subprocess.run([sys.executable, str(EXAMPLES / "python" / name)], env={**os.environ, "PYTHONPATH": str(PACKAGE)},
                               stdout=subprocess.PIPE, stderr=subprocess.STDOUT, universal_newlines=True, check=False)
        self.assertEqual(ended.returncode, 0, ended.stdout)
        return ended.stdout.splitlines()

    def test_pages(self) -> None:
        """The first example of the package's page, and that of its docstring, print what their comments say."""
        of_page = re.findall(r"```python\n(.*?)```", (PACKAGE / "README.md").read_text(), re.S)[0]
        of_package = textwrap.dedent("".join(line for line in (pmem.__doc__ or "").splitlines(True) if line.startswith("    ") or line == "\n"))
        for code, printed in ((of_page, ["cut lost 2 False", "on 256 5 2", r"b'\x00'"]), (of_package, ["cut lost 3 False"])):
            ended = subprocess.run([sys.executable, "-c", code], env={**os.environ, "PYTHONPATH": str(PACKAGE)}, stdout=subprocess.PIPE,
                                   universal_newlines=True, check=True)
            self.assertEqual(ended.stdout.splitlines(), printed)
            for line in printed:
                self.assertIn(line, code)

    def test_cuts(self) -> None:
        """The example for pytest passes, by itself."""
        self.assertEqual(self.example("test_each_cut.py"), ["an update of two lines takes 8 steps"])

    def test_store(self) -> None:
        said = self.example("store.py")
        cuts = [line for line in said if line.startswith("cut ")]
        self.assertEqual(said[-1], f"the update takes {len(cuts)} steps")
        for line in cuts:
            self.assertTrue(line.endswith("alice has 70, bob has 30" if line.startswith("cut kept") else "alice has 100, bob has 0"), line)

    def test_attack(self) -> None:
        self.assertEqual(self.example("attack.py")[1:], [
            "changed: ['device line 5, of the data lines']", "a read: refused data 5 0", "turned back: my secret", "recovery: RefusedRoot",
            "evidence: Forged which holds: True", "SHOWN after 3 commands"])


if __name__ == "__main__":
    unittest.main()

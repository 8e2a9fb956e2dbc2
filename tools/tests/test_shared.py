"""Cuts that one recovery stands for: which they are, and that their rows are those of a recovery each."""
import unittest
from dataclasses import replace
from typing import Any, Dict, Iterable, Iterator, List, Sequence, Tuple

from .helpers import EXAMPLES, ONES, QUICK, SMALL, ExploreTest, program_path, small_example
from explorer.cuts import NO_CUT, Cut, CutFinder, Recovery
from explorer.errors import ExploreError
from explorer.logged import LoggedProgram
from explorer.moments import Moment
from explorer.program import Program, Question, Recording
from explorer.settings import Settings
from explorer.shared import First, Stretch, replies_of, stretches_of, written_first
from explorer.together import Together
from explorer.trace import trace_of

# Two writes of a fence; then one that writes the first one's lines again.
WRITES = f"post 0 0 {ONES}\npost 0 4 {ONES}\nfence 0\n"
AGAIN = f"post 0 0 {'22' * 64}\ndrain 0\n"
TWICE = f"post 0 0 {ONES}\npost 0 4 {ONES}\nfence 0\ncut 2\npost 0 0 {'22' * 64}\ndrain 0\non\n"

LOG = b"work 0 0\nok\nlook 5\nlatch 2\nwork 1 3\nseal 0 0.1 ab\ncut kept 1\nline 0\nline 9\nlatch 0\nlook 0\nwork 4 5\non 4 5 16\n" \
    b"look 7\nwork 1 1\nline ff 0\n"


class Noting(Together):
    """Notes what is asked of the program: whether with its log, and the commands before the reads."""

    def __init__(self) -> None:
        super().__init__(Program(program_path()))
        self.asked: List[Tuple[bool, Tuple[bytes, ...]]] = []

    def with_log(self) -> "Noting":
        other = Noting()
        other.program, other.asked = LoggedProgram(self.program.path), self.asked
        return other

    def answers(self, recording: Recording, questions: Iterable[Question], total: int, what: str) -> Iterator[Tuple[Question, bytes]]:
        for question, data in super().answers(recording, questions, total, what):
            self.asked.append((isinstance(self.program, LoggedProgram), question.script))
            yield question, data

    def recoveries(self, is_logged: bool) -> int:
        """How many recoveries after cuts were asked for, with the log or without."""
        return sum(logged == is_logged and script[-1] == b"on" and script[0] != NO_CUT for logged, script in self.asked)


class SharedTest(ExploreTest):
    def test_stretches(self) -> None:
        look, arm, empty = (b"look", 3), (b"latch", 2), (b"latch", 0)
        line_0, line_7, line_9 = ((b"line", number) for number in (0, 7, 9))
        found = stretches_of([look, line_7, arm, line_0, look, line_9, empty, line_7, look], False)
        self.assertEqual(found, ([Stretch(2, (0, 9), True)], False))
        self.assertEqual(stretches_of([line_0, line_9, empty, line_7], True), ([Stretch(0, (0, 9), True)], False))
        self.assertEqual(stretches_of([arm, line_0], False), ([Stretch(1, (0,))], True))
        self.assertEqual(stretches_of([arm, line_0, arm], False), ([Stretch(1, (0,))], True))
        self.assertEqual(stretches_of([arm, look, empty, line_7], False), ([], False))
        self.assertEqual([Stretch(2, (0, 9)).has(number) for number in range(6)], [False, False, True, True, True, False])
        self.assertEqual([Stretch(2, (0, 9), True).has(number) for number in range(7)], [False, False, True, True, True, True, False])

    def test_what_recovery_writes_before_it_looks_at_it(self) -> None:
        log = b"\nline 0\nlook 9\nline 9\nlook 0\nline 1\n"
        self.assertEqual(written_first([0, 1, 5], log), 3)
        self.assertEqual(written_first([0, 9, 1], log), 1)
        self.assertEqual(written_first([9], log), 0)
        self.assertEqual(written_first([9], b"\nlook 90\nlook 19\nline 9\n"), 1)

    def first(self, log: bytes, is_emptied: bool = True) -> First:
        """What is printed to the question of a cut after a command's first step, that armed lines 0 and 9."""
        return First(Moment("cut", 3, 1), Stretch(1, (0, 9), is_emptied), [7], log, "pmem")

    def test_the_first_cut_tells_of_others_with_the_group_armed(self) -> None:
        first, last = self.first(LOG), Moment("cut", 3, 3)
        marks = b"ok\nseal 0 0.1 ab\n"
        self.assertEqual(first.data([7]), marks + b"cut kept 1\non 4 5 16\nline ff 0\n")
        self.assertTrue(first.tells(last))
        self.assertEqual(first.same_at(last, marks + b"cut kept 3\n", marks, [7]), marks + b"cut kept 3\non 4 5 16\nline ff 0\n")
        for otherwise in (b"ok\n", b"ok\nseal 0 0.2 ab\n"):
            self.assertIsNone(first.same_at(last, otherwise + b"cut kept 3\n", otherwise, [7]))
        self.assertIsNone(first.same_at(last, marks + b"ok 7\n", marks, [7]))
        self.assertFalse(self.first(LOG.replace(b"line 0\n", b"look 0\nline 0\n")).tells(Moment("cut", 3, 2)))
        self.assertFalse(self.first(LOG.replace(b"cut kept 1", b"ok 7")).tells(Moment("cut", 3, 2)))

    def test_the_first_cut_tells_of_the_one_behind_its_group(self) -> None:
        first, marks = self.first(LOG), b"ok\nseal 0 0.1 ab\n"
        cases: List[Tuple[Moment, List[int]]] = [(Moment("cut", 3, 4), [7]), (Moment("cut", 5), [])]
        for moment, lines in cases:
            self.assertTrue(first.tells(moment))
            self.assertEqual(first.same_at(moment, b"ok\ncut lost 0\n", marks, lines),
                             b"ok\ncut lost 0\non 4 5 13\n" + b"line ff 0\n" * len(lines))
            self.assertIsNone(first.same_at(moment, b"ok\ncut lost 0\n", b"ok\n", lines))
        others = [(b"line 0\nline 9\n", b"line 9\nline 0\n"), (b"line 9\nlatch 0", b"line 9\nline 8\nlatch 0"),
                  (b"line 9\nlatch 0", b"line 9\nlatch 1"), (b"line 0\nline 9", b"look 3\nline 0\nline 9"), (b"cut kept 1", b"ok 7"),
                  (b"on 4 5 16", b"refused counter 0 16"), (b"line ff 0\n", b"forged 7 0.1 ff ab\n")]
        for old, new in others:
            self.assertFalse(self.first(LOG.replace(old, new)).tells(Moment("cut", 3, 4)), new)
        self.assertFalse(self.first(LOG, False).tells(Moment("cut", 3, 4)))
        self.assertIsNone(self.first(LOG.replace(b"on 4 5 16", b"on 4 5 2")).same_at(Moment("cut", 3, 4), marks + b"cut lost 4\n", marks, [7]))

    def test_what_is_printed_up_to_a_cut_between_two(self) -> None:
        first, moment, marks = self.first(LOG), Moment("cut", 3, 2), b"ok\nseal 0 0.1 ab\n"
        self.assertEqual([first.is_between(Moment("cut", 3, number)) for number in range(5)], [False, False, True, False, False])
        self.assertFalse(first.is_between(Moment("cut", 4, 2)))
        self.assertFalse(self.first(LOG, False).is_between(moment))
        self.assertFalse(self.first(LOG.replace(b"line 9\n", b"look 9\nline 9\n")).is_between(moment))
        self.assertEqual(first.between(moment, marks + b"cut kept 3\n"), marks + b"cut kept 2\n")
        for last in (marks + b"cut lost 3\n", marks + b"cut kept 2\n", marks + b"cut kept 13\n", b"ok\nseal 0 0.1 ac\ncut kept 3\n"):
            self.assertIsNone(first.between(moment, last))

    def test_memory_before_a_command(self) -> None:
        first, marks, before = self.first(LOG), b"ok\nseal 0 0.1 ab\n", Moment("before", 5)
        self.assertTrue(first.tells(before))
        for printed in (b"ok\nok\n", b"off\nok\n"):
            self.assertEqual(first.same_at(before, printed, marks, [7]), printed + b"on 4 5 13\nline ff 0\n")
        for printed in (b"ok\ncut lost 0\n", b"ok\noff\n", b"ok\n"):
            self.assertIsNone(first.same_at(before, printed, marks, [7]))

    def test_what_is_no_log(self) -> None:
        for data in (b"work 0 0", b"work 0 0\n", b"work 0 0\nok", b"work 0 0\nseal 0 0.1 ab\n", b"ok\n", b"seal 0 0.1 ab\nwork 0 0\nseal 0 0.1 ab",
                     b"line 3\nok\n", b"line 3\nwork 0 0\nok\nlatch 0\n", b"look 3 work 0 0\nok\n"):
            with self.assertRaises(ExploreError, msg=data):
                list(replies_of(data, "pmem"))
        self.assertEqual(list(replies_of(b"work 0 0\nok\nline 3\nwork 1 3\nseal 0 0.1 ab\nok 7\n", "pmem")),
                         [(b"ok\n", 12), (b"seal 0 0.1 ab\nok 7\n", 47)])

    def test_what_is_printed_to_some_of_the_reads(self) -> None:
        log = LOG + b"work 1 1\nline ee 0\n"
        first = First(Moment("cut", 3, 1), Stretch(1, (0, 9), True), [7, 8], log, "pmem")
        cases: List[Tuple[List[int], bytes]] = [([7], b"line ff 0\n"), ([8], b"line ee 0\n"), ([7, 8], b"line ff 0\nline ee 0\n"), ([], b"")]
        for lines, printed in cases:
            self.assertEqual(first.read(lines), printed)
        ended = First(Moment("cut", 3, 1), Stretch(1, (0, 9), True), [7, 8], LOG, "pmem")
        self.assertEqual((ended.read([7]), ended.read([7, 8])), (None, b"line ff 0\n"))

    def rows(self, machine: str, text: bytes, together: Together, **settings: Any) -> Sequence[Cut]:
        """The rows of all cuts of a trace."""
        recording = Recording(together.program, Settings(machine_name=machine, **settings), trace_of("the trace", text))
        return CutFinder(recording, together, False).find(None, False, 0)

    def test_rows_are_those_of_a_recovery_each(self) -> None:
        cases: List[Tuple[str, bytes, Dict[str, Any]]] = [("run", TWICE.encode(), {"suite": "weak"})]
        cases.append(("run", (EXAMPLES / "power_cut.trace").read_bytes(), QUICK))
        cases.append(("wear", small_example("wear").encode(), {**SMALL, "every": 1}))
        cases.append(("txn", small_example("txn").encode(), SMALL))
        cases.append(("tree", (EXAMPLES / "tree.trace").read_bytes(), {}))
        for name, text, settings in cases:
            noting = Noting()
            found = self.rows(name, text, noting, **settings)
            self.assertEqual(found, self.rows(name, text, Together(noting.program, None, True), **settings), name)
            self.assertGreater(noting.recoveries(True), 0, name)
            self.assertGreater(len(noting.asked), noting.recoveries(True) + noting.recoveries(False), name)

    def test_rows_behind_a_group_are_those_of_a_recovery_each(self) -> None:
        between = {"nothing": "", "reads": "read 3 0\nread 3 64\nread 3 128\n", "flush": "flush\n", "flip": "flip 0 3\n",
                   "tag": "flip 1024 3\n", "block": "flip 1285 3\n", "moved": "move 4 0\n", "put back": "snap\nback 0\n", "off": "off\non\n",
                   "stop-loss": "loss 2\n", "dirty": f"post 1 192 {ONES}\ndrain 1\nread 3 0\n", "again": f"post 1 0 {ONES}\nfence 1\n"}
        for name, text in between.items():
            for sets in (1, 4):
                trace = (WRITES + text + AGAIN + "read 0 0\n" + WRITES).encode()
                noting = Noting()
                found = self.rows("run", trace, noting, suite="weak", sets=sets, ways=1)
                self.assertEqual(found, self.rows("run", trace, Together(noting.program, None, True), suite="weak", sets=sets, ways=1), name)

    def test_recoveries_asked_for(self) -> None:
        # A write here: three shadow lines if its page isn't named yet, then the latch that arms two lines, they, and the latch
        # that empties the group. So four cuts come before the first group is armed, each group takes one recovery, and the end one.
        cases = [(WRITES, 5, 2), (WRITES + AGAIN, 5, 3), (WRITES + "stat\npeek 0\n" + AGAIN, 5, 3), (WRITES + "flip 900 1\n" + AGAIN, 6, 3)]
        for text, own, shared in cases:
            noting = Noting()
            found = self.rows("run", text.encode(), noting, suite="weak")
            # Before each of those commands memory is read, and of each group one cut comes between its first and last one.
            befores = sum(script[0] == NO_CUT for _, script in noting.asked)
            self.assertEqual(len(noting.asked) - befores, len(found) - shared, text)
            self.assertEqual((noting.recoveries(False), noting.recoveries(True)), (own, shared), text)

    def test_recoveries_where_memory_is_looked_at_with_power_off_and_on(self) -> None:
        ports = "".join(f"post {port} {line} {ONES}\ndrain {port}\n" for port, line in zip(range(8), (0, 4, 0, 1, 64, 0, 4, 4)))
        for between, own in (("", 1), ("flip 900 1\n", 2), ("flip 0 1\n", 2)):
            trace = (ports + between + AGAIN).encode()
            noting = Noting()
            found = self.rows("run", trace, noting, suite="weak")
            self.assertEqual(found, self.rows("run", trace, Together(noting.program, None, True), suite="weak"), between)
            # The end takes one, and the others are those before the first command, and before the last one after a flip.
            befores = [script for _, script in noting.asked if script[:2] == (b"off", NO_CUT)]
            self.assertEqual([len(befores), sum(script[-1] == b"on" for script in befores)], [10, own + 1], between)

    def test_rows_compared_with_runs_from_the_start(self) -> None:
        noting = Noting()
        recording = Recording(noting.program, Settings(suite="weak"), trace_of("the trace", (WRITES + AGAIN).encode()))
        finder = CutFinder(recording, noting, False)
        cuts = finder.find(None, False, 0)
        self.assertEqual([(moment.index, moment.number) for moment in finder.behind], [(2, 7), (4, 0)])
        self.assertEqual([(cut.index, cut.number) for cut in finder.sample(cuts, 4)], [(2, 0), (2, 7), (4, 0), (5, 0)])
        wrong = [replace(cut, recovery=Recovery("on 1 1 1")) if (cut.index, cut.number) == (4, 0) else cut for cut in cuts]
        with self.assertRaises(ExploreError):
            finder.check(finder.sample(wrong, 4))


if __name__ == "__main__":
    unittest.main()

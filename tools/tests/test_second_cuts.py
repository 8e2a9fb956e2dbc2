"""Cuts of recoveries that one of them stands for: which they are, and that their rows are those of a question each."""
import unittest
from dataclasses import replace
from typing import Any, Dict, List, Sequence, Tuple

from .helpers import SMALL, ExploreTest, small_example
from .test_shared import AGAIN, TWICE, WRITES, Noting
from explorer.cuts import Cut, CutFinder, Recovery
from explorer.errors import ExploreError
from explorer.moments import Moment
from explorer.program import Recording
from explorer.second_cuts import Second, Told, unknown_lines
from explorer.settings import Settings
from explorer.shared import Stretch
from explorer.together import Together
from explorer.trace import trace_of

# `cut 1`, a command, `cut 4`, `on`, `on` and a read: the first `on` finishes a group of the lines 0 and 9.
LOG = b"work 0 0\nok\nlook 5\nlatch 2\nwork 1 3\nseal 0 0.1 ab\ncut kept 1\nwork 0 0\nok\nline 0\nline 9\nlatch 0\nlook 0\nline 8\nwork 4 5\n" \
    b"cut 4\nlook 8\nwork 4 5\non 4 5 9\nlook 7\nwork 1 1\nline ff 0\n"
# The same with `cut 1`: the second `on` finishes it.
EARLY = LOG.replace(b"line 9\nlatch 0\nlook 0\nline 8\n", b"").replace(b"cut 4", b"cut 1").replace(b"look 8\n", b"line 0\nline 9\nlatch 0\nlook 9\n")


class SecondCutsTest(ExploreTest):
    def test_lines_that_are_not_known(self) -> None:
        self.assertEqual(unknown_lines([0, 9], b"\nline 0\nline 9\nlook 0\n", b"\nlook 9\nlook 0\n"), 2)
        self.assertEqual(unknown_lines([0, 9], b"\nline 0\n", b"\nline 0\nline 9\nlook 9\n"), 2)
        self.assertEqual(unknown_lines([0, 9], b"\nline 0\n", b"\nlook 9\nline 9\n"), 1)
        self.assertEqual(unknown_lines([0, 9], b"\nline 0\n", b"\nlook 9\n"), 1)
        self.assertEqual(unknown_lines([0, 9], b"\nline 0\nlook 9\nline 9\n", b"\n"), 1)
        self.assertEqual(unknown_lines([0, 9], b"\nlook 0\n", b"\nline 0\nline 9\n"), 0)
        self.assertEqual(unknown_lines([0, 9], b"\nlook 90\n", b"\nlook 99\n"), 2)

    def second(self, log: bytes, steps: int, is_emptied: bool = True) -> Second:
        """What is printed to the question of a cut of the recovery after a command's first step."""
        return Second(Moment("cut", 3, 1, 8, steps), Stretch(1, (0, 9), is_emptied), [7], log, "pmem")

    def test_what_a_cut_of_a_recovery_tells(self) -> None:
        first, stretch = Moment("cut", 3, 1, 8), Stretch(1, (0, 9), True)
        ahead, behind = Told(first, stretch, b"cut kept 3", 2), Told(first, stretch, b"cut lost 0", -1)
        self.assertEqual([(each.is_behind, each.more) for each in (ahead, behind)], [(False, 0), (True, 3)])
        second, early = self.second(LOG, 4), self.second(EARLY, 1)
        self.assertEqual([(each.is_whole, each.count, each.is_finished) for each in (second, early)], [(True, 2, True), (True, 2, False)])
        self.assertEqual([ahead.is_told(second), behind.is_told(second), ahead.is_told(early), behind.is_told(early)], [True, True, True, False])
        self.assertEqual(second.told(ahead, 4, [7]), b"ok\ncut kept 3\nok\ncut 4\non 4 5 9\nline ff 0\n")
        self.assertEqual(second.told(behind, 1, []), b"ok\ncut lost 0\nok\ncut 1\non 4 5 9\n")
        self.assertEqual(second.data([7]), b"ok\nseal 0 0.1 ab\ncut kept 1\nok\ncut 4\non 4 5 9\nline ff 0\n")
        self.assertFalse(behind.is_told(self.second(LOG, 4, False)))

    def test_what_it_does_not_tell(self) -> None:
        stretch = Stretch(1, (0, 9), True)
        every = [Told(Moment("cut", 3, 1, 8), stretch, b"cut kept 3", ahead) for ahead in (2, -1)]
        for log, steps in ((LOG, 5), (LOG.replace(b"cut 4", b"ok 7"), 4), (LOG.replace(b"line ff 0\n", b"forged 7 0.1 ff ab\n"), 4),
                           (LOG[:LOG.index(b"look 7")], 4), (LOG.replace(b"line 0\nline 9", b"look 9\nline 0\nline 9"), 4)):
            self.assertEqual([told.is_told(self.second(log, steps)) for told in every], [False, False], log)
        one = Told(Moment("cut", 3, 1, 8), stretch, b"cut kept 2", 1)
        self.assertTrue(one.is_told(self.second(LOG.replace(b"line 0\nline 9", b"look 9\nline 0\nline 9"), 4)))
        self.assertFalse(every[0].is_told(self.second(EARLY.replace(b"line 9\nlatch 0\n", b""), 1)))

    def rows(self, machine: str, text: bytes, together: Together, **settings: Any) -> Sequence[Cut]:
        """The rows of all cuts of a trace, with those of their recoveries."""
        recording = Recording(together.program, Settings(machine_name=machine, **settings), trace_of("the trace", text))
        return CutFinder(recording, together, False).find(None, True, 0)

    def test_rows_are_those_of_a_question_each(self) -> None:
        cases: List[Tuple[str, bytes, Dict[str, Any]]] = [("run", (text + WRITES).encode(), {"suite": "weak"}) for text in (
            TWICE, WRITES + AGAIN, WRITES + "read 3 64\nflush\n" + AGAIN, WRITES + "flip 1285 3\n" + AGAIN, WRITES + "off\non\nloss 2\n" + AGAIN)]
        for machine in ("wear", "txn", "tree"):
            trace = "".join(small_example(machine).splitlines(True)[:12])
            cases.append((machine, trace.encode(), {**SMALL, "every": 1} if machine == "wear" else SMALL))
        for name, text, settings in cases:
            noting = Noting()
            found = self.rows(name, text, noting, **settings)
            self.assertEqual(found, self.rows(name, text, Together(noting.program, None, True), **settings), (name, text))

    def test_questions_asked(self) -> None:
        noting = Noting()
        found = self.rows("run", (WRITES + AGAIN).encode(), noting, suite="weak")
        asked = [is_logged for is_logged, script in noting.asked if len(script) == 5]
        # For each of the three groups, the recovery after its first cut takes eight steps; before the first group, four do.
        self.assertEqual((sum(len(cut.again) for cut in found), sum(asked), len(asked) - sum(asked)), (86, 3 * 8, 4))

    def test_questions_grow_as_the_rows(self) -> None:
        counts: List[Tuple[int, int]] = []
        for times in (1, 2, 3, 4):
            noting = Noting()
            found = self.rows("run", (WRITES + times * AGAIN).encode(), noting, suite="weak")
            counts.append((sum(1 + len(cut.again) for cut in found), sum(len(script) == 5 for _, script in noting.asked)))
        rows, asked = ([after[place] - before[place] for before, after in zip(counts, counts[1:])] for place in (0, 1))
        self.assertEqual(asked, [8, 8, 8], counts)
        self.assertGreaterEqual(min(rows), 4 * 8, counts)

    def test_rows_compared_with_runs_from_the_start(self) -> None:
        noting = Noting()
        recording = Recording(noting.program, Settings(suite="weak"), trace_of("the trace", (WRITES + AGAIN).encode()))
        finder = CutFinder(recording, noting, False)
        cuts = finder.find(None, True, 4)
        assert finder.seconds is not None
        self.assertGreater(len(finder.seconds.told), 20)
        second = next(cut for cut in cuts if (cut.index, cut.number) == (finder.seconds.told[-1].index, finder.seconds.told[-1].number)).again[0]
        finder.check([second])
        with self.assertRaises(ExploreError):
            finder.check([replace(second, recovery=Recovery("on 1 1 1"))])


if __name__ == "__main__":
    unittest.main()

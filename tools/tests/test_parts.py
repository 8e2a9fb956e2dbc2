"""Parts of `explore` by themselves: the names of device lines, commands of a trace, labels of pictures, tables."""
import selectors
import tempfile
import time
import unittest
from pathlib import Path
from typing import Dict, Iterator, List
from unittest import mock

from .helpers import ONES

from explorer import draw, finding, output
from explorer.errors import ExploreError
from explorer.layout import Layout, layout_of
from explorer.program import Output, Reply, replies_of
from explorer.settings import Settings
from explorer.together import Progress, Worker, in_order, time_text
from explorer.trace import Command, commands_of, short_text
from explorer.traced import ARMS, EMPTIES, LATCH, SETS, Step, Traced


class LayoutTest(unittest.TestCase):
    def test_names_by_default(self) -> None:
        layout = Layout(Settings())
        names = {0: "data line 0", 1023: "data line 1023", 1024: "tag line of 0 to 3", 1279: "tag line of 1020 to 1023",
                 1280: "node 0", 1284: "node 4", 1285: "counter block of page 0", 1300: "counter block of page 15",
                 1301: "line 0 of the shadow table of counter blocks", 1302: "line 0 of the shadow table of tree nodes"}
        self.assertEqual({line: layout.place(line).name for line in names}, names)
        self.assertEqual(layout.size, 1303)

    def test_paths(self) -> None:
        self.assertEqual([line - 1280 for line in Layout(Settings()).path(15)], [20, 4, 0])
        layout = Layout(Settings(levels=3))
        self.assertEqual([line - layout.first_meta for line in layout.path(63)], [84, 20, 4, 0])

    def test_larger_shadow_tables(self) -> None:
        layout = Layout(Settings(levels=1, sets=64, ways=8))
        self.assertEqual(layout.first_node_shadow - layout.first_counter_shadow, 32)
        self.assertEqual(layout.size - layout.first_node_shadow, 32)

    def test_the_other_machines(self) -> None:
        for machine, names in (
                ("wear", {1022: "place 1022", 1023: "the record", 1024: "tag line of 0 to 3"}),
                ("txn", {1007: "data line 1007", 1008: "the header", 1009: "body 0", 1023: "body 14", 1280: "node 0"}),
                ("tree", {63: "data line 63", 64: "tag line of 0", 127: "tag line of 63", 128: "node 0", 148: "node 20",
                          149: "slot line 0", 157: "slot line 8"})):
            layout = layout_of(Settings(machine_name=machine))
            self.assertEqual({line: layout.place(line).name for line in names}, names)
        self.assertEqual(layout.size, 158)


class AxisTest(unittest.TestCase):
    def test_numbers_along_the_bottom(self) -> None:
        for count, stride in ((0, 1), (40, 1), (41, 2), (81, 5), (200, 5), (40_000, 1000), (40_001, 2000), (231_000, 10_000)):
            self.assertEqual(draw.stride_for(count, 40), stride)


class TraceTest(unittest.TestCase):
    def test_which_lines_are_commands(self) -> None:
        commands = commands_of(b"# no\n\n \t \r\n\tstat \r\non # more\n #x\noff")
        self.assertEqual([(command.number, command.words) for command in commands],
                         [(4, ["stat"]), (5, ["on", "#", "more"]), (7, ["off"])])

    def test_long_words_are_shortened(self) -> None:
        self.assertEqual(short_text(f"post 0 18446744073709551615 {ONES}"), "post 0 18446744073709551615 11..11")
        self.assertEqual(short_text("seal 0 0.1 e2c86073b7116cbb9fc299fe0e5168ee"), "seal 0 0.1 e2c8..68ee")


class RepliesTest(unittest.TestCase):
    def test_marks_stand_before_the_answer(self) -> None:
        replies = replies_of(["ok", "begin 0", "seal 5 1.1 00", "cut kept 1 9"])
        self.assertEqual(replies, [Reply((), "ok"), Reply(("begin 0", "seal 5 1.1 00"), "cut kept 1 9")])

    def test_steps_of_answers(self) -> None:
        for answer, steps in (("ok 7", 7), ("ok 3 13", 13), ("line 00 2", 2), ("refused data 5 1", 1), ("off", 0),
                              ("cut kept 4", 4), ("on 256 9 8", 8), ("idle", 0), ("forged 5 0.0 00 00", None)):
            self.assertEqual(Reply((), answer).steps, steps)


class Immediate(Worker[int]):
    """A worker that has done each task at once."""

    def give(self, number: int, task: int) -> None:
        self.done[number] = Output(b"%d" % task, 0)


class TogetherTest(unittest.TestCase):
    def test_many_tasks_take_time_that_grows_with_their_number(self) -> None:
        with selectors.DefaultSelector() as selector:
            seconds = []
            for count in (10_000, 100_000):
                done: Dict[int, Output] = {}
                begun = time.process_time()
                found = in_order(selector, range(count), [Immediate(done, 8)], done, Progress("tasks", count))
                self.assertTrue(all(output.data == b"%d" % task for task, output in found))
                seconds.append(time.process_time() - begun)
        self.assertLess(seconds[1], 30 * seconds[0] + 1)

    def test_tasks_are_begun_as_they_are_needed(self) -> None:
        begun: List[int] = []

        def next_task() -> Iterator[int]:
            for task in range(10_000):
                begun.append(task)
                yield task

        with selectors.DefaultSelector() as selector:
            done: Dict[int, Output] = {}
            found = in_order(selector, next_task(), [Immediate(done, 8)], done, Progress("tasks"))
            next(found)
            self.assertLess(len(begun), 1000)
            found.close()  # type: ignore[attr-defined]  # a generator

    def test_time_left(self) -> None:
        progress = Progress("cuts", 100)
        self.assertEqual(progress.left(10, 20.0), ", 3 min left")
        self.assertEqual((progress.left(0, 20.0), progress.left(100, 20.0), progress.left(50, 0.1)), ("", "", ""))
        self.assertEqual((time_text(4.2), time_text(7200)), ("4 s", "2.0 h"))


class ProgramTest(unittest.TestCase):
    def test_the_repositorys_script_is_asked_where_its_program_is(self) -> None:
        with tempfile.TemporaryDirectory() as folder:
            script, calls = Path(folder) / "pmem", Path(folder) / "calls"
            script.write_text(f"#!/bin/sh\necho \"$@\" >>'{calls}'\necho /a/program\n")
            script.chmod(0o755)
            with mock.patch.object(finding, "SCRIPT", script):
                self.assertEqual(finding.found_program(str(script)), "/a/program")
                self.assertEqual(finding.found_program("/bin/true"), "/bin/true")
            self.assertEqual(calls.read_text(), "--where\n")

    def test_a_script_that_fails_is_told(self) -> None:
        with tempfile.TemporaryDirectory() as folder:
            script = Path(folder) / "pmem"
            script.write_text("#!/bin/sh\necho 'pmem: nothing is built' >&2\nexit 126\n")
            script.chmod(0o755)
            with mock.patch.object(finding, "SCRIPT", script), self.assertRaisesRegex(ExploreError, "^no program to ask: .* ended with"):
                finding.found_program(str(script))


class LabelsTest(unittest.TestCase):
    def test_all_have_room_in_a_short_picture(self) -> None:
        traced = [Traced(Command(number, b"stat", "stat"), Reply((), "stat 0 0 0 0 0"), ()) for number in range(9)]
        self.assertEqual(len(draw.labels_of(draw.spans_of(traced), draw.UNIT * 0.95)), 9)
        self.assertLess(len(draw.labels_of(draw.spans_of(traced), draw.UNIT / 10)), 9)

    def test_what_matters_comes_first(self) -> None:
        traced = [Traced(Command(number, b"stat", "stat"), Reply((), "stat 0 0 0 0 0"), ()) for number in range(8)]
        traced.append(Traced(Command(9, b"read 0 5", "read"), Reply((), "refused data 5 0"), ()))
        (first, *_) = draw.labels_of(draw.spans_of(traced), 0.001)
        self.assertEqual(first[1], "read 0 5: refused data 5")


class MarksTest(unittest.TestCase):
    def test_each_latch_has_a_mark_of_its_own(self) -> None:
        steps = tuple(Step(number, LATCH, does=does) for number, does in enumerate((ARMS, EMPTIES, SETS), 1))
        axes = mock.Mock()
        spans = draw.spans_of([Traced(Command(1, b"drain 0", "drain"), Reply((), "ok 3"), steps)])
        self.assertEqual(draw.draw_marks(axes, spans, draw.Lanes(), 9.0), [f"latch {step.does}" for step in steps])
        marks = [(call.args[0], call.kwargs["marker"], call.kwargs["facecolor"]) for call in axes.scatter.call_args_list]
        self.assertEqual([places for places, _, _ in marks], [(number + 0.5,) for number in range(3)])
        self.assertEqual(len({(marker, inside) for _, marker, inside in marks}), 3)


class TableTest(unittest.TestCase):
    def test_columns(self) -> None:
        self.assertEqual(output.table_text([["a", "name"]], [["1", "x"], ["22", "yy"]], left=(1,)),
                         " a  name\n 1  x\n22  yy\n")

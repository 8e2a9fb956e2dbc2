"""`explore steps`: each persist step with the line that it writes."""
import os
import subprocess
import sys
from dataclasses import dataclass, replace
from typing import Any, Dict, Iterator, List, NamedTuple, Optional, Sequence, Tuple

from .helpers import EXAMPLES, EXPLORE, FORGED, ONES, QUICK, TOOLS, TWIN, TWO_WRITES, WRITE, ExploreTest, lesson_words, program_path, words_of
from explorer.layout import Layout
from explorer.program import Program, Question, Recording, counts_of, text_of
from explorer.same_bytes import peeks
from explorer.settings import Settings
from explorer.together import Together
from explorer.trace import TAMPERING_WORDS, trace_of

TWO_PAGES = f"post 0 324 {'f0' * 64}\npost 1 372 {'eb' * 64}\ndrain 1\ndrain 0\n"
SAME_BYTES = TWO_PAGES + "read 0 0\nread 0 256\nread 0 512\nread 0 768\n"
COUNTS = ("reads", "writes", "latches", "tags", "digests")


@dataclass(frozen=True)
class Moment:
    """After `number` of the steps of a command, before which a bit of a device line may be flipped."""

    index: int
    number: int
    flipped: Optional[int] = None

    @property
    def next(self) -> "Moment":
        """The moment one step later."""
        return replace(self, number=self.number + 1)


class State(NamedTuple):
    """The line writes and latches by the counts, and all device lines."""

    writes: int
    latches: int
    lines: List[bytes]

    def changed(self, later: "State") -> List[int]:
        """The device lines that differ later."""
        return [line for line, (old, new) in enumerate(zip(self.lines, later.lines)) if old != new]


def states_at(recording: Recording, moments: Sequence[Moment]) -> Iterator[State]:
    """The states at these moments, as cuts show them: the log isn't asked."""
    size = Layout(recording.settings).size
    asked = text_of([b"stat", *peeks(range(size))])
    questions = []
    for at in moments:
        text = recording.commands[at.index].text
        is_whole = at.number == recording.replies[at.index].steps
        script = [] if at.number == 0 else [text] if is_whole else [b"cut %d" % at.number, text]
        questions.append(Question(at.index, (*([] if at.flipped is None else [b"flip %d 0" % at.flipped]), *script), asked))
    for _, data in Together(recording.program).answers(recording, questions, len(questions), "states"):
        stat, *lines = data.split(b"\n")[-2 - size:-1]
        counts = counts_of(stat.decode())
        yield State(counts.writes, counts.latches, lines)


def lines_of(command: Dict[str, Any]) -> List[Optional[int]]:
    """The device lines that a command writes in order, a latch being None."""
    return [step["device_line"] for step in command["steps"]]


class StepsTest(ExploreTest):
    def test_a_write_takes_the_seven_steps_of_the_documents(self) -> None:
        commands = self.json("steps", "-", text=WRITE)
        self.assertEqual([command["command"] for command in commands], [f"post 0 0 {ONES}", "drain 0"])
        drain = commands[1]
        self.assertEqual(lines_of(drain), [1302, 1302, 1301, None, 0, 1024, None])
        self.assertEqual([step["step"] for step in drain["steps"]], list(range(1, 8)))
        self.assertEqual([step["kind"] for step in drain["steps"]],
                         ["write", "write", "write", "latch", "write", "write", "latch"])
        self.assertEqual(drain["answer"], "ok 7")
        self.assertEqual(len(drain["marks"]), 1)

    def test_text_names_lines_and_replies(self) -> None:
        text = self.output("steps", "-", text="# a comment\n\n" + WRITE)
        self.assertIn("3  post 0 0 11..11\n   > ok\n4  drain 0\n   > seal 0 0.1 ", text)
        self.assertIn("step 1  line 1302: line 0 of the shadow table of tree nodes\n", text)
        self.assertIn("step 4  latch: arms a group of 2 lines\n", text)
        self.assertIn("step 5  line 0: data line 0\n", text)
        self.assertIn("step 6  line 1024: tag line of 0 to 3\n", text)
        self.assertIn("step 7  latch: empties the group\n", text)
        self.assertTrue(text.endswith("2 commands, 7 persist steps\n"))

    def test_whole_keeps_long_hex(self) -> None:
        self.assertIn(f"post 0 0 {ONES}\n", self.output("steps", "-", "--whole", text=WRITE))

    def test_fence_flush_and_part(self) -> None:
        commands = self.json("steps", "-", text=TWO_WRITES + "flush\n")
        fence, flush = commands[4], commands[5]
        self.assertEqual(lines_of(fence), [1301, None, 70, 1041, None, None, 70, 1041, None])
        self.assertEqual(flush["answer"], "ok 0 1")
        self.assertEqual(lines_of(flush), [1280])
        self.assertEqual(flush["steps"][0]["name"], "node 0")

    def test_cut_of_the_trace_itself_and_recovery(self) -> None:
        commands = self.json("steps", "-", text=f"post 0 0 {ONES}\ncut 5\ndrain 0\ncut 3\non\non\n")
        self.assertEqual(lines_of(commands[2]), [1302, 1302, 1301, None, 0])
        self.assertEqual(lines_of(commands[4]), [0, 1024, None])
        self.assertEqual([step["same_bytes"] for step in commands[4]["steps"]], [True, False, False])
        self.assertEqual(lines_of(commands[5]), [1285, 1281, 1280, 1301, 1302])

    def test_only_some_lines(self) -> None:
        commands = self.json("steps", "-", "--lines", "4-9", text=TWO_WRITES)
        self.assertEqual([command["trace_line"] for command in commands], [4, 5])
        self.assertEqual(commands[1]["steps"][0]["step"], 8)

    def test_lines_past_the_end_are_told(self) -> None:
        for command in ("steps", "cuts"):
            self.assert_fails(self.explore(command, "-", "--lines", "3-9", text=WRITE), 2, "no line 3", "it has 2 lines")
            self.assertEqual(self.explore(command, "-", "--lines", "2-9", text=WRITE).returncode, 0)

    def test_forks_and_runs_from_the_start_show_the_same(self) -> None:
        text = (EXAMPLES / "power_cut.trace").read_text() + "flush\nflip 9 0\nread 0 9\nloss 2\nloss 4\n" + TWO_WRITES
        self.assertEqual(self.output("steps", "-", text=text), self.output("steps", "-", "--from-start", text=text))

    def test_a_long_trace_takes_little_memory(self) -> None:
        writes = "".join(f"post 0 {number * 7 % 1024} {ONES}\ndrain 0\n" for number in range(700))
        trace = self.file("long.trace", writes)
        code = ("import resource, subprocess, sys; subprocess.run(sys.argv[1:], stdout=subprocess.DEVNULL, check=True); "
                "print(resource.getrusage(resource.RUSAGE_CHILDREN).ru_maxrss)")
        found = subprocess.run([sys.executable, "-c", code, sys.executable, str(EXPLORE), "steps", trace],
                               stdout=subprocess.PIPE, check=True)
        self.assertLess(int(found.stdout), 200_000)

    def test_other_geometry(self) -> None:
        commands = self.json("steps", "-", "--levels=1", "--sets", "1", "--ways", "1", "--loss", "1", text=WRITE)
        self.assertEqual(lines_of(commands[1]), [326, 325, None, 0, 256, 321, None])
        self.assertEqual(commands[1]["steps"][5]["name"], "counter block of page 0")

    def test_an_exhibit_ends_the_trace(self) -> None:
        commands = self.json("steps", "-", "--suite", "weak", text=FORGED + "read 0 6\n")
        self.assertEqual(len(commands), 3)
        self.assertTrue(commands[2]["answer"].startswith("forged 5 0.0 "))
        self.assertEqual(commands[2]["steps"], [])

    def test_steps_before_an_exhibit_are_found(self) -> None:
        commands = self.json("steps", "-", "--suite", "blur", "--loss", "2", text=TWIN)
        self.assertTrue(commands[3]["answer"].startswith("twin 0 0 0 1 "))
        self.assertEqual([step["kind"] for step in commands[3]["steps"]], ["write", "write", "latch"])
        self.assertEqual(lines_of(commands[3]), [0, 1024, None])
        self.assertEqual(commands[3]["steps"][2]["latch"], "empties")

    def test_the_last_step_before_an_exhibit(self) -> None:
        """The line is known, but not whether it had those bytes, since nothing can be asked after an exhibit."""
        text = WRITE + "flip 100 0\nflip 100 8\nread 0 100\n"
        read = self.json("steps", "-", "--suite", "weak", "--sets", "1", "--ways", "1", text=text)[4]
        self.assertTrue(read["answer"].startswith("forged 100 0.0 "))
        self.assertEqual([(step["device_line"], step["same_bytes"]) for step in read["steps"]], [(1285, None)])

    def test_empty_trace_and_comments_alone(self) -> None:
        self.assertEqual(self.output("steps", "-", text=""), "0 commands, 0 persist steps\n")
        self.assertEqual(self.output("steps", "-", text="# nothing\n \t\n"), "0 commands, 0 persist steps\n")

    def test_carriage_returns_tabs_and_no_last_end_of_line(self) -> None:
        plain = self.json("steps", "-", text=WRITE)
        other = self.json("steps", "-", text=f"\tpost  0\t0 {ONES}\r\n drain 0\r")
        self.assertEqual([lines_of(command) for command in other], [lines_of(command) for command in plain])

    def test_tampering_between_commands_is_no_step(self) -> None:
        commands = self.json("steps", "-", text=WRITE + "flip 0 0\nread 0 0\nflip 0 0\n" + WRITE)
        self.assertEqual([lines_of(command) for command in commands[2:6]], [[], [], [], []])
        self.assertEqual(commands[3]["answer"], "refused data 0 0")
        self.assertEqual(lines_of(commands[6]), [None, 0, 1024, None])

    def test_a_line_that_the_trace_does_not_lead_to(self) -> None:
        table = "00000003" + "00" * 60
        commands = self.json("steps", "-", text=f"off\nflip 1282 0\npoke 1302 {table}\non\n")
        self.assertEqual(lines_of(commands[3]), [1282, 1302])
        self.assertEqual(commands[3]["steps"][0]["name"], "node 2")

    def test_a_line_that_is_written_with_the_bytes_that_it_had(self) -> None:
        text = TWO_PAGES + "flush\n"
        flush = self.json("steps", "-", "--suite", "weak", "--loss", "1", text=text)[4]
        self.assertEqual((flush["answer"], lines_of(flush)), ("ok 0 1", [1280]))
        self.assertTrue(flush["steps"][0]["same_bytes"])
        commands = self.json("steps", "-", "--suite", "weak", "--loss", "1", "--sets", "1", "--ways", "1", text=SAME_BYTES)
        self.assertEqual(lines_of(commands[4]), [1282])
        self.assertTrue(commands[4]["steps"][0]["same_bytes"])


class LogTest(ExploreTest):
    """What the program's log reports."""

    def test_what_a_latch_does(self) -> None:
        commands = self.json("steps", "-", text=WRITE + "loss 2\nloss 4\n")
        latches = [[(step["latch"], step["group_lines"]) for step in command["steps"] if step["kind"] == "latch"]
                   for command in commands]
        self.assertEqual(latches, [[], [("arms", 2), ("empties", 0)], [("sets", 0)], [("sets", 0)]])
        text = self.output("steps", "-", text=WRITE + "loss 2\nloss 4\n")
        self.assertEqual(text.count(": arms a group of 2 lines\n"), 1)
        self.assertEqual(text.count(": empties the group\n"), 1)
        self.assertEqual(text.count(": sets the stop-loss number\n"), 2)

    def test_a_recovery_empties_what_a_cut_left_armed(self) -> None:
        commands = self.json("steps", "-", text=f"post 0 0 {ONES}\ncut 4\ndrain 0\ncut 1\non\non\n")
        self.assertEqual([[step.get("latch") for step in command["steps"]] for command in commands[2:]],
                         [[None, None, None, "arms"], [], [None], [None, None, "empties", *[None] * 5]])

    def same_steps(self, words: Sequence[str], text: str) -> List[List[Dict[str, Any]]]:
        """The steps of each command. They are those that cuts show, one after each step, except the last one before an exhibit, after
        which nothing can be asked: the counts tell a line write from a latch, and the device which line has other bytes. If a
        line is written with the bytes that it had, a bit of it that was flipped before the command is right again."""
        told = self.json("steps", "-", *words, text=text)
        settings: Dict[str, Any] = {name[2:]: int(value) if value.isdigit() else value for name, value in zip(words[::2], words[1::2])}
        recording = Recording(Program(program_path()), Settings(**settings), trace_of("the trace", text.encode()))
        plain: List[Tuple[Moment, Dict[str, Any]]] = []
        for index, command in enumerate(told):
            steps = command["steps"][:-1] if recording.replies[index].is_exhibit else command["steps"]
            plain += [(Moment(index, number), step) for number, step in enumerate(steps)]
        self.check_steps(recording, plain)
        self.check_steps(recording, [(replace(at, flipped=step["device_line"]), step) for at, step in plain if step["same_bytes"]])
        return [command["steps"] for command in told]

    def check_steps(self, recording: Recording, steps: Sequence[Tuple[Moment, Dict[str, Any]]]) -> None:
        """Checks that each of these steps, one just after each moment, is what the states before and after it show."""
        moments = list(dict.fromkeys(moment for at, _ in steps for moment in (at, at.next)))
        states = zip(moments, states_at(recording, moments))
        known: Dict[Moment, State] = {}
        for at, step in steps:
            known = {moment: known[moment] if moment in known else next(states)[1] for moment in (at, at.next)}
            old, new = known.values()
            is_write = step["kind"] == "write"
            changed = [step["device_line"]] if is_write and (not step["same_bytes"] or at.flipped is not None) else []
            self.assertEqual((new.writes - old.writes, new.latches - old.latches, old.changed(new)), (is_write, not is_write, changed), (at, step))

    def quick(self, words: Sequence[str], text: str) -> List[str]:
        """The words with the quick ciphers, if nobody tampers: then the ciphers don't change which steps there are."""
        is_free = "--suite" not in words and TAMPERING_WORDS.isdisjoint(word for line in text.splitlines() for word in line.split()[:1])
        return [*words, *words_of(QUICK)] if is_free else list(words)

    def test_steps_are_those_that_cuts_find(self) -> None:
        for name, *words in (("first",), ("attack",), ("power_cut",), ("forged_tag", "--suite", "weak")):
            with self.subTest(name):
                text = (EXAMPLES / f"{name}.trace").read_text()
                self.same_steps(self.quick(words, text), text)
        for trace in sorted((TOOLS.parent / "lessons").glob("[0-9]*/trace")):
            machine, *words = lesson_words(trace.parent)
            if machine == "run":
                with self.subTest(trace.parent.name):
                    text = trace.read_text()
                    self.assertTrue(any(self.same_steps(self.quick(words, text), text)))

    def test_steps_of_a_sample_with_a_small_cache(self) -> None:
        """There are lines that a command writes twice, and lines that are written with the bytes that they had."""
        made = subprocess.run([program_path(), "make", "5", "100"], stdout=subprocess.PIPE, universal_newlines=True, check=True)
        text = SAME_BYTES + made.stdout + f"flip 1282 0\nloss 1\ncut 6\nfence 0\non\n{TWO_WRITES}cut 9\nflush\non\nflush\n"
        steps = self.same_steps(["--suite", "weak", "--sets", "1", "--ways", "1", "--loss", "1"], text)
        lines = [[step["device_line"] for step in each if step["kind"] == "write"] for each in steps]
        self.assertTrue(any(len(set(each)) < len(each) for each in lines))
        self.assertTrue(any(step["same_bytes"] for each in steps for step in each))

    def test_some_lines_of_a_trace_have_the_steps_of_the_whole(self) -> None:
        text = (EXAMPLES / "power_cut.trace").read_text() + "flip 9 0\nflush\n" + TWO_WRITES
        whole = self.json("steps", "-", text=text)
        for first, last in ((9, 14), (14, 40), (30, 33)):
            self.assertEqual(self.json("steps", "-", "--lines", f"{first}-{last}", text=text),
                             [command for command in whole if first <= command["trace_line"] <= last])

    def test_counts_are_the_differences_of_stat(self) -> None:
        lines = [line for line in ((EXAMPLES / "power_cut.trace").read_text() + TWO_WRITES + "read 0 70\nturn\nflush\nloss 1\n"
                                   ).splitlines() if line and not line.startswith("#")]
        commands = self.json("steps", "-", "--reads", text="stat\n" + "".join(f"{line}\nstat\n" for line in lines))
        stats = [[int(word) for word in command["answer"].split(" ")[1:]] for command in commands[::2]]
        self.assertEqual(len(stats), len(lines) + 1)
        for number, command in enumerate(commands[1::2]):
            kinds = [step["kind"] for step in command["steps"]]
            told = (len(command["reads"]), kinds.count("write"), kinds.count("latch"), command["tags"], command["digests"])
            risen = tuple(new - old for old, new in zip(stats[number], stats[number + 1]))
            self.assertEqual(dict(zip(COUNTS, told)), dict(zip(COUNTS, risen)), command["command"])
        self.assertTrue(all(stats[-1]))

    def test_reads_stand_between_the_steps(self) -> None:
        text = self.output("steps", "-", "--reads", text=WRITE + "read 0 4\n")
        self.assertIn("     step 3  line 1301: line 0 of the shadow table of counter blocks\n"
                      "     read    line 1024: tag line of 0 to 3\n"
                      "     step 4  latch: arms a group of 2 lines\n", text)
        self.assertIn("3  read 0 4\n   > line 00..00 0\n     read    line 4: data line 4\n"
                      "     read    line 1025: tag line of 4 to 7\n     2 reads, 1 tag, 0 digests\n", text)
        self.assertTrue(text.endswith("3 commands, 7 persist steps, 6 reads, 2 tags, 6 digests\n"))
        self.assertNotIn("read ", self.output("steps", "-", text=WRITE))
        drain, read = self.json("steps", "-", "--reads", text=WRITE + "read 0 4\n")[1:]
        self.assertEqual([(read["steps_before"], read["device_line"]) for read in drain["reads"]],
                         [(0, 1280), (0, 1281), (0, 1285), (3, 1024)])
        self.assertEqual(drain["reads"][3]["name"], "tag line of 0 to 3")
        self.assertEqual([each["steps_before"] for each in read["reads"]], [7, 7])

    def test_a_program_that_refuses_the_option(self) -> None:
        """Another program may lack --log: then it is named, with the words that it refuses."""
        program = self.program_without_log()
        for words, text in ((("steps", "-"), WRITE), (("steps", "-", "--reads", "--as", "txn"), "begin\n"),
                            (("sweep", "-", "--as", "tree"), "read 0\n"), (("compare", "-", "--designs", "run"), WRITE)):
            name = words[words.index("--as") + 1] if "--as" in words else "run"
            result = self.explore(*words, "--program", program, text=text)
            told = f"{program} does not tell what the commands of {name} do to the device: it refuses {name} --levels=2"
            self.assert_fails(result, 1, told, "--log\n")

    def test_steps_before_an_exhibit_are_counted_by_the_log(self) -> None:
        """One run reports them; by cuts there are as many as steps, and more."""
        text = WRITE + "flip 100 0\nflip 100 8\nread 0 100\n"
        words = ("--suite", "weak", "--sets", "1", "--ways", "1", "--from-start", "--check-rows", "0", "--lines", "5")
        cuts = self.json("cuts", "-", *words, text=text)
        self.assertEqual([cut["answer"] for cut in cuts], ["cut 0"])
        kept = self.path("runs")
        program = self.script("counting", f"""
import os, sys
with open({kept!r}, "a") as file:
    file.write(" ".join(sys.argv[1:]) + "\\n")
os.execv({os.path.abspath(program_path())!r}, [{program_path()!r}, *sys.argv[1:]])
""")
        found = self.json("cuts", "-", *words, "--program", program, text=text)
        self.assertEqual(found, cuts)
        with open(kept, encoding="ascii") as file:
            runs = file.read().splitlines()
        # The trace, its log, and the two questions about the one cut.
        self.assertEqual([" --log" in run for run in runs], [False, True, False, False])

    def test_a_log_that_does_not_fit_the_replies(self) -> None:
        for old, new, told in (("ok 7", "ok 8", "does not answer the same with --log"), ("work.*", "", "with --log"),
                               ("look 1280", "look x", "does not tell its accesses"), ("look 1280", "gaze 1280", "accesses"),
                               ("latch 2\\n", "", "the answer tells 7 steps, and the log 6"),
                               ("line 0\\n", "line 5000\\n", "names line 5000"), ("\\Z", "ok\\n", "answers more")):
            with self.subTest(told):
                program = self.script("other", f"""
import os, re, subprocess, sys
words = [{program_path()!r}, *sys.argv[1:]]
if "--log" not in words:
    os.execv(words[0], words)
out = subprocess.run(words, stdout=subprocess.PIPE).stdout
sys.stdout.buffer.write(re.sub(b"{old}", b"{new}", out))
""")
                self.assert_fails(self.explore("steps", "-", "--program", program, text=WRITE), 1, told)

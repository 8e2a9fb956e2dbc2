"""What a cut may leave of a program's stores: `explore cuts --orders` over an imported trace."""
import contextlib
import io
import itertools
import random
import sys
import unittest
from typing import Any, Dict, FrozenSet, List, Set, Tuple

import explorer
from explorer.cuts import CutFinder
from explorer.early import Chain
from explorer.importing import Rules, import_trace
from explorer.orders import Orders, States, count_text

from .helpers import ExploreTest, program_path

X, Y = 0x1000, 0x1040
# Small programs over two variables with what may be left: "fails" if y may be in memory without x. The litmus tests are those of
# the Px86 model (Raad, Wickerson, Neis, Vafeiadis: Persistency semantics of the Intel-x86 architecture, POPL 2020). Jaaru explores
# them too (Gorjiara, Xu, Demsky: Jaaru: efficiently model checking persistent memory programs, ASPLOS 2021). The last ones are the
# cases of PMDK's pmreorder examples. All verdicts are from memory.
PROGRAMS: List[Tuple[str, str, str]] = [
    ("fails", "two lines, no flush", "x; y"),
    ("passes", "one line: stores keep their order", "x; x8"),
    ("passes", "the same with a flush behind both", "x; x8; clwb x; sfence"),
    ("fails", "a flush that no fence follows", "x; clwb x; y"),
    ("fails", "the same with clflushopt", "x; clflushopt x; y"),
    ("passes", "clflush comes before later stores", "x; clflush x; y"),
    ("passes", "clwb and sfence", "x; clwb x; sfence; y"),
    ("passes", "clflushopt and mfence", "x; clflushopt x; mfence; y"),
    ("fails", "a fence without a flush", "x; sfence; y"),
    ("fails", "a flush of the other line", "x; clwb y; sfence; y"),
    ("fails", "a flush before the store", "clwb x; x; sfence; y"),
    ("fails", "non-temporal, no fence", "ntx; y"),
    ("passes", "non-temporal and sfence", "ntx; sfence; y"),
    ("fails", "y flushed first, x never sure before it", "x; y; clwb y; sfence; clwb x; sfence"),
    ("passes", "pmreorder's list, consistent: the node is persisted before the head", "x; clwb x; sfence; y; clwb y; sfence"),
    ("fails", "pmreorder's list, inconsistent: node and head are persisted together", "x; y; clwb x; clwb y; sfence"),
    ("fails", "evicted early: the head is stored first", "y; x; clwb x; sfence; clwb y; sfence"),
]
WORDS: Dict[str, str] = {"x": f"store,{X:#x},8,0100000000000000", "y": f"store,{Y:#x},8,0100000000000000",
                         "x8": f"store,{X + 8:#x},8,0100000000000000", "ntx": f"ntstore,{X:#x},8,0100000000000000"}

EVICTED = ("op,address,size,data,source\nstore,0x1000,8,0100000000000000,store.c:12\nstore,0x1040,8,a1a1a1a1a1a1a1a1,store.c:13\n"
           "clwb,0x1040,64,,store.c:14\nfence,,,,store.c:15\nclwb,0x1000,64,,store.c:16\nfence,,,,store.c:17\n")
HEAD_NEEDS_ENTRY = """
import sys
lines = {row.split("\\t")[1]: bytes.fromhex(row.rstrip("\\n").split("\\t")[3]) for row in open(sys.argv[2])}
if lines["0x1000"][0] and not any(lines["0x1040"]):
    sys.exit("a head, but no entry")
"""


def csv_of(program: str) -> str:
    """The rows of a program that is written in short."""
    rows = []
    for word in program.split("; "):
        if " " in word:
            flush, name = word.split(" ")
            rows.append(f"{flush},{X if name == 'x' else Y:#x},64")
        else:
            rows.append(WORDS.get(word, word))
    return "\n".join(rows) + "\n"


class StatesTest(ExploreTest):
    """The states that are tried, without a check."""

    def memories(self, rows: str, **options: Any) -> Set[Tuple[bytes, ...]]:
        """The memories that the orders of a CSV leave, each as the bytes of its lines."""
        with contextlib.redirect_stderr(io.StringIO()):
            text = import_trace(self.file("rows.csv", rows), "csv", Rules(256, levels=1)).encode()
        session = explorer.open_trace(text, program=program_path(), jobs=1, levels=1, suite="weak", loss=1)
        finder = CutFinder(session.recording, session.together, False)
        found: Set[Tuple[bytes, ...]] = set()
        Orders(finder, 10_000, None, **options).find(lambda cut, readings: found.add(tuple(
            bytes.fromhex(reading.split(b" ")[1].decode()) for reading in readings)))
        return found

    def test_small_programs_have_the_verdicts_that_other_tools_give(self) -> None:
        for verdict, what, program in PROGRAMS:
            with self.subTest(what, program=program):
                memories = self.memories(csv_of(program))
                place = (0, 8) if "x8" in program else (1, 0)
                bad = [memory for memory in memories if memory[place[0]][place[1]] and not memory[0][0]]
                self.assertEqual("fails" if bad else "passes", verdict)

    def test_what_may_be_left_is_what_a_step_by_step_model_leaves(self) -> None:
        """Against a model that goes along the program and lets lines be written back at any time."""
        chosen = random.Random(7)
        for number in range(12):
            events = [(chosen.choice(["store", "store", "ntstore", "clwb", "clflush", "sfence"]), chosen.randrange(2), chosen.randrange(2))
                      for _ in range(7)]
            with self.subTest(events=events):
                rows = [{"sfence": "sfence"}.get(word, f"{word},{X + 64 * line + 8 * place:#x},8,{place_bytes(at).hex()}"
                                                  if "store" in word else f"{word},{X + 64 * line:#x},8")
                        for at, (word, line, place) in enumerate(events)]
                rows += [f"clwb,{X:#x},128", "sfence"]  # so that both lines are named
                expected = model(events)
                memories = {tuple(line[:16] for line in lines) for lines in self.memories("\n".join(rows) + "\n")}
                named = {place for word, place, _ in events if "store" in word}
                self.assertEqual(memories, {tuple(memory[line] for line in sorted(named)) for memory in expected} if named else memories)

    def test_torn_stores(self) -> None:
        rows = f"store,{X:#x},16,{'01' * 8}{'02' * 8}\nclwb,{X:#x},64\nsfence\n"
        self.assertEqual({one[:16:8] for one, in self.memories(rows)}, {b"\0\0", b"\1\2"})
        self.assertEqual({one[:16:8] for one, in self.memories(rows, torn=True)}, {b"\0\0", b"\1\2", b"\1\0", b"\0\2"})
        changed = rows.replace("store", "changed")
        self.assertEqual(self.memories(changed), self.memories(rows, torn=True))

    def test_stores_of_what_is_there_already_make_no_states(self) -> None:
        rows = f"store,{X:#x},32,{'00' * 24}{'01' * 8}\nstore,{Y:#x},8,{'00' * 8}\nclwb,{X:#x},128\nsfence\n"
        with contextlib.redirect_stderr(io.StringIO()):
            text = import_trace(self.file("rows.csv", rows), "csv", Rules(256, levels=1)).encode()
        session = explorer.open_trace(text, program=program_path(), jobs=1, levels=1, suite="weak", loss=1)
        for torn in (False, True):
            (asked,) = Orders(CutFinder(session.recording, session.together, False), 100, None, torn=torn).moments
            self.assertEqual((asked.writes, asked.states.total), (1, 2))

    def test_no_early_has_flushed_lines_only(self) -> None:
        rows = csv_of("y; x; clwb x; sfence; clwb y; sfence")
        self.assertEqual(len(self.memories(rows)), 4)
        self.assertEqual(len(self.memories(rows, early=False)), 3)


def place_bytes(at: int) -> bytes:
    """The bytes that the event with this number stores."""
    return bytes([at + 1]) * 8


def model(events: List[Tuple[str, int, int]]) -> Set[Tuple[bytes, bytes]]:
    """All memories that a cut may leave: goes along the events with every set of things that are written already. A line's stores
    through the cache are written in order, words past it one by one."""
    found: Set[Tuple[bytes, bytes]] = set()
    states: Set[FrozenSet[int]] = {frozenset()}
    for at in range(len(events) + 1):
        states = closed(states, events[:at])
        found |= {memory(events, state) for state in states}
        if at < len(events):
            states = {state for state in states if allows(events, at, state)}
    return found


def closed(states: Set[FrozenSet[int]], events: List[Tuple[str, int, int]]) -> Set[FrozenSet[int]]:
    """These states, and all that follow by writing more."""
    todo, seen = list(states), set(states)
    while todo:
        state = todo.pop()
        for at, event in enumerate(events):
            if "store" in event[0] and at not in state and all(
                    earlier in state for earlier, other in enumerate(events[:at]) if "store" in other[0] and other[0] == event[0]
                    and other[1] == event[1] and (event[0] == "store" or other[2] == event[2])):
                more = state | {at}
                if more not in seen:
                    seen.add(more)
                    todo.append(more)
    return seen


def allows(events: List[Tuple[str, int, int]], at: int, state: FrozenSet[int]) -> bool:
    """Whether the program can go on past an event while memory is so."""
    word, line, _ = events[at]
    if word == "clflush":
        return all(place in state for place, other in enumerate(events[:at]) if other[0] == "store" and other[1] == line)
    if word == "sfence":
        flushed = {place for place, other in enumerate(events[:at]) if other[0] == "store"
                   and any(each[0] == "clwb" and each[1] == other[1] for each in events[place:at])}
        return all(place in state for place in flushed | {place for place, other in enumerate(events[:at]) if other[0] == "ntstore"})
    return True


def memory(events: List[Tuple[str, int, int]], state: FrozenSet[int]) -> Tuple[bytes, bytes]:
    """The first words of both lines."""
    lines = [bytearray(16), bytearray(16)]
    for at in sorted(state):
        _, line, place = events[at]
        lines[line][8 * place:8 * place + 8] = place_bytes(at)
    return bytes(lines[0]), bytes(lines[1])


class ChainTest(unittest.TestCase):
    def test_options_are_the_ways_through_the_groups(self) -> None:
        chain = Chain((("a", "b"), ("c",), ("d", "e")))
        found = [frozenset(chain.chosen(option)) for option in range(chain.options)]
        subsets = {frozenset(each) for count in range(6) for each in itertools.combinations("abcde", count)}
        expected = {each for each in subsets if ("c" not in each or {"a", "b"} <= each) and (not each & {"d", "e"} or {"a", "b", "c"} <= each)}
        self.assertEqual((len(found), set(found)), (8, expected))

    def test_a_sample_is_fair_and_the_same_at_each_run(self) -> None:
        states = States([Chain((("x",),)) for _ in range(8)])
        self.assertEqual(states.total, 256)
        tried = states.some(100, random.Random(3))
        self.assertEqual((len(tried), len(set(tried)), tried), (100, 100, states.some(100, random.Random(3))))
        self.assertNotEqual(tried, states.some(100, random.Random(4)))
        counts = [sum(each[place] for number in range(40) for each in states.some(60, random.Random(number))[18:]) for place in range(8)]
        self.assertTrue(all(700 < count < 980 for count in counts), counts)

    def test_numbers_of_states(self) -> None:
        for count, text in ((0, "0"), (10 ** 12 - 1, "9" * 12), (10 ** 12, "1.0e12"), (1 << 64, "1.8e19"), (45938119534 * 10 ** 29, "4.5e39"),
                            (10 ** 40 - 1, "9.9e39"), (3 ** 20_000, "2.6e9542")):
            self.assertEqual(count_text(count), text)

    def test_half_of_a_small_sample_is_random(self) -> None:
        states = States([Chain((("x",),)) for _ in range(300)])
        tried = states.some(100, random.Random(1))
        self.assertEqual(len(set(tried)), 100)
        self.assertGreaterEqual(sum(20 < sum(each) < 280 for each in tried), 50)


class EvictionTest(ExploreTest):
    def trace(self, text: str) -> str:
        """The trace of a CSV."""
        result = self.explore("import", "csv", "-", text=text)
        self.assertEqual(result.returncode, 0, result.stderr)
        return self.file("log.trace", result.stdout)

    def check(self) -> str:
        """The command that looks whether a head has its entry."""
        return f"{sys.executable} {self.script('check.py', HEAD_NEEDS_ENTRY)}"

    def test_a_line_that_is_evicted_before_its_flush(self) -> None:
        words = ("cuts", self.trace(EVICTED), "--suite", "weak", "--check", self.check(), "--orders", "100", "--distinct")
        result = self.explore(*words)
        self.assertEqual((result.returncode, result.stderr), (3, ""))
        self.assertIn("the first: before row 5, store.c:15 (fence): memory has row 2 (store.c:12), misses row 3 (store.c:13): "
                      "a head, but no entry\n", result.stdout)
        self.assertIn("4 of 4 states tried, early evictions included\nnot modelled: ", result.stdout)
        result = self.explore(*words, "--no-early")
        self.assertEqual((result.returncode, result.stderr), (0, ""))
        self.assertIn("4 of 4 outcomes tried\n", result.stdout)

    def test_stores_that_are_never_flushed(self) -> None:
        text = "".join(row + "\n" for row in EVICTED.splitlines() if "clwb" not in row) + "clwb,0x2000,64\n"
        result = self.explore("cuts", self.trace(text), "--suite", "weak", "--check", self.check(), "--orders", "100")
        self.assertEqual(result.returncode, 3, result.stdout)

    def test_fences_that_make_all_stores_sure(self) -> None:
        """A file without flushes, in which both stores come before one fence."""
        text = "".join(row + "\n" for row in EVICTED.splitlines() if "clwb" not in row)
        result = self.explore("cuts", self.trace(text), "--suite", "weak", "--check", self.check(), "--orders", "100")
        self.assertEqual(result.returncode, 3, result.stdout)
        fenced = text.replace("store,0x1000", "store,0x1040,8,a1a1a1a1a1a1a1a1\nfence\nstore,0x1000")
        result = self.explore("cuts", self.trace(fenced), "--suite", "weak", "--check", self.check(), "--orders", "100")
        self.assertEqual(result.returncode, 0, result.stdout)

    def test_a_program_that_is_right_passes(self) -> None:
        right = EVICTED.replace("store,0x1000,8,0100000000000000,store.c:12\n", "").replace(
            "clwb,0x1000", "store,0x1000,8,0100000000000000,store.c:12\nclwb,0x1000")
        result = self.explore("cuts", self.trace(right), "--suite", "weak", "--check", self.check(), "--orders", "100")
        self.assertEqual((result.returncode, result.stderr), (0, ""), result.stdout)
        self.assertIn("4 of 4 states tried, early evictions included\n", result.stdout)

    def test_states_that_are_left_out_are_counted(self) -> None:
        text = "".join(f"store,{64 * line},8,01\n".replace(",01\n", ",0101010101010101\n") for line in range(10)) + "clwb,0,640\nsfence\n"
        result = self.explore("cuts", self.trace(text), "--suite", "weak", "--levels", "1", "--orders", "50")
        self.assertEqual((result.returncode, result.stderr), (0, ""))
        self.assertIn("50 of 1024 states tried, early evictions included; 974 left out\n", result.stdout)

    def test_the_failing_trace_leads_to_the_state(self) -> None:
        self.explore("cuts", self.trace(EVICTED), "--suite", "weak", "--check", self.check(), "--orders", "100", "--failing",
                     self.path("failing.trace"))
        with open(self.path("failing.trace"), encoding="ascii") as file:
            text = file.read()
        replies = self.json("steps", self.path("failing.trace"), "--suite", "weak")
        self.assertEqual([reply["answer"][:21] for reply in replies[-2:]], ["line 0100000000000000", "line 0000000000000000"])
        self.assertIn("memory has row 2 (store.c:12), misses row 3 (store.c:13)", text.splitlines()[0])

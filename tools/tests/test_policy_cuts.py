"""`explore cuts` under each policy, with durable queues and with combining: all cuts of a trace and all cuts of each recovery are what a
reference program of the same rules answers (policy_cuts.txt)."""
import re
import unittest
from pathlib import Path
from typing import Any, Dict, Iterator, List, NamedTuple

from .helpers import ExploreTest
from .test_outputs import spelled

STORED = Path(__file__).resolve().parent / "policy_cuts.txt"
SECTION = re.compile(r"^# ([^:\n]+): (--[^\n]+)\n((?:[0-9][^\n]*\n)+)", re.M)


class Section(NamedTuple):
    """A policy, the options that choose it, and the rows of its cuts."""

    name: str
    words: List[str]
    rows: List[str]


def trace() -> str:
    """The trace that is cut."""
    row = next(row for row in STORED.read_text(encoding="utf-8").splitlines() if row.startswith("trace: "))
    return spelled("".join(f"{command}\n" for command in row[len("trace: "):].split(" / ")))


def sections() -> Iterator[Section]:
    """The stored cuts."""
    for found in SECTION.finditer(STORED.read_text(encoding="utf-8")):
        yield Section(found[1], found[2].split(), found[3].splitlines())


def reading_text(reading: str) -> str:
    """A line's first byte, with a star if it has others."""
    data = reading.split(" ")[1]
    return data[:2] + "*" * (data != data[:2] * 64)


def row_of(cut: Dict[str, Any]) -> str:
    """A cut of `explore cuts --json`, as it is stored."""
    steps = f"{cut['steps_before']}+{cut['recovery_cut_after']}" if "recovery_cut_after" in cut else str(cut["steps_before"])
    others = " ".join(f"{each['line']}={reading_text(each['after'])}" for each in cut["read_otherwise"])
    return f"{steps} {cut['trace_line']}: {cut['answer']} / {cut['recovery']} / {len(cut['writes_lost'])} / {others}".rstrip()


class PolicyCutsTest(ExploreTest):
    def rows(self, *words: str) -> List[str]:
        """All cuts, each before those of its recovery, without power off after the trace."""
        cuts = self.json("cuts", "-", "--twice", *words, text=trace())
        return [row_of(each) for cut in cuts if cut["trace_line"] for each in (cut, *cut.get("cuts_of_recovery", []))]

    def test_each_cut(self) -> None:
        names = []
        for each in sections():
            with self.subTest(each.name):
                self.assertEqual(self.rows(*each.words), each.rows)
            names.append(each.name)
        self.assertEqual(names, ["anubis", "osiris", "counters", "triad-0", "triad-1", "strict", "strict with tables", "osiris, one level",
                                 "anubis+adr", "combining", "strict+adr, combining"])

    def test_by_runs_from_the_start(self) -> None:
        """The same without forks; a durable queue's are always found one by one."""
        for each in sections():
            if each.name in ("osiris, one level", "strict+adr, combining"):
                self.assertEqual(self.rows(*each.words, "--from-start", "--named-lines"), each.rows)

    def test_nothing_is_lost_of_durable_queues(self) -> None:
        """Each row says so, and each write that was posted is in memory once the queues are written."""
        for each in sections():
            if "durable" in each.words:
                self.assertEqual([row for row in each.rows if not row.endswith(" / 0 /")], [])
                text = self.output("cuts", "-", *each.words, text=trace())
                self.assertNotIn("writes lost by a cut", text)

    def test_orders_need_volatile_queues(self) -> None:
        self.assert_fails(self.explore("cuts", "-", "--orders", "9", "--queue", "durable", text=trace()), 2, "--orders", "volatile")


if __name__ == "__main__":
    unittest.main()

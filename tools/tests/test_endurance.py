"""`explore endurance` and `explore export`: how often each device line is written, and the accesses for other simulators."""
import csv
import io
import json
from typing import Any, Dict, List

from .helpers import ONES, WRITE, ExploreTest

from explorer import endurance
from explorer.settings import Settings

# Line 5 three times, and line 6 once.
FOUR = "".join(f"post 0 {line} {ONES}\ndrain 0\n" for line in (5, 5, 6, 5))
ATTACK = "".join(f"post 0 0 {ONES}\ndrain 0\n" for _ in range(3))
# The accesses of the first write, by docs/FORMATS.md.
READS, NAMES = (1280, 1281, 1285), (1302, 1302, 1301)


class EnduranceTest(ExploreTest):
    def parts(self, text: str, *words: str) -> Dict[str, Dict[str, Any]]:
        """What is found of each part, of one design."""
        rows: List[Dict[str, Any]] = self.json("endurance", "-", *words, text=text)["parts"]
        return {row["part"]: row for row in rows}

    def test_writes_by_part(self) -> None:
        parts = self.parts(FOUR, "--designs", "run", "--rate", "2", "--limit", "100")
        self.assertEqual({part: (row["lines"], row["lines_written"], row["writes"], row["greatest"]) for part, row in parts.items()}, {
            "data": (1024, 2, 4, 3), "tags": (256, 1, 4, 4), "counters": (16, 0, 0, 0), "tree": (5, 0, 0, 0), "shadow": (2, 2, 3, 2)})
        self.assertEqual([parts[part]["hottest"] for part in ("data", "tags", "counters", "shadow")],
                         ["data line 5", "tag line of 4 to 7", None, "line 0 of the shadow table of tree nodes"])
        self.assertEqual(parts["data"]["histogram"], {"0": 1022, "1": 1, "2-3": 1})
        # A line that has w of the 4 writes takes 100 of them in 100 * 4 / w writes, at 2 a second.
        self.assertEqual((parts["tags"]["seconds"], parts["data"]["seconds"]), (50, 100 * 4 / 3 / 2))
        self.assertIsNone(parts["tree"]["seconds"])

    def test_recoveries_wear_too(self) -> None:
        # A recovery writes the block and the nodes that are named, and zeros over both shadow lines.
        parts = self.parts(WRITE + "off\non\n", "--designs", "run")
        self.assertEqual({part: row["writes"] for part, row in parts.items()},
                         {"data": 1, "tags": 1, "counters": 1, "tree": 2, "shadow": 3 + 2})

    def test_the_workload_several_times_over(self) -> None:
        parts = self.parts(FOUR, "--designs", "run", "--repeat", "3")
        self.assertEqual((parts["tags"]["greatest"], parts["data"]["greatest"], parts["data"]["workload_writes"]), (12, 9, 12))
        # The counter block is written at line 5's minors 4 and 8.
        self.assertEqual(parts["counters"]["writes"], 2)
        result = self.explore("endurance", "-", "--designs", "run", "--repeat", "200000", text=FOUR)
        self.assert_fails(result, 2, "200000 times over, has 1,600,000 commands for run: a trace has at most 1,000,000 lines")

    def test_start_gap_under_an_attack_on_one_line(self) -> None:
        words = ("--levels", "1", "--every", "1")
        parts = self.parts(ATTACK, "--designs", "wear", *words)
        # Three moves copy places 253, 252 and 251 into the next ones; the record, line 255, is written with each of them.
        self.assertEqual((parts["data"]["writes"], parts["data"]["greatest"]), (3 + 3 + 3, 3))
        self.assertEqual((parts["tags"]["hottest"], parts["tags"]["greatest"]), ("tag line of 252 to 255", 6))
        found = self.json("endurance", "-", "--designs", "wear", *words, "--top", "3", text=ATTACK)
        self.assertEqual([(line["name"], line["writes"]) for line in found["hottest"]],
                         [("tag line of 252 to 255", 6), ("place 0", 3), ("the record", 3)])

    def test_slots_of_the_tree(self) -> None:
        parts = self.parts(FOUR, "--designs", "tree")
        self.assertEqual({part: (row["lines"], row["writes"], row["greatest"]) for part, row in parts.items()},
                         {"data": (1024, 4, 3), "tags": (1024, 4, 3), "tree": (341, 0, 0), "shadow": (17, 20, 4)})
        self.assertEqual(parts["shadow"]["hottest"], "slot line 0")

    def test_text_csv_and_latex(self) -> None:
        words = ("endurance", "-", "--designs", "run", "--rate", "2", "--limit", "100")
        text = self.output(*words, text=FOUR)
        self.assertTrue(text.startswith("lifetime: of a line that takes 100 writes, with the workload again and again at 2 line writes a second"))
        lines = [line.split() for line in text.splitlines()]
        self.assertIn("tags 256 1 4 4.0 4 tag line of 4 to 7 50 seconds".split(), lines)
        self.assertIn("1025 4 tag line of 4 to 7".split(), lines)
        self.assertIn("lines by number of writes 0 1 2-3 4-7".split(), lines)
        rows = list(csv.DictReader(io.StringIO(self.output(*words, "--csv", text=FOUR))))
        self.assertEqual([row["greatest"] for row in rows], ["3", "4", "0", "0", "2"])
        latex = self.output(*words, "--latex", text=FOUR)
        self.assertIn("run & tags & 256 & 4 & 4 & tag line of 4 to 7 & 50 seconds \\\\\n", latex)

    def test_the_limit_of_a_file_of_figures(self) -> None:
        parts = self.parts(FOUR, "--designs", "run", "--cost", "flash", "--rate", "1000")
        self.assertEqual(parts["tags"]["seconds"], 100)

    def test_bins_and_times(self) -> None:
        self.assertEqual(endurance.bins_of({1: 1, 2: 2, 3: 3, 4: 4, 5: 15, 6: 16}, 8),
                         {"0": 2, "1": 1, "2-3": 2, "4-7": 1, "8-15": 1, "16-31": 1})
        self.assertEqual(endurance.bins_of({}, 3), {"0": 3})
        self.assertEqual([endurance.time_text(seconds) for seconds in (None, 0.5, 50, 90, 7200, 3e5, 4e9)],
                         ["-", "0.5 seconds", "50 seconds", "1.5 minutes", "2 hours", "3.47 days", "127 years"])
        self.assertEqual(endurance.part_sizes(Settings()), [1024, 256, 16, 5, 2])
        self.assertEqual(sum(endurance.part_sizes(Settings(machine_name="tree"))), 158)

    def test_nothing_to_count(self) -> None:
        self.assert_fails(self.explore("endurance", "-", "--designs", "run", text="read 0 0\n"), 2, "has no write")


class ExportTest(ExploreTest):
    def exported(self, text: str, *words: str) -> List[str]:
        """The lines of a trace for a simulator."""
        result = self.explore("export", "-", *words, text=text)
        self.assertEqual(result.returncode, 0, result.stderr)
        self.assertIn("accesses, ", result.stderr)
        return result.stdout.splitlines()

    def test_each_simulator(self) -> None:
        accesses = [*((line, False) for line in READS), *((line, True) for line in NAMES), (1024, False), (0, True), (1024, True)]
        for to, read, write, rest in (("dramsim3", "0x{:x} READ", "0x{:x} WRITE", " 0"), ("ramulator", "0x{:x} R", "0x{:x} W", ""),
                                      ("ramulator2", "LD 0x{:x}", "ST 0x{:x}", "")):
            self.assertEqual(self.exported(WRITE, "--to", to),
                             [(write if writes else read).format(64 * line) + rest for line, writes in accesses])

    def test_base_and_gap(self) -> None:
        lines = self.exported(WRITE, "--to", "dramsim3", "--base", "0x100000", "--gap", "10")
        self.assertEqual((lines[0], lines[-1]), ("0x114000 READ 0", "0x110000 WRITE 80"))
        self.assert_fails(self.explore("export", "-", "--to", "ramulator", "--gap", "1", text=WRITE), 2, "--gap is for dramsim3")
        self.assert_fails(self.explore("export", "-", "--to", "gem5", text=WRITE), 2, "gem5")

    def test_what_is_no_access_is_told(self) -> None:
        result = self.explore("export", "-", "--to", "ramulator", "-o", self.path("a.txt"), text=WRITE)
        self.assertEqual((result.returncode, result.stdout), (0, ""))
        self.assertEqual(result.stderr, "explore: 9 accesses, 5 of them writes; left out, as they are not of the device: 2 latches, "
                                        "1 tags, 6 digests\n")

    def test_other_machines(self) -> None:
        lines = self.exported(f"write 5 {ONES}\n", "--to", "ramulator", "--as", "tree")
        self.assertEqual(lines[:3], ["0x2040 R", "0x2180 R", "0x140 W"])

    def test_a_malformed_line_is_named(self) -> None:
        self.assert_fails(self.explore("export", "-", "--to", "ramulator", text=f"{WRITE}x\n"), 1, "line 3: no such command")


class JsonTest(ExploreTest):
    def test_it_can_be_read_again(self) -> None:
        found = json.loads(self.output("endurance", "-", "--designs", "run", "--json", text=FOUR))
        self.assertEqual((found["endurance"], found["rate"], found["limit"]), (["standard input"], 1_000_000, 100_000_000))

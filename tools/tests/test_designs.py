"""Designs by the names of the literature in `explore compare`, `sweep`, `bounds` and `endurance`. What they count is what a reference program
of the same rules counts (policy_counts.txt). Bounds are those of docs/RECOVERY.md worked by hand, and recoveries are within them."""
import csv
import importlib.util
import io
import re
import subprocess
import unittest
from pathlib import Path
from typing import Any, Dict, List, NamedTuple

from .helpers import ONES, TOOLS, ExploreTest, program_path
from .test_outputs import spelled

from explorer import charts, compare_designs
from explorer.accounts import Accountant
from explorer.chip import chip_bytes, kept_bytes
from explorer.designs import family_of, is_policy, with_design
from explorer.errors import ExploreError
from explorer.logged import Entry
from explorer.program import Reply
from explorer.settings import Settings

STORED = Path(__file__).resolve().parent / "policy_counts.txt"
DOCS = TOOLS.parent / "docs"
SMALL = ("--levels", "2", "--sets", "1", "--ways", "1", "--suite", "weak")
COUNTS = ("line_reads", "line_writes", "latches", "tags", "digests")
RECOVERY = ("tags", "digests", "steps")
ONE = f"post 0 0 {ONES}\ndrain 0\n"


class Counted(NamedTuple):
    """What the reference program counts: what the workload takes, how many recoveries, their sums and the greatest."""

    totals: List[int]
    recoveries: int
    sums: List[int]
    greatest: List[int]


def numbers(text: str) -> List[int]:
    """Numbers with spaces between."""
    return [int(word) for word in text.split()]


def counted() -> Dict[str, Counted]:
    """What is counted of each design."""
    found = {}
    for row in STORED.read_text(encoding="utf-8").splitlines():
        if not row.startswith(("#", "workload: ")):
            name, rest = row.split(": ")
            totals, recoveries, sums, greatest = rest.split(" / ")
            found[name] = Counted(numbers(totals), int(recoveries), numbers(sums), numbers(greatest))
    return found


def workload() -> str:
    """The workload."""
    row = next(row for row in STORED.read_text(encoding="utf-8").splitlines() if row.startswith("workload: "))
    return spelled("".join(f"{command}\n" for command in row[len("workload: "):].split(" / ")))


class CompareTest(ExploreTest):
    def rows(self, *words: str) -> List[Dict[str, Any]]:
        """The rows of a comparison of the workload."""
        found: List[Dict[str, Any]] = self.json("compare", "-", *SMALL, *words, text=workload())["designs"]
        return found

    def test_counts_are_those_of_a_reference_program(self) -> None:
        due = counted()
        rows = self.rows("--designs", ",".join(due), "--cuts", "0")
        self.assertEqual([row["design"] for row in rows], list(due))
        for row in rows:
            each = due[row["design"]]
            self.assertEqual([row[f"total_{name}"] for name in COUNTS], each.totals, row["design"])
            self.assertEqual((row["recoveries"], row["recoveries_refused"]), (each.recoveries, 0))
            for name, total, greatest in zip(RECOVERY, each.sums, each.greatest):
                self.assertAlmostEqual(row[f"recovery_{name}_mean"], total / each.recoveries, delta=0.001)
                self.assertEqual(row[f"recovery_{name}_greatest"], greatest)

    def test_options_are_those_of_the_names(self) -> None:
        named = {row["design"]: row for row in self.rows("--designs", "anubis,osiris,counters,triad-0,triad-1,strict+adr", "--cuts", "4")}
        options = {name: tuple(row[option] for option in ("persist", "shadow", "queue", "combine")) for name, row in named.items()}
        self.assertEqual(options, {"anubis": (0, "on", "volatile", "off"), "osiris": (0, "off", "volatile", "off"),
                                   "counters": (1, "on", "volatile", "off"), "triad-0": (1, "off", "volatile", "off"),
                                   "triad-1": (2, "off", "volatile", "off"), "strict+adr": (3, "off", "durable", "off")})
        varied = self.rows("--designs", "run", "--persist", "0,1,2,3", "--shadow", "on,off", "--cuts", "4")
        self.assertEqual(len(varied), 8)
        same = {"design": None, "queue": None, "chip_kept": None}
        for name in ("anubis", "osiris", "counters", "triad-0", "triad-1"):
            (row,) = [each for each in varied if (each["persist"], each["shadow"]) == options[name][:2]]
            self.assertEqual({**row, **same}, {**named[name], **same}, name)

    def test_defaults_have_no_further_columns(self) -> None:
        """Tables, CSV and JSON of the machines are as before there were policies; a name or an option adds the columns."""
        plain = self.output("compare", "-", *SMALL, "--designs", "run,wear", "--csv", "--cuts", "2", text=workload())
        head = plain.split("\n", 1)[0].split(",")
        later = {"persist", "shadow", "queue", "combine", "chip_kept"}
        self.assertFalse(later & set(head))
        for words in (("--designs", "run,anubis"), ("--designs", "run", "--persist", "1")):
            named = self.output("compare", "-", *SMALL, *words, "--csv", "--cuts", "2", text=workload())
            rows = list(csv.DictReader(io.StringIO(named)))
            self.assertLessEqual(later, set(rows[0]))
            self.assertEqual([name for name in rows[0] if name not in later], head)

    def test_the_table_and_the_baseline(self) -> None:
        text = self.output("compare", "-", *SMALL, "--designs", "plain,osiris,strict+adr,tree", "--levels", "2", "--cuts", "4", text=workload())
        lines = [" ".join(line.split()) for line in text.splitlines()]
        for line in ("design plain osiris strict+adr tree", "write queues - volatile durable -", "levels persisted with a write - 0 3 -",
                     "shadow tables - off off -", "kept without power 0 525 9,365 492"):
            self.assertIn(line, lines)

    def test_names_that_are_none(self) -> None:
        for words, told in ((("--designs", "osiris+eadr"), "'osiris+eadr' is not one of run, wear, txn, tree, plain, strict, osiris"),
                            (("--designs", "triad-7"), "is not one of"), (("--designs", "plain+adr"), "is not one of"),
                            (("--designs", "tree+adr"), "is not one of"), (("--persist", "8"), "is not one of 0 to 7"),
                            (("--shadow", "yes"), "'yes' is not one of on, off")):
            self.assert_fails(self.explore("compare", "-", *words, text=ONE), 2, told)
        self.assert_fails(self.explore("compare", "-", "--designs", "triad-3", text=ONE), 2,
                          "triad-3 persists 4 lines of a path, and with 2 levels a path has 3")
        self.assert_fails(self.explore("compare", "-", "--designs", "run", "--persist", "4", text=ONE), 2, "--persist 4 is more than the 3 lines")

    def test_from_python(self) -> None:
        rows = compare_designs([workload().encode()], ["osiris", "run"], suite="weak", levels=[2], sets=[1], ways=[1], persist=[0, 2], recoveries=3)
        self.assertEqual([(row["design"], row["persist"], row["shadow"]) for row in rows],
                         [("osiris", 0, "off"), ("run", 0, "on"), ("run", 2, "on")])
        self.assertRaisesRegex(ValueError, "there is no design athena", compare_designs, [ONE.encode()], ["athena"])

    def test_endurance(self) -> None:
        """Strict persistence writes the top node with each line written, the others only when it is evicted."""
        rows = self.json("endurance", "-", *SMALL, "--designs", "strict,osiris", text=workload())["parts"]
        tree = {row["design"]: row["greatest"] for row in rows if row["part"] == "tree"}
        self.assertEqual(tree["strict"], 10)
        self.assertLess(tree["osiris"], 10)
        self.assertEqual({row["design"]: row["shadow"] for row in rows}, {"strict": "off", "osiris": "off"})
        self.assertFalse([row for row in rows if row["part"] == "shadow"])

    def test_attacks(self) -> None:
        """No attack gets wrong data through under any policy; without tables there are none to attack."""
        for words in (("--shadow", "off"), ("--persist", "1"), ("--persist", "2", "--shadow", "off"), ("--persist", "2")):
            with self.subTest(words):
                result = self.explore("attacks", "-", "--levels", "1", "--suite", "weak", "--part-lines", "2", "--bits", "1", "--csv", *words,
                                      text=ONE)
                self.assertEqual((result.returncode, result.stderr), (0, ""))
                rows = list(csv.DictReader(io.StringIO(result.stdout)))
                self.assertEqual({row["wrong"] for row in rows}, {"0"})
                self.assertEqual("shadow" in {row["part"] for row in rows}, "off" not in words)

    def test_sweep(self) -> None:
        """Steps of a first write, by hand: 4, with a path line more for each level persisted, and a named line for each level that isn't."""
        found = self.json("sweep", "-", *SMALL[2:], "--levels", "2", "--persist", "0,1,2,3", "--shadow", "on,off", text=ONE)["settings"]
        self.assertEqual({(row["persist"], row["shadow"]): row["steps_per_write"] for row in found},
                         {(persist, shadow): 4 + persist + (3 - persist if shadow == "on" else 0) for persist in range(4)
                          for shadow in ("on", "off")})
        self.assertEqual({(row["persist"], row["shadow"]): row["recovery_trials"] for row in found if not row["persist"]},
                         {(0, "on"): 64 * 4 - 1 + 1, (0, "off"): 64 * 4 * 16})
        self.assertNotIn("persist", self.json("sweep", "-", *SMALL, text=ONE)["settings"][0])


class BoundsTest(ExploreTest):
    def rows(self, *words: str) -> Dict[str, Dict[str, Any]]:
        """The bounds of each design."""
        found: List[Dict[str, Any]] = self.json("bounds", *words)["bounds"]
        return {row["design"]: row for row in found}

    def test_by_hand(self) -> None:
        """Two levels: 16 counter blocks, 5 nodes; 8 slots, 2 shadow lines, stop-loss number 4. b and m are those of docs/RECOVERY.md."""
        rows = self.rows("--memory", "64K", "--designs", "anubis,osiris,counters,triad-0,triad-1,strict+adr")
        for name, blocks, nodes, shadow, group in (("anubis", 8, 16, 2, 3), ("osiris", 16, 5, 0, 3), ("counters", 0, 16, 2, 3),
                                                   ("triad-0", 0, 5, 0, 3), ("triad-1", 0, 1, 0, 4), ("strict+adr", 0, 0, 0, 5)):
            row = rows[name]
            self.assertEqual((row["recovery_tags_most"], row["recovery_digests_most"]), (64 * 4 * blocks, 4 * nodes + 1), name)
            self.assertEqual(row["recovery_line_reads_most"], shadow + 129 * blocks + 5 * nodes + 1, name)
            self.assertEqual(row["recovery_steps_most"], group + 1 + blocks + nodes + shadow, name)
            self.assertEqual(row["device_bytes"], 64 * (80 * 16 + 21 + shadow), name)
            self.assertEqual(row["stated_by"], "contract")
        self.assertEqual(rows["anubis"]["write_steps_most"], 2 * 3 + 5)
        self.assertEqual(rows["osiris"]["write_steps_most"], 3 + 5)
        self.assertEqual(rows["strict+adr"]["write_steps_most"], 4 + 3)

    def test_recoveries_are_within_them(self) -> None:
        designs = "anubis,osiris,counters,triad-0,triad-1,strict"
        bounds = self.rows("--memory", "64K", "--sets", "1", "--ways", "1", "--designs", designs)
        for row in self.json("compare", "-", *SMALL, "--designs", designs, "--cuts", "0", text=workload())["designs"]:
            for name in ("tags", "digests", "line_reads", "steps"):
                self.assertLessEqual(row[f"recovery_{name}_greatest"], bounds[row["design"]][f"recovery_{name}_most"], row["design"])

    def test_options(self) -> None:
        named = self.rows("--memory", "16M", "--designs", "triad-1")["triad-1"]
        self.assertEqual({**self.rows("--memory", "16M", "--designs", "run", "--persist", "2", "--shadow", "off")["run"], "design": "triad-1"}, named)
        self.assertIn("osiris: run --persist 0 --shadow off\n", self.output("bounds", "--memory", "1T"))
        self.assert_fails(self.explore("bounds", "--memory", "64K", "--persist", "4"), 2, "--persist 4 is more than the 3 lines")


class TablesTest(unittest.TestCase):
    """The tables of pages that compare policies are what the program answers."""

    def answers(self, words: List[str], *commands: str) -> List[str]:
        """The answers, without marks."""
        ran = subprocess.run([program_path(), "run", *words], input=spelled("".join(f"{command}\n" for command in commands)),
                             stdout=subprocess.PIPE, universal_newlines=True, check=True)
        return [line for line in ran.stdout.splitlines() if not line.startswith(("seal ", "begin "))]

    def test_one_write_under_five_policies(self) -> None:
        rows = re.findall(r"^\| ?(?:`(--[^`]*)`)? ?\| [^|]+ \| `(ok \d+)` \| `(on [^`]+)` \|$",
                          (DOCS / "DESIGNS.md").read_text(encoding="utf-8"), re.M)
        self.assertEqual(len(rows), 5)
        for words, drained, recovered in rows:
            self.assertEqual(self.answers(words.split(), "post 0 0 [11]", "drain 0", "off", "on"), ["ok", drained, "ok", recovered], words)

    def test_an_armed_write_under_five_policies(self) -> None:
        """Cut just behind the latch that arms it, which comes behind the names of lazy levels if there are tables."""
        rows = re.findall(r"^\| p = (\d), (with shadow tables|without) \| ([\d,]+) \| (\d+) \| (\d+) \| [^|]+ \|$",
                          (DOCS / "RECOVERY.md").read_text(encoding="utf-8"), re.M)
        self.assertEqual(len(rows), 5)
        for persist, tables, trials, digests, steps in rows:
            has_tables = tables != "without"
            cut = 1 + (3 - int(persist)) * has_tables
            answers = self.answers(["--persist", persist, "--shadow", "on" if has_tables else "off"], "post 0 0 [11]", f"cut {cut}", "drain 0", "on")
            self.assertEqual(answers, ["ok", "ok", f"cut kept {cut}", f"on {trials.replace(',', '')} {digests} {steps}"])


@unittest.skipUnless(importlib.util.find_spec("matplotlib"), "matplotlib is not installed")
class PictureTest(ExploreTest):
    modules = ("matplotlib.pyplot", "matplotlib.backends.backend_agg", "matplotlib.backends.backend_svg")

    def drawn(self, made: str, *words: str) -> str:
        """A picture of what a command wrote as JSON."""
        self.assertEqual(self.output("draw", self.file("made.json", made), "-o", self.path("made.svg"), *words), "")
        return Path(self.path("made.svg")).read_text(encoding="utf-8")

    def test_a_sweep_along_a_policy(self) -> None:
        made = self.output("sweep", "-", *SMALL, "--persist", "0,1,2,3", "--shadow", "on,off", "--json", text=ONE)
        for words in ((), ("--along", "shadow")):
            drawn = self.drawn(made, *words)
            self.assertIn("<!-- shadow -->" if words else "<!-- shadow off -->", drawn)
            self.assertIn("(levels 2, sets 1, ways 1, stop-loss number 4)", drawn)
        without = self.output("sweep", "-", *SMALL, "--json", text=ONE)
        self.assert_fails(self.explore("draw", self.file("b.json", without), "-o", self.path("b.svg"), "--along", "persist"), 1,
                          "--along persist: it is the default in all settings of this sweep")
        varied = ("--persist", "0,1", "--shadow", "on,off", "--loss", "1,2", "--sets", "1,2", "--queue", "durable,volatile")
        several = self.output("sweep", "-", "--levels", "1", "--ways", "1", "--suite", "weak", *varied, "--json", text=ONE)
        self.assert_fails(self.explore("draw", self.file("c.json", several), "-o", self.path("c.svg")), 1, "5 options vary in this sweep")

    def test_a_trade_off_of_designs(self) -> None:
        made = self.output("compare", "-", *SMALL, "--designs", "strict,osiris,triad-1+adr", "--cuts", "3", "--json", text=workload())
        drawn = self.drawn(made, "--trade-off")
        for name in ("strict", "osiris", "triad-1+adr"):
            self.assertIn(f"<!-- {name} -->", drawn)


class NamesTest(unittest.TestCase):
    def test_chips(self) -> None:
        """68 bytes a line with its position; the group has two lines and those persisted; 8 queues of 16 writes outlive power if durable."""
        for name, group, tables, kept in (("anubis", 3, 128, 0), ("osiris", 3, 0, 0), ("triad-1", 4, 0, 0), ("strict+adr", 5, 0, 8 * 16 * 68)):
            settings = with_design(Settings(), name)
            registers = 16 + group * 68 + 4 * 76 + 1
            self.assertEqual(chip_bytes(settings), {"cache": 3 * 8 * 68, "shadow": tables, "registers": registers, "waiting": 8 * 16 * 68})
            self.assertEqual(kept_bytes(settings), registers + kept)

    def test_names(self) -> None:
        self.assertEqual([is_policy(name) for name in ("osiris", "osiris+adr", "triad-6+adr", "run", "triad-7", "triad-", "+adr", "osiris+adr+adr")],
                         [True, True, True, False, False, False, False, False])
        self.assertEqual([family_of(name) for name in ("triad-2+adr", "strict+adr", "run")], ["triad", "strict", "run"])
        for name in ("strict", "osiris+adr", "anubis", "counters", "triad-4+adr", "run", "tree", "plain"):
            self.assertEqual(len(charts.mark_of(name)), 2)
        self.assertRaises(ExploreError, with_design, Settings(levels=1), "triad-2")

    def test_words(self) -> None:
        """Defaults aren't passed on, so that programs without policies take them."""
        self.assertFalse([word for word in Settings().words() if word.startswith(("--persist", "--shadow", "--queue", "--combine"))])
        settings = Settings(persist=1, shadow="off", queue="durable", combine="on")
        self.assertEqual(settings.words()[-4:], ["--persist=1", "--shadow=off", "--queue=durable", "--combine=on"])
        settings.check()
        for wrong in (Settings(machine_name="wear", queue="durable"), Settings(machine_name="tree", persist=1), Settings(levels=1, persist=3)):
            self.assertRaises(ExploreError, wrong.check)

    def test_a_page_that_begins(self) -> None:
        """A begin's group has only path lines, as many as are persisted; of one level two persisted lines are also as many as a reseal has."""
        settings = Settings(levels=1, persist=2, shadow="off")
        begin = ((b"latch", 2), (b"line", 320), (b"line", 321), (b"latch", 0))
        seal = ((b"latch", 4), (b"line", 0), (b"line", 256), (b"line", 320), (b"line", 321), (b"latch", 0))
        entry = Entry((*begin, *seal), 1, 4, Reply(("begin 0", "seal 0 1.1 00"), "ok 10"), 0)
        account = Accountant(settings).account("drain", entry)
        self.assertEqual((account.hits, account.misses, account.pads), (2, 0, 1))


if __name__ == "__main__":
    unittest.main()

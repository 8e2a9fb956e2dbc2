"""`explore --as`: the machines other than `run`, and the documents' tables of what a cut leaves in them."""
import re
import subprocess
import sys
from pathlib import Path
from typing import List, Tuple

from .helpers import EXAMPLES, EXPLORE, ONES, QUICK, SMALL, TOOLS, WRITE, ExploreTest, small_example, words_of

DOCS = TOOLS.parent / "docs"
ONES_TWOS_THREES = [f"{byte}" * 64 for byte in ("11", "22", "33")]

# The trace of each table, with its words, the line that is cut, and the lines of memory that it writes.
WEAR = ("write 3 {0}\nwrite 4 {0}\nwrite 5 {0}\nwrite 0 {1}\n", ("--levels=1", "--sets=1", "--ways=1", "--every=1"), 4, [0])
TXN = ("begin\nput 0 {0}\nput 64 {1}\ncommit\n", (), 4, [0, 64])
TREE = ("write 0 {0}\nwrite 4 {1}\n", ("--levels=1", "--sets=1"), 2, [4])


def tables_in(page: Path) -> List[Tuple[str, str]]:
    """The commands of a page that print a table in Markdown, each with the table that stands below it."""
    return re.findall(r"^```\n\$ ((?:(?!```).)*?--markdown)\n```\n\n((?:\|[^\n]*\n)+)", page.read_text(), re.MULTILINE | re.DOTALL)


class PagesTest(ExploreTest):
    """The tables of what a cut leaves are those that the commands above them print."""

    def test_tables_of_the_pages(self) -> None:
        for name in ("WEAR.md", "TXN.md", "TREE_MACHINE.md"):
            ((command, table),) = tables_in(DOCS / name)
            with self.subTest(name):
                ran = subprocess.run(["bash", "-c", command.replace("tools/explore", f"{sys.executable} {EXPLORE}")],
                                     cwd=TOOLS.parent, stdout=subprocess.PIPE, stderr=subprocess.PIPE, universal_newlines=True,
                                     check=False)
                self.assertEqual((ran.returncode, ran.stderr), (0, ""))
                self.assertEqual(ran.stdout, table)

    def test_no_other_lines_are_changed_where_recovery_is_cut_too(self) -> None:
        for machine, (trace, words, line, lines) in (("wear", WEAR), ("txn", TXN), ("tree", TREE)):
            with self.subTest(machine):
                cuts = self.json("cuts", "-", "--as", machine, *words_of(QUICK), *words, "--lines", str(line), "--twice",
                                 text=trace.format(*ONES_TWOS_THREES))
                for cut in cuts:
                    written = lines if cut["answer"].startswith("cut kept") else []
                    for each in (cut, *cut.get("cuts_of_recovery", [])):
                        self.assertEqual([other["line"] for other in each["read_otherwise"]], written)


class MachinesTest(ExploreTest):
    def example(self, name: str) -> str:
        """The text of an example."""
        return (EXAMPLES / f"{name}.trace").read_text()

    def test_ranges(self) -> None:
        text = self.example("power_cut")
        cuts, ranges = self.json("cuts", "-", text=text), self.json("cuts", "-", "--ranges", text=text)
        told = [(each["trace_line"], number) for each in ranges for number in range(each["first"], each["last"] + 1)]
        steps = [(cut["trace_line"], int(cut["answer"].rsplit(" ", 1)[-1]) if cut["command"] != "off" else 0) for cut in cuts]
        self.assertEqual(told, steps)
        rows = iter(cuts)
        for each in ranges:
            for cut in (next(rows) for _ in range(each["first"], each["last"] + 1)):
                for name in ("read_otherwise", "writes_lost", "unread", "command"):
                    self.assertEqual(each[name], cut[name])
                for name in ("trials", "digests", "steps"):
                    self.assertTrue(each[name][0] <= cut[name] <= each[name][1])
        self.assertIsNone(next(rows, None))
        text = self.output("cuts", "-", "--ranges", text=WRITE + "flip 9 0\nfence 0\n")
        self.assertIn("2  drain 0           4 to 6     latch: arms data line 0, tag line of 0 to 3  cut kept", text)
        self.assertTrue(text.endswith("8 cuts in 3 ranges that leave the same\n"), text)

    def test_words_of_ranges(self) -> None:
        self.assert_fails(self.explore("cuts", "-", "--markdown", text=""), 2, "--markdown needs --ranges")
        for word, *more in (("--twice",), ("--orders", "9")):
            self.assert_fails(self.explore("cuts", "-", "--ranges", word, *more, text=""), 2, f"--ranges and {word} exclude each other")
        for words in (("--ranges", "--distinct"), ("--ranges", "--json", "--markdown")):
            self.assert_fails(self.explore("cuts", "-", *words, text=""), 2, "not allowed with")

    def test_cuts_of_each_example(self) -> None:
        small = words_of(SMALL)
        for name, words, text, names in (("wear", (*small, "--every=1"), small_example("wear"), ("start", "gap", "steps")),
                                         ("txn", (*small,), small_example("txn"), ("redone", "steps")),
                                         ("tree", (), self.example("tree"), ("digests", "steps"))):
            with self.subTest(name):
                cuts = self.json("cuts", "-", "--as", name, *words, text=text)
                self.assertGreater(len(cuts), 10)
                for cut in cuts:
                    if cut["recovery"].startswith("on "):
                        self.assertEqual([cut[each] for each in names], list(map(int, cut["recovery"].split(" ")[1:])))
                self.assertEqual(self.output("cuts", "-", "--as", name, *words, text=text),
                                 self.output("cuts", "-", "--as", name, *words, "--from-start", text=text))

    def test_an_open_transaction_is_lost(self) -> None:
        text = f"begin\nput 0 {ONES}\nput 5 {ONES}\nput 0 {'22' * 64}\n"
        (cut,) = self.json("cuts", "-", "--as", "txn", text=text)
        self.assertEqual(cut["writes_lost"], [{"port": 0, "line": 0, "trace_line": 4}, {"port": 0, "line": 5, "trace_line": 3}])
        cuts = self.json("cuts", "-", "--as", "txn", "--lines", "5", text=text + "commit\n")
        self.assertEqual({len(cut["writes_lost"]) for cut in cuts if cut["answer"].startswith("cut lost")}, {2})
        self.assertEqual({len(cut["writes_lost"]) for cut in cuts if cut["answer"].startswith("cut kept")}, {0})

    def test_recoveries_cut_too(self) -> None:
        cuts = self.json("cuts", "-", "--as", "tree", "--twice", "--lines", "1", text=f"write 5 {ONES}\n")
        again = [second for cut in cuts for second in cut.get("cuts_of_recovery", [])]
        self.assertGreater(len(again), 5)
        for cut in cuts:
            for second in cut.get("cuts_of_recovery", []):
                self.assertEqual(second["read_otherwise"], cut["read_otherwise"])

    def test_cuts_of_a_commit(self) -> None:
        cuts = self.json("cuts", "-", "--as", "txn", "--lines", "4", text=TXN[0].format(*ONES_TWOS_THREES))
        self.assertEqual([(cut["answer"], cut["recovery"].split(" ")[:2]) for cut in cuts if cut["command"] == "commit"],
                         [*((f"cut lost {number}", ["on", "0"]) for number in range(12)),
                          *((f"cut kept {number}", ["on", "2"]) for number in range(12, 27)),
                          *((f"cut kept {number}", ["on", "0"]) for number in range(27, 30))])

    def test_steps_by_the_log(self) -> None:
        text = self.output("steps", "-", "--as", "txn", text=TXN[0].format(*ONES_TWOS_THREES))
        self.assertIn("     step 12  latch: arms a group of 2 lines\n     step 13  line 1008: the header\n"
                      "     step 14  line 1276: tag line of 1008 to 1011\n     step 15  latch: empties the group\n", text)
        self.assertTrue(text.endswith("4 commands, 30 persist steps\n"))
        commit = self.json("steps", "-", "--as", "txn", text=TXN[0].format(*ONES_TWOS_THREES))[3]
        data = [step["name"] for step in commit["steps"] if step["part"] == "data lines"]
        self.assertEqual(data, ["body 0", "body 1", "the header", "data line 0", "data line 64", "the header"])
        self.assertEqual({step["same_bytes"] for step in commit["steps"] if step["kind"] == "write"}, {None})
        *_, write = self.json("steps", "-", "--as", "wear", *WEAR[1], "--reads", text=WEAR[0].format(*ONES_TWOS_THREES))
        data = [step["name"] for step in write["steps"] if step["part"] == "data lines"]
        self.assertEqual((data, write["answer"]), (["place 0", "place 251", "the record"], "ok 17"))
        self.assertEqual([step["group_lines"] for step in write["steps"] if step.get("latch") == "arms"], [2, 2, 3])
        *_, write = self.json("steps", "-", "--as", "tree", *TREE[1], "--reads", text=TREE[0].format(*ONES_TWOS_THREES))
        self.assertEqual([step["name"] or step["latch"] for step in write["steps"]],
                         ["node 1", "arms", "data line 4", "tag line of 4", "slot line 0", "slot line 1", "empties"])
        self.assertEqual(write["answer"], "ok 7")

    def test_the_log_has_the_steps_of_each_answer(self) -> None:
        for name, words in (("wear", ("--every", "1")), ("txn", ()), ("tree", ())):
            commands = self.json("steps", "-", "--as", name, *words, "--reads", text=self.example(name))
            self.assertTrue(any(command["reads"] for command in commands))
            for command in commands:
                last = command["answer"].rsplit(" ", 1)[-1]
                told = command["command"] == "on" or command["command"].split(" ")[0] in ("write", "commit")
                if told and last.isdigit():
                    self.assertEqual(len(command["steps"]), int(last), command)

    def test_sweeps(self) -> None:
        (record,) = self.json("sweep", "-", "--as", "txn", text=TXN[0].format(*ONES_TWOS_THREES))["settings"]
        self.assertEqual((record["writes"], record["steps_per_write"], record["machine"]), (2, 15, "txn"))
        self.assertEqual(record["recovery"], "on 0 8")
        records = self.json("sweep", "-", "--as", "tree", "--sets", "1,4", text=TREE[0].format(*ONES_TWOS_THREES))["settings"]
        self.assertEqual([record["sets"] for record in records], [1, 4])
        self.assertEqual([record["ways"] for record in records], [None, None])
        text = self.output("sweep", "-", "--as", "wear", "--every", "1", text=WEAR[0].format(*ONES_TWOS_THREES))
        self.assertEqual(len(text.splitlines()), 3)

    def test_sweeps_count_in_the_log(self) -> None:
        for machine, (trace, words, _, _) in (("wear", WEAR), ("txn", TXN), ("tree", TREE)):
            with self.subTest(machine):
                text = trace.format(*ONES_TWOS_THREES) + "read 5\nread 60\n"
                (record,) = self.json("sweep", "-", "--as", machine, *words, text=text)["settings"]
                commands = self.json("steps", "-", "--as", machine, *words, "--reads", text=text)
                for kind, names in (("write", ("write", "commit")), ("read", ("read",))):
                    asked = [command for command in commands if command["command"].split(" ")[0] in names
                             and command["answer"] != "range"]
                    parts = [read["part"] for command in asked for read in command["reads"]]
                    done = record[f"{kind}s"]
                    self.assertEqual(record[f"metadata_reads_per_{kind}"],
                                     round(sum(part in ("counter blocks", "tree nodes") for part in parts) / done, 3))
                    self.assertEqual(record[f"digests_per_{kind}"],
                                     round(sum(command["digests"] for command in asked) / done, 3))
                lines = sum(step["kind"] == "write" for command in commands for step in command["steps"])
                self.assertEqual(record["write_amplification"], round(lines / record["writes"], 3))

    def test_options_that_a_machine_has_not(self) -> None:
        for words in (("--as", "tree", "--ways", "4"), ("--as", "tree", "--loss", "1"), ("--every", "5"),
                      ("--as", "txn", "--every", "5")):
            self.assert_fails(self.explore("cuts", "-", *words, text=""), 2, "has no option")
        self.assert_fails(self.explore("sweep", "-", "--as", "tree", "--loss", "1,2", text=""), 2, "has no option")
        self.assert_fails(self.explore("cuts", "-", "--as", "other", text=""), 2, "--as")

    def test_a_trace_of_another_machine(self) -> None:
        for machine, line, told in (("wear", "begin", "that is a command of txn (--as txn)\n"),
                                    ("run", f"write 5 {ONES}", "that is a command of wear and of tree (--as wear or --as tree)\n"),
                                    ("tree", "drain 0", "that is a command of run (--as run)\n")):
            for command in ("cuts", "steps", "sweep"):
                result = self.explore(command, "-", "--as", machine, text=f"on\n{line}\n")
                self.assert_fails(result, 1, f"line 2: no such command: {line.split(' ')[0]}", told)

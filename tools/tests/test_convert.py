"""`explore convert` and `explore import --as`: one workload in each machine's language."""
import subprocess
from pathlib import Path
from typing import Dict, List

from .helpers import EXAMPLES, ONES, ExploreTest, program_path

TWOS = "22" * 64
PARTED = "11aabb" + "11" * 61
MACHINES = ("run", "wear", "txn", "tree")
LINES = {"run": 1024, "wear": 1022, "txn": 1008, "tree": 1024}
SMALL = f"""post 0 0 {ONES}
part 0 0 1 aabb
post 0 70 {TWOS}
read 0 70
drain 0
read 0 0
fence 0
off
on
post 3 5 {ONES}
"""


class ConvertTest(ExploreTest):
    def commands(self, text: str) -> List[str]:
        """The commands of a trace."""
        return [line for line in text.splitlines() if not line.startswith("#")]

    def converted(self, machine: str, text: str, *words: str) -> "subprocess.CompletedProcess[str]":
        """A workload for a machine, from standard input."""
        result = self.explore("convert", "-", "--to", machine, *words, text=text)
        self.assertEqual(result.returncode, 0, result.stderr)
        return result

    def answers(self, machine: str, text: str) -> List[str]:
        """What the machine with the memory of 1,024 lines, or a few less, answers."""
        words = [program_path(), machine, f"--levels={4 if machine == 'tree' else 2}"]
        ran = subprocess.run(words, input=text, stdout=subprocess.PIPE, universal_newlines=True, check=False)
        self.assertEqual(ran.returncode, 0, ran.stdout[-100:])
        return ran.stdout.splitlines()

    def test_each_language(self) -> None:
        self.assertEqual(self.commands(self.converted("run", SMALL).stdout), SMALL.splitlines())
        written = [f"write 0 {ONES}", "read 0", f"write 0 {PARTED}", f"write 70 {TWOS}", "off", "on"]
        for machine in ("wear", "tree"):
            result = self.converted(machine, SMALL)
            self.assertEqual(self.commands(result.stdout), ["read 70", *written])
            self.assertEqual(result.stderr, "explore: writes of a part of a line, which write the whole line here: 1\n"
                                            "explore: reads of a line that waits, which read what is in memory here: 2\n"
                                            "explore: left out, as no drain or fence makes sure of them: writes: 1\n")
        self.assertEqual(self.commands(self.converted("txn", SMALL).stdout), [
            "read 70", "begin", f"put 0 {ONES}", "commit", "read 0", "begin", f"put 0 {PARTED}", f"put 70 {TWOS}", "commit", "off", "on"])

    def test_what_is_no_workload_is_left_out_and_told(self) -> None:
        result = self.converted("tree", f"stat\nsnap\npost 0 0 {ONES}\ncut 3\nfence 0\nflip 3 0\nturn\nstat\n")
        self.assertEqual(self.commands(result.stdout), [f"write 0 {ONES}"])
        self.assertEqual(result.stderr, "explore: left out: 1 cut, 1 flip, 1 snap, 2 stat, 1 turn\n")
        self.assertIn("# left out: 1 cut, 1 flip, 1 snap, 2 stat, 1 turn.\n", result.stdout)

    def test_lines_that_a_smaller_memory_has_not(self) -> None:
        text = f"post 0 1022 {ONES}\nread 0 1023\npost 0 1007 {ONES}\nread 0 1010\nfence 0\n"
        for machine, told, lines in (("wear", "wear has only the lines 0 to 1021: other lines: 2, writes and reads of them: 2",
                                      ["1010", "1007"]),
                                     ("txn", "txn has only the lines 0 to 1007: other lines: 3, writes and reads of them: 3",
                                      ["1007"]),
                                     ("tree", "", ["1023", "1010", "1022", "1007"])):
            result = self.converted(machine, text)
            self.assertEqual(result.stderr, f"explore: left out, as {told}\n" if told else "")
            self.assertEqual([line.split()[1] for line in self.commands(result.stdout) if " " in line], lines)
            self.assertNotIn("range", self.answers(machine, result.stdout))
        self.assertIn("tree has only the lines 0 to 15: other lines: 4, writes and reads of them: 4",
                      self.converted("tree", text, "--levels", "1").stderr)

    def test_each_machine_has_the_same_memory_after_each_fence(self) -> None:
        made = subprocess.run([program_path(), "make", "3", "400"], stdout=subprocess.PIPE, universal_newlines=True, check=True).stdout
        trace = self.file("a.trace", made + "".join((EXAMPLES / "database.trace").read_text().splitlines(True)[:600]))
        memory: Dict[str, List[str]] = {}
        for machine in MACHINES:
            result = self.explore("convert", trace, "--to", machine)
            asked = "".join(f"read 0 {line}\n" if machine == "run" else f"read {line}\n" for line in range(0, LINES[machine]))
            answered = self.answers(machine, result.stdout + "off\non\n" + asked)[-LINES[machine]:]
            memory[machine] = [line.split(" ")[1] for line in answered]
        for machine in MACHINES:
            self.assertEqual(memory[machine], memory["run"][:LINES[machine]], machine)
        self.assertGreater(sum(line != "00" * 64 for line in memory["run"]), 100)

    def test_more_lines_than_a_transaction_holds(self) -> None:
        text = "".join(f"post 0 {line} {ONES}\n" for line in range(16)) + f"post 0 99 {ONES}\nfence 0\n"
        result = self.converted("txn", text)
        self.assertEqual([line.split(" ")[0] for line in self.commands(result.stdout)],
                         ["begin", *["put"] * 15, "commit", "begin", "put", "commit"])
        self.assertEqual(result.stderr, "explore: left out: 1 post to a full queue\n"
                                        "explore: fences of more than 15 lines, which are several transactions each: 1\n")

    def test_lines_that_are_no_commands(self) -> None:
        for line, told in (("write 0 11", "is not a command of pmem run"), ("read 0", "is not a command"), ("read 9 0", "below 8"),
                           ("read 0 x", "below 18446744073709551616"), (f"post 0 0 {ONES[2:]}", "hex digits"),
                           ("part 0 0 64 11", "below 64"), ("part 0 0 0 1", "hex digits")):
            with self.subTest(line):
                self.assert_fails(self.explore("convert", "-", "--to", "wear", text=f"# one\n{line}\n"), 1, "line 2 of the trace", told)
        self.assert_fails(self.explore("convert", "-", text=""), 2, "--to")
        self.assert_fails(self.explore("convert", "-", "--to", "x", text=""), 2)

    def test_where_lines_lie_is_kept(self) -> None:
        text = self.converted("txn", f"# Made of x.\n# line 3 is at 0x40c0\npost 0 3 {ONES}\nfence 0\n").stdout
        self.assertIn("# line 3 is at 0x40c0\n", text)
        self.assertNotIn("Made of x", text)


class ImportAsTest(ExploreTest):
    def test_a_program_for_each_machine(self) -> None:
        accesses = self.file("a.csv", "".join(f"store,{64 * line},8,\nload,{64 * line},8\n" for line in range(2000)))
        for machine in MACHINES:
            text = self.output("import", "csv", accesses, "--as", machine, "--commands", "3000", "--fold")
            words = {line.split(" ")[0] for line in text.splitlines() if not line.startswith("#")}
            self.assertEqual(words, {"run": {"part", "read", "fence", "drain"}, "txn": {"begin", "put", "commit", "read"}}.get(
                machine, {"write", "read"}) - ({"drain"} if machine == "run" else set()))
            self.assertIn(f"of {LINES[machine]} data lines", text)
            self.assertEqual(f"# For pmem {machine} with {4 if machine == 'tree' else 2} levels.\n" in text, machine != "run")
            path = Path(self.file(f"{machine}.trace", text))
            cuts = self.json("cuts", str(path), "--as", machine, "--levels", "4" if machine == "tree" else "2", "--lines", "20-30")
            self.assertTrue(all(cut["recovery"].startswith("on ") for cut in cuts))

    def test_levels(self) -> None:
        accesses = self.file("a.csv", "store,0x10000,8,\n")
        self.assertIn("of 64 data lines", self.output("import", "csv", accesses, "--as", "tree", "--levels", "2"))
        self.assertIn("of 240 data lines", self.output("import", "csv", accesses, "--as", "txn", "--levels", "1"))

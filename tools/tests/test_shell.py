"""Tests of `explore shell`, through pipes and at a terminal."""
import os
import pty
import select
import signal
import subprocess
import sys
import time
from pathlib import Path
from typing import Dict, List

from .helpers import EXAMPLES, EXPLORE, FORGED, ONES, WRITE, ExploreTest

from explorer.trace import short_text

POST = f"post 0 0 {ONES}\n"


class PipesTest(ExploreTest):
    def session(self, text: str, *words: str) -> List[str]:
        """The lines that a session prints in which nothing is wrong."""
        return self.output("shell", *words, text=text).splitlines()

    def test_a_command_with_its_steps(self) -> None:
        lines = self.session(WRITE)
        self.assertEqual(lines[:3], ["1  post 0 0 11..11", "    > ok", "2  drain 0"])
        self.assertEqual([line.split("  ")[-1] for line in lines if "      step " in line],
                         ["line 1302: line 0 of the shadow table of tree nodes"] * 2 +
                         ["line 1301: line 0 of the shadow table of counter blocks", "latch: arms a group of 2 lines",
                          "line 0: data line 0", "line 1024: tag line of 0 to 3", "latch: empties the group"])
        self.assertNotIn("step", "\n".join(self.session("steps off\n" + WRITE)))

    def test_a_wrong_line_ends_nothing(self) -> None:
        for line, told in (("read 0", "too few or too many words: read 0"), ("READ 0 0", "no such command: READ 0 0"),
                           ("read 0 0 # so", "a comment needs its own line"), ("undo", "nothing is left to take back"),
                           ("redo", "nothing was taken back"), ("cut here", "no command yet"), ("go", "nothing waits"),
                           ("show tag 5000", "no such line: tag 5000; the last is 1023"), ("show thing 1", "no such line"),
                           ("load", "which file?"), (f"load {self.path('none')}", "No such file"), ("load 'x", "quotation"),
                           ("undo x", "expected a number"), ("list all", "too many words"),
                           (f"save {self.path('none/a')}", "no directory"), ("steps maybe", "steps on, or steps off?"),
                           ("\x80\x1b[2J", "no such command")):
            with self.subTest(line):
                result = self.explore("shell", text=f"{line}\nstat\n")
                self.assertEqual((result.returncode, result.stdout), (1, "1  stat\n    > stat 0 0 0 0 0\n"))
                self.assertTrue(result.stderr.startswith("explore: ") and result.stderr.count("\n") == 1, result.stderr)
                self.assertTrue(result.stderr[:-1].isprintable())
                self.assertIn(told, result.stderr)

    def test_back_and_on_again(self) -> None:
        lines = self.session("steps off\n" + WRITE + "undo 2\nstat\nundo\nredo\nlist\n")
        self.assertEqual(lines[-6:], ["0 lines", "1  stat", "    > stat 0 0 0 0 0", "0 lines", "1 lines, the last: stat", "1  stat"])

    def test_cut_here_is_the_command_cut(self) -> None:
        for number, kept in ((3, "lost 3"), (4, "kept 4")):
            lines = self.session(f"steps off\n{WRITE}cut here {number}\nsteps on\non\nread 0 0\n")
            self.assertIn(f"    > cut {kept}", lines)
            self.assertEqual(any("line 11..11" in line for line in lines), number == 4)
        result = self.explore("shell", text=f"{WRITE}cut here 7\ncut here 0\ncut here 0\n")
        self.assertIn("took 7 steps", result.stderr)
        self.assertIn("was cut already", result.stderr)

    def test_a_break_on_a_line(self) -> None:
        self.file("two.trace", WRITE + POST + "drain 0\nread 0 0\n")
        lines = self.session(f"break data 0\nload {self.path('two.trace')}\nlist\ngo\ncut here\nsteps off\nbreak off\non\n"
                             f"save {self.path('cut.trace')}\n")
        self.assertEqual(lines[0], "a break at line 0: data line 0")
        self.assertIn("      step 5  line 0: data line 0   <- break: `cut here` cuts power before it", lines)
        self.assertEqual(lines.count("2  drain 0"), 2)
        saved = Path(self.path("cut.trace")).read_text().splitlines()
        self.assertEqual([line.split(" ")[0] for line in saved], ["post", "drain", "post", "cut", "drain", "on"])
        self.assertIn("    > cut kept " + saved[3].split(" ")[1], lines)

    def test_a_line_by_its_name(self) -> None:
        lines = self.session(f"poke 1024 {ONES}\npoke 1286 {ONES}\nshow tag 3\nshow 1024\nshow counter 1\nshow node 0\n")
        eight = " ".join(["11"] * 8)
        self.assertEqual(lines[4:9], ["line 1024: tag line of 0 to 3", *(f"  {at:2}  {eight}  {eight}" for at in (0, 16, 32, 48))])
        self.assertEqual(lines[9:14], lines[4:9])
        self.assertIn("line 1286: counter block of page 1", lines)
        self.assertIn("line 1280: node 0", lines)

    def test_what_is_saved_is_what_was_done(self) -> None:
        path = self.path("saved.trace")
        self.session("steps off\n# why\n" + WRITE + f"save {path}\n")
        self.assertEqual(Path(path).read_text(), "# why\n" + WRITE)

    def test_an_exhibit_can_be_taken_back(self) -> None:
        result = self.explore("shell", "--suite", "weak", text=f"steps off\n{FORGED}stat\nundo\nstat\n")
        self.assertIn("> forged 5 ", result.stdout)
        self.assertIn("the run ended with the exhibit", result.stderr)
        self.assertTrue(result.stdout.splitlines()[-1].startswith("    > stat "))

    def test_the_other_machines(self) -> None:
        machines: Dict[str, List[str]] = {"wear": ["--every", "1"], "txn": [], "tree": []}
        for name, options in machines.items():
            with self.subTest(name):
                trace = str(EXAMPLES / f"{name}.trace")
                told = self.session(f"steps off\nload {trace}\nundo\n", "--as", name, *options)
                answers = [line[6:] for line in told if line.startswith("    > ")]
                wanted = (EXAMPLES / f"{name}.out").read_text().splitlines()
                self.assertEqual(answers, [short_text(line) for line in wanted])
        result = self.explore("shell", "--as", "tree", text="show 1\n")
        self.assertEqual(result.stderr.count("does not show its device"), 1)

    def test_breaks_of_the_other_machines(self) -> None:
        told = self.session(f"break slot 0\nwrite 5 {ONES}\ncut here\nbreak data 4\n", "--as", "tree")
        self.assertIn("a break at line 149: slot line 0", told)
        self.assertIn("      step 4  line 149: slot line 0   <- break: `cut here` cuts power before it", told)
        self.assertIn("    > cut kept 3", told)
        result = self.explore("shell", "--as", "tree", text="break counter 1\nbreak slot 9\n")
        self.assertIn("no such line: counter 1; `help` has their names\n", result.stderr)
        self.assertIn("no such line: slot 9; the last is 8\n", result.stderr)
        told = self.session(f"break data 1008\nbegin\nput 0 {ONES}\ncommit\n", "--as", "txn")
        self.assertIn("a break at line 1008: the header", told)
        self.assertEqual(sum("<- break" in line for line in told), 1)

    def test_a_trace_to_begin_with(self) -> None:
        self.assertEqual(self.session("list\n", self.file("a.trace", "stat\n"))[-1], "1  stat")
        self.assert_fails(self.explore("shell", self.path("none"), text=""), 1, "No such file")
        self.assert_fails(self.explore("shell", "--loss", "3", text=""), 2, "--loss")


class TerminalTest(ExploreTest):
    def test_a_session_at_a_terminal(self) -> None:
        ours, theirs = pty.openpty()
        self.addCleanup(os.close, ours)
        process = subprocess.Popen([sys.executable, str(EXPLORE), "shell"], stdin=theirs, stdout=theirs, stderr=theirs,
                                   start_new_session=True)
        os.close(theirs)
        self.wait_for(ours, b"pmem> ")
        for text, told in (("stats\n", b"no such command: stats"), ("stat\n", b"> stat 0 0 0 0 0"), ("undo\n", b"0 lines")):
            os.write(ours, text.encode())
            self.wait_for(ours, told, b"pmem> ")
        # One that falls just before the terminal is read is seen at the next one.
        for _ in range(20):
            os.killpg(process.pid, signal.SIGINT)
            if select.select([ours], [], [], 3)[0]:
                break
        self.wait_for(ours, b"pmem> ")
        os.write(ours, b"stat\n")
        self.wait_for(ours, b"> stat 0 0 0 0 0", b"pmem> ")
        os.write(ours, b"\x04")
        self.assertEqual(process.wait(timeout=240), 0)

    def wait_for(self, terminal: int, *texts: bytes) -> None:
        """Reads until these texts came, one after another."""
        read, end = b"", time.monotonic() + 240
        for text in texts:
            while text not in read:
                self.assertTrue(select.select([terminal], [], [], max(0, end - time.monotonic()))[0], read)
                read += os.read(terminal, 4096)
            read = read.split(text, 1)[1]

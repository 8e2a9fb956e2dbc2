"""Wrong words, files that aren't there, programs that fail, and interrupts."""
import os
import pty
import shutil
import signal
import subprocess
import sys
import time
from pathlib import Path
from typing import Callable

from .helpers import EXPLORE, ONES, WRITE, ExploreTest, program_path

COMMANDS = ("steps", "cuts", "sweep", "compare", "endurance", "export", "draw", "import lackey", "import csv")

SLOW_PROGRAM = """
import os, sys, time
here = os.path.dirname(os.path.abspath(__file__))
runs = len(os.listdir(os.path.join(here, "runs")))
open(os.path.join(here, "runs", str(os.getpid())), "w").close()
if runs < {quick}:
    os.execv({program!r}, [{program!r}, *sys.argv[1:]])
time.sleep(900)
"""


class HelpTest(ExploreTest):
    def test_each_command_has_help(self) -> None:
        self.assertIn("Exit statuses", self.output("--help"))
        for command in COMMANDS:
            self.assertIn(f"usage: explore {command}", self.output(*command.split(" "), "--help"))

    def test_no_command_and_a_wrong_one(self) -> None:
        self.assert_fails(self.explore(), 2, "COMMAND")
        self.assert_fails(self.explore("stepz"), 2, "stepz")
        self.assert_fails(self.explore("import"), 2, "KIND")
        self.assert_fails(self.explore("steps"), 2, "TRACE", "explore steps --help")


class WrongWordsTest(ExploreTest):
    def test_options_out_of_range(self) -> None:
        for words in ("--levels 0", "--levels 7", "--sets 65", "--ways 9", "--loss 3", "--suite x", "--major -1",
                      "--major 18446744073709551616", "--key 00", "--tag-key 0", "--lines 5-3", "--jobs 0",
                      "--level 1", "--unknown"):
            with self.subTest(words):
                self.assert_fails(self.explore("steps", "-", *words.split(" "), text=WRITE), 2)

    def test_lists_of_a_sweep(self) -> None:
        for words in ("--loss 1,3", "--sets 1,,2", "--levels ,", "--csv --json"):
            with self.subTest(words):
                self.assert_fails(self.explore("sweep", "-", *words.split(" "), text=WRITE), 2)

    def test_options_of_run_are_passed_on(self) -> None:
        text = self.output("steps", "-", "--major", "9", "--suite", "weak", "--key", "00" * 16, "--tag-key", "aB",
                           text=WRITE)
        self.assertIn("seal 0 9.1 0000..00", text)


class FilesTest(ExploreTest):
    def test_a_trace_that_is_not_there(self) -> None:
        for command in ("steps", "cuts", "sweep"):
            self.assert_fails(self.explore(command, self.path("none")), 1, "cannot read", "No such file")
        self.assert_fails(self.explore("import", "csv", self.path("none")), 1, "cannot read", "No such file")

    def test_a_directory_in_place_of_a_file(self) -> None:
        self.assert_fails(self.explore("steps", str(self.directory)), 1, "Is a directory")
        self.assert_fails(self.explore("import", "lackey", str(self.directory)), 1, "Is a directory")
        self.assert_fails(self.explore("steps", "-", "-o", str(self.directory), text=WRITE), 1, "is a directory")

    def test_a_place_that_cannot_be_written(self) -> None:
        self.assert_fails(self.explore("cuts", "-", "-o", self.path("none/a"), text=WRITE), 1, "no directory")

    def test_a_malformed_line_is_named(self) -> None:
        for line, told in (("READ 0 0", "no such command"), ("read 0", "too few or too many words"),
                           ("read x 0", "a number"), ("read 9 0", "a port is above 7"), (f"post 0 0 {ONES[1:]}", "hex"),
                           ("#" * 1025, "1,024 bytes")):
            with self.subTest(told):
                trace = self.file("bad.trace", f"# a comment\r\nstat\n{line}\nstat\n")
                self.assert_fails(self.explore("steps", trace), 1, "bad.trace, line 3: ", told)

    def test_bytes_that_are_no_text(self) -> None:
        trace = self.path("bytes")
        Path(trace).write_bytes(bytes(range(11, 256)))
        result = self.explore("steps", trace)
        self.assert_fails(result, 1, "line 1: no such command")

    def test_traces_that_are_too_long_are_told_before_they_are_run(self) -> None:
        trace, script = self.file("long.trace", "stat\n" * 1_000_001), ["--program", "/nowhere"]
        for command in ("steps", "cuts", "sweep"):
            result = self.explore(command, trace, *script)
            self.assert_fails(result, 1, "has 1000001 lines, and a trace at most 1,000,000")
        trace = self.file("half.trace", "stat\n" * 500_000)
        result = self.explore("sweep", trace)
        self.assert_fails(result, 1, "has 500000 commands: with what a sweep asks besides that is 1000003 lines")
        self.assertTrue(result.stderr.rstrip("\n").isprintable())

    def test_output_file_is_replaced_whole(self) -> None:
        self.file("steps.txt", "old")
        self.assertEqual(self.output("steps", "-", "-o", self.path("steps.txt"), text=WRITE), "")
        self.assertEqual(self.names(), ["steps.txt"])
        self.assertIn("7 persist steps", Path(self.path("steps.txt")).read_text())

    def test_what_is_no_plain_file_is_written_as_it_stands(self) -> None:
        self.assertIn("0 commands", self.output("steps", "-", "-o", "/dev/stdout", text=""))
        os.symlink(self.path("there.txt"), self.path("link.txt"))
        self.output("steps", "-", "-o", self.path("link.txt"), text="")
        self.assertTrue(os.path.islink(self.path("link.txt")))
        self.assertEqual(self.names(), ["link.txt", "there.txt"])

    def test_output_file_stays_where_the_trace_is_wrong(self) -> None:
        self.file("steps.txt", "old")
        self.assert_fails(self.explore("steps", "-", "-o", self.path("steps.txt"), text="x\n"), 1, "standard input")
        self.assertEqual(Path(self.path("steps.txt")).read_text(), "old")


class ProgramsTest(ExploreTest):
    def test_a_program_that_is_not_there(self) -> None:
        for command in ("steps", "cuts", "sweep"):
            self.assert_fails(self.explore(command, "-", "--program", self.path("none"), text=WRITE), 1,
                              "cannot run the program", "none", "No such file")
        self.assert_fails(self.explore("steps", "-", text=WRITE, PMEM_PROGRAM=str(self.directory)), 1,
                          "cannot run the program", "Permission denied")

    def test_a_program_that_is_another_one(self) -> None:
        for text in ("", "import sys; print('hello')", "import sys; print('forged 1')",
                     "print('ok'); print('what is this')", "print('ok'); print('ok 7')"):
            with self.subTest(text):
                program = self.script("other", text)
                self.assert_fails(self.explore("steps", "-", "--program", program, text=WRITE), 1, "other")

    def test_a_program_that_fails(self) -> None:
        for text, told in (("import sys; sys.exit(9)", "ended with status 9"),
                           ("import sys; print('stop memory'); sys.exit(1)", "ran out of memory"),
                           ("import sys; print('stop lines'); sys.exit(7)", "1,000,000 lines"),
                           ("import os; os.kill(os.getpid(), 9)", "signal 9")):
            with self.subTest(told):
                program = self.script("failing", text)
                self.assert_fails(self.explore("steps", "-", "--program", program, text=WRITE), 1, told)

    def test_words_that_the_program_refuses(self) -> None:
        program = self.script("refusing", "import sys; print('stop words'); sys.exit(2)")
        self.assert_fails(self.explore("steps", "-", "--program", program, text=WRITE), 2, "refuses its options")


class InterruptsTest(ExploreTest):
    def interrupted(self, quick: int, *words: str) -> "subprocess.CompletedProcess[str]":
        """A command that is interrupted once a run is under way that doesn't end, after some quick ones."""
        runs = self.directory / "runs"
        runs.mkdir()
        program = self.script("slow", SLOW_PROGRAM.format(quick=quick, program=program_path()))
        process = subprocess.Popen([sys.executable, str(EXPLORE), *words, "--program", program],
                                   stdout=subprocess.PIPE, stderr=subprocess.PIPE, universal_newlines=True)
        self.wait_until(lambda: len(os.listdir(runs)) > quick)
        process.send_signal(signal.SIGINT)
        out, err = process.communicate(timeout=240)
        self.assertFalse(any(is_running(int(name)) for name in os.listdir(runs)))
        shutil.rmtree(runs)
        return subprocess.CompletedProcess(words, process.returncode, out, err)

    def wait_until(self, condition: Callable[[], bool]) -> None:
        """Waits for something that comes soon."""
        end = time.monotonic() + 240
        while not condition():
            self.assertLess(time.monotonic(), end)
            time.sleep(0.05)

    def test_no_half_file_is_left(self) -> None:
        trace = self.file("a.trace", WRITE)
        for command, quick in (("steps", 0), ("steps", 3), ("cuts", 2), ("sweep", 1)):
            with self.subTest((command, quick)):
                result = self.interrupted(quick, command, trace, "-o", self.path("out.txt"))
                self.assertEqual((result.returncode, result.stdout, result.stderr), (130, "", "explore: interrupted\n"))
                self.assertEqual(self.names(), ["a.trace", "slow"])

    def test_each_interrupt_ends_all(self) -> None:
        trace = self.file("a.trace", WRITE * 400)
        for number in range(20):
            begun, program = Path(self.path(f"begun {number}")), self.path(f"program {number}")
            Path(program).write_text(f"#!/bin/sh\n: >>'{begun}'\nexec {program_path()} \"$@\"\n")
            os.chmod(program, 0o755)
            words = (("cuts",), ("steps",), ("cuts", "--twice", "--lines", "1-40"), ("cuts", "--from-start"))[number % 4]
            process = subprocess.Popen([sys.executable, str(EXPLORE), *words, trace, "--jobs", "2", "--program", program],
                                       stdout=subprocess.PIPE, stderr=subprocess.PIPE, universal_newlines=True)
            self.wait_until(begun.exists)
            time.sleep(0.03 * number)
            process.send_signal(signal.SIGTERM if number == 19 else signal.SIGINT)
            try:
                _, err = process.communicate(timeout=240)
            finally:
                process.kill()
            self.assertIn((process.returncode, err), ((130, "explore: interrupted\n"), (0, "")), (number, words))

    def test_an_interrupt_amid_the_imports_ends_all(self) -> None:
        """In a place that would drop an exception, such as the callbacks of imports."""
        text = f"""
import os, runpy, signal, sys, time
class Gone:
    def __del__(self):
        os.kill(os.getpid(), signal.SIGINT)
        time.sleep(0.1)
class Finder:
    def find_spec(self, name, path, target=None):
        if name == "explorer.steps":
            Gone()
sys.meta_path.insert(0, Finder())
sys.argv = ["explore", "--help"]
runpy.run_path({str(EXPLORE)!r}, run_name="__main__")
"""
        found = subprocess.run([sys.executable, "-c", text], stdout=subprocess.PIPE, stderr=subprocess.PIPE,
                               universal_newlines=True, check=False)
        self.assertEqual((found.returncode, found.stdout, found.stderr), (130, "", "explore: interrupted\n"))

    def test_an_interrupt_just_before_a_wait_ends_it(self) -> None:
        text = """
import os, signal, sys, time
from explorer.processes import INTERRUPTS, new_selector
INTERRUPTS.listen()
signal.signal(signal.SIGINT, lambda *_: None)  # It came after the last check, so nothing has been raised.
selector = new_selector()
begun = time.monotonic()
os.kill(os.getpid(), signal.SIGINT)
assert [key.data for key, _ in selector.select(50)] == [None]
assert time.monotonic() - begun < 40
INTERRUPTS.seen = True
try:
    INTERRUPTS.woke()
except KeyboardInterrupt:
    print("interrupted")
"""
        found = subprocess.run([sys.executable, "-c", text], cwd=EXPLORE.parent, stdout=subprocess.PIPE, stderr=subprocess.STDOUT,
                               universal_newlines=True, check=False)
        self.assertEqual((found.returncode, found.stdout), (0, "interrupted\n"))

    def test_an_interrupt_ends_a_compiler(self) -> None:
        begun = Path(self.path("begun"))
        compiler = self.script("compiler", f"import time\nopen({str(begun)!r}, 'w').close()\ntime.sleep(900)")
        with subprocess.Popen([sys.executable, str(EXPLORE), "cuts", self.file("a.trace", WRITE)], stdout=subprocess.PIPE,
                              stderr=subprocess.PIPE, universal_newlines=True,
                              env={**os.environ, "CC": compiler, "XDG_CACHE_HOME": self.path("cache")}) as process:
            self.wait_until(begun.exists)
            process.send_signal(signal.SIGINT)
            out, err = process.communicate(timeout=240)
        self.assertEqual((process.returncode, out, err), (130, "", "explore: interrupted\n"))
        self.assertEqual(os.listdir(self.path("cache/pmem-explore")), [])

    def test_a_program_that_was_interrupted(self) -> None:
        program = self.script("interrupted", "import os; os.kill(os.getpid(), 2)")
        result = self.explore("steps", "-", "--program", program, text=WRITE)
        self.assertEqual((result.returncode, result.stdout), (130, ""))

    def test_progress_on_a_terminal_alone(self) -> None:
        trace = self.file("a.trace", WRITE)
        for command, told in (("steps", b"bytes of lines: 1 of 1"), ("cuts", b"cuts: 10 of 10")):
            main, side = pty.openpty()
            self.addCleanup(os.close, main)
            process = subprocess.Popen([sys.executable, str(EXPLORE), command, trace], stdout=subprocess.DEVNULL, stderr=side)
            os.close(side)
            text = b""
            while told not in text:
                text += os.read(main, 4096)
            self.assertEqual(process.wait(timeout=240), 0)

    def test_a_reader_that_goes_away(self) -> None:
        trace = self.file("a.trace", WRITE * 50)
        process = subprocess.Popen([sys.executable, str(EXPLORE), "steps", trace, "--lines", "1-2", "--whole"],
                                   stdout=subprocess.PIPE, stderr=subprocess.PIPE)
        assert process.stdout is not None and process.stderr is not None
        process.stdout.close()
        self.assertEqual(process.stderr.read(), b"")
        self.assertEqual(process.wait(timeout=240), 1)
        process.stderr.close()


def is_running(number: int) -> bool:
    """Whether a process is there."""
    try:
        os.kill(number, 0)
    except ProcessLookupError:
        return False
    return True

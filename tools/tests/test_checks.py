"""Checks of one's own in a CI: what is an error and what a find, a limit of time, samples, one process for many outcomes."""
import csv
import hashlib
import io
import json
import os
import subprocess
import sys
import time
import xml.etree.ElementTree
from pathlib import Path
from typing import List

from .helpers import EXPLORE, ExploreTest, program_path
from .test_orders import EVICTED, HEAD_NEEDS_ENTRY

WEAK = ("--suite", "weak", "--loss", "1", "--levels", "1", "--check-rows", "0")
ONE = f"post 0 0 {'11' * 64}\ndrain 0\n"
BATCH = """
import sys
for row in sys.stdin:
    image, lines = row.rstrip("\\n").split("\\t")
    memory = open(image, "rb").read()
    rows = open(lines).read()
    print("ok" if not any(memory) else f"memory has {memory[0]}, {len(rows.splitlines())} rows", flush=True)
"""


class ChecksTest(ExploreTest):
    def cuts(self, check: str, *words: str, text: str = ONE) -> "subprocess.CompletedProcess[str]":
        """The cuts of a trace with a check."""
        return self.explore("cuts", "-", *WEAK, "--distinct", "--check", check, *words, text=text)

    def check(self, text: str) -> str:
        """A check in Python."""
        return f"{sys.executable} {self.script('check.py', text)}"

    def living(self, mark: str) -> List[int]:
        """The processes that have a word among theirs."""
        found = []
        for place in Path("/proc").iterdir():
            try:
                if place.name.isdigit() and mark.encode() in (place / "cmdline").read_bytes().split(b"\0"):
                    found.append(int(place.name))
            except OSError:
                pass
        return found

    def test_a_check_that_cannot_be_run_is_an_error(self) -> None:
        for check, told in ((self.check("import os; os.kill(os.getpid(), 11)"), "ended by signal 11 (SIGSEGV)"),
                            ("sh -c 'exit 127'", "could not be run, status 127"), ("sh -c 'exec /etc/passwd'", "status 126")):
            with self.subTest(told):
                result = self.cuts(check, "--junit", self.path("junit.xml"), "--failing", self.path("failing.trace"))
                self.assertEqual((result.returncode, result.stderr), (4, ""))
                self.assertIn(" could not be checked: ", result.stdout)
                self.assertIn(told, result.stdout)
                self.assertIn("none fails the check\n", result.stdout)
                suite = xml.etree.ElementTree.parse(self.path("junit.xml")).getroot()
                self.assertEqual((suite.get("failures"), suite.get("errors"), len(list(suite.iter("error")))), ("0", "2", 2))
                self.assertNotIn("failing.trace", self.names())
        self.assert_fails(self.cuts(self.path("none")), 4, "cannot run", "none")
        self.assertEqual(self.cuts("sh -c 'exit 1'").returncode, 3)

    def test_a_find_beside_an_error(self) -> None:
        check = self.check("import os, sys\nif any(open(sys.argv[1], 'rb').read()): sys.exit('not zero')\nos.abort()")
        result = self.cuts(check)
        self.assertEqual((result.returncode, result.stderr), (3, ""))
        self.assertIn("1 outcome of 5 cuts fails the check\n1 outcome could not be checked: the check was ended by signal 6 (SIGABRT)\n",
                      result.stdout)
        self.assertEqual([row["check"] for row in json.loads(self.cuts(check, "--json").stdout)], ["error", "fails"])

    def test_a_check_that_hangs_leaves_no_process(self) -> None:
        mark = f"hang-{os.getpid()}"
        for body in ("time.sleep(600)", f"subprocess.Popen([sys.executable, '-c', 'import time; time.sleep(600)', {mark!r}]); time.sleep(600)",
                     f"subprocess.Popen([sys.executable, '-c', 'import time; time.sleep(600)', {mark!r}])",
                     f"subprocess.Popen([sys.executable, '-c', 'import time; time.sleep(600)', {mark!r}], start_new_session=True)"):
            with self.subTest(body):
                check = self.check(f"import signal, subprocess, sys, time\nsignal.signal(signal.SIGTERM, signal.SIG_IGN)\n{body}\n")
                begun = time.monotonic()
                result = self.cuts(f"{check} {mark}", "--check-timeout", "0.7")
                self.assertLess(time.monotonic() - begun, 500)
                self.assertEqual(self.living(mark), [])
                if body.startswith("time"):
                    self.assertIn("the check took longer than 0.7 s", result.stdout)
                    self.assertEqual(result.returncode, 4)

    def test_a_check_that_leaves_a_process_behind_has_its_verdict(self) -> None:
        """Also if that process left the group and keeps the output open, and nobody limits the time."""
        mark = f"left-{os.getpid()}"
        check = self.check("import subprocess, sys\nsubprocess.Popen([sys.executable, '-c', 'import time; time.sleep(600)', "
                           f"{mark!r}], start_new_session=True)\nprint('left one', flush=True)\nsys.exit(1)\n")
        result = self.cuts(check)
        self.assertEqual((result.returncode, self.living(mark)), (3, []))
        self.assertIn(": left one\n", result.stdout)

    def test_an_interrupt_ends_a_check_that_hangs(self) -> None:
        mark = f"interrupted-{os.getpid()}"
        check = self.check("import time\ntime.sleep(600)\n")
        process = subprocess.Popen([sys.executable, str(EXPLORE), "cuts", self.file("a.trace", ONE), *WEAK, "--check", f"{check} {mark}"],
                                   stdout=subprocess.DEVNULL, stderr=subprocess.PIPE)
        end = time.monotonic() + 240
        while not self.living(mark) and time.monotonic() < end:
            time.sleep(0.05)
        process.send_signal(2)
        self.assertIn(b"explore: interrupted", process.communicate(timeout=240)[1])
        self.assertEqual((process.returncode, self.living(mark)), (130, []))

    def test_one_process_checks_many_outcomes(self) -> None:
        result = self.cuts(self.check(BATCH), "--check-batch", "--jobs", "1")
        self.assertEqual((result.returncode, result.stderr), (3, ""), result.stdout)
        self.assertIn(": memory has 17, 1 rows\n", result.stdout)
        single = self.cuts(self.check("import sys\nif any(open(sys.argv[1], 'rb').read()): sys.exit('memory has 17, 1 rows')\n"))
        self.assertEqual(result.stdout, single.stdout)

    def test_a_batch_that_ends_early_or_hangs(self) -> None:
        ends = self.cuts(self.check("import sys\nsys.stdin.readline()\nprint('ok')\n"), "--check-batch", "--jobs", "1")
        self.assertEqual(ends.returncode, 0, ends.stdout)  # it is started again for the second outcome
        silent = self.cuts(self.check("import sys\nsys.stdin.readline()\n"), "--check-batch", "--jobs", "1")
        self.assertEqual(silent.returncode, 4)
        self.assertIn("2 outcomes could not be checked: the check ended with status 0 before it answered\n", silent.stdout)
        hangs = self.cuts(self.check("import sys, time\nsys.stdin.readline()\ntime.sleep(600)\n"), "--check-batch", "--check-timeout", "0.5")
        self.assertEqual(hangs.returncode, 4)
        self.assertIn("took longer than 0.5 s", hangs.stdout)
        last = self.cuts(self.check("import sys\nfor row in sys.stdin: print('ok', flush=True)\nsys.exit(9)\n"), "--check-batch")
        self.assertEqual(last.returncode, 4)
        self.assertIn("the check ended with status 9 after its last answer", last.stdout)

    def test_where_it_happened_in_text_junit_and_json(self) -> None:
        imported = self.explore("import", "csv", "-", "--levels", "1", text=EVICTED.replace("store,0x1040", "mark,,,insert 1\nstore,0x1040")).stdout
        trace = self.file("log.trace", imported)
        check = f"{sys.executable} {self.script('head.py', HEAD_NEEDS_ENTRY)}"
        words = ("cuts", trace, *WEAK, "--check", check, "--orders", "9")
        result = self.explore(*words, "--junit", self.path("junit.xml"))
        self.assertEqual(result.returncode, 3)
        where = "before row 6, store.c:15, insert 1 (fence): memory has row 2 (store.c:12), misses row 4 (store.c:13)"
        self.assertIn(where, result.stdout)
        suite = xml.etree.ElementTree.parse(self.path("junit.xml")).getroot()
        self.assertEqual([str(failure.get("message")) for failure in suite.iter("failure")], [f"{where}: a head, but no entry"])
        names = [str(case.get("name")) for case in suite]
        self.assertEqual((names[0], names[-1]), ("line 11: fence 0 (row 6, store.c:15, insert 1)",
                                                 "row 6, store.c:15, insert 1: fence: any state of the stores before"))
        failing = [cut for cut in json.loads(self.explore(*words, "--json").stdout) if cut["check"] == "fails"]
        self.assertEqual([(cut["before"]["row"], cut["before"]["source"], [one["source"] for one in cut["missing"]]) for cut in failing],
                         [(6, "store.c:15", ["store.c:13"])])

    def test_a_sample_is_told_and_repeatable(self) -> None:
        made = subprocess.run([program_path(), "make", "3", "60", "--levels=1"], stdout=subprocess.PIPE, universal_newlines=True, check=False)
        text = made.stdout if made.returncode == 0 else ONE * 20
        levels = WEAK if made.returncode else ("--suite", "weak", "--loss", "1", "--check-rows", "0")
        every = self.json("cuts", "-", *levels, text=text)
        words = ("cuts", "-", *levels, "--sample", "10", "--seed", "5")
        found = self.json(*words, text=text)
        self.assertEqual(len(found), 10)
        self.assertTrue(all(cut in every for cut in found))
        self.assertEqual(found, self.json(*words, text=text))
        self.assertNotEqual(found, self.json(*words[:-1], "6", text=text))
        self.assertIn(f"\n10 of {len(every)} cuts tried (--sample 10, --seed 5); {len(every) - 10} left out\n", self.output(*words, text=text))

    def test_a_budget_ends_a_search(self) -> None:
        text = ONE * 30
        check = self.check("import time; time.sleep(0.5)")
        begun = time.monotonic()
        result = self.explore("cuts", "-", *WEAK, "--check", check, "--budget", "1", "--jobs", "1", text=text)
        self.assertLess(time.monotonic() - begun, 200)
        self.assertEqual((result.returncode, result.stderr), (0, ""))
        self.assertIn(" cuts tried (1 s, --seed 0); ", result.stdout)
        whole = self.explore("cuts", "-", *WEAK, "--budget", "1000", text=ONE)
        self.assertIn("\nall 8 cuts tried\n", whole.stdout)

    def test_csv_and_what_it_was_made_of(self) -> None:
        trace = self.file("one.trace", ONE)
        plain = self.output("cuts", trace, *WEAK, "--csv")
        rows = list(csv.DictReader(io.StringIO(plain)))
        records = self.json("cuts", trace, *WEAK)
        self.assertEqual([(row["steps_before"], row["answer"], row["steps"]) for row in rows],
                         [(str(cut["steps_before"]), cut["answer"], str(cut["steps"])) for cut in records])
        about = json.loads(self.output("cuts", trace, *WEAK, "--json", "--about"))
        self.assertEqual(about["rows"], records)
        self.assertEqual((about["about"]["format"], about["about"]["made_by"]), (1, "explore cuts"))
        self.assertEqual(about["about"]["traces"], [{"name": trace, "sha256": hashlib.sha256(ONE.encode()).hexdigest()}])
        with open(program_path(), "rb") as file:
            self.assertEqual(about["about"]["program"]["sha256"], hashlib.sha256(file.read()).hexdigest())
        text = self.output("steps", trace, *WEAK[:-2], "--csv", "--about")
        self.assertTrue(text.startswith("# format: 1\n# made_by: explore steps\n# version: "))
        rows = list(csv.DictReader(line for line in text.splitlines() if not line.startswith("#")))
        self.assertEqual([row["kind"] for row in rows], ["", "write", "latch", "write", "write", "latch"][:len(rows)] if len(rows) == 6
                         else ["", *(step["kind"] for step in self.json("steps", trace, *WEAK[:-2])[1]["steps"])])
        self.assert_fails(self.explore("cuts", trace, "--about"), 2, "--json or --csv")
        figures = json.loads(self.output("compare", trace, "--designs", "run", "--cuts", "1", "--cost", "optane", "--json", "--about"))
        self.assertEqual(figures["rows"], self.json("compare", trace, "--designs", "run", "--cuts", "1", "--cost", "optane"))
        self.assertEqual((figures["about"]["figures"]["file"], "device.read.ns" in figures["about"]["figures"]), ("optane.toml", True))
        self.assertTrue(self.output("sweep", trace, "--suite", "weak", "--csv", "--about").startswith("# format: 1\n# made_by: explore sweep\n"))

    def test_the_first_file_may_hold_addresses_of_the_program(self) -> None:
        trace = self.file("a.trace", self.output("import", "csv", "-", "--levels", "1", text="store,0x10040,8,0101010101010101\nfence\n"))
        check = self.check("import sys\nimage = open(sys.argv[1], 'rb').read()\nprint(len(image), image[0x30:0x38].hex())\nsys.exit(1)\n")
        result = self.explore("cuts", trace, *WEAK, "--check", check, "--check-addresses", "0x10010-0x1007f", "--json")
        self.assertEqual({cut["reason"] for cut in json.loads(result.stdout)}, {"112 " + "00" * 8, "112 " + "01" * 8})

    def test_a_hint_for_long_searches(self) -> None:
        text = (ONE * 400)[:-1] + "\n"
        result = self.explore("cuts", "-", "--distinct", "--sample", "1", "--levels", "1", "--check-rows", "0", text=text)
        self.assertIn("--suite weak --loss 1 finds the same outcomes several times faster", result.stderr)
        self.assertEqual(self.explore("cuts", "-", *WEAK, "--distinct", "--sample", "1", text=text).stderr, "")

    def test_wrong_words(self) -> None:
        for words in (("--check-timeout", "5"), ("--check-batch",), ("--torn",), ("--no-early",), ("--budget", "0"), ("--sample", "0"),
                      ("--ranges", "--sample", "5"), ("--ranges", "--csv"), ("--csv", "--json")):
            with self.subTest(words):
                self.assert_fails(self.explore("cuts", "-", *words, text=ONE), 2, "--")

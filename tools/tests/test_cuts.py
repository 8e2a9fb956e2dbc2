"""`explore cuts`: what a cut at each persist step leaves."""
import subprocess

from .helpers import EXAMPLES, FORGED, ONES, QUICK, TOOLS, TWIN, TWO_WRITES, WRITE, ExploreTest, words_of


class CutsTest(ExploreTest):
    def test_each_step_of_a_write(self) -> None:
        cuts = self.json("cuts", "-", text=WRITE)
        self.assertEqual([cut["answer"] for cut in cuts[:7]],
                         ["cut lost 0", "cut lost 1", "cut lost 2", "cut lost 3", "cut kept 4", "cut kept 5",
                          "cut kept 6"])
        self.assertEqual([cut["recovery"] for cut in cuts[3:5]], ["on 256 9 2", "on 256 9 8"])
        self.assertEqual([[other["line"] for other in cut["read_otherwise"]] for cut in cuts[:7]],
                         [[], [], [], [], [0], [0], [0]])
        self.assertEqual(cuts[4]["read_otherwise"][0]["after"], f"line {ONES}")
        self.assertEqual((cuts[7]["command"], cuts[7]["steps_before"]), ("off", 7))

    def test_text_has_a_summary(self) -> None:
        text = self.output("cuts", "-", text=WRITE)
        self.assertIn("8 cuts, 8 recovered\ngreatest recovery: 256 trials, 9 digests, 8 steps\nmean recovery: ", text)
        self.assertIn("     4      2  drain 0           cut kept 4       0        256        9      8  0\n", text)

    def test_recovery_cut_too(self) -> None:
        cuts = self.json("cuts", "-", "--twice", "--lines", "2", text=WRITE)
        again = cuts[4]["cuts_of_recovery"]
        self.assertEqual([cut["answer"] for cut in again], [f"cut {number}" for number in range(8)])
        self.assertEqual([cut["recovery"] for cut in again],
                         ["on 256 9 8", "on 256 9 8", "on 256 9 8", "on 256 9 5", "on 255 9 4", "on 255 9 3",
                          "on 255 9 2", "on 0 9 1"])
        self.assertTrue(all([other["line"] for other in cut["read_otherwise"]] == [0] for cut in again))
        self.assertIn("  on, cut after 3", self.output("cuts", "-", "--twice", "--lines", "2", text=WRITE))

    def test_a_recovery_of_the_trace_is_cut(self) -> None:
        cuts = self.json("cuts", "-", "--lines", "4", text=f"post 0 0 {ONES}\ncut 4\ndrain 0\non\n")
        self.assertEqual(len(cuts), 8)
        self.assertEqual([cut["answer"] for cut in cuts][:2], ["cut 0", "cut 1"])
        self.assertTrue(all(cut["read_otherwise"] == [] and cut["unread"] == [] for cut in cuts))

    def test_the_cut_of_the_trace_itself_has_a_row(self) -> None:
        cuts = self.json("cuts", "-", "--lines", "3", text=f"post 0 0 {ONES}\ncut 4\ndrain 0\non\n")
        self.assertEqual(cuts[-1]["answer"], "cut kept 4")
        self.assertEqual(len(cuts), 5)

    def test_all_ports_in_use(self) -> None:
        posts = "".join(f"post {port} {port} {ONES}\n" for port in range(8))
        cuts = self.json("cuts", "-", "--lines", "9", text=posts + "drain 3\n")
        self.assertEqual([[other["line"] for other in cut["read_otherwise"]] for cut in cuts], [[]] * 4 + [[3]] * 3)

    def test_tampered_line_that_reads_otherwise(self) -> None:
        cuts = self.json("cuts", "-", text="flip 9 0\nread 0 8\n" + WRITE)
        self.assertTrue(all(other["line"] != 9 for cut in cuts for other in cut["read_otherwise"]))
        self.assertEqual(cuts[3]["recovery"], "refused counter 9 0")
        self.assertEqual(cuts[3]["unread"], [0, 8, 9])
        self.assertIn("on answers refused counter 9 0", self.output("cuts", "-", text="flip 9 0\n" + WRITE))

    def test_all_lines(self) -> None:
        cuts = self.json("cuts", "-", "--levels", "1", "--all-lines", "--lines", "2", text=WRITE)
        self.assertEqual([other["line"] for other in cuts[-1]["read_otherwise"]], [0])

    def test_traces_that_end_in_an_exhibit(self) -> None:
        text = self.output("cuts", "-", "--suite", "weak", text=FORGED)
        self.assertIn("0 cuts, 0 recovered\n", text)
        self.assertIn("the trace ends with an exhibit, in line 3: forged 5 0.0 ", text)
        cuts = self.json("cuts", "-", "--suite", "blur", "--loss", "2", text=TWIN)
        self.assertEqual(len(cuts), 9)
        self.assertTrue(cuts[5]["recovery"].startswith("twin 0 0 0 1 "))
        self.assertEqual(cuts[5]["unread"], [0])

    def test_writes_that_are_lost(self) -> None:
        posts = f"post 0 1 {ONES}\npost 3 2 {ONES}\npost 0 5 {ONES}\n"
        cuts = self.json("cuts", "-", text=posts + "drain 0\nread 0 9\n")
        lost = [[write["line"] for write in cut["writes_lost"]] for cut in cuts]
        self.assertEqual(lost, [[1, 5, 2]] * 4 + [[5, 2]] * 3 + [[5, 2]])
        self.assertEqual(cuts[0]["writes_lost"][2], {"port": 3, "line": 2, "trace_line": 2})
        self.assertIn("most writes lost by a cut: 3\n", self.output("cuts", "-", text=posts + "drain 0\n"))

    def test_writes_lost_in_a_fence(self) -> None:
        text = f"post 0 0 {ONES}\npost 0 64 {ONES}\nfence 0\npost 0 1 {ONES}\n"
        cuts = self.json("cuts", "-", text=text)
        for cut in cuts[:-1]:
            words = cut["answer"].split(" ")
            self.assertEqual(len(cut["writes_lost"]), 2 - int(words[2]) - (words[1] == "kept"), cut["answer"])
        self.assertEqual([write["line"] for write in cuts[-1]["writes_lost"]], [1])

    def test_rows_of_forks_are_those_of_runs_from_the_start(self) -> None:
        text = (EXAMPLES / "power_cut.trace").read_text() + TWO_WRITES + f"flip 5 0\nread 0 5\n{WRITE}"
        for words in ((), ("--twice", "--lines", "5-20"), ("--all-lines", "--levels", "1", "--lines", "10")):
            with self.subTest(words):
                words = ("cuts", "-", *words_of(QUICK), *words)
                self.assertEqual(self.output(*words, "--check-rows", "9", text=text), self.output(*words, "--from-start", text=text))

    def test_lines_that_are_not_read_read_as_before(self) -> None:
        (lesson,) = EXAMPLES.parent.glob("lessons/07-*/trace")
        text = lesson.read_text()
        count = len(text.splitlines())
        words = ("cuts", "-", *words_of(QUICK), "--lines", f"{count - 18}-{count}")
        found = self.output(*words, text=text)
        self.assertEqual(found, self.output(*words, "--named-lines", "--from-start", text=text))
        self.assertIn("  turn  ", found)
        self.assertGreater(len(found.splitlines()), 25)

    def test_without_a_compiler_each_cut_is_a_run_from_the_start(self) -> None:
        result = self.explore("cuts", "-", text=WRITE, CC="no-such-compiler")
        self.assertEqual((result.returncode, result.stderr), (0, ""))
        self.assertEqual(result.stdout, self.output("cuts", "-", text=WRITE))
        text = "stat\n" * 150_000 + WRITE
        result = self.explore("cuts", "-", "--lines", "150002", text=text, CC="no-such-compiler")
        self.assertEqual(result.returncode, 0)
        self.assertIn("from the trace's start, which takes long: there is no C compiler", result.stderr)

    def test_a_row_that_a_run_from_the_start_has_otherwise_is_told(self) -> None:
        # The file itself: a shell script between would take the preloaded library.
        where = subprocess.run([str(TOOLS.parent / "pmem"), "--where"], stdout=subprocess.PIPE, universal_newlines=True, check=True)
        file = where.stdout.strip()
        program = self.script("forgetful", f"""
import os, sys
if "LD_PRELOAD" in os.environ:
    os.execv({file!r}, [{file!r}, *sys.argv[1:]])
import subprocess
text = sys.stdin.buffer.read()
last = text.split(b"\\n")
if any(line.startswith(b"cut ") for line in last):
    text = text.replace(b"cut 5", b"cut 4")
sys.exit(subprocess.run([{file!r}, *sys.argv[1:]], input=text).returncode)
""")
        result = self.explore("cuts", "-", "--check-rows", "100", "--program", program, text=WRITE)
        self.assert_fails(result, 1, "by a run from the start", "--from-start")

    def test_empty_trace(self) -> None:
        cuts = self.json("cuts", "-", text="")
        self.assertEqual([cut["recovery"] for cut in cuts], ["on 0 1 0"])

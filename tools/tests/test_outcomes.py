"""One's own question: `explore cuts --distinct`, `--check` and `--orders`."""
import subprocess
import sys
import xml.etree.ElementTree
from pathlib import Path

from .helpers import EXAMPLES, ONES, QUICK, TWIN, WRITE, ExploreTest, program_path, words_of

# Which outcomes there are, the ciphers have no part in.
WEAK = words_of(QUICK)

# A log: entry n at line 64 + n, the number of entries in line 64. The last head is stored before its entry.
BUG = """op,address,size,data
store,0x1040,8,1111111111111111
fence
store,0x1000,8,0000000000000001
fence
store,0x1000,8,0000000000000002
store,0x1080,8,2222222222222222
fence
"""
# The same with the entry first, and no fence between.
FORGOTTEN = BUG.replace("store,0x1000,8,0000000000000002\nstore,0x1080,8,2222222222222222\n",
                        "store,0x1080,8,2222222222222222\nstore,0x1000,8,0000000000000002\n")
FENCED = FORGOTTEN.replace("store,0x1080,8,2222222222222222\n", "store,0x1080,8,2222222222222222\nfence\n")

LOG_CHECK = """
import sys
rows = [row.rstrip("\\n").split("\\t") for row in open(sys.argv[2])]
memory = {int(row[1], 16): bytes.fromhex(row[3]) for row in rows}
image = open(sys.argv[1], "rb").read()
for row in rows:
    assert image[64 * int(row[0]):][:64].hex() == row[3]
head = int.from_bytes(memory[0x1000][:8], "big")
for entry in range(1, head + 1):
    if not any(memory[0x1000 + 64 * entry]):
        sys.exit(f"head {head}, but entry {entry} is missing")
"""


class OutcomesTest(ExploreTest):
    def trace(self, text: str) -> str:
        """The trace of a CSV."""
        return self.file("log.trace", self.output("import", "csv", "-", text=text))

    def check(self) -> str:
        """The command that looks whether the log is whole."""
        return f"{sys.executable} {self.script('check.py', LOG_CHECK)}"

    def test_each_outcome_once(self) -> None:
        outcomes = self.json("cuts", "-", "--distinct", text=WRITE)
        self.assertEqual([(outcome["outcome"], outcome["cuts"]) for outcome in outcomes], [(1, 4), (2, 4)])
        self.assertEqual([outcome["first"]["answer"] for outcome in outcomes], ["cut lost 0", "cut kept 4"])
        text = self.output("cuts", "-", "--distinct", text=WRITE)
        self.assertTrue(text.endswith("\n8 cuts, 2 outcomes\n"))

    def test_outcomes_are_those_of_all_lines_read_at_each_cut(self) -> None:
        """Before a command only those lines are read that can have changed since the last time."""
        made = subprocess.run([program_path(), "make", "3", "520"], stdout=subprocess.PIPE, universal_newlines=True, check=True).stdout
        drains = [number for number, line in enumerate(made.splitlines(), 1) if line.startswith("drain")]
        lines = ("--lines", f"{drains[-40]}-{drains[-20]}")
        for words, text in (((*WEAK,), (EXAMPLES / "power_cut.trace").read_text()), (("--suite", "blur", "--loss", "2"), TWIN),
                            (("--suite", "weak", *lines), made), (("--suite", "weak", "--lines", "505-520"), made),
                            (("--suite", "weak", "--twice", "--lines", "505-520"), made)):
            with self.subTest(words):
                words = ("cuts", "-", "--distinct", "--check-rows", "0", *words)
                self.assertEqual(self.json(*words, text=text), self.json(*words, "--named-lines", text=text))

    def test_outcomes_with_second_cuts(self) -> None:
        outcomes = self.json("cuts", "-", *WEAK, "--distinct", "--twice", "--lines", "2", text=WRITE)
        self.assertEqual(len(outcomes), 2)
        cuts = self.json("cuts", "-", *WEAK, "--twice", "--lines", "2", text=WRITE)
        self.assertEqual(sum(outcome["cuts"] for outcome in outcomes),
                         sum(1 + len(cut.get("cuts_of_recovery", [])) for cut in cuts))

    def test_a_check_finds_the_order_that_is_wrong(self) -> None:
        trace = self.trace(BUG)
        result = self.explore("cuts", trace, "--check", self.check(), "--failing", self.path("failing.trace"),
                              "--junit", self.path("junit.xml"))
        self.assertEqual((result.returncode, result.stderr), (3, ""))
        self.assertIn("head 2, but entry 2 is missing", result.stdout)
        self.assertEqual(result.stdout.count("  fails\n"), 4)
        suite = xml.etree.ElementTree.parse(self.path("junit.xml")).getroot()
        self.assertEqual((suite.get("failures"), suite.get("tests")), ("1", str(len(suite))))
        (failure,) = suite.iter("failure")
        self.assertIn("entry 2 is missing", str(failure.get("message")))

    def test_what_a_check_says_is_told_in_its_own_words(self) -> None:
        check = self.script("check_of_all_lines.py", "import sys\nsys.exit('AssertionErrorInTheLog: \\x1b[1m' + 300 * 'x')\n")
        result = self.explore("cuts", self.trace(BUG), "--check", f"{sys.executable} {check}", "--failing", self.path("failing.trace"))
        said = "AssertionErrorInTheLog: ?[1m"
        self.assertIn(f": {said}{(200 - len(said)) * 'x'}\n", result.stdout)
        self.assertIn("/check_of_all_lines.py says: AssertionErrorInTheLog: ", Path(self.path("failing.trace")).read_text())

    def test_the_failing_trace_is_ready_for_the_program(self) -> None:
        self.explore("cuts", self.trace(BUG), "--check", self.check(), "--failing", self.path("failing.trace"))
        text = Path(self.path("failing.trace")).read_text()
        result = subprocess.run([program_path(), "run"], input=text, stdout=subprocess.PIPE, universal_newlines=True,
                                check=True)
        head, _, entry = result.stdout.splitlines()[-3:]
        self.assertTrue(head.startswith("line 0000000000000002"))
        self.assertTrue(entry.startswith("line 0000000000000000"))

    def test_a_log_in_order_passes(self) -> None:
        result = self.explore("cuts", self.trace(FENCED), "--check", self.check(), "--failing", self.path("failing.trace"))
        self.assertEqual((result.returncode, result.stderr), (0, ""))
        self.assertIn("all pass the check\n", result.stdout)
        self.assertNotIn("failing.trace", self.names())
        self.assertTrue(all(cut["check"] == "ok" for cut in self.json("cuts", self.trace(FENCED), "--check", self.check())))

    def test_a_forgotten_fence_is_found_by_other_orders_alone(self) -> None:
        trace = self.trace(FORGOTTEN)
        self.assertEqual(self.explore("cuts", trace, "--check", self.check()).returncode, 0)
        result = self.explore("cuts", trace, "--check", self.check(), "--orders", "100", "--failing",
                              self.path("failing.trace"), "--distinct")
        self.assertEqual((result.returncode, result.stderr), (3, ""))
        self.assertIn("8 of 8 outcomes tried\n", result.stdout)
        self.assertIn("head 2, but entry 2 is missing", result.stdout)
        commands = [line for line in Path(self.path("failing.trace")).read_text().splitlines() if line.startswith("part")]
        self.assertTrue(commands[-1].startswith("part 0 64 0 0000000000000002"))
        result = self.explore("cuts", self.trace(FENCED), "--check", self.check(), "--orders", "100")
        self.assertEqual(result.returncode, 0, result.stdout)

    def test_the_bound_of_orders_is_told(self) -> None:
        posts = "".join(f"post 0 {line} {ONES}\n" for line in range(10))
        text = self.output("cuts", "-", *WEAK, "--orders", "50", text=posts + "fence 0\n")
        self.assertIn("50 of 1024 outcomes tried\n", text)
        text = self.output("cuts", "-", *WEAK, "--orders", "2000", text=posts + "drain 0\nfence 0\n")
        self.assertIn("1024 of 1024 outcomes tried\n", text)

    def test_writes_of_one_line_stay_in_their_order(self) -> None:
        text = f"post 0 5 {ONES}\npost 0 5 {'22' * 64}\npost 1 6 {ONES}\nfence 0\nfence 1\n"
        outcomes = self.json("cuts", "-", *WEAK, "--orders", "100", "--distinct", text=text)
        lines = {tuple(write["trace_line"] for write in outcome["first"].get("written", [])) for outcome in outcomes}
        self.assertNotIn((2,), lines)
        self.assertIn((3,), lines)
        self.assertIn("6 of 6 outcomes tried\n", self.output("cuts", "-", *WEAK, "--orders", "100", text=text))

    def test_a_fence_of_another_port_makes_nothing_sure(self) -> None:
        text = f"post 0 5 {ONES}\npost 1 6 {ONES}\nfence 1\npost 1 7 {ONES}\nfence 0\nfence 1\n"
        self.assertIn("8 of 8 outcomes tried\n", self.output("cuts", "-", *WEAK, "--orders", "100", text=text))

    def test_symbols_of_a_program(self) -> None:
        source = self.file("a.c", "long table[20] __attribute__((aligned(64))) = {1}; int main(void) { return 0; }\n")
        compiled = subprocess.run(["cc", "-no-pie", "-o", self.path("a"), source], check=False)
        if compiled.returncode:
            self.skipTest("there is no C compiler")
        found = subprocess.run(["nm", self.path("a")], stdout=subprocess.PIPE, universal_newlines=True, check=False).stdout
        address = next(int(line.split()[0], 16) for line in found.splitlines() if line.endswith(" table"))
        trace = self.trace(f"store,{address + 64},8,0102030405060708\nfence\n")
        check = f"{sys.executable} " + self.script("see.py", "import sys; print(*open(sys.argv[2]).read().split()[1:3]); sys.exit(1)")
        result = self.explore("cuts", trace, "--check", check, "--elf", self.path("a"))
        self.assertEqual(result.returncode, 3, result.stderr)
        self.assertIn(f"cut after 0 of its steps: {address + 64:#x} table+64\n", result.stdout)

    def test_wrong_words(self) -> None:
        for words, status, told in ((("--junit", self.path("a")), 2, "--check"), (("--orders", "1"), 2, "--orders"),
                                    (("--check", self.path("none")), 4, "cannot run"),
                                    (("--check", "true", "--elf", __file__), 1, "is not a little-endian ELF file")):
            self.assert_fails(self.explore("cuts", "-", *words, text=WRITE), status, told)
        self.assert_fails(self.explore("cuts", "-", "--as", "wear", "--orders", "9", text=""), 2, "--orders")

    def test_a_recovery_that_is_refused_fails(self) -> None:
        result = self.explore("cuts", "-", "--check", "true", text=WRITE + "flip 0 0\n")
        self.assertEqual(result.returncode, 3)
        self.assertIn("on answers refused counter 0 0", result.stdout)

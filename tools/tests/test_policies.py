"""What the program prints under a persistence policy (`--persist`, `--shadow`). The replies in policies.txt are those of a reference program of the
same rules, which is written in Python apart from this repository. They are worked examples and random commands. The examples are each cut of a write
and its recovery, tampering with power off, evictions, flushes, the other machines, and wrong arguments. Those of `written through` and `nodes lazy`
come from that program before it had policies: all metadata written with each write, and only nodes written late. In addition, writes are cut at each
step, and their recoveries too: a line is then the new one if the answer said so, and otherwise the old one."""
import re
import subprocess
import unittest
from pathlib import Path
from typing import Callable, Dict, Iterator, List, NamedTuple, Set, Tuple

from .helpers import program_path
from .test_outputs import spelled

STORED = Path(__file__).resolve().parent / "policies.txt"
# Durable queues and combining: examples that were worked by hand, in the same form.
QUEUES = Path(__file__).resolve().parent / "queues.txt"


class Session(NamedTuple):
    """A session: its name, the words of the program, the status, the trace, and the output."""
    name: str
    words: List[str]
    status: int
    trace: str
    output: str


def session(head: str, rows: List[str]) -> Session:
    """A session of its head, `NAME: WORDS: status N`, and its rows, `COMMAND: REPLY / REPLY`, the marks before the answer. A row
    without a command has what is printed before any is read."""
    name, words, status = head.split(": ")
    commands = [row.split(":")[0] for row in rows]
    replies = [reply for row in rows for reply in row.split(": ")[1].split(" / ")]
    return Session(name, words.split(), int(status.split()[1]), spelled("".join(f"{command}\n" for command in commands if command)),
                   spelled("".join(f"{reply}\n" for reply in replies)))


def stored_sessions() -> Iterator[Session]:
    """The stored sessions."""
    for path in (STORED, QUEUES):
        for text in path.read_text().split("# ")[1:]:
            head, *rows = text.splitlines()
            yield session(head, rows)


def policy_of(words: List[str]) -> str:
    """The policy that words choose, as `2 off`."""
    text = " ".join(words)
    persist, shadow = re.search(r"--persist[ =]([0-9]+)", text), re.search(r"--shadow[ =](on|off)", text)
    return f"{persist[1] if persist else 0} {shadow[1] if shadow else 'on'}"


# The policies of published designs: what `--persist` is for k levels, and whether there are shadow tables.
DESIGNS: Dict[str, Tuple[Callable[[int], int], str]] = {
    "Osiris with tables": (lambda k: 0, "on"), "Osiris": (lambda k: 0, "off"), "nodes named": (lambda k: 1, "on"),
    "tree rebuilt": (lambda k: 1, "off"), "Triad-NVM": (lambda k: 2, "off"), "strict": (lambda k: k + 1, "off"),
}

# The most steps at which a write is cut, and at which its recovery is.
WRITE_CUTS, RECOVERY_CUTS = 12, 14


def cut_trace() -> List[str]:
    """Writes of a line, each cut after some steps, and their recoveries, each cut after some steps too."""
    trace = []
    for number in range(WRITE_CUTS * RECOVERY_CUTS):
        write_cut, recovery_cut = divmod(number, RECOVERY_CUTS)
        line = f"{number + 1:02x}" * 64
        trace += [f"post 0 7 {line}", f"cut {write_cut}", "drain 0", f"cut {recovery_cut}", "on", "on", "read 0 7"]
    return trace


class PoliciesTest(unittest.TestCase):
    def prints(self, words: List[str], each: Session) -> None:
        """The program ends as the session on these words and its trace."""
        result = subprocess.run([program_path(), *words], input=each.trace, stdout=subprocess.PIPE, stderr=subprocess.PIPE,
                                universal_newlines=True, check=False)
        self.assertEqual((result.returncode, result.stderr), (each.status, ""))
        self.assertEqual(result.stdout.splitlines(), each.output.splitlines())
        self.assertEqual(result.stdout, each.output)

    def test_sessions_of_each_policy(self) -> None:
        seen: Set[str] = set()
        for each in stored_sessions():
            seen.add(policy_of(each.words))
            with self.subTest(each.name):
                self.prints(each.words, each)
        self.assertLessEqual({f"{persist} {shadow}" for persist in range(5) for shadow in ("on", "off")}, seen)
        names = [each.name for each in stored_sessions()]
        self.assertEqual((sum(name.startswith("durable") for name in names), sum(name.startswith("combine") for name in names)), (7, 10))

    def test_the_default_policy_in_words(self) -> None:
        same = [each for each in stored_sessions() if each.words == ["run", "--suite", "weak"]]
        self.assertGreater(len(same), 5)
        for each in same:
            with self.subTest(each.name):
                self.prints([*each.words, "--persist", "0", "--shadow=on"], each)

    def answers(self, words: List[str], trace: List[str]) -> List[str]:
        """The answers to a trace, without marks."""
        result = subprocess.run([program_path(), *words], input="".join(f"{command}\n" for command in trace), stdout=subprocess.PIPE,
                                universal_newlines=True, check=True)
        return [row for row in result.stdout.splitlines() if row.split()[0] not in ("seal", "begin")]

    def recovers(self, persist: int, levels: int, cut: int, first: str, second: str) -> None:
        """A recovery is whole, or cut and then whole; it tries lines only if counter blocks are lazy, and makes nodes only of lazy levels."""
        if first.startswith("cut"):
            self.assertEqual(first, f"cut {cut}")
        else:
            self.assertEqual(second, "already")
        whole = second if first.startswith("cut") else first
        said, trials, digests, _ = whole.split()
        self.assertEqual(said, "on", whole)
        if persist > 0:
            self.assertEqual(trials, "0")
        if persist > levels:
            self.assertEqual(digests, "1")

    def test_each_cut_of_a_write_and_of_its_recovery(self) -> None:
        trace = cut_trace()
        for levels in (1, 2):
            for name, (persist_of, shadow) in DESIGNS.items():
                persist = persist_of(levels)
                words = ["run", "--suite", "weak", "--levels", str(levels), "--persist", str(persist), "--shadow", shadow]
                with self.subTest(name, levels=levels):
                    answers = self.answers(words, trace)
                    self.assertEqual(len(answers), len(trace))
                    old = "00"
                    outcomes: Set[str] = set()
                    for start in range(0, len(trace), 7):
                        new, drained = trace[start].split()[3][:2], answers[start + 2].split()
                        outcomes.add(" ".join(drained[:-1]))
                        self.assertIn(" ".join(drained[:-1]), ("ok", "cut kept", "cut lost"))
                        if drained[0] == "cut":
                            self.assertEqual(drained[-1], trace[start + 1].split()[1])
                            self.recovers(persist, levels, int(trace[start + 3].split()[1]), answers[start + 4], answers[start + 5])
                        else:
                            self.assertEqual(answers[start + 4:start + 6], ["already", "already"])
                        old = old if " ".join(drained[:-1]) == "cut lost" else new
                        self.assertEqual(answers[start + 6].split()[:2], ["line", old * 64])
                    self.assertEqual(outcomes, {"ok", "cut kept", "cut lost"})


if __name__ == "__main__":
    unittest.main()

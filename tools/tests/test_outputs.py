"""What the program prints: the examples' outputs, and sessions with their replies, which another program of the same rules gave. Some sessions are
random. In `tree-old-lines` lines of an older device are put back one by one and together, with power on and off. In `txn-stuck-..` a commit of
fifteen lines is stuck at each of them in turn."""
import re
import subprocess
import unittest
from pathlib import Path
from typing import List, Tuple

from .helpers import EXAMPLES, program_path

SESSIONS = Path(__file__).resolve().parent / "sessions"

# The words of the examples whose command isn't just `run`, and the status of those that end with an exhibit.
WORDS = {"forged_tag": "run --suite weak", "tree": "tree", "txn": "txn", "wear": "wear --every 1"}
STATUSES = {"forged_tag": 6}


def spelled(text: str) -> str:
    """A text in which `[aa]` stands for the byte aa 64 times."""
    return re.sub(r"\[([0-9a-f]{2})\]", lambda found: found.group(1) * 64, text)


def read_session(text: str) -> Tuple[List[str], int, str, str]:
    """The words, the status, the trace and the output of a session: its first line is `# WORDS: status N`, and each other one
    `COMMAND: REPLY`."""
    first, *rows = text.splitlines()
    words, status = first[2:].split(": status ")
    commands, replies = zip(*(row.split(": ") for row in rows))
    return words.split(), int(status), spelled("\n".join(commands)) + "\n", spelled("\n".join(replies)) + "\n"


class OutputsTest(unittest.TestCase):
    def prints(self, words: List[str], trace: str, status: int, output: str) -> None:
        """The program ends so on these words and this trace."""
        result = subprocess.run([program_path(), *words], input=trace, stdout=subprocess.PIPE, stderr=subprocess.PIPE,
                                universal_newlines=True, check=False)
        self.assertEqual((result.returncode, result.stderr), (status, ""))
        self.assertEqual(result.stdout.splitlines(), output.splitlines())
        self.assertEqual(result.stdout, output)

    def test_examples(self) -> None:
        names = [path.stem for path in EXAMPLES.glob("*.out")]
        self.assertGreater(len(names), 5)
        for name in names:
            with self.subTest(name):
                self.prints(WORDS.get(name, "run").split(), (EXAMPLES / f"{name}.trace").read_text(),
                            STATUSES.get(name, 0), (EXAMPLES / f"{name}.out").read_text())

    def test_sessions(self) -> None:
        paths = sorted(SESSIONS.glob("*.txt"))
        self.assertGreater(len(paths), 34)
        for path in paths:
            with self.subTest(path.stem):
                words, status, text, output = read_session(path.read_text())
                self.prints(words, text, status, output)


if __name__ == "__main__":
    unittest.main()

"""Each reader of the explorer takes or refuses 2,000 mutated files, within limits of memory and time, and with no traceback; and the page
2,000 mutated links."""
import base64
import json
import random
import re
import shutil
import subprocess
import sys
import time
import unittest
import zlib

from explorer.cuts import answers_before

from .helpers import TOOLS, ExploreTest

FILES = 2000
SEED = 11
MOST = 1_000_000


def deflated(text: bytes) -> str:
    """A trace as a link has it, in few letters."""
    made = zlib.compressobj(9, zlib.DEFLATED, -15)
    return base64.urlsafe_b64encode(made.compress(text) + made.flush()).decode().rstrip("=")


LINKS = ("#lesson=01&at=3.1", "#lesson=first-2", "#machine=run&options=--levels_1_--suite_weak&trace=post_0_5_77x64~drain_0~stat&at=1.0&line=5",
         "#machine=wear&options=--every_3&trace=write_0_11x64~place_0&stops=1.2&compare=wear_--every_7",
         f"#machine=txn&z={deflated(b'put 0 00' * 9)}&at=0.0", f"#machine=run&z={deflated(bytes(3_000_000))}",
         "#machine=tree&trace=%23_a_comment~on~off&at=0.0", "#machine=constructor&trace=stat", "#machine=run&trace=stat&compare=toString")
LINK_WORDS = ("machine", "options", "trace", "z", "at", "line", "stops", "compare", "lesson", "constructor", "__proto__", "toString", "--levels",
              "--levels_14", "--sets_1000000000", "--key_00", "%", "%E0%A4%A", "%00", "11x99", "~" * 3000, "&", "=", "_", "1e9", "-1", ".", "@",
              "<img src=x onerror=alert(1)>", "javascript:alert(1)", "\u2028", "\ud800", "a" * 5000, "9" * 400)
# Reads each address; one that is taken must have what the page can show.
READ_LINKS = """
import {readFileSync} from 'node:fs';
import {readAddress} from './src/address.js';
import {MACHINES} from './src/model.js';
import {readOptions, wordsFor} from './src/options.js';
const MOST = 200000, counts = [0, 0];
function check(holds, link, what) {
  if (!holds) throw new Error(`${what}: ${JSON.stringify(link)}`);
}
function checkOptions(machine, options, link) {
  check(Object.hasOwn(MACHINES, machine), link, 'its machine');
  const words = wordsFor(machine, options).map(String);
  check(words.every(word => /^[-0-9a-zA-Z]*$/.test(word)), link, 'its options');
  check(readOptions(machine, words).faults.length === 0, link, 'its options again');
}
for (const link of JSON.parse(readFileSync('links.json', 'utf8'))) {
  const began = performance.now(), read = await readAddress(link, MOST);
  check(performance.now() - began < 5000, link, 'its time');
  checkOptions(read.machine, read.options, link);
  if (read.compared) checkOptions(read.compared.machine, read.compared.options, link);
  const numbers = [read.at.command, read.at.step, ...read.stops, ...(read.line === null ? [] : [read.line])];
  check(numbers.every(each => Number.isInteger(each) && each >= 0 && each < 1e6), link, 'its numbers');
  check(read.lines === null || read.lines.every(line => typeof line === 'string'), link, 'its lines');
  check(read.lines === null || read.lines.join('').length <= Math.max(MOST, 64 * link.length), link, 'its length');
  check(read.faults.every(fault => typeof fault === 'string'), link, 'what is named');
  counts[read.faults.length === 0 ? 0 : 1]++;
}
console.log(counts.join(' '));
"""


def mutated_link(chance: random.Random) -> str:
    """An address of the page with one to four changes."""
    link = chance.choice(LINKS)
    for _ in range(chance.choice((1, 1, 2, 4))):
        at = chance.randrange(len(link) + 1)
        end = min(len(link), at + chance.choice((0, 1, 2, 9)))
        link = chance.choice((link[:at] + chance.choice(LINK_WORDS) + link[end:], link[:at] + link[end:], link + "&" + chance.choice(LINKS)[1:],
                              link[:at] + link[at:end] * 20 + link[end:], link[:at] + chr(chance.randrange(1, 256)) + link[end:]))
    return link


class MutatedTest(unittest.TestCase):
    def reads(self, name: str) -> None:
        """Both taken and refused files occur, or the mutants would try too little."""
        ended = subprocess.run([sys.executable, "-m", "tests.mutated", name, str(FILES), str(SEED)], cwd=TOOLS, stdin=subprocess.DEVNULL,
                               stdout=subprocess.PIPE, stderr=subprocess.STDOUT, universal_newlines=True, errors="replace", check=False)
        self.assertEqual(ended.returncode, 0, ended.stdout[-5000:])
        found = re.fullmatch(rf"{name}: (\d+) taken, (\d+) refused\n", ended.stdout)
        assert found, ended.stdout
        taken, refused = map(int, found.groups())
        self.assertEqual(taken + refused, FILES)
        self.assertGreater(min(taken, refused), FILES // 100, ended.stdout)

    def test_lackey(self) -> None:
        self.reads("lackey")

    def test_pmemcheck(self) -> None:
        self.reads("pmemcheck")

    def test_csv(self) -> None:
        self.reads("csv")

    def test_elf(self) -> None:
        self.reads("elf")

    @unittest.skipIf(sys.version_info < (3, 11), "Python reads TOML from 3.11 on")
    def test_toml(self) -> None:
        self.reads("toml")

    def test_json(self) -> None:
        self.reads("json")

    def test_trace(self) -> None:
        self.reads("trace")

    def test_replies_of_a_program(self) -> None:
        self.reads("replies")

    def test_long_replies(self) -> None:
        """Replies without an end of line, or without an answer, take time in proportion to their length."""
        for data in (b"x" * MOST, b"seal " + b"5" * MOST, b"seal 5\n" * (MOST // 7), b"begin 5\n" * (MOST // 8) + b"x", b"ok 1\n" * (MOST // 5)):
            began = time.process_time()
            answers, rest = answers_before(data, MOST)
            self.assertLess(time.process_time() - began, 5)
            self.assertEqual((len(answers), rest), (data.count(b"ok"), b""))

    def test_answers_of_a_cluster(self) -> None:
        self.reads("answers")

    def test_scheduler_file(self) -> None:
        self.reads("scheduler")


class LinksTest(ExploreTest):
    """The page reads an address that anybody made: it names what it doesn't take, and what it takes has bounds."""

    def test_links(self) -> None:
        node = shutil.which("node")
        if node is None:
            self.skipTest("node isn't there")
        shutil.copytree(TOOLS.parent / "page" / "src", self.directory / "src")
        self.file("package.json", '{"type": "module"}')
        self.file("links.json", json.dumps([mutated_link(random.Random(f"{SEED} {number}")) for number in range(FILES)]))
        self.file("read.js", READ_LINKS)
        ended = subprocess.run([node, "--max-old-space-size=256", self.path("read.js")], cwd=self.directory, stdin=subprocess.DEVNULL,
                               stdout=subprocess.PIPE, stderr=subprocess.STDOUT, universal_newlines=True, timeout=120, check=False)
        self.assertEqual(ended.returncode, 0, ended.stdout[-5000:])
        taken, refused = map(int, ended.stdout.split())
        self.assertEqual(taken + refused, FILES)
        self.assertGreater(min(taken, refused), FILES // 100, ended.stdout)


if __name__ == "__main__":
    unittest.main()

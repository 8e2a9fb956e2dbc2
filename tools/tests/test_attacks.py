"""`explore attacks`: what becomes of single attacks, by the worked examples of docs/RECOVERY.md, and a controller that lies is found."""
import json
import sys
from functools import reduce
from operator import xor
from pathlib import Path
from typing import Any, Dict, List, Optional, Tuple

from .helpers import ONES, ExploreTest, program_path

ZEROS = "00" * 64
# From docs/RECOVERY.md: line 0 is written with zeros, the group is done, and power goes off.
ZERO_WRITE = f"post 0 0 {ZEROS}\ndrain 0\n"
WEAK = ("--suite", "weak", "--tag-key", "10")
# Answers a read that is refused with zeros, as no controller may.
LIAR = """#!{python}
import re, subprocess, sys
ran = subprocess.run([{program!r}, *sys.argv[1:]], stdin=sys.stdin.buffer, stdout=subprocess.PIPE)
sys.stdout.buffer.write(re.sub(rb"(?m)^refused data [0-9]+ ([0-9]+)$", b"line " + b"00" * 64 + rb" \\1", ran.stdout))
sys.exit(ran.returncode)
"""


# 16 pages, two levels, 4 sets of 2 ways: the device of docs/RECOVERY.md's worked example, by the formats of docs/PARTS.md.
TAGS_FROM, NODES_FROM, BLOCKS_FROM, SHADOW_FROM = 1024, 1280, 1285, 1301
TREE_TOP, PATH_NODE = 1280, 1281
# The entries of the shadow lines that name page 0's block (position 5, set 1) and its nodes 0 and 1: slot 2 of its bank, 0 and 2 of theirs.
NAMES = {1301: {2}, 1302: {0, 8 + 2}}


class Expected:
    """What the rules say of an attack after `ZERO_WRITE`, with the strong ciphers: no tag fits by chance.

    Line 0 has the minor 1, and the device still has the minor 0. Page 0's block and the nodes 0 and 1 are in the cache. A recovery
    makes them again: it tries each line of page 0 and digests the nodes' other children (blocks 1286 to 1288, nodes 1282 to 1284).
    """

    def __init__(self, attack: Dict[str, Any], reads: List[int]) -> None:
        self.attack, self.reads = attack, reads
        self.lines: List[int] = attack["lines"]
        words = attack["commands"][0].split(" ")
        self.bit = int(words[2]) if words[0] == "flip" else None

    def hurt(self) -> List[int]:
        """The data lines whose cipher or tag is another one, without the other of the two."""
        if self.attack["attack"] in ("put back with its tag line", "all lines put back"):
            return []
        if self.attack["commands"][0] == f"back {TAGS_FROM}":
            return [0]
        found = [line for line in self.lines if line < TAGS_FROM]
        for line in self.lines:
            if TAGS_FROM <= line < NODES_FROM:
                first = 4 * (line - TAGS_FROM)
                found += [first + self.bit // 128] if self.bit is not None else range(first, first + 4)
        return sorted(found)

    def by_reads(self) -> Optional[str]:
        """What the first read says that finds a line hurt, or a node above it; page 0's path is cached if power is on."""
        hurt = self.hurt()
        for read in self.reads:
            page = read // 64
            path = [NODES_FROM + 1 + page // 4, BLOCKS_FROM + page] if page else []
            wrong = [line for line in path if line in self.lines and line != PATH_NODE]
            if wrong:
                return f"refused meta {wrong[0] - NODES_FROM}"
            if read in hurt or read in self.lines:
                return f"refused data {read}"
        return None

    def by_recovery(self) -> Optional[str]:
        """What recovery says."""
        tried = [line for line in self.hurt() if line < 64]
        if tried:
            return f"refused counter {tried[0]}"
        if BLOCKS_FROM in self.lines and self.bit is not None:
            return self.by_block(self.bit)
        counted = {*range(1282, 1285), *range(1286, 1289)}
        is_unnamed = any(self.bit is None or self.bit // 32 in NAMES[line] for line in self.lines if line >= SHADOW_FROM)
        is_old = self.attack["attack"] in ("put back with its tag line", "all lines put back")
        return "refused root" if is_unnamed or is_old or counted & set(self.lines) else None

    def by_block(self, bit: int) -> Optional[str]:
        """A bit of page 0's block: under another major no minor fits; of a minor, unless the true one is still in its window (0 to 3)."""
        if bit < 64:
            return "refused counter 0"
        place = bit // 8 * 8 - 64 + 7 - bit % 8
        minor, stored = place // 7, 1 << 6 - place % 7
        true = 1 if minor == 0 else 0
        return None if stored <= true < stored // 4 * 4 + 4 else f"refused counter {minor}"

    def ending(self) -> str:
        """The reply, or how it ended that nothing was refused."""
        is_on = self.attack["power"] == "on"
        refused = (self.by_reads() if is_on else None) or self.by_recovery() or self.by_reads()
        if refused:
            return refused
        if self.lines[0] in (TREE_TOP, PATH_NODE, BLOCKS_FROM) or self.lines[0] >= SHADOW_FROM:
            return "mended"
        tags_read = {TAGS_FROM + read // 4 for read in self.reads}
        return "no_effect" if tags_read & set(self.lines) else "never_read"


class AttacksTest(ExploreTest):
    def attacks(self, text: str, *words: str) -> List[Dict[str, Any]]:
        """The attacks on a trace, and how each ended."""
        result = self.explore("attacks", "-", "--json", *words, text=text)
        self.assertEqual((result.returncode, result.stderr), (0, ""))
        found: List[Dict[str, Any]] = json.loads(result.stdout)["attacks"]
        return found

    def test_each_ending_is_what_the_rules_say(self) -> None:
        found = self.attacks(ZERO_WRITE, "--part-lines", "3", "--bits", "12")
        reads = sorted({line for each in found for line in each["lines"] if line < TAGS_FROM})
        for each in found:
            reply = " ".join(each["reply"].split(" ")[:2 if each["reply"].startswith("refused root") else 3])
            with self.subTest(power=each["power"], attack=each["attack"], commands=each["commands"][0][:20]):
                self.assertEqual(reply or each["ending"], Expected(each, reads).ending())
        self.assertEqual({each["ending"] for each in found}, {"read_refused", "recovery_refused", "mended", "never_read"})
        self.assertGreater(len(found), 500)

    def test_each_class_of_bits_and_each_kind_of_old_line(self) -> None:
        """Each line has as many bits of each class as were asked for, none twice, each in its class.

        The fourth write persists the counter block."""
        found = self.attacks(4 * ZERO_WRITE, *WEAK, "--part-lines", "2", "--bits", "60")
        classes = {"a bit of the cipher": range(512), "a bit of a tag": range(512), "a bit of the major": range(64),
                   "a bit of a minor": range(64, 512), "a bit of a digest": range(512), "a bit of a name": range(512)}
        flips: Dict[Tuple[str, str, int], List[int]] = {}
        for each in found:
            word, line, *bit = each["commands"][0].split(" ")
            if word == "flip":
                flips.setdefault((each["power"], each["attack"], int(line)), []).append(int(bit[0]))
        self.assertEqual({what for _, what, _ in flips}, set(classes))
        for (_, what, line), bits in flips.items():
            self.assertEqual((len(bits), len(set(bits))), (60, 60), (what, line))
            self.assertLessEqual(set(bits), set(classes[what]))
            self.assertGreater(max(bits) - min(bits), len(classes[what]) // 2)
        kinds = {part: {each["attack"] for each in found if each["part"] == part and not each["attack"].startswith("a bit")}
                 for part in ("data", "tags", "counters", "tree", "shadow", "device")}
        exchanged = {"copied from another line", "swapped with another line"}
        self.assertEqual(kinds["data"], {"zeros", "put back", "put back with its tag line", *exchanged})
        self.assertEqual((kinds["tags"], kinds["counters"]), ({"zeros", "put back", *exchanged}, {"zeros", "put back", *exchanged}))
        self.assertEqual((kinds["tree"], "zeros" in kinds["shadow"]), ({"zeros", *exchanged}, True))  # no node was written since the format
        self.assertEqual(kinds["device"], {"all lines put back"})

    def test_a_tag_beside_the_one_that_is_read(self) -> None:
        """Tag line 1024 has the tags of lines 0 to 3; of page 5's lines only 321 is read, whose tag line has 320's too."""
        found = self.attacks(f"post 0 321 {ONES}\ndrain 0\nread 0 321\n", "--part-lines", "2", "--bits", "64")
        flips = [(int(each["commands"][0].split(" ")[2]) // 128, each["ending"]) for each in found
                 if each["lines"] == [TAGS_FROM + 321 // 4] and each["attack"] == "a bit of a tag" and each["power"] == "on"]
        self.assertEqual({ending for place, ending in flips if place == 1}, {"read_refused"})
        self.assertEqual({ending for place, ending in flips if place != 1}, {"recovery_refused"})

    def test_evidence(self) -> None:
        """A tag of the weak suite is the xor of all bytes (docs/FORMATS.md), so another cipher with the same xor has it."""
        def cipher_xor(line: int) -> int:
            start = line + (line == 5)
            return reduce(xor, [(start + place) % 256 for place in range(64)])

        found = self.attacks(f"post 0 5 {ONES}\ndrain 0\n", "--suite", "weak", "--levels", "1", "--part-lines", "3")
        copies = [each for each in found if each["attack"] == "copied from another line" and each["part"] == "data" and each["power"] == "on"]
        for each in copies:
            source, line = map(int, each["commands"][0].split(" ")[1:])
            self.assertEqual(each["ending"], "evidence" if cipher_xor(source) == cipher_xor(line) else "read_refused", each["commands"])
            self.assertEqual(each["reply"].split(" ")[0], "forged" if each["ending"] == "evidence" else "refused")
        self.assertEqual({each["ending"] for each in copies}, {"evidence", "read_refused"})

    def test_a_trace_whose_recovery_ends_with_an_exhibit(self) -> None:
        """`blur` lets two minors fit one tag: then recovery shows a twin although nobody attacks (docs/RECOVERY.md)."""
        result = self.explore("attacks", "-", "--suite", "blur", "--loss", "2", "--part-lines", "1", text=f"post 0 0 {ONES}\ndrain 0\n")
        self.assert_fails(result, 1, "without an attack ends with an exhibit: twin 0 0 0 1 ")

    def test_with_power_on(self) -> None:
        """A cipher, its tag and both put back together are refused by the read; the cached path is not read."""
        found = self.attacks(f"post 0 5 {ONES}\ndrain 0\npost 0 5 {'22' * 64}\ndrain 0\nread 0 5\n", "--levels", "1")
        on = [each for each in found if each["power"] == "on"]
        data = {each["attack"]: (each["ending"], each["reply"]) for each in on if each["lines"][0] == 5 and each["part"] == "data"}
        self.assertEqual(data["a bit of the cipher"], ("read_refused", "refused data 5 0"))
        self.assertEqual(data["put back with its tag line"], ("read_refused", "refused data 5 0"))
        self.assertEqual([each["ending"] for each in on if each["part"] == "device"], ["read_refused"])
        self.assertFalse([each for each in found if each["ending"] == "wrong"])

    def test_tree(self) -> None:
        result = self.explore("attacks", "-", "--as", "tree", "--json", text=f"write 5 {ONES}\nwrite 5 {'22' * 64}\n")
        self.assertEqual(result.returncode, 0, result.stderr)
        found = json.loads(result.stdout)
        self.assertTrue(any("no bits are flipped" in head for head in found["heads"]))
        ends = {(each["power"], each["attack"], tuple(each["lines"])): each for each in found["attacks"]}
        # Two levels, 64 data lines: line 69 has the tag of line 5, and slot 0, the shadow's first line, is 149.
        self.assertEqual(ends["on", "zeros", (5,)]["reply"], "refused data 5 0")
        self.assertEqual(ends["on", "put back with its tag line", (5, 69)]["reply"], "refused data 5 0")
        self.assertEqual(ends["off", "zeros", (149,)]["ending"], "recovery_refused")

    def test_a_controller_that_lies_is_found(self) -> None:
        program = Path(self.path("liar"))
        program.write_text(LIAR.format(python=sys.executable, program=program_path()))
        program.chmod(0o755)
        words = ("--program", str(program), "--from-start", "--part-lines", "1", "--bits", "1", "--levels", "1", *WEAK)
        result = self.explore("attacks", "-", *words, text=f"post 0 0 {ONES}\ndrain 0\n")
        self.assertEqual(result.returncode, 1)
        self.assertIn("explore: wrong data after flip 0 ", result.stderr)

    def test_what_is_refused(self) -> None:
        for words, text, told in ((("--as", "wear"), "write 0 00\n", "has no attacker's commands"), ((), "snap\n", "is an attacker's command"),
                                  ((), "flip 0 0\n", "line 1: flip is an attacker's command")):
            result = self.explore("attacks", "-", *words, text=text)
            self.assertEqual((result.returncode, result.stdout), (2, ""))
            self.assertIn(told, result.stderr)

"""The table of options (python/pmem/settings.py) and the layouts (python/pmem/layout.py): the program is asked about each value, and what C,
JavaScript, the shell and the pages repeat is compared."""
import re
import subprocess
import unittest
from typing import Any, Dict, List, Sequence, Tuple

from .helpers import TOOLS, ExploreTest, any_library, program_path
from explorer.package import COUNTER_SHADOW, COUNTERS, DATA, NODE_SHADOW, NODES, OPTIONS, PORTS, SLOTS, TAGS, TAKEN, Layout, Option, TreeLayout
from explorer.package import most_persisted
from pagemaker.table import table_differs

import pmem

TOP = TOOLS.parent
BAD_WORDS, STOPPED = 2, b"stop words\n"
MACHINES = ("run", "wear", "txn", "tree")
# What another option must be for a value to be good, and the ciphers that make the program quick if they do not matter.
NEEDS = {"persist": ["--levels=6"]}
WEAK = ["--suite=weak"]
# The forms of options that `pmem --help` and the manual page show as a word and not by their values.
NUMBERS = ("major", "persist", "every")
LINE = "11" * 64


def good_values(option: Option) -> List[str]:
    """Values that the program takes: all choices, or the least and the greatest."""
    if option.choices:
        return list(map(str, option.choices))
    if option.sizes is not None:
        return ["ab" * option.sizes[0], "CD" * option.sizes[-1]]
    assert option.numbers is not None
    return [str(option.numbers.start), str(option.numbers.stop - 1)]


def bad_values(option: Option) -> List[str]:
    """Values that it refuses: those just outside, and words of other kinds."""
    others = ["", "x", "-1", "+1", " 1"]
    if option.choices:
        numbers = [each for each in option.choices if isinstance(each, int)]
        near = [str(each + 1) for each in numbers if each + 1 not in numbers] + [str(each - 1) for each in numbers if each - 1 not in numbers]
        return [*others, *near, *(f"{each}0" for each in option.choices), *(str(each).upper() for each in option.choices if isinstance(each, str))]
    if option.sizes is not None:
        least, most = option.sizes[0], option.sizes[-1]
        return [*others, "ab" * (least - 1), "ab" * least + "a", "ab" * (most + 1), "xy" * least]
    assert option.numbers is not None
    least, most = option.numbers.start, option.numbers.stop - 1
    return [*others, *([str(least - 1)] if least else []), str(most + 1), f"{most}0", "1.0", "0x1"]


def ran(words: Sequence[str], text: str = "") -> Tuple[int, bytes]:
    """The status of the program on these words, and what it prints."""
    found = subprocess.run([program_path(), *words], input=text.encode(), stdout=subprocess.PIPE, stderr=subprocess.DEVNULL, check=False)
    return found.returncode, found.stdout


def words_for(machine: str, name: str, value: str) -> List[str]:
    """The arguments that give a machine an option."""
    weak = WEAK if name not in ("suite", "key", "tag-key") and machine != "check" else []
    return [machine, *weak, *NEEDS.get(name, []), f"--{name}={value}"]


class ProgramTest(unittest.TestCase):
    """The program takes what the table says, and nothing else."""

    def is_taken(self, words: List[str]) -> bool:
        """Whether the program, which is given no commands, takes its arguments."""
        status, said = ran(words)
        self.assertEqual(status == BAD_WORDS, said == STOPPED, words)
        return status != BAD_WORDS

    def test_good_values(self) -> None:
        for machine, names in TAKEN.items():
            for name in names:
                for value in good_values(OPTIONS[name]):
                    self.assertTrue(self.is_taken(words_for(machine, name, value)), (machine, name, value))

    def test_bad_values(self) -> None:
        for machine, names in TAKEN.items():
            for name in names:
                for value in bad_values(OPTIONS[name]):
                    self.assertFalse(self.is_taken(words_for(machine, name, value)), (machine, name, value))

    def test_options_that_a_machine_lacks(self) -> None:
        for machine, names in TAKEN.items():
            for name in OPTIONS:
                if name not in names:
                    self.assertFalse(self.is_taken([machine, f"--{name}={good_values(OPTIONS[name])[0]}"]), (machine, name))

    def test_levels_bound_what_is_persisted(self) -> None:
        for levels in (1, 2, 3):
            most = most_persisted(levels)
            taken = [self.is_taken(["run", *WEAK, f"--levels={levels}", f"--persist={number}"]) for number in (most, most + 1)]
            self.assertEqual(taken, [True, False])

    def test_ports(self) -> None:
        self.assertEqual([ran(["run", *WEAK], f"drain {port}\n")[0] for port in (PORTS - 1, PORTS)], [0, 5])


class DefaultsTest(unittest.TestCase):
    """What the program does without an option is what it does with the default, and with no other value that is tried."""

    PAGES = "".join(f"post 0 {64 * page} {LINE}\ndrain 0\n" for page in range(16))
    READS = "".join(f"read 0 {64 * page}\n" for page in (0, 1, 2, 3, 4, 5, 6, 9, 0, 15, 12, 3, 1))
    WAITING = f"post 3 5 {LINE}\npost 3 5 {LINE}\nfence 3\npost 1 5 {LINE}\npost 2 9 {LINE}\ndrain 2\noff\non\nstat\nfence 1\nstat\n"
    RUN = f"{PAGES}{READS}stat\nread 0 1023\n{WAITING}"
    WEAR = "".join(f"write {number % 7} {LINE}\nplace 0\n" for number in range(102)) + "place 1\nplace 1021\n"
    OTHERS: Dict[str, List[Any]] = {
        "levels": [1, 3], "sets": [3, 5], "ways": [1, 3], "loss": [1, 2, 8, 16], "major": [1], "suite": ["weak", "blur"], "every": [99, 101],
        "persist": [1, 2], "shadow": ["off"], "queue": ["durable"], "combine": ["on"]}

    def test_defaults(self) -> None:
        self.assertEqual(set(self.OTHERS), {name for name, option in OPTIONS.items() if option.default != ""})
        for name, others in self.OTHERS.items():
            machine, text = ("wear", self.WEAR) if name == "every" else ("run", self.RUN)
            weak = [] if name == "suite" else WEAK
            plain = ran([machine, *weak], text)
            self.assertEqual(plain[0], 0, plain)
            self.assertEqual(ran([machine, *weak, f"--{name}={OPTIONS[name].default}"], text), plain, name)
            for value in others:
                self.assertNotEqual(ran([machine, *weak, f"--{name}={value}"], text), plain, (name, value))

    def test_the_library_has_the_same(self) -> None:
        library = pmem.Library(str(any_library()))
        for name, option in OPTIONS.items():
            machine = "wear" if name == "every" else "run"
            for value, is_good in ((good_values(option)[-1], True), (bad_values(option)[-1], False)):
                status, _ = library.run(words_for(machine, name, value), b"")
                self.assertEqual(int(status) != BAD_WORDS, is_good, (name, value))


class LayoutTest(unittest.TestCase):
    """The program's log shows where the parts of the device are."""

    def accesses(self, words: List[str], text: str) -> Tuple[List[int], List[int]]:
        """The device lines that a run reads and writes."""
        status, said = ran([*words, *WEAK, "--log"], text)
        self.assertEqual(status, 0, said)
        found = [[int(number) for number in re.findall(rf"^{word} ([0-9]+)$", said.decode(), re.M)] for word in ("look", "line")]
        return found[0], found[1]

    def test_size(self) -> None:
        for layout in (Layout(), Layout(1, 64, 8), Layout(3, 1, 1), Layout(2, 5, 3, False)):
            words = ["run", *WEAK, f"--levels={layout.levels}", f"--sets={layout.sets}", f"--ways={layout.ways}",
                     f"--shadow={'on' if layout.shadow else 'off'}"]
            last, behind = ran(words, f"peek {layout.lines - 1}\npeek {layout.lines}\n")[1].splitlines()
            self.assertEqual((last[:4], behind), (b"raw ", b"range"), layout)
        for tree in (TreeLayout(), TreeLayout(1, 64), TreeLayout(4, 3)):
            words = ["tree", *WEAK, f"--levels={tree.levels}", f"--sets={tree.sets}"]
            self.assertEqual(ran(words, f"poke {tree.lines - 1} {LINE}\npoke {tree.lines} {LINE}\n")[1], b"ok\nrange\n", tree)

    def test_parts_of_a_hash_tree(self) -> None:
        for layout in (Layout(), Layout(1, 3, 2), Layout(3, 16, 2)):
            words = ["run", f"--levels={layout.levels}", f"--sets={layout.sets}", f"--ways={layout.ways}"]
            line = len(layout.parts[DATA]) - 1
            looks, lines = self.accesses(words, f"post 0 {line} {LINE}\ndrain 0\n")
            self.assertEqual({layout.part_of(place) for place in looks}, {NODES, COUNTERS, TAGS}, layout)
            self.assertEqual({layout.part_of(place) for place in lines}, {DATA, TAGS, COUNTER_SHADOW, NODE_SHADOW}, layout)
            parts = layout.parts
            self.assertTrue({parts[NODES][0], parts[COUNTERS][-1], parts[TAGS][-1], layout.tag_line_of(line)} <= set(looks), layout)
            self.assertEqual(layout.tag_line_of(line), parts[TAGS][-1])
            self.assertTrue({line, parts[TAGS][-1]} <= set(lines), layout)

    def test_parts_of_a_counter_tree(self) -> None:
        for layout in (TreeLayout(), TreeLayout(1, 3), TreeLayout(3, 2)):
            line = len(layout.parts[DATA]) - 1
            looks, lines = self.accesses(["tree", f"--levels={layout.levels}", f"--sets={layout.sets}"], f"write {line} {LINE}\n")
            parts = layout.parts
            self.assertEqual({layout.part_of(place) for place in lines}, {DATA, TAGS, SLOTS}, layout)
            self.assertTrue({line, layout.tag_line_of(line), parts[SLOTS][0]} <= set(lines), layout)
            self.assertEqual(layout.tag_line_of(line), parts[TAGS][-1])
            self.assertIn(parts[NODES][-1], looks)


class ShownTest(unittest.TestCase):
    """What the script, the manual page, the pages and the Python package's own documentation say of options."""

    def form(self, option: Option) -> str:
        """How an option's values are written in a usage."""
        if option.choices:
            return "|".join(map(str, option.choices))
        if option.sizes is not None:
            return "HEX"
        assert option.numbers is not None
        return "NUMBER" if option.name in NUMBERS else f"{option.numbers.start}..{option.numbers.stop - 1}"

    def test_the_script(self) -> None:
        said = subprocess.run([str(TOP / "pmem"), "--help"], stdout=subprocess.PIPE, universal_newlines=True, check=True).stdout
        text = said.partition("\noptions,")[2].partition("\n\narguments")[0]
        found = {name: (form, " ".join(rest.split())) for name, form, rest in re.findall(r"^  --([a-z-]+) (\S+)(.*(?:\n    .*)*)", text, re.M)}
        self.assertEqual({name: form for name, (form, _) in found.items()},
                         {name: self.form(option) for name, option in OPTIONS.items() if name != "tag-key"})
        for name, (_, rest) in found.items():
            if name != "key":
                self.assertTrue(rest.endswith(f"({OPTIONS[name].default})"), rest)
        key, tag_key = OPTIONS["key"].sizes, OPTIONS["tag-key"].sizes
        assert key is not None and tag_key is not None
        self.assertEqual(found["key"][1], f"{2 * key[0]} hex digits; --tag-key HEX: {2 * tag_key[0]} to {2 * tag_key[-1]}")

    def test_the_manual_page(self) -> None:
        text = (TOP / "docs" / "man" / "pmem.1").read_text(encoding="utf-8").replace(r"\-", "-")
        found = {name: (form, rest) for name, form, rest in re.findall(r'^\.BI --([a-z-]+) " ([^"]+)"\n(.*)', text, re.M)}
        self.assertEqual({name: form for name, (form, _) in found.items()}, {name: self.form(option) for name, option in OPTIONS.items()})
        for name, option in OPTIONS.items():
            if option.default != "":
                self.assertIn(f"({option.default})", found[name][1])

    def test_the_page_on_formats(self) -> None:
        text = (TOP / "docs" / "FORMATS.md").read_text(encoding="utf-8")
        rows = re.findall(r"^\| ((?:`--[a-z-]+`(?:, )?)+) \| ([^|]+) \| ([^|]+) \|", text, re.M)
        found: Dict[str, Tuple[str, str]] = {}
        for names, values, defaults in rows:
            own = re.findall(r"--([a-z-]+)", names)
            cells = [values.split(", "), defaults.split(", ")] if len(own) > 1 else [[values], [defaults]]
            found.update(zip(own, zip(*cells)))
        for name, option in OPTIONS.items():
            values, default = (cell.replace("`", "").replace(",000", "000") for cell in found[name])
            wanted = option.text if not option.choices else ", ".join(map(str, option.choices))
            if option.sizes is not None:
                least, most = 2 * option.sizes[0], 2 * option.sizes[-1]
                wanted = f"{least} hex digits" if least == most else f"{least} to {most} hex digits, an even number"
            self.assertEqual(values, {"major": "a number", "persist": "0 to --levels + 1"}.get(name, wanted), name)
            if option.default != "":
                self.assertEqual(default, str(option.default), name)

    def test_the_python_package(self) -> None:
        of_run, of_wear = " ".join((pmem.Controller.__doc__ or "").split()), " ".join((pmem.LevelledMemory.__doc__ or "").split())
        names = ("levels", "sets", "ways", "loss")
        for name in names:
            self.assertRegex(of_run, rf"`{name}`[^.]*? (?:is )?{OPTIONS[name].text}[^0-9]")
        for name in ("key", "tag-key"):
            self.assertIn(OPTIONS[name].text, of_run)
        defaults = [*(str(OPTIONS[name].default) for name in (*names, "major")), f"`{OPTIONS['suite'].default}`"]
        self.assertIn(f"the program's default: {', '.join(defaults)}.", of_run)
        numbers = OPTIONS["every"].numbers
        assert numbers is not None
        self.assertIn(f"{numbers.start} to {numbers.stop - 1:,} and by default {OPTIONS['every'].default},", of_wear)


# What the page's modules have: for each layout the first line of each part and how many it has.
LAYOUTS = """
import {readFileSync} from 'node:fs';
import {Layout, TreeLayout} from './src/layout.js';
import {defaults, rangeOf, valueOf, wordsFor} from './src/options.js';
import {OPTIONS} from './src/table.js';
const asked = JSON.parse(readFileSync('asked.json', 'utf8'));
const layouts = asked.layouts.map(([kind, options]) => {
  const layout = new {run: Layout, tree: TreeLayout}[kind](options);
  return [layout.regions, layout.size];
});
const values = asked.values.map(([name, text]) => valueOf(name, text) !== undefined);
const words = Object.keys(OPTIONS).map(machine => wordsFor(machine, defaults()));
console.log(JSON.stringify({layouts, values, words, ranges: Object.keys(defaults()).map(rangeOf)}));
"""


class PageTest(ExploreTest):
    """The page's table is made of the Python package's, and its layouts are those of the package."""

    def test_the_table_is_made_of_the_packages(self) -> None:
        self.assertEqual(table_differs(), [])

    def test_the_modules(self) -> None:
        hashed = [Layout(levels, sets, ways, shadow) for levels in (1, 2, 3) for sets, ways in ((1, 1), (4, 2), (64, 8)) for shadow in (True, False)]
        trees = [TreeLayout(levels, sets) for levels in (1, 2, 3) for sets in (1, 4, 64)]
        # The page takes fewer levels than the program, and so fewer levels to persist.
        values = [(name, value, is_good) for name, option in OPTIONS.items() if name not in ("levels", "persist")
                  for is_good, values in ((True, good_values(option)), (False, bad_values(option))) for value in values
                  if value or option.default != ""]
        found = self.by_node(LAYOUTS, "asked.json", {"values": [(name, value) for name, value, _ in values], "layouts": [
            *(("run", {"levels": it.levels, "sets": it.sets, "ways": it.ways, "shadow": "on" if it.shadow else "off"}) for it in hashed),
            *(("tree", {"levels": it.levels, "sets": it.sets}) for it in trees)]})
        self.assertEqual([bool(each) for each in found["values"]], [is_good for _, _, is_good in values])
        self.assertEqual(found["words"], [[]] * len(MACHINES))
        self.assertTrue(all(found["ranges"]))
        layouts: List[Any] = [*hashed, *trees]
        for layout, (regions, size) in zip(layouts, found["layouts"]):
            self.assertEqual(size, layout.lines, layout)
            parts = [places for places in layout.parts.values() if len(places)]
            if isinstance(layout, Layout) and layout.shadow:
                parts[-2:] = [range(parts[-2].start, parts[-1].stop)]
            self.assertEqual([(first, count) for _, first, count in regions], [(places.start, len(places)) for places in parts], layout)


if __name__ == "__main__":
    unittest.main()

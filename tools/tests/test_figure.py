"""`explore figure`: the curves of the literature, as pictures and tables; docs/COSTS.md has the numbers of examples/figures."""
import csv
import importlib.util
import io
import re
import statistics
import subprocess
import sys
import unittest
from itertools import combinations
from pathlib import Path
from typing import Any, Dict, List
from unittest import mock

from .helpers import EXAMPLES, TOOLS, ExploreTest, program_path

from explorer import curves, figure, page_tables, units
from explorer.convert import converted
from explorer.costs import read_costs
from explorer.draw import load_matplotlib
from explorer.logged import LoggedProgram
from explorer.settings import Settings
from explorer.together import Together
from explorer.trace import read_trace

HAS_MATPLOTLIB = importlib.util.find_spec("matplotlib") is not None
FOLDER = EXAMPLES / "figures"
DOCS = TOOLS.parent / "docs"
REDIS = str(EXAMPLES / "workloads" / "redis-aof.trace")
WORKLOADS = ["log", "pmdk-btree", "pmdk-hashmap", "redis-aof", "sqlite-wal", "uniform"]


def rows_of(text: str) -> List[Dict[str, str]]:
    """The rows of a table."""
    return list(csv.DictReader(io.StringIO(text)))


def made(name: str) -> List[Dict[str, str]]:
    """The rows of a table of examples/figures."""
    return rows_of((FOLDER / f"{name}.csv").read_text(encoding="utf-8"))


class TableTest(ExploreTest):
    """These need no matplotlib."""

    def table(self, *words: str) -> List[Dict[str, str]]:
        """The table of a figure."""
        path = self.path("table.csv")
        self.assertEqual(self.explore("figure", *words, "--table", path).stdout, "")
        return rows_of(Path(path).read_text(encoding="utf-8"))

    def test_recovery_against_memory(self) -> None:
        """With names, recovery grows by the tree's levels; without, by 4 for each level."""
        rows = self.table("recovery-memory", "--bounds", "--cost", "optane")
        seconds = {design: [float(row["recovery_ns"]) for row in rows if row["design"] == design] for design in ("run", "tree", "osiris")}
        self.assertEqual([len(each) for each in seconds.values()], [13, 13, 13])
        steps = [more - less for less, more in zip(seconds["run"], seconds["run"][1:])]
        self.assertLess(max(steps), 1.5 * min(steps))
        self.assertAlmostEqual(seconds["osiris"][-1] / seconds["osiris"][-2], 4, places=3)
        self.assertEqual([int(row["memory_bytes"]) for row in rows if row["design"] == "run"], [1 << power for power in range(16, 41, 2)])
        for design in ("run", "osiris"):
            self.assertEqual([row["stated_by"] for row in rows if row["design"] == design], ["contract"] * 5 + ["formula"] * 8)

    def test_recovery_of_workloads_against_memory(self) -> None:
        """All workloads in each memory that the program has, without tables in the smaller ones; no mean is above the bound."""
        rows = made("recovery-memory")
        found = [row for row in rows if row["stated_by"] == "measured"]
        levels = {design: sorted({int(row["memory_bytes"]) for row in found if row["design"] == design}) for design in ("run", "tree", "osiris")}
        self.assertEqual(levels, {"run": [1 << power for power in (18, 20, 22, 24)], "tree": [1 << 18, 1 << 20], "osiris": [1 << 18, 1 << 20]})
        for design, sizes in levels.items():
            for size in sizes:
                own = [row for row in found if (row["design"], row["memory_bytes"]) == (design, str(size))]
                self.assertEqual([row["trace"] for row in own], [*WORKLOADS, "mean of 6 traces"])
                (bound,) = [row for row in rows if row["stated_by"] != "measured" and (row["design"], row["memory_bytes"]) == (design, str(size))]
                self.assertLess(max(float(row["recovery_ns"]) for row in own), float(bound["recovery_ns"]))

    def test_a_trade_off_of_all_designs(self) -> None:
        """All machines and policies. In a curve's default geometry a policy's row has the counts that the figure of the policies has.

        `run` has the true ciphers here: some lines that have the same digest by the weak suite have two, and are written.
        """
        rows = [row for row in made("trade-off") if row["trace"].startswith("mean of ")]
        sets = {design: sorted({int(row["sets"]) for row in rows if row["design"] == design}) for design in {row["design"] for row in rows}}
        policies = {name: list(curves.SETS_OF_TRADE_OFF) for name in curves.POLICY_DESIGNS if name != "anubis"}
        self.assertEqual(sets, {**policies, "run": [1, 4, 16, 64], "tree": [1, 4, 16, 64], "wear": [4], "txn": [4]})
        options = {"run": ("0", "on"), "osiris": ("0", "off"), "counters": ("1", "on"), "triad-1": ("2", "off"), "triad-2": ("3", "off"),
                   "strict": ("4", "off")}
        for row in rows:
            if row["design"] in options and (row["sets"], row["loss"]) == ("4", "4"):
                policy = options.pop(row["design"])
                (same,) = [each for each in made("persist") if each["trace"] == row["trace"] and (each["persist"], each["shadow"]) == policy]
                for column in ("write_steps", "write_ns", "recovery_tags_mean", "recovery_digests_mean"):
                    self.assertEqual(row[column], same[column], row["design"])
                more = float(row["recovery_steps_mean"]) - float(same["recovery_steps_mean"])
                self.assertTrue(0 <= more < (0.05 if row["design"] == "run" else 0.0001), (row["design"], more))
        self.assertEqual(options, {})

    def test_the_tables_are_those_of_the_program(self) -> None:
        """A workload of each measured table is run again."""
        for name in ("stop-loss", "trees"):
            with self.subTest(name):
                own = [row for row in made(name) if row["trace"] == "redis-aof"]
                self.assertEqual(self.table(name, REDIS), own)
                self.assertGreater(len(own), 1)

    def test_policies(self) -> None:
        """With a path's line more for each level persisted a write takes a step more; no trials from the counters on; with tables each
        recovery takes fewer operations."""
        rows = {(int(row["persist"]), row["shadow"]): row for row in made("persist") if row["trace"].startswith("mean of ")}
        self.assertEqual(sorted(rows), [(persist, shadow) for persist in range(5) for shadow in ("off", "on")])
        for persist in range(1, 5):
            more = float(rows[persist, "off"]["write_line_writes"]) - float(rows[1, "off"]["write_line_writes"])
            self.assertAlmostEqual(more, persist - 1, delta=0.2)
            self.assertEqual([rows[persist, shadow]["recovery_tags_mean"] for shadow in ("on", "off")], ["0", "0"])
            self.assertLess(float(rows[persist - 1, "off"]["write_steps"]), float(rows[persist, "off"]["write_steps"]))
        trials = {shadow: float(rows[0, shadow]["recovery_tags_mean"]) for shadow in ("on", "off")}
        self.assertTrue(0 < trials["on"] <= 4 * 64 * 8 < 64 * 64 <= trials["off"] <= 4 * 64 * 64)

    def test_designs_by_memory(self) -> None:
        """Without tables Osiris tries the lines of all pages: 64 a page, and each takes up to 4 candidates. Triad-NVM makes the nodes above
        those that it persists, strict persistence none."""
        means = {(row["design"], int(row["levels"])): row for row in made("designs") if row["trace"].startswith("mean of ")}
        self.assertEqual(sorted({design for design, _ in means}), sorted(curves.POLICY_DESIGNS))
        for levels in range(1, 7):
            tags, digests = float(means["osiris", levels]["recovery_tags_mean"]), float(means["osiris", levels]["recovery_digests_mean"])
            self.assertTrue(64 * 4 ** levels <= tags <= 4 * 64 * 4 ** levels)
            self.assertEqual(digests, 4 * (4 ** levels - 1) // 3 + 1)
            self.assertEqual(float(means["triad-1", levels]["recovery_digests_mean"]), 4 * (4 ** (levels - 1) - 1) // 3 + 1)
            self.assertEqual(float(means["strict", levels]["recovery_digests_mean"]), 1)
            self.assertAlmostEqual(float(means["strict", levels]["write_steps"]), 5 + levels, delta=0.06)
        self.assertNotIn(("triad-2", 1), means)

    def test_the_ciphers_do_not_count(self) -> None:
        """The counts of a policy's row are those under the real suite."""
        trace = self.file("own.trace", "".join(f"post 0 {line} {'11' * 64}\ndrain 0\n" for line in (0, 70, 0, 200)))
        weak = self.table("persist", trace, "--levels", "1", "--cuts", "5")
        with mock.patch.object(curves, "POLICY_SUITE", "aes"):
            choice = curves.Choice(Settings(levels=1), read_costs("optane"), [read_trace(trace)], 5, 1)
            made_again = curves.persist_rows(choice, Together(LoggedProgram(program_path()), None))
        self.assertEqual(rows_of(curves.table_of("persist", made_again)), weak)
        self.assertEqual(len(weak), 6)

    def test_another_memory(self) -> None:
        """One level has 256 lines, so that a line of the trace is left out; `tree` has as many with three levels."""
        trace = self.file("own.trace", f"post 0 7 {'11' * 64}\ndrain 0\npost 0 300 {'22' * 64}\ndrain 0\n")
        rows = self.table("trees", trace, "--levels", "1", "--cuts", "2")
        self.assertEqual([(row["design"], row["levels"], row["memory_bytes"], row["writes"]) for row in rows],
                         [("run", "1", str(256 * 64), "1"), ("tree", "3", str(256 * 64), "1")])
        self.assertIn("left out of all, as run with 1 levels has only the lines 0 to 255: other lines: 1",
                      self.explore("figure", "trees", trace, "--levels", "1", "--cuts", "2", "--table", self.path("b.csv")).stderr)

    def test_means_are_means(self) -> None:
        for name in ("recovery-cache", "stop-loss", "trade-off", "trees", "persist", "designs"):
            groups: Dict[Any, List[Dict[str, str]]] = {}
            for row in made(name):
                groups.setdefault((row["design"], *(row.get(option) for option in ("levels", "sets", "loss", "persist", "shadow"))), []).append(row)
            for group in groups.values():
                self.assertEqual([row["trace"] for row in group], [*WORKLOADS, "mean of 6 traces"])
                for column in ("write_steps", "write_ns", "recovery_ns_mean"):
                    *each, mean = [float(row[column]) for row in group]
                    self.assertAlmostEqual(mean, statistics.fmean(each), delta=0.001)

    def test_wear_by_the_rules_of_start_gap(self) -> None:
        """Without it the attacked line has all writes. With it the record is written at each move: at each Nth write."""
        for rows, least, traces in ((self.table("wear", REDIS, "--attack-writes", "300"), 300, ["redis-aof"]), (made("wear"), 20_000, WORKLOADS)):
            self.assertEqual(list(dict.fromkeys(row["trace"] for row in rows)), ["attack", *traces])
            for trace in ("attack", *traces):
                own = [row for row in rows if row["trace"] == trace]
                found = {(row["every"], row["part"]): int(row["line_writes"]) for row in own}
                (writes,) = {int(row["writes"]) for row in own}
                for every in curves.MOVES if trace == "attack" else curves.MOVES_OF_WORKLOADS:
                    self.assertEqual(found[str(every), "record"], writes // every)
                    self.assertLessEqual(found[str(every), "data"], writes)
                if trace == "attack":
                    self.assertEqual((writes, found["", "data"]), (least, least))
                else:  # it was repeated until it had written that much
                    commands = read_trace(str(EXAMPLES / "workloads" / f"{trace}.trace")).commands
                    once = sum(unit.lines for unit in converted(commands, "run", 1, 254, True).units if unit.kind == "write")
                    self.assertEqual(writes, -(-least // once) * once)

    def test_the_page_has_these_numbers(self) -> None:
        self.assertEqual(sorted(name for names in page_tables.PAGES.values() for name in names), sorted(curves.FIGURES))
        for file, names in page_tables.PAGES.items():
            page = (DOCS / file).read_text(encoding="utf-8")
            self.assertEqual(page_tables.page_with(page, page_tables.tables_in(FOLDER, names)), page)
            for name in names:
                self.assertIn(f"](../examples/figures/{name}.svg)", page)
                self.assertIn(f"explore figure {name}", page)
                self.assertTrue((FOLDER / f"{name}.svg").read_text(encoding="utf-8").startswith("<?xml"))

    def test_a_page_without_a_place(self) -> None:
        from explorer.errors import ExploreError
        with self.assertRaisesRegex(ExploreError, "no single place for the table of wear"):
            page_tables.page_with("# A page\n", {"wear": "|\n"})

    def test_texts(self) -> None:
        self.assertEqual([units.time_text(value) for value in (0.5, 20, 1500, 25e6, 3e9, 12_345e9)],
                         ["0.5 ns", "20 ns", "1.5 µs", "25 ms", "3 s", "12,345 s"])
        self.assertEqual([units.bytes_text(value) for value in (64, 1 << 16, 1088, 1 << 40)], ["64", "64 K", "1.06 K", "1 T"])

    def test_wrong_words(self) -> None:
        for words, told in ((("nothing",), "invalid choice: 'nothing'"), (("wear",), "name the picture with -o, or its table with --table"),
                            (("all",), "takes a folder behind -o"), (("wear", "-o", "a.gif"), "ends in .svg, .png or .pdf"),
                            (("wear", "-o", "a.svg", "--bounds"), "--bounds is for recovery-memory"),
                            (("wear", "-o", "a.svg", "--width", "1"), "is not a width of 2 to 20 inches")):
            result = self.explore("figure", *words)
            self.assertEqual((result.returncode, result.stdout), (2, ""))
            self.assertIn(told, result.stderr)
        self.assert_fails(self.explore("figure", "all", "-o", self.path("none")), 1, "there is no folder")

    def test_the_script(self) -> None:
        for words, status in ((["--help"], 0), (["--none"], 2)):
            ran = subprocess.run([sys.executable, str(TOOLS / "figures"), *words], stdout=subprocess.PIPE, universal_newlines=True, check=False)
            told = "Makes examples/figures again, all pictures and tables of `explore figure`, and puts their numbers into docs/COSTS.md"
            self.assertEqual((ran.returncode, ran.stdout.split("\n")[0]), (status, told))


@unittest.skipUnless(HAS_MATPLOTLIB, "matplotlib is not installed")
class PictureTest(ExploreTest):
    modules = ("matplotlib.pyplot", "matplotlib.backends.backend_agg", "matplotlib.backends.backend_pdf")

    def test_a_pdf_for_a_paper(self) -> None:
        for words, points in (((), 252), (("--columns", "2"), 515.52), (("--width", "5"), 360)):
            picture = self.path("f.pdf")
            self.assertEqual(self.output("figure", "recovery-memory", "--bounds", "-o", picture, *words), "")
            data = Path(picture).read_bytes()
            self.assertNotIn(b"/Subtype /Type3", data)
            match = re.search(rb"/MediaBox \[ 0 0 ([0-9.]+) ", data)
            assert match is not None
            self.assertAlmostEqual(float(match[1]), points, places=1)

    def test_no_label_lies_on_another(self) -> None:
        """Marks of an axis, its label and the legend keep apart, and lie within the picture, in both widths."""
        pyplot = load_matplotlib()
        choice = curves.Choice(Settings(), read_costs("optane"), [], 0, 20_000)
        for name in curves.FIGURES:
            rows = curves.rows_in(name, (FOLDER / f"{name}.csv").read_text(encoding="utf-8"))
            for width in figure.WIDTHS.values():
                drawn = figure.DRAWN[name](pyplot, rows, choice, width)
                drawn.canvas.draw()
                with self.subTest(name, width=width):
                    self.assert_apart(drawn)
                pyplot.close(drawn)

    def assert_apart(self, drawn: Any) -> None:
        """No two texts of a picture lie on each other, and none lies outside."""
        texts = [text for legend in drawn.legends for text in legend.get_texts()] + list(drawn.texts)
        for axes in drawn.axes:
            texts += [text for text in (*axes.get_xticklabels(), *axes.get_yticklabels(), axes.xaxis.label, axes.yaxis.label, *axes.texts)
                      if text.get_text() and is_within(text, axes)]
        boxes = [(text.get_text(), text.get_window_extent(), text.get_rotation() % 90 != 0) for text in texts if text.get_visible()]
        width, height = drawn.canvas.get_width_height()
        for text, box, _ in boxes:
            self.assertTrue(-1 <= box.x0 and box.x1 <= width + 1 and -1 <= box.y0 and box.y1 <= height + 1, f"outside: {text!r}")
        for (one, box, is_turned), (other, beside, is_other_turned) in combinations(boxes, 2):
            if not (is_turned and is_other_turned):
                self.assertFalse(box.x0 < beside.x1 and beside.x0 < box.x1 and box.y0 < beside.y1 and beside.y0 < box.y1,
                                 f"{one!r} lies on {other!r}")

    def test_a_table_is_drawn_again(self) -> None:
        """The pictures of examples/figures are those of its tables."""
        self.assertEqual(self.output("figure", "wear", "--from", str(FOLDER / "wear.csv"), "-o", self.path("wear.svg")), "")
        self.assertEqual(Path(self.path("wear.svg")).read_text().count("<path"), (FOLDER / "wear.svg").read_text().count("<path"))
        self.assert_fails(self.explore("figure", "trees", "--from", str(FOLDER / "wear.csv"), "-o", self.path("a.svg")), 1,
                          "this is not a table of explore figure trees")

    def test_a_picture_is_the_same_in_each_run(self) -> None:
        """Whatever the order of Python's sets, which it chooses at each start."""
        for seed in "12":
            words = ("figure", "recovery-cache", "--from", str(FOLDER / "recovery-cache.csv"), "-o", self.path(f"{seed}.svg"))
            self.assertEqual(self.explore(*words, PYTHONHASHSEED=seed).returncode, 0)
        self.assertEqual(Path(self.path("1.svg")).read_bytes(), Path(self.path("2.svg")).read_bytes())

    def test_each_says_on_what_its_times_rest(self) -> None:
        for name in curves.FIGURES:
            drawn = re.findall("<!-- (.*?) -->", (FOLDER / f"{name}.svg").read_text(encoding="utf-8"))
            has_times = name not in curves.POLICY_ROWS
            self.assertEqual("an Optane-like module of phase-change memory; optane.toml, 18 of 18 assumed" in drawn, has_times)


def is_within(text: Any, axes: Any) -> bool:
    """Whether a mark of an axis is drawn: those beyond its limits aren't."""
    x, y = text.get_position()
    left, right = sorted(axes.get_xlim())
    low, high = sorted(axes.get_ylim())
    if text in axes.get_xticklabels():
        return bool(left <= x <= right)
    if text in axes.get_yticklabels():
        return bool(low <= y <= high)
    return True

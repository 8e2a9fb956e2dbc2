"""`explore compare`: one workload on several designs, its counts against sums made by hand, and times from a file of figures."""
import csv
import io
import json
import math
import re
from pathlib import Path
from typing import Any, Dict, List

from .helpers import EXAMPLES, ONES, QUICK, TOOLS, ExploreTest, program_path, words_of

import explorer
from explorer import compare
from explorer.accounts import Account, Accountant
from explorer.chip import chip_bytes
from explorer.costs import bundled, read_costs
from explorer.errors import ExploreError
from explorer.logged import counted, entries_of
from explorer.settings import Settings

TWOS = "22" * 64
# A write, a read, and a second write, of one line.
SMALL = f"post 0 0 {ONES}\ndrain 0\nread 0 0\npost 0 0 {TWOS}\ndrain 0\n"
ONE = f"post 0 0 {ONES}\ndrain 0\n"
FIGURES = """title = "a device for tests"
[device]
read = { ns = 10, nj = 1, source = "assumed" }
write = { ns = 100, nj = 2, source = "measured on paper" }
endurance = { writes = 1000, source = "assumed" }
[chip]
latch = { ns = 1000, nj = 4, source = "assumed" }
pad = { ns = 3, nj = 8, source = "assumed" }
tag = { ns = 20, nj = 16, source = "assumed" }
digest = { ns = 7, nj = 32, source = "assumed" }
[overlap]
reads = { at_once = 1, source = "assumed" }
group_writes = { at_once = 1, source = "assumed" }
recovery_tags = { every_ns = 2, source = "assumed" }
recovery_digests = { every_ns = 1, source = "assumed" }
pad_beside_read = { holds = false, source = "assumed" }
"""


class CompareCase(ExploreTest):
    def found(self, text: str, *words: str) -> Dict[str, Any]:
        """What a comparison of a trace finds."""
        result = self.explore("compare", "-", "--json", *words, text=text)
        self.assertEqual(result.returncode, 0, result.stderr)
        value: Dict[str, Any] = json.loads(result.stdout)
        return value

    def rows(self, text: str, *words: str) -> List[Dict[str, Any]]:
        """Its rows."""
        found: List[Dict[str, Any]] = self.found(text, *words)["designs"]
        return found

    def assert_counts(self, row: Dict[str, Any], kind: str, **counts: int) -> None:
        """The counts of a kind are these, and all others 0."""
        for name in ("steps", "line_writes", "line_reads", "latches", "pads", "tags", "digests", "hits", "misses",
                     *(f"{way}_{part}" for way in ("writes", "reads") for part in ("data", "tags", "counters", "tree", "shadow"))):
            with self.subTest(f"{row['design']} {kind} {name}"):
                self.assertEqual(row[f"{kind}_{name}"], counts.get(name, 0))


class CountsTest(CompareCase):
    """Sums by the tables of docs/ENGINE.md, WEAR.md, TXN.md and TREE_MACHINE.md."""

    def test_run(self) -> None:
        (row,) = self.rows(SMALL, "--designs", "run", "--cuts", "0")
        self.assertEqual((row["writes"], row["fences"], row["reads"], row["memory_lines"]), (2, 2, 1, 1024))
        # The first write fetches three blocks and names them; both seal the line.
        self.assert_counts(row, "total", steps=7 + 4, line_writes=5 + 2, writes_data=2, writes_tags=2, writes_shadow=3, latches=4,
                           line_reads=4 + 2 + 1, reads_counters=1, reads_tree=2, reads_tags=3, reads_data=1, pads=3, tags=3,
                           digests=6 + 3, hits=3 + 3, misses=3)
        self.assert_counts(row, "read", line_reads=2, reads_data=1, reads_tags=1, pads=1, tags=1, hits=3)
        self.assertEqual((row["write_steps"], row["write_misses"]), (5.5, 1.5))

    def test_recoveries_of_run(self) -> None:
        found = self.found(SMALL, "--designs", "run", "--cuts", "0")
        (row,), (moments,) = found["designs"], found["recoveries"]
        # After each step of the first write, of the second one, and after power goes off (docs/RECOVERY.md).
        steps = [0, 1, 1, 2, 8, 8, 8, 5, 8, 8, 8, 5]
        self.assertEqual([moment[0] for moment in moments], list(range(12)))
        self.assertEqual([moment[3] for moment in moments], steps)
        self.assertEqual([moment[1] for moment in moments], [0, 0, 0] + [256] * 9)
        self.assertEqual((row["recoveries"], row["recoveries_of"], row["recoveries_refused"]), (12, 12, 0))
        self.assertEqual((row["recovery_tags_mean"], row["recovery_tags_greatest"]), (192, 256))
        self.assertEqual((row["recovery_digests_mean"], row["recovery_steps_greatest"]), ((1 + 5 + 10 * 9) / 12, 8))
        self.assertEqual(row["recovery_steps_mean"], round(sum(steps) / 12, 3))

    def test_wear(self) -> None:
        (row,) = self.rows(ONE, "--designs", "wear", "--every", "1", "--cuts", "0")
        # The line, the copy and the record are sealed, and the source is read. Page 15 is cached since the record was read.
        self.assert_counts(row, "total", steps=7 + 6 + 4, line_writes=11, writes_data=3, writes_tags=3, writes_shadow=3 + 2, latches=6,
                           line_reads=7, reads_data=1, reads_tags=3 + 1, reads_counters=1, reads_tree=1, pads=4, tags=4,
                           digests=2 + 3 * 3, hits=4 * 3 - 2, misses=2)
        self.assertEqual((row["memory_lines"], row["recoveries"]), (1022, 18))

    def test_txn(self) -> None:
        (row,) = self.rows(ONE, "--designs", "txn", "--cuts", "0")
        # A body, the header, the line and the zero header.
        self.assert_counts(row, "total", steps=7 + 4 + 6 + 4, line_writes=13, writes_data=4, writes_tags=4, writes_shadow=3 + 2, latches=8,
                           line_reads=6, reads_tags=4, reads_counters=1, reads_tree=1, pads=4, tags=4, digests=2 + 4 * 3,
                           hits=4 * 3 - 2, misses=2)
        self.assertEqual((row["memory_lines"], row["recoveries"]), (1008, 22))

    def test_tree(self) -> None:
        (row,) = self.rows(SMALL, "--designs", "tree", "--cuts", "0")
        # Four nodes below the top are fetched; a write has a cipher, a tag line and five slot lines. The shadow tree has 4 levels.
        self.assert_counts(row, "total", steps=9 + 9, line_writes=14, writes_data=2, writes_tags=2, writes_shadow=10, latches=4,
                           line_reads=4 + 2, reads_tree=4, reads_data=1, reads_tags=1, pads=3, tags=5 + 1 + 1, digests=2 * 5 * 4,
                           hits=1 + 5 + 5, misses=4)
        self.assertEqual((row["levels"], row["memory_lines"], row["ways"], row["loss"]), (4, 1024, None, None))
        self.assertEqual((row["recovery_digests_mean"], row["recovery_digests_greatest"], row["recovery_line_reads_mean"]), (85, 85, 17))
        # Before its group is armed a write leaves nothing to be done.
        self.assertEqual((row["recovery_steps_mean"], row["recovery_tags_greatest"]), (round(16 * 8 / 19, 3), 0))

    def test_a_page_that_is_begun_and_lines_sealed_anew(self) -> None:
        posts = "".join(f"post 0 0 {number % 256:02x}{ONES[2:]}\ndrain 0\n" for number in range(256))
        (row,) = self.rows(posts, "--designs", "run", "--levels", "1", "--loss", "16", "--cuts", "1")
        # The 128th write begins the page; the 255th finishes it, with 63 reseals, and begins it again.
        self.assertEqual((row["total_pads"], row["total_tags"]), (256 + 2 * 63, 256 + 2 * 63))
        self.assertEqual((row["total_digests"], row["total_misses"]), (2 + 2 * (256 + 2), 2))
        self.assertEqual(row["total_hits"], 256 * 2 - 2)
        self.assertEqual(row["total_writes_data"], 256 + 63)

    def test_totals_are_those_of_stat(self) -> None:
        text = "".join(f"post 0 {line} {ONES}\nfence 0\nread 0 {line}\n" for line in (0, 64, 300, 900, 1, 64))
        (row,) = self.rows(text, "--designs", "run", "--cuts", "1", "--sets", "1", "--ways", "1")
        costs = self.json("sweep", "-", "--sets", "1", "--ways", "1", text=text)["settings"][0]
        self.assertEqual((row["write_steps"], row["write_digests"]), (costs["steps_per_write"], costs["digests_per_write"]))
        self.assertEqual(row["write_misses"], costs["metadata_reads_per_write"])
        self.assertEqual(row["read_misses"], costs["metadata_reads_per_read"])
        self.assertEqual(round((row["total_line_writes"]) / row["writes"], 3), costs["write_amplification"])


class WorkloadTest(CompareCase):
    def test_whole_lines_when_they_are_made_sure_of(self) -> None:
        text = f"post 0 0 {ONES}\npart 0 0 1 aabb\nread 0 0\ndrain 0\nfence 0\npost 3 9 {ONES}\n"
        found = self.found(text, "--designs", "run", "--cuts", "1")
        (row,) = found["designs"]
        self.assertEqual((row["writes"], row["fences"], row["reads"], row["total_reads_data"]), (2, 2, 1, 1))
        self.assertEqual(found["notes"][:3], [
            "standard input: writes of a part of a line, which write the whole line here: 1",
            "standard input: reads of a line that waits, which read what is in memory here: 1",
            "standard input: left out, as no drain or fence makes sure of them: writes: 1"])

    def test_what_the_smallest_memory_has_not_is_told_before_anything_runs(self) -> None:
        text = f"post 0 300 {ONES}\nfence 0\nread 0 300\n{ONE}"
        result = self.explore("compare", "-", "--designs", "run", "--levels", "1,2", "--program", self.path("none"), text=text)
        self.assert_fails(result, 1, "left out of all, as run with 1 levels has only the lines 0 to 255: other lines: 1, "
                          "writes and reads of them: 2", "cannot run the program")
        rows = self.rows(text, "--designs", "run", "--levels", "1,2", "--cuts", "1")
        self.assertEqual([(row["writes"], row["reads"]) for row in rows], [(1, 0), (1, 0)])
        rows = self.rows(text, "--designs", "run", "--levels", "1,2", "--cuts", "1", "--fold")
        self.assertEqual([(row["writes"], row["reads"]) for row in rows], [(2, 1), (2, 1)])

    def test_a_workload_that_has_nothing(self) -> None:
        self.assert_fails(self.explore("compare", "-", "--designs", "run", text="stat\n"), 2, "has no write, read or power cycle")

    def test_designs_and_their_numbers(self) -> None:
        values = {"levels": [1, 2], "sets": [1, 4], "ways": [1], "loss": [1, 4], "every": [10]}
        designs = compare.designs_of(["run", "tree"], Settings(), values)
        self.assertEqual([(levels, each.machine_name, each.levels, each.sets, each.loss) for levels, each in designs], [
            (levels, "run", levels, sets, loss) for levels in (1, 2) for sets in (1, 4) for loss in (1, 4)] + [
            (levels, "tree", levels + 2, sets, 4) for levels in (1, 2) for sets in (1, 4)])
        told = "tree has no memory as large as that of run with 5 levels: at most 16,384 lines, as run with 4 levels "
        with self.assertRaisesRegex(ExploreError, told):
            compare.designs_of(["tree"], Settings(), {**values, "levels": [5]})
        self.assert_fails(self.explore("compare", "-", "--designs", "run,x", text=ONE), 2, "'x' is not one of run, wear, txn, tree")

    def test_several_traces_and_their_means(self) -> None:
        names = [self.file("a.trace", ONE), self.file("b.trace", SMALL)]
        found = self.json("compare", *names, "--designs", "run", "--loss", "1,4", "--cuts", "0")
        self.assertEqual([(row["trace"], row["loss"]) for row in found["designs"]], [
            (name, loss) for name in (*names, "mean of 2 traces") for loss in (1, 4)])
        first, _, second, _, mean, _ = found["designs"]
        self.assertEqual(mean["write_digests"], (first["write_digests"] + second["write_digests"]) / 2)
        self.assertEqual(mean["recovery_tags_greatest"], max(first["recovery_tags_greatest"], second["recovery_tags_greatest"]))

    def test_recoveries_that_are_spread(self) -> None:
        moments = [(0, number, number) for number in range(10)]
        self.assertEqual([moment[1] for moment in compare.spread(moments, 4)], [0, 2, 5, 7])
        self.assertEqual(compare.spread(moments, 10), moments)
        self.assertEqual(compare.spread(moments, 0), [])
        found = self.found(SMALL, "--designs", "run", "--cuts", "4")
        self.assertEqual(found["designs"][0]["recoveries"], 4)
        self.assertIn("recoveries: after 4 cuts of each design, spread evenly, of 12; the greatest are the greatest of these", found["notes"])

    def test_text_csv_and_latex(self) -> None:
        text = self.output("compare", "-", "--designs", "run", "--loss", "1,4", "--cuts", "0", text=SMALL)
        lines = text.splitlines()
        self.assertEqual(lines[0].split(), ["design", "run", "run"])
        self.assertIn(["stop-loss", "number", "1", "4"], [line.split() for line in lines])
        rows = list(csv.DictReader(io.StringIO(self.output("compare", "-", "--designs", "run", "--csv", "--cuts", "0", text=SMALL))))
        self.assertEqual((rows[0]["write_steps"], rows[0]["every"]), ("5.5", ""))
        latex = self.output("compare", "-", "--designs", "run", "--latex", "--cuts", "0", text=SMALL)
        self.assertTrue(latex.startswith("\\begin{tabular}{lr}\n"))
        self.assertIn("persist steps & 5.50 \\\\\n", latex)
        self.assertIn("line writes & 3.50 \\\\\nof them data & 1.00 \\\\\n", latex)

    def test_forks_and_runs_from_the_start_agree(self) -> None:
        words = ("compare", "-", "--designs", "run", "--cuts", "0")
        self.assertEqual(self.output(*words, text=SMALL), self.output(*words, "--from-start", text=SMALL))

    def test_one_database_on_all(self) -> None:
        trace = str(EXAMPLES / "database.trace")
        result = self.explore("compare", trace, "--json", "--cuts", "2", *words_of(QUICK))
        self.assertEqual(result.returncode, 0, result.stderr)
        self.assertIn("left out of all, as txn with 2 levels has only the lines 0 to 1007", result.stderr)
        rows = json.loads(result.stdout)["designs"]
        self.assertEqual([(row["design"], row["writes"], row["fences"], row["reads"]) for row in rows],
                         [(design, 2421, 457, 465) for design in ("run", "wear", "txn", "tree")])


class LogTest(ExploreTest):
    def test_pads_of_a_recovery(self) -> None:
        # Each page that is named has 64 trials with a stop-loss number of 1. All other tags of `on` are of a line with a pad.
        for machine, answer, tags, pads in (("run", "on 64 9 5", 64, 0), ("wear", "on 0 1022 8", 65, 1), ("txn", "on 0 8", 65, 1),
                                            ("txn", "on 1 23", 68, 4), ("tree", "on 85 8", 0, 0), ("txn", "stuck 0 9", 64, 0)):
            (entry,) = entries_of(b"work %d 9\n%s\n" % (tags, answer.encode()), "pmem")
            self.assertEqual(Accountant(Settings(machine_name=machine, loss=1)).account("on", entry).pads, pads, answer)

    def test_accesses_side_by_side(self) -> None:
        text = b"look 0\nlook 1024\nline 1302\nlook 5\nlatch 2\nline 0\nline 1024\nlatch 0\nline 1285\nwork 1 0\nseal 0 0.1 00\nok 6\n"
        (entry,) = entries_of(text, "pmem")
        account = Accountant(Settings()).account("drain", entry)
        self.assertEqual((dict(account.read_runs), dict(account.groups), account.single_writes), ({2: 1, 1: 1}, {2: 1}, 2))
        self.assertEqual(entry.reply.lines, ["seal 0 0.1 00", "ok 6"])
        # A recovery writes the armed group's lines before the latch that empties it.
        (entry,) = entries_of(b"line 0\nline 1024\nlatch 0\nlook 1301\nline 1285\nwork 0 1\non 0 1 4\n", "pmem")
        account = Accountant(Settings()).account("on", entry)
        self.assertEqual((dict(account.groups), account.single_writes, account.steps), ({2: 1}, 1, 4))

    def test_a_log_that_is_not_as_it_should_be(self) -> None:
        for text in (b"look x\nwork 0 0\nok\n", b"look 0\n", b"work 0 0\n", b"work 0\nok\n", b"peep 0\nwork 0 0\nok\n", b"ok\n"):
            with self.assertRaisesRegex(ExploreError, "pmem does not tell its accesses as docs/FORMATS.md says"):
                entries_of(text, "pmem")
        text = b"look 5\nline 5\nwork 0 0\nseal 5 0.1 00\nok 7\nline 1024\nwork 0 0\nline 00 1\n"
        self.assertEqual(counted(text, 2, "pmem"), ({5: 1, 1024: 1}, {"ok": 1, "line": 1}))
        with self.assertRaisesRegex(ExploreError, "does not tell its accesses"):
            counted(text, 3, "pmem")


class ModuleTest(ExploreTest):
    def test_rows_in_a_notebook(self) -> None:
        rows = explorer.compare_designs([SMALL.encode(), self.file("one.trace", ONE)], ["run"], program=program_path(), loss=[1, 4],
                                        recoveries=1, cost="optane")
        self.assertEqual([(row["trace"].rsplit("/", 1)[-1], row["loss"], row["writes"]) for row in rows], [
            ("the trace", 1, 2), ("the trace", 4, 2), ("one.trace", 1, 1), ("one.trace", 4, 1), ("mean of 2 traces", 1, 1.5),
            ("mean of 2 traces", 4, 1.5)])
        self.assertEqual(rows[1]["write_steps"], 5.5)
        self.assertGreater(rows[1]["write_ns"], 0)
        with self.assertRaisesRegex(TypeError, "there is no number lines"):
            explorer.compare_designs([ONE.encode()], ["run"], lines=[1])


class ChipTest(ExploreTest):
    def test_bytes(self) -> None:
        self.assertEqual(chip_bytes(Settings()), {"cache": 3 * 8 * 68, "shadow": 2 * 64, "registers": 16 + 3 * 68 + 4 * 76 + 1,
                                                  "waiting": 8 * 16 * 68})
        self.assertEqual(chip_bytes(Settings(machine_name="txn", sets=64, ways=8, levels=1)), {
            "cache": 2 * 512 * 68, "shadow": 64 * 64, "registers": 525, "waiting": 15 * 68})
        self.assertEqual(chip_bytes(Settings(machine_name="tree", levels=4)), {
            "cache": 17 * 36, "shadow": 85 * 64, "registers": 16 + 7 * 68, "waiting": 0})


class RowsTest(CompareCase):
    def test_chosen_rows(self) -> None:
        """The device and the chip by the tables of docs/MACHINE.md, TREE.md and COSTS.md."""
        words = ("--designs", "run,tree", "--levels", "1", "--cuts", "1", "--latex")
        latex = self.output("compare", "-", *words, "--rows", "device_bytes,chip_same_basis,write_steps", text=ONE)
        lines = [line for line in latex.split("\n") if " & " in line]
        # run at 1 level: 256 data, 64 tag and 5 metadata lines, two shadow lines; tree at 3: 256 twice, 85 nodes, 13 slots.
        self.assertEqual(lines[1], f"bytes on the device: all & {64 * 327:,} & {64 * (512 + 85 + 13):,} \\\\")
        run, tree = 2 * 8 * 68 + 2 * 64 + 525, 13 * 36 + 21 * 64 + 16 + 6 * 68
        self.assertEqual(lines[2], f"bytes on the chip: all but what waits & {run:,} & {tree:,} \\\\")
        self.assertEqual((len(lines), lines[3].split(" & ")[0]), (4, "a line written: persist steps"))

    def test_wrong_rows(self) -> None:
        for words, told in ((("--latex", "--rows", "speed"), "'speed' is not a row"), (("--rows", "write_steps"), "--rows needs --latex"),
                            (("--latex", "--rows", "write_ns"), "--rows: there is nothing named write_ns here")):
            result = self.explore("compare", "-", "--designs", "run", "--levels", "1", "--cuts", "1", *words, text=ONE)
            self.assertEqual((result.returncode, result.stdout), (2, ""))
            self.assertIn(told, result.stderr)


class CostTest(CompareCase):
    def test_times_of_a_write(self) -> None:
        figures = self.file("f.toml", FIGURES)
        (row,) = self.rows(ONE, "--designs", "run", "--cost", figures, "--cuts", "0")
        time = 4 * 10 + 5 * 100 + 2 * 1000 + 3 + 20 + 6 * 7
        self.assertEqual((row["fence_ns_mean"], row["fence_ns_greatest"], row["write_ns"]), (time, time, time))
        self.assertEqual(row["write_nj"], 4 * 1 + 5 * 2 + 2 * 4 + 8 + 16 + 6 * 32)
        self.assertEqual(row["fence_dominant"], "latches 77%")
        self.assertIsNone(row["read_ns_mean"])
        # The last recovery, of 256 tags and 9 digests: it reads two shadow lines, the counter block, 64 lines with their tag
        # lines, two named nodes and their children that aren't named.
        (moments,) = self.found(ONE, "--designs", "run", "--cost", figures, "--cuts", "0")["recoveries"]
        _, tags, digests, steps, reads, writes, ns = moments[-1]
        self.assertEqual((tags, digests, steps, reads, writes), (256, 9, 5, 2 + 129 + 2 + 3 + 3, 5))
        self.assertEqual(ns, reads * 10 + writes * 100 + 20 + 255 * 2 + 7 + 8 * 1)

    def test_what_overlaps(self) -> None:
        text = FIGURES.replace("holds = false", "holds = true")
        for name, number in (("\nreads", 2), ("\ngroup_writes", 4)):
            text = text.replace(f"{name} = {{ at_once = 1", f"{name} = {{ at_once = {number}")
        (row,) = self.rows(SMALL, "--designs", "run", "--cost", self.file("f.toml", text), "--cuts", "1")
        # The path's three lines are read two at a time, then the tag line; three names are written, then a group of two.
        first = 3 * 10 + (3 + 1) * 100 + 2 * 1000 + 3 + 20 + 6 * 7
        second = 10 + 100 + 2 * 1000 + 3 + 20 + 3 * 7
        self.assertEqual((row["fence_ns_greatest"], row["fence_ns_mean"]), (first, (first + second) / 2))
        # Cipher and tag line at once, and the pad at the same time.
        self.assertEqual(row["read_ns_mean"], 10 + 20)

    def test_percentiles(self) -> None:
        found = compare.summary([float(number) for number in range(1, 201)])
        self.assertEqual(found, {"mean": 100.5, "median": 100.5, "p99": 198.0, "greatest": 200.0})
        self.assertEqual(compare.summary([5.0])["p99"], 5.0)
        self.assertEqual(set(compare.summary([]).values()), {None})

    def test_what_is_not_modelled_stands_at_the_head(self) -> None:
        result = self.explore("compare", "-", "--designs", "run", "--cost", self.file("f.toml", FIGURES), "--cuts", "1", text=ONE)
        lines = result.stdout.splitlines()
        self.assertEqual(lines[:2], ["times and energy: a device for tests", "figures: f.toml, 16 of 18 assumed"])
        self.assertTrue(lines[2].startswith("not modelled: banks, row buffers, queues"))

    def test_those_that_come_with_it(self) -> None:
        self.assertEqual(bundled(), ["flash", "optane", "optane-cited", "stt-mram"])
        for name in bundled():
            costs = read_costs(name)
            cited = {key: figure.value for key, figure in costs.figures.items() if not figure.is_assumed}
            # Yang and others, FAST 2020: a random read, and a non-temporal store with a fence.
            self.assertEqual(cited, {"device.read.ns": 305.0, "device.write.ns": 90.0} if name == "optane-cited" else {}, name)
            self.assertGreater(costs.spent(Account(reads=[1, 1, 0, 0, 0])).nj, 0)
        self.assertIn("--cost", self.output("compare", "--help"))
        self.assertIn("flash, optane, optane-cited, stt-mram", " ".join(self.output("compare", "--help").split()))

    def test_the_baseline(self) -> None:
        """A memory without security: a line write a write, a line read a read, nothing on the chip and no recovery."""
        plain, run = self.rows(SMALL, "--designs", "plain,run", "--levels", "1", "--cuts", "0", "--cost", self.file("f.toml", FIGURES))
        self.assertEqual((plain["design"], plain["memory_lines"], plain["device_bytes"], plain["chip_bytes"]), ("plain", 256, 64 * 256, 0))
        self.assert_counts(plain, "write", steps=1, line_writes=1, writes_data=1)
        self.assert_counts(plain, "read", line_reads=1, reads_data=1)
        self.assertEqual((plain["write_ns"], plain["write_nj"], plain["read_ns_mean"], plain["read_nj"]), (100, 2, 10, 1))
        self.assertEqual({plain[name] for name in plain if name.startswith("recover")}, {None})
        # 256 data, 64 tag and 5 metadata lines and two shadow lines.
        self.assertEqual((run["over_plain_device_bytes"], run["over_plain_line_writes"]), (round(327 / 256, 3), run["write_line_writes"]))
        self.assertEqual((run["over_plain_ns"], plain["over_plain_ns"]), (round(run["write_ns"] / 100, 3), 1.0))
        result = self.explore("compare", "-", "--designs", "plain", text=SMALL)
        self.assertEqual((result.returncode, result.stdout), (2, ""))
        self.assertIn("plain is a baseline; name a design to compare with it", result.stderr)

    def test_time_and_energy_by_part(self) -> None:
        """A first write reads the path's blocks and a tag line, writes names, cipher and tag, and makes a tag, a pad and digests."""
        (row,) = self.rows(ONE, "--designs", "run", "--cost", self.file("f.toml", FIGURES), "--cuts", "0")
        times = {"data": 100, "tags": 10 + 100, "counters": 10, "tree": 2 * 10, "shadow": 3 * 100, "chip": 2 * 1000 + 3 + 20 + 6 * 7}
        self.assertEqual({name: row[f"write_ns_{name}"] for name in times}, times)
        energies = {"data": 2, "tags": 1 + 2, "counters": 1, "tree": 2, "shadow": 3 * 2, "chip": 2 * 4 + 8 + 16 + 6 * 32}
        self.assertEqual({name: row[f"write_nj_{name}"] for name in energies}, energies)
        for kind in ("write", "recovery"):
            total = row["write_ns"] if kind == "write" else row["recovery_ns_mean"]
            self.assertAlmostEqual(sum(row[f"{kind}_ns_{name}"] for name in times), total, places=1)

    def test_several_files_of_figures(self) -> None:
        slow = self.file("slow.toml", FIGURES.replace("write = { ns = 100", "write = { ns = 500"))
        found = self.found(ONE, "--designs", "run,tree", "--levels", "1", "--cuts", "2", "--cost", f"{self.file('f.toml', FIGURES)},{slow}")
        rows = found["designs"]
        self.assertEqual([(row["design"], row["figures"]) for row in rows],
                         [("run", "f.toml"), ("tree", "f.toml"), ("run", "slow.toml"), ("tree", "slow.toml")])
        self.assertEqual([more["write_ns"] - less["write_ns"] for less, more in zip(rows, rows[2:])],
                         [400 * row["write_line_writes"] for row in rows[:2]])
        self.assertEqual([head.split(":")[0] for head in found["heads"]], ["times and energy", "figures"] * 2 + ["not modelled"])
        self.assertEqual(len(found["recoveries"]), 4)

    def test_a_source_of_its_own(self) -> None:
        """A field may have another source than its entry."""
        cited = FIGURES.replace('nj = 1, source = "assumed"', 'nj = 1, source = "a paper", nj_source = "assumed"')
        costs = read_costs(self.file("f.toml", cited))
        self.assertEqual([costs.figures[f"device.read.{name}"].is_assumed for name in ("ns", "nj")], [False, True])

    def test_a_folder_of_traces(self) -> None:
        for name, text in (("b.trace", ONE), ("a.trace", SMALL), ("notes.txt", "none\n")):
            self.file(name, text)
        found = self.json("compare", str(self.directory), "--designs", "run", "--levels", "1", "--cuts", "1")
        self.assertEqual([row["trace"].rsplit("/", 1)[-1] for row in found["designs"]], ["a.trace", "b.trace", "mean of 2 traces"])
        empty = self.directory / "empty"
        empty.mkdir()
        self.assert_fails(self.explore("compare", str(empty)), 1, "has no file whose name ends in .trace")

    def test_bad_files(self) -> None:
        for old, new, told in (
                ("[device]", "[devise]", "no table devise"),
                ("read = { ns", "red = { ns", "device has no entry red"),
                ("ns = 10,", "ms = 10,", "device.read has no field ms"),
                ("ns = 10,", "", "device.read.ns must be a number that is not negative"),
                ("ns = 10,", "ns = -1,", "device.read.ns must be a number that is not negative"),
                ("ns = 10,", "ns = nan,", "device.read.ns must be a number that is not negative"),
                ("ns = 10,", "ns = inf,", "device.read.ns must be a number that is not negative"),
                ("ns = 10,", "ns = true,", "device.read.ns must be a number that is not negative"),
                ("ns = 10,", 'ns = "10",', "device.read.ns must be a number that is not negative"),
                ("writes = 1000", "writes = 0", "device.endurance.writes must be a whole number from 1 on"),
                ("at_once = 1", "at_once = 1.5", "overlap.reads.at_once must be a whole number from 1 on"),
                ("holds = false", "holds = 0", "overlap.pad_beside_read.holds must be true or false"),
                (', source = "measured on paper"', "", "device.write has no source"),
                ('"measured on paper"', '"a paper", nj_source = 3', "device.write has no source: add nj_source"),
                ('"measured on paper"', '" "', "device.write has no source"),
                ('title = "a device for tests"', "", "title must be one line of text"),
                ("[overlap]", "[chip.more]", "chip has no entry more"),
                ("[device]", "[device", "is not valid TOML"),
                ("pad = {", "pad = 3 # {", "chip.pad is missing")):
            with self.subTest(new or old):
                self.assertIn(old, FIGURES)
                bad = self.file("bad.toml", FIGURES.replace(old, new, 1))
                result = self.explore("compare", "-", "--designs", "run", "--cost", bad, text=ONE)
                self.assert_fails(result, 1, "bad.toml", told)
        self.assert_fails(self.explore("compare", "-", "--cost", "dram", text=ONE), 1, "no figures named dram: flash, optane, optane-cited, stt-mram")
        self.assert_fails(self.explore("compare", "-", "--cost", self.path("no.toml"), text=ONE), 1, "cannot read", "No such file")

    def test_python_that_reads_no_toml(self) -> None:
        (self.directory / "tomllib.py").write_text("raise ImportError('not here')\n")
        result = self.explore("compare", "-", "--cost", "optane", text=ONE, PYTHONPATH=str(self.directory))
        self.assert_fails(result, 1, "--cost needs Python 3.11 or later")

    def test_each_figure_says_where_it_is_from(self) -> None:
        for path in sorted(Path(TOOLS / "explorer" / "costs").glob("*.toml")):
            text = path.read_text()
            self.assertEqual(len(re.findall("(?<!_)source = ", text)), text.count(" = {"), path.name)
        self.assertFalse(math.isnan(read_costs("optane").endurance))

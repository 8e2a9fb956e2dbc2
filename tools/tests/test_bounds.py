"""`explore bounds`: the bounds of docs/RECOVERY.md and TREE_MACHINE.md at sizes worked by hand, and recoveries of the program within them."""
import argparse
import json
import unittest
from typing import Any, Dict, List

from .helpers import ONES, QUICK, ExploreTest, words_of

from explorer.bounds import Extrapolated, amount_text, levels_for, memory_bytes, size_text

TWO = f"post 0 0 {ONES}\ndrain 0\npost 0 70 {ONES}\ndrain 0\nread 0 0\n"


class BoundsTest(ExploreTest):
    def rows(self, *words: str) -> List[Dict[str, Any]]:
        """The rows of each design."""
        result = self.explore("bounds", "--json", *words)
        self.assertEqual((result.returncode, result.stderr), (0, ""))
        found: List[Dict[str, Any]] = json.loads(result.stdout)["bounds"]
        return found

    def test_the_default_geometries(self) -> None:
        """Two levels, 8 slots, 2 shadow lines, stop-loss number 4: the worked example of docs/RECOVERY.md."""
        (run,) = self.rows("--memory", "64K", "--designs", "run")
        self.assertEqual((run["levels"], run["memory_bytes"], run["device_bytes"]), (2, 1024 * 64, 1303 * 64))
        self.assertEqual((run["recovery_tags_most"], run["recovery_digests_most"]), (64 * 4 * 8, 4 * 2 * 8 + 1))
        self.assertEqual((run["recovery_line_reads_most"], run["recovery_steps_most"]), (2 + 129 * 8 + 5 * 2 * 8 + 1, 4 + 3 * 8 + 2))
        self.assertEqual((run["write_steps_most"], run["stated_by"]), (2 * 3 + 1 + 4, "contract"))
        (tree,) = self.rows("--memory", "4K", "--designs", "tree")
        self.assertEqual((tree["levels"], tree["memory_bytes"], tree["device_bytes"]), (2, 64 * 64, 158 * 64))
        self.assertEqual((tree["recovery_tags_most"], tree["recovery_digests_most"], tree["recovery_steps_most"]), (0, 21, 6))
        self.assertEqual((tree["recovery_line_reads_most"], tree["write_steps_most"], tree["stated_by"]), (9, 9, "contract"))

    def test_beyond_the_program(self) -> None:
        """A tebibyte is 2^40 = 2^12 * 4^14 bytes; the output says that no contract states its bounds."""
        run, tree, whole = self.rows("--memory", "1T", "--sets", "64", "--ways", "8")
        self.assertEqual((run["levels"], tree["levels"], whole["levels"]), (14, 16, 14))
        self.assertEqual([row["memory_bytes"] for row in (run, tree, whole)], [1 << 40] * 3)
        self.assertEqual([row["stated_by"] for row in (run, tree, whole)], ["formula"] * 3)
        self.assertEqual((run["recovery_tags_most"], run["recovery_digests_most"]), (64 * 4 * 512, 4 * 14 * 512 + 1))
        self.assertEqual((whole["recovery_tags_most"], whole["recovery_digests_most"]), (64 * 4 * 4 ** 14, 4 * ((4 ** 14 - 1) // 3) + 1))
        text = self.explore("bounds", "--memory", "1T").stdout
        self.assertIn("run: 14 levels; the program has at most 6 (16 MiB): the proved formulas are evaluated beyond their range", text)

    def test_the_largest_memory_is_in_range(self) -> None:
        for design, size in (("run", "16M"), ("tree", "1M")):
            (row,) = self.rows("--memory", size, "--designs", design)
            self.assertEqual((row["levels"], row["stated_by"]), (6, "contract"))
            (row,) = self.rows("--memory", str(memory_bytes(size) + 1), "--designs", design)
            self.assertEqual((row["levels"], row["stated_by"]), (7, "formula"))

    def test_recoveries_are_within_them(self) -> None:
        words = ("--levels", "1", "--cuts", "0", "--json", *words_of(QUICK))
        for design, size in (("run", "16K"), ("tree", "16K")):
            with self.subTest(design):
                result = self.explore("compare", "-", "--designs", design, *words, text=TWO)
                (row,) = json.loads(result.stdout)["designs"]
                (most,) = self.rows("--memory", size, "--designs", design)
                self.assertEqual(row["levels"], most["levels"])
                for name in ("tags", "digests", "line_reads", "steps"):
                    self.assertLessEqual(row[f"recovery_{name}_greatest"], most[f"recovery_{name}_most"])
                self.assertGreater(row["recovery_digests_greatest"], 0)

    def test_means_are_marked_as_extrapolated(self) -> None:
        """A first write makes k + 1 digests for the blocks that it fetches and k + 1 for its path; with 8 slots nothing is evicted."""
        trace = self.file("one.trace", f"post 0 0 {ONES}\ndrain 0\n")
        words = ("--memory", "1T", "--designs", "run", "--trace", trace, "--levels", "1,2", "--cuts", "1")
        means = {mean["mean"]: mean for mean in json.loads(self.explore("bounds", "--json", *words).stdout)["means"]}
        self.assertEqual((means["write_digests"]["values"], means["write_digests"]["extrapolated"]), ([4.0, 6.0], 30.0))
        self.assertIn("14 levels (extrapolated)", self.explore("bounds", *words).stdout)

    def test_wrong_words(self) -> None:
        for words, told in ((("--memory", "1X"), "is not a size of memory"), (("--memory", "16M", "--designs", "plain"), "is not one of"),
                            (("--memory", "16M", "--trace", "x", "--levels", "2"), "--trace needs two or more --levels"), ((), "--memory")):
            result = self.explore("bounds", *words)
            self.assertEqual((result.returncode, result.stdout), (2, ""))
            self.assertIn(told, result.stderr)


class NumbersTest(unittest.TestCase):
    def test_sizes(self) -> None:
        self.assertEqual([memory_bytes(text) for text in ("64", "4K", "16MiB", "1T", "2GB")], [64, 4096, 1 << 24, 1 << 40, 2 << 30])
        self.assertEqual([size_text(size) for size in (1 << 40, 3 << 20, 100)], ["1 TiB", "3 MiB", "100 bytes"])
        for text in ("0", "63", "1.5G", "-1", "2048P", "1 T"):
            self.assertRaises(argparse.ArgumentTypeError, memory_bytes, text)
        self.assertEqual([levels_for("run", size) for size in (1, 1 << 14, (1 << 14) + 1, 1 << 24)], [1, 1, 2, 6])

    def test_amounts(self) -> None:
        self.assertEqual([amount_text(value, "s") for value in (5.0, 1500.0, 2.5e6, 3e9, 2e12)],
                         ["5 ns", "1.5 µs", "2.5 ms", "3 s", "2,000 s"])

    def test_a_line_is_followed_only_if_it_is_one(self) -> None:
        self.assertEqual(Extrapolated("run", "x", (1, 2, 3), (2.0, 4.0, 6.0)).number_at(10), 20.0)
        self.assertIsNone(Extrapolated("run", "x", (1, 2, 3), (2.0, 4.0, 2.0)).number_at(10))

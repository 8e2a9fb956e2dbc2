"""`explore sweep`: what a trace costs under several settings."""
import csv
import io
import subprocess
import sys

from .helpers import FORGED, ONES, TOOLS, TWO_WRITES, WRITE, ExploreTest


class SweepTest(ExploreTest):
    def test_costs_of_a_write(self) -> None:
        (record,) = self.json("sweep", "-", text=WRITE)["settings"]
        self.assertEqual((record["writes"], record["reads"]), (1, 0))
        self.assertEqual((record["steps_per_write"], record["write_amplification"]), (7, 5))
        self.assertEqual((record["metadata_reads_per_write"], record["digests_per_write"]), (3, 6))
        self.assertIsNone(record["metadata_reads_per_read"])
        self.assertEqual((record["recovery"], record["recovery_trials"]), ("on 256 9 5", 256))

    def test_reads_and_parts(self) -> None:
        (record,) = self.json("sweep", "-", text=TWO_WRITES + "read 0 0\nread 0 70\nread 0 500\n")["settings"]
        self.assertEqual((record["writes"], record["reads"]), (3, 3))
        self.assertEqual(record["metadata_reads_per_read"], round(2 / 3, 3))
        self.assertEqual(record["digests_per_read"], round(2 / 3, 3))
        self.assertEqual(record["metadata_reads_per_write"], round(4 / 3, 3))
        self.assertEqual(record["digests_per_write"], round((4 + 9) / 3, 3))

    def test_metadata_reads_agree_with_digests(self) -> None:
        posts = "".join(f"post 0 {line} {ONES}\npart 0 {line} 5 ab\nfence 0\n" for line in (0, 64, 300, 900, 1))
        for record in self.json("sweep", "-", "--sets", "1,4", "--ways", "1", text=posts)["settings"]:
            paths = record["writes"] * (record["levels"] + 1)
            self.assertAlmostEqual(record["metadata_reads_per_write"] * record["writes"] + paths,
                                   record["digests_per_write"] * record["writes"], places=2)

    def test_settings_are_combined_in_order(self) -> None:
        records = self.json("sweep", "-", "--levels", "1,2", "--sets", "1,2", "--ways=1", "--loss", "1,16",
                            text=WRITE)["settings"]
        self.assertEqual([(record["levels"], record["sets"], record["ways"], record["loss"]) for record in records],
                         [(levels, sets, 1, loss) for levels in (1, 2) for sets in (1, 2) for loss in (1, 16)])
        self.assertEqual([record["recovery_trials"] for record in records[:2]], [64, 1024])

    def test_text_and_csv(self) -> None:
        text = self.output("sweep", "-", "--loss", "1,2,4", text=WRITE)
        self.assertEqual(len(text.splitlines()), 5)
        rows = list(csv.DictReader(io.StringIO(self.output("sweep", "-", "--loss", "1,2,4", "--csv", text=WRITE))))
        self.assertEqual([row["loss"] for row in rows], ["1", "2", "4"])
        self.assertEqual(rows[2]["recovery_trials"], "256")
        self.assertEqual(rows[2]["metadata_reads_per_read"], "")

    def test_a_table_for_latex(self) -> None:
        text = self.output("sweep", "-", "--loss", "1,4", "--latex", text=WRITE)
        lines = text.splitlines()
        self.assertEqual((lines[0], lines[-1]), (r"\begin{tabular}{rrrrrrrrrrrr}", r"\end{tabular}"))
        self.assertIn(r"2 & 4 & 2 & 4 & 1 & 7.00 & 5.00 & 3.00 & 6.00 & 256 & 9 & 5 \\", lines)
        self.assertEqual(text.count("\\hline"), 3)
        tree = self.output("sweep", "-", "--as", "tree", "--latex", text=f"write 1 {ONES}\n")
        self.assertIn("levels & sets & writes & steps/write & lines/write & meta reads/write & digests/write & digests & steps \\\\\n", tree)
        noted = self.output("sweep", "-", "--latex", "--levels", "1", text=f"post 0 300 {ONES}\n")
        self.assertTrue(noted.splitlines()[-1].startswith("% levels 1, "))
        found = subprocess.run([sys.executable, "-c", "from explorer.output import latex_text; print(latex_text(['a_b'], [['50% \\\\ ~']]))"],
                               cwd=TOOLS, stdout=subprocess.PIPE, universal_newlines=True, check=True)
        self.assertIn("a\\_b \\\\\n\\hline\n50\\% \\textbackslash{} \\textasciitilde{} \\\\\n", found.stdout)

    def test_places_out_of_range_are_told(self) -> None:
        text = self.output("sweep", "-", "--levels", "1,2", text=f"post 0 300 {ONES}\nread 0 300\n")
        self.assertIn("levels 1, sets 4, ways 2, loss 4: 2 commands name a place that is not there (range)\n", text)
        self.assertNotIn("levels 2, sets", text)

    def test_exhibits_and_refusals_are_told(self) -> None:
        text = self.output("sweep", "-", "--suite", "weak", text=FORGED)
        self.assertIn("loss 4: the run ends with an exhibit (forged)\n", text)
        text = self.output("sweep", "-", text=WRITE + "flip 0 0\n")
        self.assertIn("loss 4: recovery at the end answers refused counter 0 0\n", text)

    def test_output_file(self) -> None:
        self.assertEqual(self.output("sweep", "-", "--json", "-o", self.path("sweep.json"), text=WRITE), "")
        self.assertEqual(self.names(), ["sweep.json"])

"""`explore draw`: pictures of traces and sweeps."""
import importlib.util
import sys
import unittest
import xml.etree.ElementTree

from .helpers import EXAMPLES, FORGED, ONES, TWO_WRITES, WRITE, ExploreTest

# What a picture takes, which is loaded late, and takes longer than the picture.
MATPLOTLIB = ("matplotlib.pyplot", "matplotlib.backends.backend_agg", "matplotlib.backends.backend_svg", "matplotlib.backends.backend_pdf")
HAS_MATPLOTLIB = importlib.util.find_spec("matplotlib") is not None
PNG = b"\x89PNG\r\n\x1a\n"


@unittest.skipUnless(HAS_MATPLOTLIB, "matplotlib is not installed")
class PictureTest(ExploreTest):
    modules = MATPLOTLIB

    def draw(self, name: str, *words: str, text: str) -> bytes:
        """The picture of a trace."""
        self.assertEqual(self.output("draw", "-", "-o", self.path(name), *words, text=text), "")
        self.assertIn(name, self.names())
        return (self.directory / name).read_bytes()

    def test_png_and_svg_by_the_name(self) -> None:
        self.assertTrue(self.draw("picture.PNG", text=WRITE).startswith(PNG))
        root = xml.etree.ElementTree.fromstring(self.draw("picture.svg", text=WRITE))
        self.assertTrue(root.tag.endswith("svg"))

    def test_the_same_picture_each_time(self) -> None:
        self.assertEqual(self.draw("first.svg", text=WRITE), self.draw("second.svg", text=WRITE))

    def test_the_fonts_of_a_pdf(self) -> None:
        """They are TrueType, as IEEE and ACM ask for, and not Type 3."""
        drawn = self.draw("picture.pdf", "--suite", "weak", text=WRITE)
        self.assertNotIn(b"/Subtype /Type3", drawn)
        self.assertIn(b"/CIDFontType2", drawn)

    def test_the_examples(self) -> None:
        for name in ("power_cut", "attack"):
            self.draw(f"{name}.svg", "--title", "$ a title $", text=(EXAMPLES / f"{name}.trace").read_text())

    def test_latches_by_what_they_do(self) -> None:
        words = ("that arms the group", "that empties the group", "of the stop-loss number")
        for text, told in (("post 0 0 " + ONES + "\ncut 4\ndrain 0\n", words[:1]), (WRITE, words[:2]),
                           (WRITE + "loss 2\n", words[:3]), ("loss 2\n", words[2:3]), ("", ())):
            drawn = self.draw("latches.svg", "--suite", "weak", text=text).decode()
            self.assertEqual([each for each in words if f"<!-- latch {each} -->" in drawn], list(told))

    def test_empty_trace_exhibit_and_some_lines(self) -> None:
        self.draw("empty.svg", text="")
        self.draw("exhibit.svg", "--suite", "weak", text=FORGED)
        self.draw("lines.svg", "--lines", "2", text=TWO_WRITES)

    def test_curves_of_a_sweep(self) -> None:
        sweep = self.output("sweep", "-", "--json", "--loss", "1,4", "--sets", "1,2", text=WRITE)
        self.draw("curves.svg", text=sweep)
        self.draw("other.png", "--along", "sets", text=sweep)
        self.draw("points.svg", "--trade-off", text=sweep)
        for words in ((), ("--trade-off",)):
            first = self.draw("first.pdf", *words, text=sweep)
            self.assertTrue(first.startswith(b"%PDF"))
            self.assertEqual(first, self.draw("second.pdf", *words, text=sweep))

    def test_a_sweep_that_has_no_trade_off(self) -> None:
        sweep = self.output("sweep", "-", "--json", "--as", "tree", text=f"write 1 {ONES}\n")
        result = self.explore("draw", "-", "-o", self.path("a.svg"), "--trade-off", text=sweep)
        self.assertEqual((result.returncode, self.names()), (1, []))
        self.assertIn("explore: no setting of this sweep has both steps a write and recovery trials\n", result.stderr)

    def test_settings_that_drop_commands_are_told_in_the_picture(self) -> None:
        text = f"post 0 300 {ONES}\nfence 0\nread 0 300\n{WRITE}"
        sweep = self.output("sweep", "-", "--json", "--levels", "1,2", text=text)
        self.assertIn(b"levels 1 (hollow): 2 of 5 commands name a place", self.draw("dropped.svg", text=sweep))

    def test_the_other_machines(self) -> None:
        for name, words, labels in (("wear", ("--every", "1"), ("record", "1022")), ("txn", (), ("header", "body 0")),
                                    ("tree", (), ("slot 0", "of 5"))):
            drawn = self.draw(f"{name}.svg", "--as", name, *words, text=(EXAMPLES / f"{name}.trace").read_text()).decode()
            for text in (*labels, "latch that arms the group"):
                self.assertIn(f"<!-- {text} -->", drawn)
            self.assertEqual("<!-- counter blocks -->" in drawn, name != "tree")

    def test_json_that_is_no_sweep(self) -> None:
        for text in ('{"settings": []}', '{"settings": [1]}', "{", '{"settings": [{"levels": 1}]}'):
            self.assert_fails(self.explore("draw", "-", "-o", self.path("a.svg"), text=text), 1, "sweep --json")

    def test_along_is_for_sweeps(self) -> None:
        for words in (("--along", "sets"), ("--trade-off",)):
            result = self.explore("draw", "-", "-o", self.path("a.svg"), *words, text=WRITE)
            self.assert_fails(result, 2, words[0])
        self.assertEqual(self.names(), [])


class WithoutPicturesTest(ExploreTest):
    def test_a_missing_package_is_named(self) -> None:
        (self.directory / "matplotlib").mkdir()
        (self.directory / "matplotlib" / "__init__.py").write_text("raise ImportError('not here')\n")
        result = self.explore("draw", "-", "-o", self.path("a.svg"), text=WRITE, PYTHONPATH=str(self.directory))
        self.assert_fails(result, 1, "matplotlib", "python3-matplotlib", sys.executable)
        self.assertNotIn("a.svg", self.names())

    def test_an_interrupt_amid_a_callback_of_the_package_ends_all(self) -> None:
        (self.directory / "matplotlib").mkdir()
        (self.directory / "matplotlib" / "__init__.py").write_text("""
import os, signal, time
class Gone:
    def __del__(self):
        os.kill(os.getpid(), signal.SIGINT)
        time.sleep(0.1)
Gone()
raise ImportError("not here")
""")
        result = self.explore("draw", "-", "-o", self.path("a.svg"), text=WRITE, PYTHONPATH=str(self.directory))
        self.assertEqual((result.returncode, result.stdout, result.stderr), (130, "", "explore: interrupted\n"))

    def test_a_name_that_says_no_kind(self) -> None:
        for name in ("picture", "picture.gif"):
            self.assert_fails(self.explore("draw", "-", "-o", self.path(name), text=WRITE), 2, ".svg, .png or .pdf")

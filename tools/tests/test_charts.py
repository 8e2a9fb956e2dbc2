"""`explore draw` of what `compare`, `endurance` and `cuts` wrote as JSON."""
import importlib.util
import json
import re
import subprocess
import sys
import unittest
import xml.etree.ElementTree
from typing import Dict, List, Tuple

from .helpers import TOOLS, WRITE, ExploreTest
from .test_compare import FIGURES, SMALL
from .test_draw import MATPLOTLIB

HAS_MATPLOTLIB = importlib.util.find_spec("matplotlib") is not None


@unittest.skipUnless(HAS_MATPLOTLIB, "matplotlib is not installed")
class ChartTest(ExploreTest):
    modules = MATPLOTLIB

    def draw(self, name: str, text: str, *words: str) -> bytes:
        """A picture."""
        self.assertEqual(self.output("draw", "-", "-o", self.path(name), *words, text=text), "")
        return (self.directory / name).read_bytes()

    known: Dict[Tuple[str, ...], str] = {}

    def compared(self, *words: str) -> str:
        """What a comparison finds, with times if that is one of the words."""
        if words not in self.known:
            more = [each for word in words for each in (("--cost", self.file("f.toml", FIGURES)) if word == "times" else (word,))]
            self.known[words] = self.output("compare", "-", "--designs", "run", "--json", "--cuts", "0", *more, text=SMALL)
        return self.known[words]

    def texts(self, svg: bytes) -> List[str]:
        """The texts of a picture: matplotlib has each in a comment."""
        self.assertTrue(xml.etree.ElementTree.fromstring(svg).tag.endswith("svg"))
        return re.findall("<!-- (.*?) -->", svg.decode())

    def test_a_panel_for_each_measure(self) -> None:
        found = self.compared("--loss", "1,4", "times")
        drawn = self.texts(self.draw("all.svg", found))
        for text in ("persist steps a line written", "line writes a line written", "bytes on the chip", "time of a recovery", "nJ a line read",
                     "run, loss 1", "run, loss 4", "times and energy: a device for tests", "standard input"):
            self.assertIn(text, drawn)
        without = self.texts(self.draw("less.svg", self.compared(), "--title", "a $ title"))
        self.assertNotIn("time of a recovery", without)
        self.assertIn("a $ title", without)

    def test_trade_off_and_moments(self) -> None:
        timed = self.compared("--loss", "1,4", "times")
        self.assertIn("time of a line written, mean", self.texts(self.draw("a.svg", timed, "--trade-off")))
        drawn = self.texts(self.draw("b.svg", self.compared("--loss", "1,4"), "--trade-off"))
        self.assertIn("tags and digests of a recovery, mean", drawn)
        self.assertIn("at each point: stop-loss number", drawn)
        drawn = self.texts(self.draw("c.svg", timed, "--moments"))
        for text in ("persist steps before the cut", "digests", "line reads", "time", "run, loss 4"):
            self.assertIn(text, drawn)

    def test_kinds_of_pictures(self) -> None:
        for kind, start, word in (("png", b"\x89PNG", "--trade-off"), ("pdf", b"%PDF", "--moments")):
            first = self.draw(f"a.{kind}", self.compared(), word)
            self.assertTrue(first.startswith(start))
            self.assertEqual(first, self.draw(f"a.{kind}", self.compared(), word))

    def test_moments_of_cuts(self) -> None:
        drawn = self.texts(self.draw("cuts.svg", self.output("cuts", "-", "--json", "--levels", "1", text=WRITE)))
        for text in ("trials", "digests", "persist steps"):
            self.assertIn(text, drawn)

    def test_lines_by_their_writes(self) -> None:
        found = self.output("endurance", "-", "--designs", "run", "--loss", "1,4", "--json", text=SMALL)
        drawn = self.texts(self.draw("worn.svg", found))
        self.assertIn("writes of a line", drawn)
        self.assertIn("run, loss 4: most 2, data line 0", drawn)
        self.draw("worn.pdf", found)

    def test_too_many_moments(self) -> None:
        found = json.loads(self.compared())
        found.update({name: 9 * found[name] for name in ("designs", "recoveries")})
        result = self.explore("draw", "-", "-o", self.path("a.svg"), "--moments", text=json.dumps(found))
        self.assertEqual((result.returncode, self.names()), (2, []))
        self.assertIn("at most 8", result.stderr)

    def test_what_is_wrong(self) -> None:
        for text, words, told in (
                (json.dumps({"compare": []}), (), "this is not what explore compare --json wrote"),
                (json.dumps({"endurance": [], "parts": [{}]}), (), "this is not what explore endurance --json wrote"),
                ("[1]", (), "is neither a trace nor what explore sweep --json"),
                (WRITE, ("--moments",), "--moments is for a comparison's JSON alone"),
                (self.compared(), ("--along", "sets"), "--along is for a sweep's JSON alone")):
            with self.subTest(told):
                result = self.explore("draw", "-", "-o", self.path("a.svg"), *words, text=text)
                self.assertIn(told, result.stderr)
                self.assertNotIn("Traceback", result.stderr)
                self.assertEqual(self.names(), [])


class WithoutMatplotlibTest(ExploreTest):
    def test_nothing_but_pictures_needs_it(self) -> None:
        (self.directory / "matplotlib.py").write_text("raise ImportError('not here')\n")
        result = self.explore("compare", "-", "--designs", "run", "--cuts", "1", text=WRITE, PYTHONPATH=str(self.directory))
        self.assertEqual((result.returncode, result.stderr), (0, ""))
        found = self.output("compare", "-", "--designs", "run", "--cuts", "1", "--json", text=WRITE)
        result = self.explore("draw", "-", "-o", self.path("a.svg"), text=found, PYTHONPATH=str(self.directory))
        self.assert_fails(result, 1, "matplotlib", "python3-matplotlib")

    def test_the_module_is_loaded_late(self) -> None:
        loaded = subprocess.run([sys.executable, "-c", "import sys; import explorer.command_line; print('matplotlib' in sys.modules)"],
                                cwd=TOOLS, stdout=subprocess.PIPE, universal_newlines=True, check=True)
        self.assertEqual(loaded.stdout, "False\n")

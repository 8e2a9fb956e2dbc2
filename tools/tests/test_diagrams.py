"""Tests of tools/diagrams: the pictures of docs/pictures are those that it draws, and each is on a page."""
import importlib.machinery
import importlib.util
import subprocess
import sys
import tempfile
import unittest
from pathlib import Path
from types import ModuleType
from xml.etree import ElementTree

from .helpers import TOOLS

PICTURES = TOOLS.parent / "docs" / "pictures"
SVG = "{http://www.w3.org/2000/svg}"


def diagrams() -> ModuleType:
    loader = importlib.machinery.SourceFileLoader("diagrams", str(TOOLS / "diagrams"))
    spec = importlib.util.spec_from_loader("diagrams", loader)
    assert spec
    module = importlib.util.module_from_spec(spec)
    written, sys.dont_write_bytecode = sys.dont_write_bytecode, True
    try:
        loader.exec_module(module)
    finally:
        sys.dont_write_bytecode = written
    return module


class DiagramsTest(unittest.TestCase):
    def run_it(self, *words: str) -> "subprocess.CompletedProcess[str]":
        return subprocess.run([sys.executable, str(TOOLS / "diagrams"), *words], stdin=subprocess.DEVNULL, stdout=subprocess.PIPE,
                              stderr=subprocess.PIPE, universal_newlines=True, check=False)

    def test_the_pictures_are_those_drawn(self) -> None:
        with tempfile.TemporaryDirectory() as folder:
            done = self.run_it(folder)
            self.assertEqual((done.returncode, done.stdout, done.stderr), (0, "", ""))
            drawn = {path.name: path.read_bytes() for path in Path(folder).iterdir()}
        self.assertEqual(drawn, {path.name: path.read_bytes() for path in PICTURES.iterdir()})

    def test_each_picture_has_a_title_and_a_page(self) -> None:
        page = (TOOLS.parent / "docs" / "HOW_IT_WORKS.md").read_text(encoding="utf-8")
        for path in PICTURES.iterdir():
            root = ElementTree.parse(str(path)).getroot()
            self.assertTrue((root.findtext(f"{SVG}title") or "").strip(), path.name)
            self.assertIn("prefers-color-scheme:dark", root.findtext(f"{SVG}style") or "")
            self.assertIn(f"(pictures/{path.name})", page)

    def test_a_text_that_does_not_fit_is_an_error(self) -> None:
        module = diagrams()
        picture = module.Picture("a picture", 100)
        picture.box(10, 10, 100, 40, "short")
        for box in ((10, 10, 40, 40, "much too long"), (10, 10, 100, 20, "two\nlines")):
            with self.assertRaises(ValueError):
                picture.box(*box)
        for note in ((700, 20, "off the page"), (10, 200, "below it")):
            with self.assertRaises(ValueError):
                picture.note(*note)

    def test_wrong_words(self) -> None:
        self.assertEqual(self.run_it("a", "b").returncode, 2)
        self.assertEqual(self.run_it("--none").returncode, 2)
        self.assertTrue(self.run_it("--help").stdout.startswith("Draws the pictures"))


if __name__ == "__main__":
    unittest.main()

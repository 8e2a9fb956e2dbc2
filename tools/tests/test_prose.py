"""The turns of phrase that tools/prose_lint.py counts become no more, and it finds what it should.

prose_limits.txt has how often each may occur. When a count falls, lower its limit, which may only fall:
tools/prose_lint.py --limits > tools/tests/prose_limits.txt
"""
import re
import subprocess
import sys
import tempfile
import unittest
from pathlib import Path
from typing import Dict, List, Tuple

from .helpers import TOOLS

sys.path.insert(0, str(TOOLS))
import prose_lint  # noqa: E402

LIMITS_FILE = Path(__file__).with_name("prose_limits.txt")


def limits_of(text: str) -> Dict[str, Tuple[int, ...]]:
    """How often each turn of phrase may occur, in each kind of text."""
    rows = [line.rsplit(None, len(prose_lint.KINDS)) for line in text.splitlines()]
    return {name: tuple(map(int, numbers)) for name, *numbers in rows}


LIMITS = limits_of(LIMITS_FILE.read_text(encoding="utf-8"))


class ProseTest(unittest.TestCase):
    def test_counts_only_fall(self) -> None:
        found = list(prose_lint.findings(prose_lint.TOP))
        counted = prose_lint.counts(found)
        self.assertEqual(set(counted), set(LIMITS))
        for name, limits in LIMITS.items():
            for kind, limit in zip(prose_lint.KINDS, limits):
                with self.subTest(name, kind=kind):
                    places = [f"{path.relative_to(prose_lint.TOP)}:{line} {what}" for its, path, line, rule, what in found
                              if (rule, its) == (name, kind)]
                    more = f"at most {limit} may be there; tools/prose_lint.py --list shows all:\n" + "\n".join(places)
                    self.assertLessEqual(counted[name][kind], limit, more)


class RulesTest(unittest.TestCase):
    """What the rules find, and what they leave alone."""

    def found(self, **files: str) -> List[Tuple[str, int, str]]:
        """The findings in files of a folder: their file, line and rule."""
        with tempfile.TemporaryDirectory() as folder:
            for name, text in files.items():
                path = Path(folder, re.sub("_(md|rt|py|c|js)$", r".\1", name.replace("__", "/")))
                path.parent.mkdir(parents=True, exist_ok=True)
                path.write_text(text, encoding="utf-8")
            return [(str(path.relative_to(folder)), line, rule) for _, path, line, rule, _ in prose_lint.findings(Path(folder))]

    def test_each_rule_finds_its_phrase(self) -> None:
        phrases = {"where = if": "It is refused where a line is full.", "want of memory": "Its one error is want of memory.",
                   "front = prefix": "It leaves a front of them.", "told, said": "Both are told before.",
                   "topic Of": "Of a read its tags are counted.", "hasn't = lacks": "It hasn't a name.",
                   "archaic": "It is made anew.", "is no": "It is no number.", "so many": "After so many calls.",
                   "words = arguments": "Wrong ones: its own words.", "by figures": "Times by assumed figures."}
        self.assertEqual(set(phrases) | {"long sentence", "contraction"}, set(LIMITS))
        for name, phrase in phrases.items():
            with self.subTest(name):
                self.assertEqual(self.found(a_md=f"# A\n\n{phrase}\n"), [("a.md", 3, name)])

    def test_what_is_quoted_or_code_is_left_alone(self) -> None:
        self.assertEqual(self.found(a_md="`where a line is full`\n```\nwant of memory\n```\nIt has been told.\n"), [])
        self.assertEqual(self.found(crates__x__src__lib_rt="// where a line\n/// It goes where a line is.\nlet a = 1;\n"),
                         [("crates/x/src/lib.rt", 2, "where = if")])
        self.assertEqual(self.found(tools__a_py="so_many = 1\n\n\ndef a():\n    raise Error(f'so many {a}')\n"), [("tools/a.py", 5, "so many")])
        self.assertEqual(self.found(tools__tests__a_py="A = 'so many'\n", tools__b_c='char *a = "so many";\n', docs__a_py="# so many\n"), [])
        self.assertEqual(self.found(a_md="It says where a line is.\n\n| From where it goes | Where it is |\n"), [])

    def test_long_sentences(self) -> None:
        long = "word " * 20 + "\n" + "word " * 21 + "end."
        self.assertEqual(self.found(a_md=f"Short.\n\n{long} Short again.\n"), [("a.md", 3, "long sentence")])
        self.assertEqual(self.found(a_md=f"| {long.replace(chr(10), ' ')} |\n\n" + "word " * 30 + "one. " + "Word " * 30 + "two.\n"), [])

    def test_contractions_in_messages(self) -> None:
        self.assertEqual(self.found(tools__a_py='"""It isn\'t."""\nA = "it isn\'t"\n', a_md="It isn't.\n"), [("tools/a.py", 2, "contraction")])

    def test_docstrings_and_comments(self) -> None:
        python = '"""A.\n\nIt is told."""\na = "#"  # whoever\n\n\ndef b():\n    """`so many`: so many."""\n'
        self.assertEqual(self.found(tools__tests__a_py=python),
                         [("tools/tests/a.py", 3, "told, said"), ("tools/tests/a.py", 8, "so many"), ("tools/tests/a.py", 4, "archaic")])
        c = "/* One.\n * It is told. */\nint a; // so many\nchar *b = \"http://so many\";\n"
        self.assertEqual(self.found(library__a_c=c, page__src__a_js="f(); // so many\n"),
                         [("library/a.c", 3, "so many"), ("library/a.c", 2, "told, said"), ("page/src/a.js", 1, "so many")])
        found = self.found(pmem="#!/bin/sh\necho 1\n# It is told.\n", tools__a="#!/usr/bin/env python3\n# so many\n", tools__b="# so many\n")
        self.assertEqual(found, [("pmem", 3, "told, said"), ("tools/a", 2, "so many")])

    def test_places_in_comments(self) -> None:
        self.assertEqual(self.found(tools__a_py='"""Where each part lies."""\n# Where it is 0, it is left out.\n'), [("tools/a.py", 2, "where = if")])

    def test_long_sentences_of_comments(self) -> None:
        half = "# " + "word " * 21 + "\n"
        self.assertEqual(self.found(tools__a_py=f"a = 1\n{half}{half}b = 2\n"), [("tools/a.py", 2, "long sentence")])
        self.assertEqual(self.found(tools__a_py=f"{half}a = 1\n{half}#\n{half}"), [])
        table = "/* Words:\n" + "".join(f"     {'word ' * 15}\n" for _ in range(3)) + "   More. */\n"
        self.assertEqual(self.found(tools__a_c=table), [])

    def test_arguments(self) -> None:
        for words, status in ((["--help"], 0), (["--nothing"], 2), (["--list", "--limits"], 2), (["nowhere"], 2)):
            done = subprocess.run([sys.executable, str(TOOLS / "prose_lint.py"), *words], stdout=subprocess.PIPE, stderr=subprocess.PIPE,
                                  universal_newlines=True, check=False)
            self.assertEqual(done.returncode, status, done.stderr)

    def test_limits(self) -> None:
        with tempfile.TemporaryDirectory() as folder:
            Path(folder, "a.md").write_text("After so many calls.\n", encoding="utf-8")
            printed = subprocess.run([sys.executable, str(TOOLS / "prose_lint.py"), "--limits", folder], stdout=subprocess.PIPE,
                                     universal_newlines=True, check=True).stdout
        self.assertEqual(limits_of(printed), {name: (int(name == "so many"), 0, 0, 0) for name in prose_lint.NAMES})


if __name__ == "__main__":
    unittest.main()

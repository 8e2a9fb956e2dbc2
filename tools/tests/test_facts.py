"""A number that pages repeat is one number: times, versions, statuses, and counts of what lies in the repository."""
import re
import unittest
from typing import Dict, Iterator, List, Tuple

from .helpers import TOOLS

TOP = TOOLS.parent
# What a text says takes a time, and how long it says this takes. The first that a sentence names counts.
TIMES = (
    (r"tools/fuzz|tools/search_first|refuse_memory|tools/module", None),
    (r"--unproved|compiles? the sources|sources are compiled first", "about a minute"),
    (r"--prove\b|proves every function|proved (?:and built )?first|make (?:them|the proofs)", "20 minutes"),
    (r"portable|out/pmem|C compiler|C library|tools/library", "half a minute"),
)
DURATION = re.compile(r"\b(?:half a|about a|a|\d+) minutes?\b")
# The ends of sentences, of rows of a table, of lines of code and of options in a help.
SENTENCE = re.compile(r"(?<=[.:;])\s+|\n\s*\n|\n(?=\||  --| {4}\S)")
# Pages that say how long a check of the proof or a test takes, or when something changed.
OTHER_TIMES = {"CHANGELOG.md", "CONTRIBUTING.md", "docs/EXPLORE.md", "docs/COSTS.md", "docs/CLUSTER.md", "docs/DECISIONS.md", "docs/PROMISES.md"}


def texts() -> Iterator[Tuple[str, str]]:
    """The pages that say how to use pmem, and the help of ./pmem."""
    for path in [*TOP.glob("*.md"), *TOP.glob("docs/*.md"), TOP / "lessons" / "README.md", TOP / "python" / "README.md", TOP / "pmem"]:
        yield str(path.relative_to(TOP)), path.read_text(encoding="utf-8")


def page(name: str) -> str:
    """A page's text, each run of spaces and ends of lines as one space."""
    return " ".join((TOP / name).read_text(encoding="utf-8").split())


def durations(text: str) -> Iterator[Tuple[str, str]]:
    """The times that sentences of a text state for something in TIMES: what was found, and what should stand there."""
    for sentence in SENTENCE.split(text):
        joined = " ".join(sentence.split())
        due = next((due for pattern, due in TIMES if re.search(pattern, joined)), None)
        if due and DURATION.search(joined) and due not in joined:
            yield joined, due


def edits(pattern: str) -> int:
    return len(list(TOP.glob(pattern)))


class FactsTest(unittest.TestCase):
    def test_a_build_takes_the_same_time_on_each_page(self) -> None:
        self.assertEqual([(name, found) for name, text in texts() if name not in OTHER_TIMES for found in durations(text)], [])

    def test_numbers_of_edits(self) -> None:
        first, second = edits("crates/*/must-fail/*.edit"), edits("edits/*/*.edit")
        self.assertIn(f"{first} edits in each run of the gate, and {second} more", page("README.md"))
        self.assertIn(f"- {first} edits in `crates/NAME/must-fail/`", page("docs/PROMISES.md"))
        self.assertIn(f"- {second} edits in `edits/NAME/`", page("docs/PROMISES.md"))

    def test_number_of_stored_sessions(self) -> None:
        self.assertIn(f"| {edits('tools/tests/sessions/*.txt')} sessions of `wear`, `txn` and `tree`", page("docs/PROMISES.md"))

    def test_number_of_laws(self) -> None:
        laws = sum(len(re.findall(r"^ *//[/!] A law:", path.read_text(encoding="utf-8"), re.M)) for path in TOP.glob("crates/*/src/**/*.rt"))
        self.assertIn("Some hundred functions have a doc comment that begins with `A law:`", page("CONTRIBUTING.md"))
        self.assertTrue(90 <= laws < 115, laws)

    def test_versions_of_python(self) -> None:
        def required(name: str) -> str:
            return str(re.findall(r'requires-python = ">=([0-9.]+)"', page(name))[0])

        tools, package = required("pyproject.toml"), required("python/pyproject.toml")
        for name in ("README.md", "CONTRIBUTING.md", "docs/TUTORIAL.md", "docs/EXPLORE.md", "docs/PORTABLE.md", "docs/LIBRARY.md", "pmem"):
            self.assertIn(f"Python {tools}", page(name), name)
        for name in ("README.md", "python/README.md"):
            self.assertIn(f"Python {package}", page(name), name)
        # the first Python that reads TOML
        for name in ("docs/COSTS.md", "docs/TUTORIAL.md", "tools/explorer/costs.py"):
            self.assertIn("Python 3.11", page(name), name)
        versions = [(name, version) for name, text in texts() for version in re.findall(r"Python (3\.[0-9]+)", text)]
        self.assertEqual([it for it in versions if it[1] not in (tools, package, "3.11", "3.13")], [])

    def test_versions_of_the_toolchain(self) -> None:
        """Pages name no version of the toolchain that toolchain.txt doesn't list."""
        known = {line.rpartition("-")[2] for line in (TOP / "toolchain.txt").read_text().split()}
        self.assertTrue(known)
        named = [(name, version) for name, text in texts() for version in re.findall(r"\bkit[- ](\w+)|\((1[0-9][a-z])\)", text)]
        self.assertEqual([(name, version) for name, version in named if (version[0] or version[1]) not in known], [])

    def test_statuses_of_the_script(self) -> None:
        """Each status with which ./pmem ends by itself is in its help."""
        script = (TOP / "pmem").read_text(encoding="utf-8")
        statuses = set(re.findall(r"\bexit (12[0-9])\b", script))
        self.assertEqual(statuses, {"126", "127"})
        told = script.split("help='")[1].split("'\n")[0]
        for status in sorted(statuses):
            self.assertRegex(told, rf"\b{status} \w")
            self.assertIn(status, page("docs/FAQ.md"))

    def test_a_fault_has_one_wording(self) -> None:
        """The message about a line at fault at the terminal, in the explorer, in the Python package and on the page."""
        stops = dict(re.findall(r"^([1-6]): (.+)$", (TOP / "tools" / "explorer" / "stops.txt").read_text(encoding="utf-8"), re.M))
        self.assertEqual(len(stops), 6)
        package = (TOP / "python" / "pmem" / "errors.py").read_text(encoding="utf-8").split("KINDS: ")[1]
        script = (TOP / "page" / "src" / "model.js").read_text(encoding="utf-8").split("FAULTS = {")[1].split("};")[0]
        for kind, text in stops.items():
            self.assertIn(f'    {kind}: "{text}",', package)
            self.assertRegex(script, rf"{kind}: '{re.escape(text)}[:']")

    def test_lesson_0_counts_the_parts_of_its_table(self) -> None:
        lesson = (TOP / "lessons" / "00-a-map-of-the-device" / "README.md").read_text(encoding="utf-8")
        rows = re.findall(r"^\| [0-9]+(?:,? (?:to )?[0-9]+)? \| ", lesson, re.M)
        words = ("no", "one", "two", "three", "four", "five", "six")
        self.assertIn(f"Into {words[len(rows)]} kinds of lines", lesson)

    def test_the_contract_of_run(self) -> None:
        """PROMISES has a row for each clause of `run`, and quotes IsCallWith as it stands."""
        program = (TOP / "crates" / "pmem_cli" / "src" / "program.rt").read_text(encoding="utf-8")
        head = program.split("pub fn run<")[1].split("\n{\n")[0]
        clauses = re.findall(r"^ *ensures (\w+) ", head, re.M)
        self.assertIn("call", clauses)
        self.assertNotRegex(head, r"(?m)^ *requires")
        text = (TOP / "docs" / "PROMISES.md").read_text(encoding="utf-8").split("## Reading the contract of `run`")[1].split("\n## ")[0]
        rows = re.findall(r"^\| (`\w+`(?:, `\w+`)*) \|", text, re.M)
        self.assertEqual(sorted(name for row in rows for name in re.findall(r"\w+", row)), sorted(clauses))
        definitions = (TOP / "crates" / "pmem_cli" / "specs" / "Determined.antt").read_text(encoding="utf-8")
        self.assertIn(text.split("```\n")[1], definitions)

    def test_the_stack(self) -> None:
        """The header, the formats and the library's page have one size."""
        kilobytes = int(re.findall(r"#define PMEM_STACK_BYTES \(([0-9]+) \* 1024\)", page("include/pmem.h"))[0])
        for name in ("docs/FORMATS.md", "docs/LIBRARY.md"):
            self.assertIn(f"{kilobytes} kB", page(name), name)


class DurationsTest(unittest.TestCase):
    """What the check of times finds, and what it leaves alone."""

    def test_durations(self) -> None:
        wrong: Dict[str, List[Tuple[str, str]]] = {
            "The portable program is made in half a minute. Tests take 3 minutes.": [],
            "The portable program is made\nin a minute.": [("The portable program is made in a minute.", "half a minute")],
            "`./pmem --unproved` takes half a minute": [("`./pmem --unproved` takes half a minute", "about a minute")],
            "| a | b |\n| `--prove` | proves in 10 minutes |": [("| `--prove` | proves in 10 minutes |", "20 minutes")],
        }
        for text, found in wrong.items():
            with self.subTest(text):
                self.assertEqual(list(durations(text)), found)


if __name__ == "__main__":
    unittest.main()

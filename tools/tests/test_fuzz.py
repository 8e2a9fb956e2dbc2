"""tools/fuzz: each driver for some seconds, and each of its checks finds what it should.

PMEM_FUZZ_SECONDS is how long each driver runs, 1 without it. What clang or its runtime is needed for is skipped without them."""
import os
import re
import shutil
import subprocess
import sys
import unittest
from pathlib import Path
from typing import List

from fuzzer import building

from .helpers import TOOLS, ExploreTest, build_of, library_folder, program_path

TOP = TOOLS.parent
FUZZER = TOOLS / "fuzzer"
SECONDS = os.environ.get("PMEM_FUZZ_SECONDS", "1")
SEED = "7"
CLANG = ("-std=c11", "-O1", "-g", "-fsanitize=fuzzer,address,undefined", "-fno-sanitize-recover=all")


def fuzz(*words: str, **variables: str) -> "subprocess.CompletedProcess[str]":
    """What tools/fuzz answers."""
    return subprocess.run([sys.executable, str(TOOLS / "fuzz"), *words], stdin=subprocess.DEVNULL, stdout=subprocess.PIPE,
                          stderr=subprocess.PIPE, universal_newlines=True, env={**os.environ, "PMEM_PROGRAM": program_path(), **variables},
                          check=False)


def library() -> List[str]:
    """The words that name the native library. Over it a driver is built in seconds, over the portable one in minutes.

    Raises:
        unittest.SkipTest: it can't be made here, since nothing is proved.
    """
    given = os.environ.get("PMEM_LIBRARY")
    if given and build_of(Path(given)) != "native":
        return []
    try:
        return ["--native", str(library_folder("native"))]
    except unittest.SkipTest as why:
        raise unittest.SkipTest(f"{why}; tools/fuzz runs the drivers over the portable library") from why


class DriversTest(unittest.TestCase):
    def finds_nothing(self, driver: str, *words: str) -> None:
        result = fuzz(driver, "--seconds", SECONDS, "--seed", SEED, *words)
        if result.returncode in (126, 127):
            raise unittest.SkipTest(result.stderr.strip())
        self.assertEqual(result.returncode, 0, result.stdout + result.stderr)
        told, counts = result.stdout.splitlines()
        self.assertRegex(told, rf"^{driver}: [1-9][0-9]* runs in {SECONDS} s, nothing found$")
        self.assertEqual(counts, "1 passed, 0 failed")

    def test_answer(self) -> None:
        self.finds_nothing("answer", *library())

    def test_sessions(self) -> None:
        self.finds_nothing("sessions", *library())

    def test_typed(self) -> None:
        self.finds_nothing("typed")

    def test_threads(self) -> None:
        self.finds_nothing("threads", *library())

    def test_pipe(self) -> None:
        try:
            words = library()
        except unittest.SkipTest:
            words = []
        self.finds_nothing("pipe", *words)


class FindsTest(ExploreTest):
    """A driver ends at a fault that is planted in the library's C, within seconds."""

    def planted(self, name: str, before: str, after: str) -> str:
        """What the driver `typed` prints over the library's C with one change."""
        clang = shutil.which("clang")
        if clang is None:
            raise unittest.SkipTest("clang is not there")
        sources = [TOP / "library" / each for each in ("session.c", "copy_lines.c", "session.h")] + [TOP / "include" / "pmem.h"]
        for path in sources:
            text = path.read_text(encoding="utf-8")
            if path.name == name:
                self.assertEqual(text.count(before), 1)
                text = text.replace(before, after)
            self.file(path.name, text)
        words = [clang, *CLANG, f"-I{self.directory}", f"-I{FUZZER}", *(str(FUZZER / each) for each in ("typed.c", "stand_in.c")),
                 self.path("session.c"), self.path("copy_lines.c"), "-o", self.path("driver")]
        made = subprocess.run(words, stdout=subprocess.PIPE, stderr=subprocess.STDOUT, universal_newlines=True, check=False)
        if made.returncode and "libclang_rt" in made.stdout:
            raise unittest.SkipTest("clang has no runtime")
        self.assertEqual(made.returncode, 0, made.stdout)
        ended = subprocess.run([self.path("driver"), f"-seed={SEED}", "-runs=200000", "-max_total_time=60", "-len_control=0",
                                f"-artifact_prefix={self.directory}/"], stdin=subprocess.DEVNULL, stdout=subprocess.PIPE,
                               stderr=subprocess.STDOUT, universal_newlines=True, errors="replace", check=False)
        self.assertNotEqual(ended.returncode, 0, "the fault is not found")
        return ended.stdout

    def test_reading_behind_a_mark(self) -> None:
        """The header once read on behind a mark that ends early."""
        said = self.planted("pmem.h", "while (minor.at != minor.end && *minor.at != '.') minor.at++;", "while (*minor.at != '.') minor.at++;")
        self.assertIn("heap-buffer-overflow", said)

    def test_memory_that_is_lost(self) -> None:
        self.assertIn("LeakSanitizer", self.planted("copy_lines.c", "    free(its->at);\n", ""))

    def test_a_handle_that_stays_open(self) -> None:
        """The second close of such a handle has no session."""
        close = "    end_session((session *)handle->session);\n"
        self.assertIn("null pointer of type 'session'", self.planted("session.c", f"{close}    handle->is_open = false;\n", close))

    def test_a_wrong_status(self) -> None:
        """A closed handle that is called over breaks a check of the driver itself."""
        before = "return PMEM_NOT_OPEN;\n    its = (session *)handle->session;\n    if (line_len"
        self.assertIn("does not hold", self.planted("session.c", before, before.replace("NOT_OPEN", "OVER")))


class PartsTest(unittest.TestCase):
    """The portable library under sanitizers: what is watched, and what is compiled again."""

    TEXT = f"a {building.TRANSLATED[0]} b {building.TRANSLATED[1]} c"

    def test_the_translated_functions_are_left_alone(self) -> None:
        before, inside, behind = re.split("#pragma clang attribute (?:push.*|pop)\n", building.checked_itself(self.TEXT))
        self.assertEqual((before, inside, behind), ("a ", f"{building.TRANSLATED[0]} b ", f"{building.TRANSLATED[1]} c"))
        for text in ("a b c", self.TEXT + self.TEXT):
            self.assertRaises(building.FuzzError, building.checked_itself, text)

    def test_which_parts_are_compiled_again(self) -> None:
        def names(text: str, *words: str) -> List[Path]:
            return [building.part_object(number, ["clang", *words], text, False) for number in range(4)]
        first = names(self.TEXT)
        self.assertEqual([name == other for name, other in zip(first, names(self.TEXT + "d"))], [False, True, True, True])
        for others in (names("a" + self.TEXT), names(self.TEXT, "-O2")):
            self.assertFalse(set(first) & set(others))
        self.assertEqual(len(set(first)), 4)


class WordsTest(ExploreTest):
    def ends_with(self, status: int, text: str, *words: str, **variables: str) -> None:
        result = fuzz(*words, **variables)
        self.assertEqual((result.returncode, result.stdout), (status, ""), result.stderr)
        self.assertIn(text, result.stderr)
        self.assertNotIn("Traceback", result.stderr)

    def test_wrong_words(self) -> None:
        for words in (["nothing"], ["--seconds", "0"], ["--seed", "-1"], ["--native", str(self.directory)]):
            self.ends_with(2, "usage: tools/fuzz", *words)

    def test_no_clang(self) -> None:
        self.ends_with(127, "install clang", "typed", PATH=str(self.directory), CC="")

    def test_clang_without_its_runtime(self) -> None:
        self.script("clang", "import sys\nsys.exit('no libclang_rt here')\n")
        self.ends_with(127, "cannot link libFuzzer", "typed", PATH=str(self.directory), CC="")

    def test_help(self) -> None:
        said = fuzz("--help").stdout
        for name in ("answer", "sessions", "typed", "threads", "pipe"):
            self.assertIn(f"  {name} ", said)


if __name__ == "__main__":
    unittest.main()

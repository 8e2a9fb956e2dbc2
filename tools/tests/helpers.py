"""What the tests share: running `explore` as a command, and traces to run it on."""
import ctypes
import json
import os
import shutil
import subprocess
import sys
import tempfile
import unittest
from functools import lru_cache
from pathlib import Path
from typing import Any, Dict, List, Optional, Tuple

from .starter import EXPLORE as EXPLORE, TOOLS as TOOLS, starter

EXAMPLES = TOOLS.parent / "examples"

ONES = "11" * 64
WRITE = f"post 0 0 {ONES}\ndrain 0\n"
TWO_WRITES = WRITE + f"post 1 70 {'22' * 64}\npart 1 70 3 aabb\nfence 1\n"
FORGED = "flip 5 0\nflip 5 8\nread 0 5\n"
TWIN = f"post 0 0 {ONES}\ncut 5\ndrain 0\non\n"
# For tests in which neither the ciphers nor the memory's size matter: these take a fraction of the time.
QUICK: Dict[str, Any] = {"suite": "weak"}
SMALL: Dict[str, Any] = {**QUICK, "levels": 1}


def small_example(name: str) -> str:
    """The trace of an example for a memory of one level, in which the last two lines of `wear` are 252 and 253."""
    return (EXAMPLES / f"{name}.trace").read_text().replace("place 1020\n", "place 252\n").replace("place 1021\n", "place 253\n")


def words_of(settings: Dict[str, Any]) -> List[str]:
    """Settings as options."""
    return [word for name, value in settings.items() for word in (f"--{name}", str(value))]


def program_path() -> str:
    """The program that the tests ask."""
    return os.environ.get("PMEM_PROGRAM") or str(TOOLS.parent / "pmem")


def build_of(folder: Path) -> str:
    """Which build the library in a folder is, as it says itself."""
    told = ctypes.CDLL(str(folder / "libpmem.so")).pmem_build
    told.restype = ctypes.c_char_p
    return bytes(told()).decode()


@lru_cache(maxsize=None)
def library_folder(build: str) -> Path:
    """The folder of libpmem.a and libpmem.so of a build, `native` or `portable`: PMEM_LIBRARY, else the one that tools/library makes; the
    native build of what is proved. If that, a compiler or the toolchain is missing, the tests that ask are skipped."""
    given = os.environ.get("PMEM_LIBRARY")
    if given:
        if build_of(Path(given)) != build:
            raise unittest.SkipTest(f"PMEM_LIBRARY names the other build, not the {build} one")
        return Path(given)
    folder = TOOLS.parent / "out" / build
    words = [sys.executable, str(TOOLS / "library"), "--of-proved" if build == "native" else "--portable", "--out", str(folder)]
    made = subprocess.run(words, stdin=subprocess.DEVNULL, stdout=subprocess.PIPE, stderr=subprocess.PIPE, universal_newlines=True, check=False)
    if made.returncode in (126, 127):
        raise unittest.SkipTest(made.stderr.strip())
    if made.returncode:
        raise AssertionError(made.stderr)
    return folder


def any_library() -> Path:
    """The shared library of a build: the portable one, or else the native one."""
    try:
        return library_folder("portable") / "libpmem.so"
    except unittest.SkipTest:
        return library_folder("native") / "libpmem.so"


class ExploreTest(unittest.TestCase):
    """A test with its own directory. `explore` is run by a process that has loaded its modules, and these as well."""

    modules: Tuple[str, ...] = ()

    def setUp(self) -> None:
        directory = tempfile.TemporaryDirectory()
        self.addCleanup(directory.cleanup)
        self.directory = Path(directory.name)

    def file(self, name: str, text: str) -> str:
        """Writes a file, and answers its path."""
        path = self.directory / name
        path.write_bytes(text.encode())
        return str(path)

    def path(self, name: str) -> str:
        """The path of a file that needn't be there."""
        return str(self.directory / name)

    def names(self) -> List[str]:
        """The files in the directory."""
        return sorted(os.listdir(self.directory))

    def script(self, name: str, text: str) -> str:
        """Writes a program in Python."""
        path = self.file(name, f"#!{sys.executable}\n{text}")
        os.chmod(path, 0o755)
        return path

    def program_without_log(self) -> str:
        """A program that refuses `--log`, and otherwise answers as the one that the tests ask."""
        path = self.file("without_log", f"""#!/bin/sh
for word in "$@"; do if [ "$word" = --log ]; then echo "stop words"; exit 2; fi; done
exec '{os.path.abspath(program_path())}' "$@"
""")
        os.chmod(path, 0o755)
        return path

    def by_node(self, script: str, given: str, value: Any) -> Any:
        """What a script answers, in JSON, that has the page's modules in `src` and a file of JSON with this value. Its argument is the program."""
        node = shutil.which("node")
        if node is None:
            self.skipTest("node isn't there")
        shutil.copytree(TOOLS.parent / "page" / "src", self.path("src"))
        self.file("package.json", '{"type": "module"}')
        self.file("script.mjs", script)
        self.file(given, json.dumps(value))
        said = subprocess.run([node, "script.mjs", os.path.abspath(program_path())], cwd=self.directory, stdout=subprocess.PIPE, check=True)
        return json.loads(said.stdout)

    def explore(self, *words: str, text: Optional[str] = None, **variables: str) -> "subprocess.CompletedProcess[str]":
        """Runs `explore` on these words, with text on its standard input. If variables are given, Python is started with them."""
        if not variables:
            return starter(*self.modules).run(words, text or "", dict(os.environ))
        return subprocess.run([sys.executable, str(EXPLORE), *words], input=text or "", stdout=subprocess.PIPE,
                              stderr=subprocess.PIPE, universal_newlines=True, env={**os.environ, **variables},
                              check=False)

    def output(self, *words: str, text: Optional[str] = None) -> str:
        """What `explore` prints if all goes well."""
        result = self.explore(*words, text=text)
        self.assertEqual((result.returncode, result.stderr), (0, ""))
        return result.stdout

    def json(self, *words: str, text: Optional[str] = None) -> Any:
        """The JSON that it prints."""
        return json.loads(self.output(*words, "--json", text=text))

    def assert_fails(self, result: "subprocess.CompletedProcess[str]", status: int, *texts: str) -> None:
        """It failed with this status, printed nothing, and told why in a line that has these texts."""
        self.assertEqual((result.returncode, result.stdout), (status, ""), result.stderr)
        self.assertTrue(result.stderr.startswith("explore: "), result.stderr)
        self.assertNotIn("Traceback", result.stderr)
        for text in texts:
            self.assertIn(text, result.stderr)


def lesson_words(folder: Path) -> List[str]:
    """The words that the trace of a lesson, of an exercise or of an answer is run by."""
    machine = next((place / "machine" for place in (folder, folder.parent) if (place / "machine").is_file()), None)
    options = folder / "options"
    return [machine.read_text().strip() if machine else "run", *(options.read_text().split() if options.exists() else [])]

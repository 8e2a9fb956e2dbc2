"""The library: the header, what the program answers through C, wrong use, random calls, memory that runs out, stacks, and the examples.

All of it is tested for both builds: the native one, which tools/library makes of what the gate proved, and the portable one, which it makes
of the module. PMEM_LIBRARY names a folder with one of them instead. What cannot be made here is skipped, with a note."""
import ctypes
import os
import random
import re
import shutil
import subprocess
import sys
import unittest
from pathlib import Path
from typing import Any, Dict, List, Optional, Tuple
from unittest import mock

from librarymaker import command_line, native, portable, source
from librarymaker.files import LibraryError

from .helpers import EXAMPLES, TOOLS, ExploreTest, build_of, lesson_words, library_folder, program_path
from .test_outputs import SESSIONS, WORDS, read_session

TOP = TOOLS.parent
HEADER = TOP / "include"
C_OF_LIBRARY = [str(TOP / "library" / name) for name in ("session.c", "copy_lines.c")]
SOURCES = Path(__file__).resolve().parent / "library"
SANITIZED = ("-fsanitize=address,undefined", "-fno-sanitize-recover=all")
STRICT = ["-Wall", "-Wextra", "-Wpedantic", "-Wconversion", "-Wshadow", "-Werror"]
C, CPP = ["-std=c11"], ["-std=c++17"]

Case = Tuple[List[str], bytes]


def compiler_of(*names: str) -> Optional[str]:
    """The first of these compilers that is there."""
    return next((name for name in names if shutil.which(name)), None)


def output_of(words: List[str], given: bytes = b"") -> Tuple[int, bytes]:
    """The status and the output of a program."""
    result = subprocess.run(words, input=given, stdout=subprocess.PIPE, check=False)
    return result.returncode, result.stdout


def cases() -> Dict[str, Case]:
    """The words and the trace of each lesson, each question's answer, each example, each session, and ten samples."""
    found: Dict[str, Case] = {}
    for trace in sorted((TOP / "lessons").glob("[0-9]*/**/trace")):
        found[str(trace.relative_to(TOP))] = (lesson_words(trace.parent), trace.read_bytes())
    for trace in sorted(EXAMPLES.glob("*.trace")):
        found[trace.name] = (WORDS.get(trace.stem, "run").split(), trace.read_bytes())
    for path in sorted(SESSIONS.glob("*.txt")):
        words, _, text, _ = read_session(path.read_text())
        found[path.name] = (words, text.encode())
    for seed in range(10):
        status, made = output_of([program_path(), "make", str(seed), "250"])
        assert status == 0
        found[f"sample {seed}"] = (["run", "--levels", "1"] if seed % 2 else ["run"], made)
    for name, given in (("faulty", b"stat\nread 0 x\nstat\n"), ("long", b"stat\n" + b"x" * 1025 + b"\n"),
                        ("unended", b"stat\r\n\nstat")):
        found[name] = (["run", "--suite", "weak"], given)
    found["no task"] = (["nonsense"], b"stat\n")
    return found


@unittest.skipUnless(compiler_of("gcc", "clang"), "neither gcc nor clang is there")
class HeaderTest(ExploreTest):
    def compiled(self, compilers: Tuple[str, ...], standard: List[str], name: str) -> None:
        """Only the header, twice, and a call, without a warning."""
        path = self.file(name, '#include "pmem.h"\n#include "pmem.h"\nint main(void) { pmem m = PMEM_CLOSED; return pmem_stats(&m).status != 64; }\n')
        for compiler in compilers:
            if shutil.which(compiler):
                with self.subTest(compiler):
                    subprocess.run([compiler, *standard, *STRICT, f"-I{HEADER}", "-c", path, "-o", self.path("it.o")], check=True)

    def test_c11(self) -> None:
        self.compiled(("gcc", "clang"), C, "it.c")

    def test_cpp17(self) -> None:
        self.compiled(("g++", "clang++"), CPP, "it.cc")


@unittest.skipUnless(compiler_of("gcc", "clang"), "neither gcc nor clang is there")
class MarksTest(ExploreTest):
    def test_marks_of_any_text(self) -> None:
        """pmem_read_mark reads nothing past its text, which AddressSanitizer checks, and takes only marks."""
        program = self.path("marks")
        subprocess.run([compiler_of("gcc", "clang") or "cc", *C, *STRICT, "-O1", "-g", *SANITIZED, f"-I{HEADER}", str(SOURCES / "marks.c"),
                        "-o", program], check=True)
        status, said = output_of([program])
        self.assertEqual(status, 0, said)
        lines = said.decode().splitlines()
        self.assertEqual([(place, line) for place, line in enumerate(lines) if line != "0 0 0 0.0 0000"], [
            (14, "44 0 5 0.1 0051"), (15, "68 0 1023 18446744073709551615.127 0f0f"), (20, "8 1 3 0.0 0000"), (21, "9 1 15 0.0 0000")])


class BuildTest:
    """What each build has to pass."""

    build = ""
    folder: Path

    @classmethod
    def setUpClass(cls) -> None:
        if not compiler_of("gcc", "clang"):
            raise unittest.SkipTest("neither gcc nor clang is there")
        cls.folder = library_folder(cls.build)

    def built(self: Any, source: Path, *options: str, shared: bool = False) -> str:
        """A program of this source, linked with the library. A sanitizer watches the native build's C too. It is left out over the portable
        build: it would mark the 4 GiB that each session reserves."""
        is_cpp = source.suffix == ".cc"
        compiler = compiler_of("g++", "clang++") if is_cpp else compiler_of("gcc", "clang")
        if compiler is None:
            raise unittest.SkipTest("no compiler of C++ is there")
        library = [f"-L{self.folder}", f"-Wl,-rpath,{self.folder}", "-lpmem"] if shared else [str(self.folder / "libpmem.a")]
        if self.build == "portable":
            options = ()
        elif options:
            library = C_OF_LIBRARY + library
        program = self.path(source.stem)
        subprocess.run([compiler, *(CPP if is_cpp else C), *STRICT, "-O1", "-g", *options, f"-I{HEADER}", str(source), "-o", program, *library,
                        "-lpthread"], check=True)
        return str(program)

    def runs(self: Any, words: List[str]) -> str:
        """What a program prints that ends with status 0."""
        result = subprocess.run(words, stdin=subprocess.DEVNULL, stdout=subprocess.PIPE, stderr=subprocess.STDOUT, universal_newlines=True,
                                check=False)
        self.assertEqual(result.returncode, 0, result.stdout)
        return result.stdout

    def test_outputs(self: Any) -> None:
        """Byte for byte as the program answers, by one call and line by line, from either library."""
        static = self.built(SOURCES / "program.c")
        found = cases()
        self.assertGreater(len(found), 60)
        for name, (words, given) in found.items():
            for asked in (words, [*words, "--log"]):
                due = output_of([program_path(), *asked], given)
                for how in ("answer", "tell"):
                    with self.subTest(name, how=how, asked=asked):
                        self.assertEqual(output_of([static, how, *asked], given), due)

    def test_words(self: Any) -> None:
        """A session opens exactly on the words that the program takes."""
        static = self.built(SOURCES / "program.c", *SANITIZED)
        chance, taken = random.Random(7), 0
        values = {"levels": ("1", "2", "0", "7", "002"), "sets": ("1", "64", "65", "256", ""), "ways": ("8", "9", "1x", "01"),
                  "loss": ("1", "2", "4", "8", "16", "3", "260"), "major": ("0", str(2**64 - 1), str(2**64), "9" * 21, "-1"),
                  "suite": ("weak", "blur", "aes", "Weak", ""), "key": ("0f" * 16, "0F" * 16, "0f" * 15, "0g" * 16),
                  "tag-key": ("aB", "0" * 128, "a", "", "0" * 130), "every": ("1", "1000000", "1000001", "0", str(2**32)), "nothing": ("1",),
                  "log": ("", "1"), "persist": ("0", "1", "3", "7", "8", "01", "-1", ""), "shadow": ("on", "off", "On", ""),
                  "queue": ("durable", "volatile", "kept", ""), "combine": ("on", "off", "1", "")}
        strange: List[List[str]] = [[], ["Run"], ["ru"], ["", "run"]]
        for _ in range(400):
            words = [chance.choice(("run", "wear", "txn", "tree"))] if chance.randrange(40) else [*chance.choice(strange)]
            for name in chance.sample(list(values), chance.randrange(4)):
                value = chance.choice(values[name][:2]) if chance.randrange(4) else chance.choice(values[name])
                words += [f"--{name}={value}"] if chance.randrange(2) else [f"--{name}", value]
            if chance.randrange(5) == 0:
                log = chance.choice(("--log", "--log", "--log", "--log=1", "--log="))
                words.insert(chance.randrange(min(1, len(words)), len(words) + 1), log)
            if chance.randrange(20) == 0:
                words += chance.choice((words[-1:], ["--suite"], ["-"], ["--"], ["suite", "weak"], ["--suite==weak"], ["\u00e9"], words[-2:]))
            due = output_of([program_path(), *words])
            taken += due[0] == 0
            self.assertEqual(output_of([static, "tell", *words]), due, words)
        self.assertGreater(taken, 100)
        self.assertLess(taken, 300)

    def test_shared_library(self: Any) -> None:
        shared = self.built(SOURCES / "program.c", shared=True)
        trace = (EXAMPLES / "power_cut.trace").read_bytes()
        for how in ("answer", "tell"):
            self.assertEqual(output_of([shared, how, "run"], trace), (0, (EXAMPLES / "power_cut.out").read_bytes()))
        names = self.runs(["nm", "-D", "--defined-only", str(self.folder / "libpmem.so")]).split()[2::3]
        self.assertEqual(sorted(names), ["pmem_answer", "pmem_build", "pmem_close", "pmem_copy", "pmem_forget", "pmem_open",
                                         "pmem_reply", "pmem_tell", "pmem_version"])

    def test_typed_calls(self: Any) -> None:
        self.assertEqual(self.runs([self.built(SOURCES / "typed.c")]), "")

    def test_policies(self: Any) -> None:
        """Memories by the arguments of policies and queues; those that the program refuses aren't opened."""
        self.assertEqual(self.runs([self.built(SOURCES / "policies.c")]), "")

    def test_wrong_use(self: Any) -> None:
        self.assertEqual(self.runs([self.built(SOURCES / "misuse.c", *SANITIZED)]), "")

    def test_random_calls(self: Any) -> None:
        """No call leaves its blocks, gives memory back twice, or keeps it."""
        program = self.built(SOURCES / "random_calls.c", *SANITIZED)
        said = self.runs([program, "100000", "7"])
        for status in (0, 6, 51, 52, 53, 54, 55, 56, 64, 66):
            self.assertIn(f"status {status}: ", said)

    def test_no_memory_left(self: Any) -> None:
        """Under a limit of the process sessions are refused, those that are open go on, and memory comes back."""
        self.assertRegex(self.runs([self.built(SOURCES / "limits.c")]), r"^[0-9]+ sessions, and again [0-9]+\n$")

    def test_stack(self: Any) -> None:
        """Every call gets along with the stack that the header names."""
        program = self.built(SOURCES / "stack.c")
        for size in self.stacks:
            self.assertEqual(self.runs([program, *size]), "", size)

    def test_version(self: Any) -> None:
        library = ctypes.CDLL(str(self.folder / "libpmem.so"))
        library.pmem_version.restype = ctypes.c_char_p
        self.assertEqual(library.pmem_version().decode() + "\n", (TOP / "VERSION").read_text())
        self.assertEqual(build_of(self.folder), self.build)

    def test_accesses(self: Any) -> None:
        """The accesses of each command are those that the program's log names, whatever the length of the reply."""
        program = self.built(SOURCES / "accesses.c")
        with_log = {"first": "run --log", "power_cut": "run --log --sets 1", "wear": "wear --log", "txn": "txn --log", "tree": "tree --log"}
        cases = [(words.split(), (EXAMPLES / f"{name}.trace").read_bytes()) for name, words in with_log.items()]
        cases += [("run --log --suite weak --levels 5".split(), b"off\non\nstat\n"),
                  ("run --log --suite weak".split(), b"flip 5 0\nflip 5 8\nread 0 5\n")]
        for words, given in cases:
            commands = b"".join(line + b"\n" for line in given.splitlines() if line.strip() and not line.startswith(b"#"))
            _, due = output_of([program_path(), *words], commands)
            status, said = output_of([program, *words], commands)
            self.assertEqual(status, 0, words)
            lines = said.decode().splitlines()
            texts = due.decode().splitlines(keepends=True)
            logged = [line for line in texts if re.fullmatch(r"(look|line|latch) \d+\n|work \d+ \d+\n", line)]
            self.assertEqual([f"{line}\n" for line in lines if not line.startswith("lengths ")], logged, words)
            lengths = [tuple(map(int, line.split()[1:])) for line in lines if line.startswith("lengths ")]
            self.assertEqual(sum(number for each in lengths for number in each), len(due))
            self.assertEqual(sum(log for log, _, _ in lengths), sum(map(len, logged)))
            self.assertEqual(sum(marks for _, marks, _ in lengths), sum(len(line) for line in texts if line.startswith(("seal ", "begin "))))

    def test_store(self: Any) -> None:
        said = self.runs([self.built(EXAMPLES / "library" / "store.c")]).splitlines()
        cuts = [line for line in said if line.startswith("a cut after ")]
        self.assertTrue(all(line.endswith("all keys as they should be") for line in cuts))
        self.assertIn(f"an update takes {len(cuts)} steps", said[-1])

    def test_cuts_by_fork(self: Any) -> None:
        self.assertIn("all lines as they should be", self.runs([self.built(EXAMPLES / "library" / "cuts.c")]))

    def test_accesses_of_a_trace(self: Any) -> None:
        """The example writes what `explore export` writes."""
        trace = EXAMPLES / "power_cut.trace"
        status, said = output_of([self.built(EXAMPLES / "library" / "accesses.c")], trace.read_bytes())
        self.assertEqual((status, said.decode()), (0, self.explore("export", str(trace), "--to", "ramulator").stdout))

    def test_page(self: Any) -> None:
        """The page's first program prints what the page says."""
        program, printed = re.findall(r"```c?\n(.*?)```", (TOP / "docs" / "LIBRARY.md").read_text(), re.S)[:2]
        source = Path(self.file("page.c", program))
        self.assertEqual(self.runs([self.built(source)]), printed)

    def test_bus(self: Any) -> None:
        said = self.runs([self.built(EXAMPLES / "library" / "bus.cc")]).splitlines()
        self.assertEqual(len(said), 6, said)


class NativeTest(BuildTest, ExploreTest):
    build = "native"
    stacks: Tuple[List[str], ...] = ([],)

    def test_refused_memory(self) -> None:
        """Each growth of the proved code's memory is refused once."""
        said = self.runs([self.built(SOURCES / "growths.c", *SANITIZED)])
        self.assertEqual(len(said.splitlines()), 2, said)


class PortableTest(BuildTest, ExploreTest):
    build = "portable"
    # The header's, and the 64 kB that it names for this build.
    stacks: Tuple[List[str], ...] = ([], [str(64 * 1024)])

    def test_one_file(self) -> None:
        """The one file of C is the same each time, and only its own text decides."""
        made = []
        for name in ("1", "2"):
            made.append(subprocess.run([sys.executable, str(TOOLS / "library"), "--source", self.path(name)], stdout=subprocess.PIPE,
                                       universal_newlines=True, env={**os.environ, "PYTHONHASHSEED": name}, check=True).stdout.split())
        self.assertEqual([[os.path.basename(path) for path in paths] for paths in made], [["libpmem.c", "pmem.h"]] * 2)
        for first, second in zip(*made):
            self.assertEqual(Path(first).read_bytes(), Path(second).read_bytes())


class ScriptTest(ExploreTest):
    """What tools/library says where something is missing."""

    def script_says(self, words: List[str], **variables: str) -> Tuple[int, str, str]:
        result = subprocess.run([sys.executable, str(TOOLS / "library"), *words], stdin=subprocess.DEVNULL, stdout=subprocess.PIPE,
                                stderr=subprocess.PIPE, universal_newlines=True, env={**os.environ, **variables}, check=False)
        return result.returncode, result.stdout, result.stderr

    def test_words(self) -> None:
        self.assertEqual(self.script_says(["--where"]), (0, f"{TOP / 'out'}\n", ""))
        for words in (["now"], ["--native", "--portable"], ["--out"]):
            status, said, why = self.script_says(words)
            self.assertEqual((status, said), (2, ""))
            self.assertIn("usage: tools/library", why)

    def test_no_compiler(self) -> None:
        status, said, why = self.script_says([], PATH=str(self.directory), CC="")
        self.assertEqual((status, said, why.count("\n")), (127, "", 1))
        self.assertIn("no C compiler is on the PATH", why)
        status, said, why = self.script_says([], CC="no-such-compiler")
        self.assertEqual((status, said), (127, ""))
        self.assertIn("no-such-compiler is needed", why)

    def test_which_build(self) -> None:
        """The native build over proved crates, else the portable one, else neither, which says how to get one."""
        cases: List[Tuple[bool, bool, List[str], Optional[bool]]] = [
            (True, True, [], True), (True, False, ["--portable"], False), (False, True, [], False), (False, True, ["--native"], True),
            (False, False, [], None)]
        for is_proved, is_current, words, due in cases:
            with mock.patch.object(native, "kit", return_value=TOP), \
                    mock.patch.object(native, "is_built", return_value=False), \
                    mock.patch.object(native, "is_proved_below", return_value=is_proved), \
                    mock.patch.object(portable, "is_current", return_value=is_current), mock.patch.object(command_line, "say"):
                given = command_line._parser().parse_args(words)
                if due is None:
                    with self.assertRaises(LibraryError) as raised:
                        command_line._is_native(given)
                    self.assertEqual(raised.exception.status, 126)
                    self.assertIn("--native proves them", str(raised.exception))
                else:
                    self.assertEqual(command_line._is_native(given), due, words)

    def test_no_exports(self) -> None:
        """A module without the exports of the library is reported as such."""
        with mock.patch.object(source, "library_exports", return_value=[]), self.assertRaises(LibraryError) as raised:
            source.library_c((TOP / "module" / "pmem.wasm").read_bytes())
        self.assertIn("does not have the exports", str(raised.exception))

    def test_no_toolchain(self) -> None:
        """Without rt the native build says what is missing."""
        for name in ("gcc", "cc", "ar"):
            os.symlink(shutil.which(name) or name, self.path(name))
        status, said, why = self.script_says(["--of-proved", "--out", self.path("out")], PATH=str(self.directory), CC="gcc")
        self.assertEqual((status, said, why), (127, "", "library: the toolchain's command rt is not on the PATH\n"))


if __name__ == "__main__":
    unittest.main()

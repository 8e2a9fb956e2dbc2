"""The portable program: one file of C made of module/pmem.wasm. It is the same file each time, compiles without a warning, and answers as the
program that the tests ask."""
import hashlib
import os
import random
import re
import shlex
import shutil
import signal
import subprocess
import sys
import tempfile
import time
import unittest
from functools import lru_cache
from importlib.machinery import SourceFileLoader
from importlib.util import module_from_spec, spec_from_file_location
from pathlib import Path
from typing import Dict, List, Optional, Tuple
from unittest import mock

from .helpers import TOOLS, lesson_words, program_path

sys.path.insert(0, str(TOOLS))

from portablemaker import digest, kept, module, source  # noqa: E402
from portablemaker.compiler import PortableError, compile_program, find_compiler  # noqa: E402
from portablemaker.wasm import Module  # noqa: E402

TOP = TOOLS.parent
WARNINGS = ("-std=c11", "-Wall", "-Wextra", "-Wpedantic", "-Werror", "-fsyntax-only")
FOLDER = tempfile.TemporaryDirectory()
SAMPLES = range(1, 11)


@lru_cache(maxsize=None)
def c_source() -> str:
    """pmem.c, made once."""
    path = f"{FOLDER.name}/pmem.c"
    kept.write(path, source.program_source(kept.module_bytes()))
    return path


def version_of(compiler: str) -> str:
    """What a compiler says of itself."""
    return subprocess.run([compiler, "--version"], stdout=subprocess.PIPE, stderr=subprocess.STDOUT, check=True).stdout.decode("utf-8", "replace")


@lru_cache(maxsize=None)
def compiled(flags: Tuple[str, ...], compiler: str = "") -> str:
    """The program compiled with these flags. It is kept in out/tests until something changes that it is made of."""
    compiler = compiler or find_compiler()
    text = "\0".join([kept.key_of(kept.module_bytes()), *flags, compiler, version_of(compiler)])
    folder = TOP / "out" / "tests"
    place = folder / f"{'-'.join(['pmem', *flags, os.path.basename(compiler)])}.{hashlib.sha256(text.encode()).hexdigest()[:16]}"
    if not place.exists():
        folder.mkdir(parents=True, exist_ok=True)
        for older in folder.glob(f"{place.stem}.*"):
            older.unlink()
        with tempfile.TemporaryDirectory(dir=FOLDER.name) as room:
            compile_program(c_source(), f"{room}/pmem", room, ["-std=c11", *flags], compiler=compiler)
            shutil.move(f"{room}/pmem", place)
    return str(place)


def has_compiler() -> bool:
    """Whether there is a C compiler."""
    try:
        return bool(find_compiler())
    except PortableError:
        return False


def pythons() -> List[str]:
    """Pythons of other versions that are there, from 3.8 on."""
    named = [f"python3.{minor}" for minor in range(8, 30)]
    places = [*os.environ.get("PATH", "").split(os.pathsep), *map(str, Path.home().glob(".pyenv/versions/*/bin"))]
    found: Dict[str, str] = {}
    for place in places:
        for name in named:
            path = os.path.join(place, name)
            if os.access(path, os.X_OK) and "shims" not in place:
                found.setdefault(name, path)
    mine = f"python3.{sys.version_info[1]}"
    return [found[name] for name in named if name in found and name != mine]


class SourceTest(unittest.TestCase):
    """The file of C."""

    def test_is_the_same_with_each_python(self) -> None:
        others: List[str] = pythons()
        for python in sorted({others[0], others[-1]}) if others else [sys.executable]:
            with self.subTest(python):
                made = subprocess.run([python, str(TOOLS / "portable"), "--source", "-"], stdout=subprocess.PIPE, check=True,
                                      env={**os.environ, "PYTHONHASHSEED": "7"})
                self.assertEqual(made.stdout, Path(c_source()).read_bytes())

    def test_compiles_without_a_warning(self) -> None:
        compilers = [path for path in map(shutil.which, ("gcc", "clang", "aarch64-linux-gnu-gcc", "x86_64-w64-mingw32-gcc")) if path]
        if not compilers:
            self.skipTest("there is no C compiler")
        variants: List[List[str]] = [[], ["-DPMEM_CHECKED", "-DPMEM_PART=0"]]
        for compiler in compilers:
            for flags in variants:
                with self.subTest(compiler=compiler, flags=flags):
                    ran = subprocess.run([compiler, *WARNINGS, *flags, c_source()], stderr=subprocess.PIPE, universal_newlines=True, check=False)
                    self.assertEqual((ran.returncode, ran.stderr), (0, ""))

    def test_says_what_it_is_made_of(self) -> None:
        data, head = kept.module_bytes(), Path(c_source()).read_text().split("*/")[0]
        self.assertIn(digest.made_of(data)["sources"], head)
        self.assertRegex(head, "SHA-256 [0-9a-f]{64}")

    def test_module_asks_for_three_functions_only(self) -> None:
        module = Module(kept.module_bytes())
        self.assertEqual(sorted(f"{it.module}.{it.name}" for it in module.imports), ["host.arg", "host.read", "host.write"])


class ModuleTest(unittest.TestCase):
    """module/pmem.wasm, and what tools/module says of it."""

    def setUp(self) -> None:
        path = str(TOOLS / "module")
        loader = SourceFileLoader("module_script", path)
        spec = spec_from_file_location("module_script", path, loader=loader)
        assert spec
        self.script = module_from_spec(spec)
        loader.exec_module(self.script)
        self.made = digest.made_of(kept.module_bytes())

    def difference(self, **made: str) -> str:
        """What the script says of a module that says this of itself, if the toolchain makes the one that is here."""
        data = module.marked(kept.module_bytes(), {**self.made, **made})
        with mock.patch.object(module, "built", kept.module_bytes), mock.patch.object(module, "toolchain", lambda: self.made["toolchain"]), \
                mock.patch.object(self.script, "sources_digest", lambda top: self.made["sources"]), \
                mock.patch.object(kept, "module_bytes", lambda: self.changed(data)):
            return str(self.script.difference())

    @staticmethod
    def changed(data: bytes) -> bytes:
        return data

    def test_has_the_exports_of_the_sources(self) -> None:
        if self.made["sources"] != digest.sources_digest(str(TOP)):
            self.skipTest("module/pmem.wasm was made of other sources: tools/module makes it of these")
        self.assertEqual(sorted(source.library_exports(Module(kept.module_bytes()))), sorted(module.exports()))
        self.assertIn("pmem_answer", module.exports())

    def test_has_names(self) -> None:
        names = set(Module(kept.module_bytes()).names.values())
        self.assertGreater(len([name for name in names if name.startswith("pmem_cli::")]), 10)

    def test_a_replaced_one_is_seen(self) -> None:
        self.assertEqual(self.difference(), "")
        with mock.patch.object(self, "changed", lambda data: data.replace(b"refused", b"welcome")):
            self.assertIn("is not what the toolchain makes of the sources: they differ from byte", self.difference())
        self.assertIn("was made of other sources", self.difference(sources="0" * 64))

    def test_another_toolchain_is_named(self) -> None:
        with mock.patch("builtins.print") as said:
            self.assertEqual(self.difference(toolchain="rattle-kit-0"), "")
        self.assertIn("its bytes are not compared", said.call_args[0][0])

    def test_the_toolchain_that_is_missing_is_said(self) -> None:
        with mock.patch.object(shutil, "which", lambda name: None), self.assertRaisesRegex(PortableError, "rt is not on the PATH"):
            module.kit()


class DigestTest(unittest.TestCase):
    """The digest of the sources, on a small repository."""

    def test_what_it_depends_on(self) -> None:
        with tempfile.TemporaryDirectory() as name:
            top = Path(name)
            (top / "crates.txt").write_text("# all\npmem: low hex\nlow:\npmem_c staticlib: low\nother: low\n")
            for path in ("pmem/src/main.rt", "low/src/lib.rt", "low/specs/A.antt", "low/proofs/A.antt", "pmem_c/src/lib.rt", "other/src/lib.rt"):
                (top / "crates" / path).parent.mkdir(parents=True, exist_ok=True)
                (top / "crates" / path).write_text(path)
            self.assertEqual(digest.crates_below(name), ["low", "pmem", "pmem_c"])
            found = {digest.sources_digest(name)}
            for path, is_new in (("low/proofs/A.antt", False), ("other/src/lib.rt", False), ("low/specs/A.antt", True), ("pmem_c/src/lib.rt", True),
                                 ("low/src/more.rt", True)):
                before = len(found)
                (top / "crates" / path).write_text("changed")
                found.add(digest.sources_digest(name))
                self.assertEqual(len(found) > before, is_new, path)
            (top / "crates.txt").write_text("pmem: low hex # as before\nlow:\npmem_c staticlib: low\n")
            self.assertIn(digest.sources_digest(name), found)


@unittest.skipUnless(has_compiler(), "there is no C compiler")
class AnswersTest(unittest.TestCase):
    """What it answers, against the program that the tests ask, byte for byte; also with each access to memory checked."""

    KINDS: Tuple[Tuple[str, ...], ...] = (("-O1",), ("-O0", "-DPMEM_CHECKED"))

    def assert_same(self, words: List[str], trace: bytes) -> None:
        def said(path: str) -> Tuple[bytes, int]:
            ran = subprocess.run([path, *words], input=trace, stdout=subprocess.PIPE, check=False)
            return ran.stdout, ran.returncode

        expected = said(program_path())
        for flags in self.KINDS:
            with self.subTest(words=words, flags=flags):
                self.assertEqual(said(compiled(flags)), expected)

    def test_lessons_and_exercises(self) -> None:
        folders = sorted({path.parent for path in (TOP / "lessons").rglob("trace")})
        self.assertGreater(len(folders), 20)
        for folder in folders:
            self.assert_same(lesson_words(folder), (folder / "trace").read_bytes())

    def test_examples_and_stored_traces(self) -> None:
        options = {"forged_tag": ["--suite", "weak"], "wear": ["--every", "1"]}
        for path in sorted((TOP / "examples").glob("*.trace")) + sorted((TOOLS / "tests" / "traces").glob("*.trace")):
            machine = path.stem if path.stem in ("wear", "txn", "tree") else "run"
            self.assert_same([machine, *options.get(path.stem, [])], path.read_bytes())

    def test_samples(self) -> None:
        for seed in SAMPLES:
            self.assert_same(["sample", str(seed), "1000"], b"")
            made = subprocess.run([program_path(), "make", str(seed), "500"], stdout=subprocess.PIPE, check=True).stdout
            for suite in ("aes", "weak", "blur"):
                self.assert_same(["run", "--log", "--suite", suite, "--levels", "3", "--ways", "1"], made)

    def test_arguments_and_inputs_that_are_wrong(self) -> None:
        for words in ("", "run x", "run --levels", "run --levels 7", "check", "make"):
            self.assert_same(words.split(), b"stat\n")
        for text in (b"", b"stat", b"\0\n", b"nonsense\n", b"a" * 5000 + b"\n", b"# \n\r\nstat\r\n", b"\xff\n", b"post 0 0 1\n"):
            self.assert_same(["run"], text)

    def test_lines_are_answered_as_they_come(self) -> None:
        for flags in self.KINDS:
            with subprocess.Popen([compiled(flags), "run"], stdin=subprocess.PIPE, stdout=subprocess.PIPE) as run:
                assert run.stdin and run.stdout
                run.stdin.write(b"stat\n")
                run.stdin.flush()
                self.assertEqual(run.stdout.readline(), b"stat 0 0 0 0 0\n")
                run.stdin.close()
                self.assertEqual(run.wait(), 0)

    def test_by_node(self) -> None:
        if not shutil.which("node"):
            self.skipTest("node isn't there")
        path = f"{FOLDER.name}/pmem.mjs"
        kept.write(path, source.node_source(kept.module_bytes()))
        for words, trace in ((["run"], (TOP / "examples" / "power_cut.trace").read_bytes()), (["sample", "7", "500"], b""), (["run", "x"], b""),
                             (["check"], b"forged\n"), (["run", "--suite", "weak"], b"flip 5 0\nflip 5 8\nread 0 5\n")):
            found, expected = (subprocess.run([*program, *words], input=trace, stdout=subprocess.PIPE, check=False)
                               for program in (["node", path], [program_path()]))
            self.assertEqual((found.stdout, found.returncode), (expected.stdout, expected.returncode))

    def test_on_arm64_by_qemu(self) -> None:
        compiler, engine = shutil.which("aarch64-linux-gnu-gcc"), shutil.which("qemu-aarch64-static")
        if not compiler or not engine:
            self.skipTest("aarch64-linux-gnu-gcc or qemu-aarch64-static (Debian's gcc-aarch64-linux-gnu, qemu-user-static) isn't there")
        program = compiled(("-O1", "-static"), compiler)
        for words in (["sample", "7", "500"], ["sample", "8", "300"], ["make", "7", "50"]):
            said = subprocess.run([engine, program, *words], stdout=subprocess.PIPE, check=False)
            expected = subprocess.run([program_path(), *words], stdout=subprocess.PIPE, check=False)
            self.assertEqual((said.stdout, said.returncode), (expected.stdout, expected.returncode))

    def test_output_that_cannot_be_written(self) -> None:
        if not os.path.exists("/dev/full"):
            self.skipTest("there is no /dev/full")
        with open("/dev/full", "wb") as full:
            self.assertEqual(subprocess.run([compiled(("-O1",)), "make", "1", "5"], stdout=full, check=False).returncode, 4)

    def test_output_that_nobody_reads(self) -> None:
        """It is a sink that fails, and no signal ends the program."""
        with subprocess.Popen([compiled(("-O1",)), "make", "1", "200000"], stdout=subprocess.PIPE) as made:
            assert made.stdout
            self.assertTrue(made.stdout.readline())
            made.stdout.close()
            self.assertEqual(made.wait(), 4)

    def test_little_memory(self) -> None:
        """If the system reserves little, a smaller memory is taken; if that doesn't suffice, the run ends as the program ends."""
        import resource
        said = []
        for limit in (200 << 20, 40 << 20, 12 << 20):
            ran = subprocess.run([compiled(("-O1",)), "run", "--levels", "6"], input=b"stat\n", stdout=subprocess.PIPE, check=False,
                                 preexec_fn=lambda size=limit: resource.setrlimit(resource.RLIMIT_AS, (size, size)))  # type: ignore[misc]
            said.append((ran.stdout, ran.returncode))
        self.assertEqual(said[0], (b"stat 0 0 0 0 0\n", 0))
        self.assertEqual(said[-1], (b"stop memory\n", 1))

    def test_no_memory_at_the_start(self) -> None:
        """The system's own loader ends a program that has still less. Once the program's main runs, it has a line for each end."""
        import resource
        said: List[Tuple[List[bytes], int]] = []
        for kilobytes in range(2500, 9000, 100):
            limit = 1024 * kilobytes
            ran = subprocess.run([compiled(("-O1",)), "make", "7", "1"], stdout=subprocess.PIPE, stderr=subprocess.DEVNULL, check=False,
                                 preexec_fn=lambda size=limit: resource.setrlimit(resource.RLIMIT_AS, (size, size)))  # type: ignore[misc]
            if ran.returncode not in (127, -signal.SIGSEGV, -signal.SIGKILL) or said:
                said.append((ran.stdout.splitlines()[-1:], ran.returncode))
        first = said.index(([b"stat"], 0))
        self.assertGreater(first, 0)
        self.assertEqual(set(map(repr, said[:first])), {repr(([b"stop memory"], 1))})
        self.assertEqual(set(map(repr, said[first:])), {repr(([b"stat"], 0))})

    def test_arguments_that_are_not_text(self) -> None:
        """They are refused like every other invalid argument, also if nothing can be written."""
        program = compiled(("-O1",))
        for word in (b"\xff", b"--suite=\xc3", b"\xed\xa0\x80", b"\xc0\xaf", "\u00e9".encode()):
            for words in ([b"run", word], [word]):
                ran = subprocess.run([program.encode(), *words], input=b"stat\n", stdout=subprocess.PIPE, check=False)
                self.assertEqual((ran.returncode, ran.stdout), (2, b"stop words\n"))
        with open("/dev/full" if os.path.exists("/dev/full") else os.devnull, "wb") as full:
            self.assertEqual(subprocess.run([program.encode(), b"run", b"\xff"], stdout=full, check=False).returncode, 2)

    def test_a_place_whose_name_is_not_text(self) -> None:
        with tempfile.TemporaryDirectory() as folder:
            place = os.path.join(folder.encode(), b"\xff")
            shutil.copy(compiled(("-O1",)).encode(), place)
            ran = subprocess.run([place, b"make", b"7", b"1"], stdout=subprocess.PIPE, check=False)
            self.assertEqual((ran.returncode, ran.stdout.splitlines()[-1:]), (0, [b"stat"]))

    def test_little_stack(self) -> None:
        """Its stack is in its memory: 64 kB of the system's stack are enough."""
        import resource
        trace = (TOP / "examples" / "power_cut.trace").read_bytes()
        for words, given in ((["run"], trace), (["run", "--log", "--levels", "6"], trace), (["sample", "7", "500"], b"")):
            due = subprocess.run([program_path(), *words], input=given, stdout=subprocess.PIPE, check=False)
            ran = subprocess.run([compiled(("-O1",)), *words], input=given, stdout=subprocess.PIPE, check=False,
                                 preexec_fn=lambda: resource.setrlimit(resource.RLIMIT_STACK, (65536, 65536)))
            self.assertEqual((ran.returncode, ran.stdout), (due.returncode, due.stdout))


class ArgumentsTest(unittest.TestCase):
    """The check of the arguments in ./pmem, for as long as no program is built, against what the program says of them."""

    VALUES = {"levels": "1 6 7 0 01 x +2 000000000000000000006 00000000000000000006", "sets": "64 65 0 1", "ways": "8 9", "loss": "1 3 16 04 32 5",
              "major": "18446744073709551615 18446744073709551616 99999999999999999999 00000000000000000001 000000000000000000001 -1",
              "suite": "aes weak blur AES", "key": f"{'00' * 16} {'0' * 31} {'Gg' * 16} {'aB' * 16} {'00' * 17}",
              "tag-key": f"00 0 {'ff' * 64} {'ff' * 65} zz", "every": "1 1000000 1000001 0", "log": "", "foo": "1", "": "1"}
    NUMBERS = ("0", "7", "999999", "1000000", "18446744073709551615", "18446744073709551616", "x", "", "0000012")

    def option(self, random_: random.Random) -> List[str]:
        """An option, which may be wrong."""
        name = random_.choice(list(self.VALUES))
        value = random_.choice([*self.VALUES[name].split(), ""])
        if name == "log" and random_.random() < 0.8:
            return ["--log"]
        forms = [[f"--{name}={value}"], [f"--{name}", value]] * 4
        return random_.choice([*forms, [f"--{name}"], [f"-{name}", value], [f"--{name}={value}={value}"]])

    def arguments(self, random_: random.Random) -> List[str]:
        """Arguments, which may be wrong."""
        command = random_.choice("run wear txn tree check run wear txn tree check make sample RUN".split())
        if command in ("make", "sample"):
            return [command, *(random_.choice(self.NUMBERS) for _ in range(random_.choice((2, 2, 2, 1, 3))))]
        return [command, *(word for _ in range(random_.choice((0, 1, 1, 2, 3))) for word in self.option(random_))]

    def test_are_checked_as_the_program_does(self) -> None:
        random_ = random.Random(5)
        cases = [self.arguments(random_) for _ in range(300)]
        text = (TOP / "pmem").read_text()
        functions = text[text.index("# Whether a text is a number"):text.index("# Ends as the program does if it refuses")]
        script = functions + 'while IFS= read -r line; do eval "words=($line)"; are_words "${words[@]}" && echo yes || echo no; done\n'
        given = "".join(" ".join(map(shlex.quote, words)) + "\n" for words in cases)
        said = subprocess.run(["bash", "-c", script], input=given, stdout=subprocess.PIPE, universal_newlines=True, check=True).stdout.split()
        expected = []
        for words in cases:
            ran = subprocess.run([program_path(), *words[:2], *words[2:]], stdin=subprocess.DEVNULL, stdout=subprocess.PIPE, check=False)
            expected.append("no" if ran.returncode == 2 else "yes")
        self.assertEqual([(words, word) for words, word in zip(cases, said)], list(zip(cases, expected)))
        self.assertGreater(expected.count("yes"), 50)


class CloneTest(unittest.TestCase):
    """A fresh clone without the toolchain: README's first command, the lessons, and the messages if something is missing."""

    def setUp(self) -> None:
        directory = tempfile.TemporaryDirectory()
        self.addCleanup(directory.cleanup)
        self.root = Path(directory.name) / "clone"
        self.cache = Path(directory.name) / "cache"
        names = self.git("ls-files", "-z")
        if names is None:
            self.skipTest("this isn't a clone of git")
        for name in names.split("\0"):
            if name and (TOP / name).is_file():
                (self.root / name).parent.mkdir(parents=True, exist_ok=True)
                shutil.copy(TOP / name, self.root / name)
        kept_names = ("PMEM_PROGRAM", "CC", "XDG_CACHE_HOME")
        self.environment = {name: text for name, text in os.environ.items() if name not in kept_names}
        self.environment.update(PATH=self.path_without("rt"), XDG_CACHE_HOME=str(self.cache))

    @staticmethod
    def git(*words: str) -> Optional[str]:
        """What git says of this repository."""
        if not shutil.which("git"):
            return None
        ran = subprocess.run(["git", *words], cwd=TOP, stdout=subprocess.PIPE, stderr=subprocess.DEVNULL, universal_newlines=True, check=False)
        return ran.stdout if ran.returncode == 0 else None

    def path_without(self, *names: str) -> str:
        """A folder with links to all that the PATH has, except these names; Python is the one that runs this."""
        folder = Path(tempfile.mkdtemp(dir=self.root.parent))
        for place in os.environ["PATH"].split(os.pathsep):
            for file in Path(place).iterdir() if os.path.isdir(place) else ():
                link = folder / file.name
                if file.name not in names and not os.path.lexists(link):
                    link.symlink_to(sys.executable if file.name == "python3" else file)
        return str(folder)

    def need_module(self) -> None:
        """Skips a test if the sources were changed since the module was made of them; the gate makes sure that they weren't."""
        if digest.made_of(kept.module_bytes())["sources"] != digest.sources_digest(str(TOP)):
            self.skipTest("module/pmem.wasm was made of other sources: tools/module makes it of these")

    def run_here(self, *words: str, given: str = os.devnull) -> "subprocess.CompletedProcess[str]":
        with open(given, "rb") as source_:
            return subprocess.run(words, cwd=self.root, env=self.environment, stdin=source_, stdout=subprocess.PIPE, stderr=subprocess.PIPE,
                                  universal_newlines=True, check=False)

    def readme(self, pattern: str) -> str:
        """A command of README.md."""
        found = re.search(pattern, (TOP / "README.md").read_text(), re.M)
        assert found, pattern
        return found.group().split(" #")[0].strip()

    @unittest.skipUnless(has_compiler(), "there is no C compiler")
    def test_first_command_answers_and_lessons_pass(self) -> None:
        self.need_module()
        found = self.run_here("./pmem", "run", given=str(TOP / "examples" / "power_cut.trace"))
        self.assertEqual((found.stdout, found.returncode), ((TOP / "examples" / "power_cut.out").read_text(), 0), found.stderr)
        self.assertIn("building the portable program", found.stderr)
        again = self.run_here("./pmem", "sample", "7", "2000")
        self.assertEqual((again.stdout, again.stderr, again.returncode), ("stat 4436 1761 1150 6697 2058\n", "", 0))
        where = self.run_here("./pmem", "--where")
        self.assertEqual((where.stdout, where.stderr), (f"{self.root}/out/pmem\n", ""))
        cuts = self.run_here("tools/explore", "cuts", "examples/power_cut.trace", "--lines", "10")
        self.assertEqual((cuts.returncode, cuts.stderr), (0, ""))
        self.assertIn("drain 0  cut lost 3", cuts.stdout)
        self.environment["PYTHONPATH"] = "python"
        store = self.run_here("python3", "examples/python/store.py")
        self.assertEqual((store.returncode, store.stderr), (0, ""))
        lessons = self.run_here(self.readme(r"^lessons/check\b"))
        self.assertRegex(lessons.stdout, r"(?m)^\d+ passed, 0 failed$")
        (self.root / "crates" / "pmem" / "src" / "main.rt").write_text("fn main() {}\n")
        changed = self.run_here("./pmem", "run")
        self.assertEqual((changed.stdout, changed.returncode), ("", 126))
        self.assertIn("the sources were changed", changed.stderr)

    def test_what_is_missing_is_said_in_a_line(self) -> None:
        self.need_module()
        for names, told in ((("rt", "cc", "gcc", "clang", "tcc"), "a C compiler is needed"), (("rt", "python3"), "python3 is not on the PATH")):
            self.environment["PATH"] = self.path_without(*names)
            found = self.run_here("./pmem", "run")
            self.assertEqual((found.stdout, found.returncode, found.stderr.count("\n")), ("", 126, 1), found.stderr)
            self.assertIn(told, found.stderr)
        self.environment["CC"] = "/nowhere/cc"
        self.environment["PATH"] = self.path_without("rt")
        self.assertIn("/nowhere/cc, is not there", self.run_here("./pmem", "run").stderr)

    def test_a_compiler_that_fails_leaves_nothing_behind(self) -> None:
        self.need_module()
        compiler = self.root.parent / "broken"
        compiler.write_text("#!/bin/sh\necho 'pmem.c:1:1: error: too old' >&2\nexit 1\n")
        compiler.chmod(0o755)
        self.environment["CC"] = str(compiler)
        found = self.run_here("./pmem", "run")
        self.assertEqual((found.stdout, found.returncode), ("", 126))
        self.assertIn("pmem: broken cannot compile the program: pmem.c:1:1: error: too old\n", found.stderr)
        self.assertEqual(sorted(path.name for path in (self.root / "out").iterdir()), ["pmem.c", "pmem.lock"])

    def stub_compiler(self) -> None:
        """A compiler that makes programs which say `built`, and notes each run."""
        compiler = self.root.parent / "stub"
        compiler.write_text(f"""#!/bin/sh
echo run >>{self.root.parent}/runs
while [ "$1" != -o ]; do shift; done
printf '#!/bin/sh\\necho built "$*"\\n' >"$2"
chmod +x "$2"
""")
        compiler.chmod(0o755)
        self.environment["CC"] = str(compiler)

    def runs(self) -> int:
        """How often that compiler ran."""
        path = self.root.parent / "runs"
        return path.read_text().count("run") if path.exists() else 0

    def test_it_is_built_again_if_what_makes_it_changes(self) -> None:
        self.need_module()
        self.stub_compiler()
        for _ in range(2):
            self.assertEqual(self.run_here("./pmem", "run").stdout, "built run\n")
        once = self.runs()
        self.assertEqual(once, 9)  # eight parts, and the program
        os.utime(self.root / "crates.txt", (2 ** 31, 2 ** 31))
        self.assertEqual(self.run_here("./pmem", "run").stdout, "built run\n")
        self.assertEqual(self.runs(), once)
        os.utime(self.root / "crates.txt", (0, 0))
        with open(self.root / "tools" / "portablemaker" / "runtime.h", "a") as file:
            file.write("/* more */\n")
        self.assertEqual(self.run_here("./pmem", "run").stdout, "built run\n")
        self.assertEqual(self.runs(), 2 * once)

    def test_a_folder_that_cannot_be_written_to(self) -> None:
        self.need_module()
        self.stub_compiler()
        (self.root / "out").write_text("in the way")
        for _ in range(2):
            found = self.run_here("./pmem", "--where")
            self.assertEqual(found.returncode, 0, found.stderr)
            self.assertTrue(found.stdout.startswith(f"{self.cache}/pmem/portable-"), found.stdout)
        self.assertEqual(self.runs(), 9)
        folder = Path(found.stdout).parent
        self.assertEqual(folder.stat().st_mode & 0o777, 0o700)
        folder.chmod(0o777)
        found = self.run_here("./pmem", "run")
        self.assertEqual((found.stdout, found.returncode, found.stderr.count("\n")), ("", 126, 1))
        self.assertIn("no program can be kept", found.stderr)

    def test_an_interrupted_build_leaves_nothing_behind(self) -> None:
        """Neither a process nor a folder; also if the reader of standard error goes away first."""
        self.need_module()
        compiler, seen = self.root.parent / "slow", self.root.parent / "seen"
        compiler.write_text(f"#!/bin/sh\necho $$ >>{seen}\nexec sleep 60\n")
        compiler.chmod(0o755)
        temporary = self.root.parent / "temporary"
        temporary.mkdir()
        self.environment.update(CC=str(compiler), TMPDIR=str(temporary))
        for is_read in (True, False):
            with self.subTest(is_read=is_read), subprocess.Popen(
                    ["./pmem", "run"], cwd=self.root, env=self.environment, stdin=subprocess.DEVNULL, stdout=subprocess.DEVNULL,
                    stderr=subprocess.PIPE, universal_newlines=True) as run:
                assert run.stderr
                while not seen.exists() or not seen.read_text().endswith("\n"):
                    self.assertIsNone(run.poll())
                    time.sleep(0.05)
                said = ""
                if not is_read:
                    run.stderr.close()
                run.send_signal(signal.SIGTERM)
                if is_read:
                    said = run.stderr.read()
                self.assertEqual(run.wait(timeout=240), 130 if is_read else run.returncode)
                self.assertEqual(said.endswith("interrupted\n"), is_read)
            for process in map(int, seen.read_text().split()):
                with self.assertRaises(ProcessLookupError):
                    os.kill(process, 0)
            seen.unlink()
            self.assertEqual(sorted(path.name for path in (self.root / "out").iterdir()), ["pmem.c", "pmem.lock"])
            self.assertEqual(list(temporary.iterdir()), [])


if __name__ == "__main__":
    unittest.main()

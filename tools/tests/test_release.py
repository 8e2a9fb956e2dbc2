"""Tests of tools/release, of the man page, of tools/wheel: what is made twice is the same bytes, and has what it should.

The whole release compiles the program and the library several times, which takes minutes: here its parts are made of files that stand in for
what was compiled. PMEM_TEST_RELEASE=1 makes the whole release twice."""
import gzip
import hashlib
import io
import os
import re
import shutil
import subprocess
import sys
import tarfile
import time
import unittest
import zipfile
from pathlib import Path
from typing import Dict, List, Optional
from unittest import mock

from .helpers import TOOLS, ExploreTest

TOP = TOOLS.parent
sys.path.insert(0, str(TOP / "python" / "build_backend"))

import pmem_build  # noqa: E402
from releasemaker import archives, command_line, debian  # noqa: E402

VERSION = (TOP / "VERSION").read_text().strip()
WHEN = 1_700_000_000


def said(words: List[str], folder: Optional[Path] = None) -> str:
    """What a command prints that ends with status 0, if no variable names a program or a library."""
    variables = {name: value for name, value in os.environ.items() if name not in ("PMEM_PROGRAM", "PMEM_LIBRARY")}
    return subprocess.run(words, cwd=folder, env=variables, stdin=subprocess.DEVNULL, stdout=subprocess.PIPE, universal_newlines=True,
                          check=True).stdout


class ArchivesTest(ExploreTest):
    def test_tar(self) -> None:
        """The order in which files are given, and the clock, don't show."""
        files = {"a/b/one": b"1", "a/two": b"22", "three": b""}
        made = archives.gzipped(archives.tar_of(files, WHEN, ["a/two"]), WHEN)
        again = archives.gzipped(archives.tar_of(dict(reversed(list(files.items()))), WHEN, ["a/two"]), WHEN)
        self.assertEqual(made, again)
        with tarfile.open(fileobj=io.BytesIO(made)) as archive:
            found = {entry.name: (entry.mode, entry.mtime, entry.uid, entry.uname) for entry in archive}
        mine = (WHEN, 0, "root")
        self.assertEqual(found, {"a": (0o755, *mine), "a/b": (0o755, *mine), "a/b/one": (0o644, *mine), "a/two": (0o755, *mine),
                                 "three": (0o644, *mine)})

    def test_what_is_refused(self) -> None:
        with self.assertRaises(archives.ReleaseError) as raised:
            archives.run(["git", "no-such-command"])
        self.assertIn("failed with status 1", str(raised.exception))
        with self.assertRaises(archives.ReleaseError):
            archives.run([self.path("nothing")])
        ended = subprocess.run([sys.executable, str(TOOLS / "release"), str(self.directory)], stdout=subprocess.PIPE, stderr=subprocess.PIPE,
                               universal_newlines=True, check=False)
        self.assertEqual((ended.returncode, ended.stdout, ended.stderr), (1, "", f"release: {self.directory} exists already\n"))

    def test_changes_are_refused(self) -> None:
        with mock.patch.object(command_line, "git", return_value=" M README.md"):
            with self.assertRaises(archives.ReleaseError):
                command_line.check_state(False)
            command_line.check_state(True)
        with mock.patch.object(command_line, "git", return_value=""):
            command_line.check_state(False)

    def test_versions(self) -> None:
        command_line.check_versions()
        with mock.patch.object(command_line, "_version", return_value="9.9.9"), self.assertRaises(archives.ReleaseError) as raised:
            command_line.check_versions()
        self.assertIn("include/pmem.h does not have the version 9.9.9", str(raised.exception))

    @unittest.skipUnless(os.environ.get("PMEM_TEST_RELEASE"), "PMEM_TEST_RELEASE isn't set: the whole release takes minutes")
    def test_whole_release_twice(self) -> None:
        made = []
        for name in ("one", "two"):
            said([sys.executable, str(TOOLS / "release"), "--uncommitted", self.path(name)])
            made.append({path.name: hashlib.sha256(path.read_bytes()).hexdigest() for path in Path(self.path(name)).iterdir()})
            said(["sha256sum", "--strict", "-c", "SHA256SUMS"], Path(self.path(name)))
        self.assertEqual(made[0], made[1])


class DebianTest(ExploreTest):
    def made(self, name: str) -> Path:
        """A package of a script and of files that stand in for the libraries."""
        room = Path(self.path(name))
        (room / "library").mkdir(parents=True)
        for library in ("libpmem.a", "libpmem.so"):
            (room / "library" / library).write_text(library)
        return debian.make(room, b"#!/bin/sh\necho \"$@\"\n", room / "library", VERSION, WHEN)

    @unittest.skipUnless(shutil.which("dpkg-deb"), "dpkg-deb (Debian's dpkg) isn't there")
    def test_package(self) -> None:
        first = self.made("one")
        old = os.umask(0o077)
        try:
            second = self.made("two")
        finally:
            os.umask(old)
        self.assertEqual(first.read_bytes(), second.read_bytes())
        self.assertEqual(said(["dpkg-deb", "-f", str(first), "Package", "Version"]), f"Package: pmem-simulator\nVersion: {VERSION}\n")
        listed = said(["dpkg-deb", "-c", str(first)]).splitlines()
        self.assertTrue(all(" root/root " in line for line in listed))
        names = {line.split()[-1]: line.split()[0] for line in listed}
        for name, mode in (("usr/bin/pmem", "-rwxr-xr-x"), ("usr/share/man/man1/pmem.1.gz", "-rw-r--r--"),
                           ("usr/include/pmem-simulator/pmem.h", "-rw-r--r--"), ("usr/lib/pmem-simulator/libpmem.a", "-rw-r--r--"),
                           ("usr/share/doc/pmem-simulator/copyright", "-rw-r--r--"),
                           ("usr/share/doc/pmem-simulator/examples/power_cut.trace", "-rw-r--r--")):
            self.assertEqual(names.get(f"./{name}"), mode, name)
        # The library of PMDK lies here.
        self.assertFalse([name for name in names if re.match(r"\./usr/lib/(x86_64-linux-gnu/)?libpmem|\./usr/include/libpmem", name)])
        said(["dpkg-deb", "-x", str(first), self.path("tree")])
        tree = Path(self.path("tree"))
        self.assertEqual(said([str(tree / "usr" / "bin" / "pmem"), "run"]), "run\n")
        if not (TOP / "LICENSE").exists():
            self.assertIn("There is no license yet", (tree / "usr/share/doc/pmem-simulator/copyright").read_text())
        with gzip.open(tree / "usr/share/man/man1/pmem.1.gz") as page:
            self.assertEqual(page.read(), (TOP / "docs" / "man" / "pmem.1").read_bytes())

    @unittest.skipUnless(shutil.which("pkg-config"), "pkg-config (Debian's pkgconf) isn't there")
    def test_pkg_config(self) -> None:
        place = Path(self.path("pmem-simulator.pc"))
        place.write_text(debian.PKG_CONFIG.format(folder=debian.FOLDER, version=VERSION))
        asked = {"PKG_CONFIG_PATH": str(self.directory), "PATH": os.environ["PATH"]}
        told = subprocess.run(["pkg-config", "--cflags", "--libs", "pmem-simulator"], env=asked, stdout=subprocess.PIPE, universal_newlines=True,
                              check=True).stdout
        self.assertEqual(told.split(), ["-I/usr/include/pmem-simulator", "/usr/lib/pmem-simulator/libpmem.a"])

    def test_without_dpkg(self) -> None:
        with mock.patch.object(shutil, "which", return_value=None), self.assertRaises(archives.ReleaseError) as raised:
            debian.make(self.directory, b"", self.directory, VERSION, WHEN)
        self.assertIn("--no-deb", str(raised.exception))


class ManPageTest(unittest.TestCase):
    page = (TOP / "docs" / "man" / "pmem.1").read_text()

    def plain(self) -> str:
        """The page's text without what formats it."""
        return re.sub(" +", " ", re.sub(r"\\f[A-Z]|^\.[A-Z]+ ?|\"", "", self.page, flags=re.M).replace("\\-", "-"))

    def test_what_it_has(self) -> None:
        """Every option, command, command of a trace and exit status stands in it: those of docs/FORMATS.md and of ./pmem --help."""
        text = self.plain()
        formats = (TOP / "docs" / "FORMATS.md").read_text()
        options = set(re.findall(r"`(--[a-z-]+)`", formats)) | set(re.findall(r"^  (--[a-z-]+)", said(["bash", str(TOP / "pmem"), "--help"]), re.M))
        options -= {"--help", "--version", "--where", "--prove", "--portable", "--unproved"}  # of the script, which no package has
        self.assertGreater(len(options), 9)
        for option in options:
            self.assertRegex(text, rf"(?m)^{option}( |$)", option)
        commands = set(re.findall(r"^\| `([a-z]+)[ `]", formats[formats.index("## Commands"):formats.index("## Faults")], re.M)) | {"on"}
        self.assertGreater(len(commands), 15)
        for command in [*commands, "run", "wear", "txn", "tree", "check", "make", "sample"]:
            self.assertRegex(text, rf"(?m)^{command}\b|, {command}\b", command)
        statuses = set(re.findall(r"^\| (\d) \|", formats[formats.index("## Statuses"):], re.M))
        self.assertEqual(set(re.findall(r"(?m)^(\d)$", text)), statuses)
        self.assertIn(f"pmem {VERSION}", text)

    @unittest.skipUnless(shutil.which("groff"), "groff isn't there")
    def test_it_is_set(self) -> None:
        """groff has nothing to warn of."""
        ended = subprocess.run(["groff", "-man", "-Tutf8", "-ww", "-z", str(TOP / "docs" / "man" / "pmem.1")], stdout=subprocess.PIPE,
                               stderr=subprocess.PIPE, universal_newlines=True, check=False)
        self.assertEqual((ended.returncode, ended.stderr), (0, ""))


class WheelTest(ExploreTest):
    """The builder of the Python package, over C that stands in for the library."""

    C = ('#if !defined PMEM_PART || PMEM_PART == 0\n#include "pmem.h"\nint answer(void);\nint told(void) { return answer(); }\n#endif\n'
         '#if !defined PMEM_PART || PMEM_PART == 1\n#include "pmem.h"\nint answer(void) { return 42; }\n#endif\n')

    def built(self, name: str, build: str) -> Path:
        def put_source(folder: Path) -> None:
            (folder / "libpmem.c").write_text(self.C)
            shutil.copy(TOP / "include" / "pmem.h", folder)

        folder = Path(self.path(name))
        folder.mkdir(exist_ok=True)
        with mock.patch.object(pmem_build, "_put_source", put_source), mock.patch.dict(os.environ, {"SOURCE_DATE_EPOCH": str(WHEN)}):
            return folder / str(getattr(pmem_build, build)(str(folder)))

    @unittest.skipUnless(shutil.which("cc") or shutil.which("gcc") or shutil.which("clang"), "no C compiler is there")
    def test_wheel(self) -> None:
        made = [self.built(name, "build_wheel") for name in ("one", "two")]
        self.assertEqual(made[0].read_bytes(), made[1].read_bytes())
        self.assertRegex(made[0].name, rf"^pmem-{re.escape(VERSION)}-py3-none-[a-z0-9_]+\.whl$")
        with zipfile.ZipFile(made[0]) as archive:
            files = {name: archive.read(name) for name in archive.namelist()}
            self.assertEqual({entry.date_time for entry in archive.infolist()}, {time.gmtime(WHEN)[:6]})
        info = f"pmem-{VERSION}.dist-info"
        package = {f"pmem/{path.name}" for path in (TOP / "python" / "pmem").iterdir() if path.suffix == ".py" or path.name == "py.typed"}
        self.assertEqual(set(files), {*package, "pmem/libpmem.so", f"{info}/METADATA", f"{info}/WHEEL", f"{info}/RECORD"})
        self.assertIn(f"\nVersion: {VERSION}\n", files[f"{info}/METADATA"].decode())
        self.assertEqual(files["pmem/libpmem.so"][:4], b"\x7fELF")
        self.assertEqual(self.recorded(files[f"{info}/RECORD"].decode()), {name: len(data) for name, data in files.items() if "RECORD" not in name})

    @staticmethod
    def recorded(text: str) -> Dict[str, int]:
        return {row.split(",")[0]: int(row.split(",")[2]) for row in text.splitlines() if row.split(",")[2]}

    def test_source_archive(self) -> None:
        made = [self.built(name, "build_sdist") for name in ("one", "two")]
        self.assertEqual(made[0].read_bytes(), made[1].read_bytes())
        with tarfile.open(made[0]) as archive:
            names = {entry.name for entry in archive}
        top = f"pmem-{VERSION}"
        for name in ("PKG-INFO", "pyproject.toml", "README.md", "c/libpmem.c", "c/pmem.h", "pmem/__init__.py", "build_backend/pmem_build.py"):
            self.assertIn(f"{top}/{name}", names)
        self.assertFalse([name for name in names if not name.startswith(f"{top}/")])

    def test_no_compiler(self) -> None:
        with mock.patch.dict(os.environ, {"CC": "no-such-compiler"}), self.assertRaises(SystemExit) as ended:
            self.built("three", "build_wheel")
        self.assertIn("no-such-compiler is not on the PATH", str(ended.exception))

    @unittest.skipUnless(sys.version_info >= (3, 9), "the package needs Python 3.9")
    def test_pip_without_a_network(self) -> None:
        """pip installs a source archive with nothing but a compiler."""
        if subprocess.run([sys.executable, "-m", "pip", "--version"], stdout=subprocess.DEVNULL, stderr=subprocess.DEVNULL, check=False).returncode:
            self.skipTest("pip isn't there")
        source = self.built("four", "build_sdist")
        words = [sys.executable, "-m", "pip", "install", "--no-index", "--quiet", "--disable-pip-version-check", "--target", self.path("five"),
                 str(source)]
        ended = subprocess.run(words, stdout=subprocess.PIPE, stderr=subprocess.STDOUT, universal_newlines=True, check=False)
        self.assertEqual(ended.returncode, 0, ended.stdout)
        told = said([sys.executable, "-c", "import pmem, ctypes, pathlib; place = pathlib.Path(pmem.__file__).parent; "
                     "print(pmem.__version__, pmem.ways.find_library() == str(place / 'libpmem.so'))"], Path(self.path("five")))
        self.assertEqual(told, f"{VERSION} True\n")


if __name__ == "__main__":
    unittest.main()

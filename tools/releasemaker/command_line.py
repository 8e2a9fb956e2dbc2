"""tools/release: what it is asked, and what it makes."""
import argparse
import os
import platform
import sys
import tempfile
from pathlib import Path
from typing import List

from . import debian
from .archives import TOP, ReleaseError, folder_files, folder_programs, git, gzipped, run, sha256, tar_of

SUMS = "SHA256SUMS"
HELP = """\
Makes a release of the last commit in a new folder: the source archive, the program and the library as one file of C each with the header,
the Python package (wheel and source archive), a Debian package, the page for browsers, the bundle for this machine, and SHA256SUMS over
all of them. Made again from the same commit with the same compiler, every file is the same bytes.

The program is the portable form of the proved one, compiled here, unless --program names another."""


def _parser() -> argparse.ArgumentParser:
    parser = argparse.ArgumentParser(prog="tools/release", description=HELP, formatter_class=argparse.RawDescriptionHelpFormatter)
    parser.add_argument("--version", action="version", version=f"release {_version()}")
    parser.add_argument("folder", metavar="FOLDER", nargs="?", type=Path, default=TOP / "out" / "release", help="the new folder (out/release)")
    parser.add_argument("--program", metavar="PATH", help="the program for the bundle and the Debian package")
    parser.add_argument("--uncommitted", action="store_true", help="go on although there are changes that are not committed: only to try it out")
    parser.add_argument("--no-deb", action="store_true", help="leave out the Debian package, for example if dpkg-deb is not there")
    return parser


def _version() -> str:
    return (TOP / "VERSION").read_text(encoding="utf-8").strip()


def say(text: str) -> None:
    """Tells on standard error what is made."""
    sys.stderr.write(f"release: {text}\n")
    sys.stderr.flush()


class Release:
    """What is put into the folder, one after the other."""

    def __init__(self, room: Path, program: str) -> None:
        self.room, self.made = room, room / "release"
        self.made.mkdir()
        self.version, self.when = _version(), int(git("log", "-1", "--format=%ct"))
        self.name = f"pmem-{self.version}"
        self.program = Path(program or os.fsdecode(run([str(TOP / "pmem"), "--portable", "--where"])).strip())

    def put(self, name: str, data: bytes) -> None:
        """Writes a file of the release."""
        (self.made / name).write_bytes(data)
        say(f"{name}, {len(data):,} bytes")

    def sources(self) -> None:
        """What git has of the last commit."""
        data = run(["git", "-C", str(TOP), "archive", "--format=tar", f"--prefix={self.name}/", "HEAD"])
        self.put(f"{self.name}-source.tar.gz", gzipped(data, self.when))

    def one_file_each(self) -> None:
        """Program and library as one file of C each, and the header."""
        folder = self.room / "c"
        folder.mkdir()
        run([sys.executable, str(TOP / "tools" / "portable"), "--source", str(folder / "pmem.c")])
        run([sys.executable, str(TOP / "tools" / "library"), "--source", str(folder)])
        for name in ("pmem.c", "libpmem.c", "pmem.h"):
            self.put(name, (folder / name).read_bytes())

    def python(self) -> None:
        """The Python package."""
        run([sys.executable, str(TOP / "tools" / "wheel"), str(self.room / "python")], self.when)
        for path in sorted((self.room / "python").iterdir()):
            self.put(path.name, path.read_bytes())

    def library(self) -> Path:
        """The folder of the portable library, compiled here."""
        run([sys.executable, str(TOP / "tools" / "library"), "--portable", "--out", str(self.room / "library")])
        return self.room / "library"

    def bundle(self, library: Path) -> None:
        """The folder to hand out, packed."""
        folder = self.room / self.name
        run([sys.executable, str(TOP / "tools" / "bundle"), str(folder), "--program", str(self.program), "--library", str(library)])
        data = tar_of(folder_files(folder, self.name), self.when, folder_programs(folder, self.name))
        self.put(f"{self.name}-linux-{platform.machine()}.tar.gz", gzipped(data, self.when))

    def package(self, library: Path) -> None:
        """The Debian package."""
        made = debian.make(self.room, self.program.read_bytes(), library, self.version, self.when)
        self.put(made.name, made.read_bytes())

    def page(self) -> None:
        """The page for browsers."""
        self.put(f"{self.name}.html", (TOP / "page" / "pmem.html").read_bytes())

    def sums(self) -> None:
        """The digests of all files, as sha256sum prints and checks them."""
        rows = [f"{sha256(path.read_bytes())}  {path.name}\n" for path in sorted(self.made.iterdir())]
        (self.made / SUMS).write_text("".join(rows), encoding="utf-8")


def check_versions() -> None:
    """That what repeats the version has the one of VERSION.

    Raises:
        ReleaseError: something has another.
    """
    version = _version()
    for name, text in (("include/pmem.h", f'#define PMEM_VERSION "{version}"\n'), ("python/pmem/__init__.py", f'__version__ = "{version}"\n'),
                       ("CITATION.cff", f"version: {version}\n"), ("docs/man/pmem.1", f'"pmem {version}"')):
        if text not in (TOP / name).read_text(encoding="utf-8"):
            raise ReleaseError(f"{name} does not have the version {version} of the file VERSION")


def check_state(is_uncommitted_fine: bool) -> None:
    """That what is here is the last commit.

    Raises:
        ReleaseError: there are changes.
    """
    if git("status", "--porcelain") and not is_uncommitted_fine:
        raise ReleaseError("there are changes that are not committed (git status lists them): commit them first")


def make(words: argparse.Namespace) -> None:
    """Makes the release. The folder is there whole or not at all."""
    if words.folder.exists() or words.folder.is_symlink():
        raise ReleaseError(f"{words.folder} exists already")
    check_versions()
    check_state(words.uncommitted)
    if not (TOP / "LICENSE").exists():
        say("note: there is no LICENSE. Whoever owns pmem has to choose one; until then nobody may distribute this release")
    words.folder.parent.mkdir(parents=True, exist_ok=True)
    with tempfile.TemporaryDirectory(prefix="making-", dir=words.folder.parent) as folder:
        release = Release(Path(folder), words.program)
        release.sources()
        release.one_file_each()
        release.python()
        library = release.library()
        release.bundle(library)
        if not words.no_deb:
            release.package(library)
        release.page()
        release.sums()
        release.made.rename(words.folder)
    print(f"{words.folder}: pmem {release.version}, {len(list(words.folder.iterdir()))} files; sha256sum -c {SUMS} checks them")


def main(arguments: List[str]) -> int:
    """Does what the arguments say, and gives the exit status."""
    words = _parser().parse_args(arguments)
    try:
        make(words)
    except ReleaseError as error:
        sys.stderr.write(f"release: {error}\n")
        return 1
    except OSError as error:
        sys.stderr.write(f"release: {error.filename or 'error'}: {error.strerror or error}\n")
        return 1
    except KeyboardInterrupt:
        sys.stderr.write("release: interrupted\n")
        return 130
    return 0

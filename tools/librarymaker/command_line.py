"""tools/library: what it is asked, and what it answers."""
import argparse
import os
import shutil
import sys
import tempfile
from pathlib import Path
from typing import List

from portablemaker.compiler import PortableError

from . import native, portable
from .files import ARCHIVE, MISSING, SHARED, TOP, LibraryError, say, version

HELP = """\
Makes out/libpmem.a and out/libpmem.so for programs in C, C++ and Python over include/pmem.h (docs/LIBRARY.md).

There are two builds of the library, which answer alike:
  native    the machine code that the toolchain proved and compiled. It needs the toolchain.
  portable  C translated from module/pmem.wasm, the WebAssembly module of the same proved program. It needs a C compiler and takes
            about half a minute.
Without an option the native build is made if the crates below it are proved (rt ci leaves them so), and otherwise the portable one.
The compiler is $CC, else cc, gcc or clang."""


def _parser() -> argparse.ArgumentParser:
    parser = argparse.ArgumentParser(prog="tools/library", description=HELP, formatter_class=argparse.RawDescriptionHelpFormatter)
    parser.add_argument("--version", action="version", version=f"library {version()}")
    build = parser.add_mutually_exclusive_group()
    build.add_argument("--native", action="store_true", help="make the native build; prove first what is not proved (from nothing 20 minutes)")
    build.add_argument("--of-proved", action="store_true",
                       help="make the native build of what is proved; if something is missing, end with status 126")
    build.add_argument("--portable", action="store_true", help="make the portable build")
    parser.add_argument("--source", metavar="FOLDER", type=Path, help="write the portable build as libpmem.c and pmem.h, and compile nothing")
    parser.add_argument("--out", metavar="FOLDER", type=Path, default=TOP / "out", help="the folder of the libraries (out)")
    parser.add_argument("--where", action="store_true", help="print that folder, and make nothing")
    return parser


def _compiler() -> str:
    """The C compiler.

    Raises:
        LibraryError: there is none.
    """
    names = [os.environ["CC"]] if os.environ.get("CC") else ["cc", "gcc", "clang"]
    found = next((name for name in names if shutil.which(name)), None)
    if found is None:
        raise LibraryError(f"no C compiler is on the PATH: {' or '.join(names)} is needed (CC=.. names another one)", 127)
    return found


def _is_native(words: argparse.Namespace) -> bool:
    """Which build is made.

    Raises:
        LibraryError: no option chooses, and neither can be made of the sources as they stand.
    """
    if words.native or words.of_proved or words.portable:
        return not words.portable
    if native.kit() and (native.is_built() or native.is_proved_below()):
        return True
    if portable.is_current():
        say("the portable build is made, as the native one is not proved here (--native proves it)")
        return False
    raise LibraryError("module/pmem.wasm was made of other sources than those here, and these are not proved: --native proves them, "
                       "--portable takes the module as it is", MISSING)


def _note_other_sources() -> None:
    if not portable.is_current():
        say("note: module/pmem.wasm was made of other sources than those here")


def _make(words: argparse.Namespace) -> None:
    compiler, is_native = _compiler(), _is_native(words)
    names = [ARCHIVE, SHARED]
    if is_native:
        native.build(may_prove=not words.of_proved)
    else:
        _note_other_sources()
    words.out.mkdir(parents=True, exist_ok=True)
    if is_native or not portable.is_made(compiler, words.out):
        # Before anything is read: if a file changes while the libraries are made, they are made again next time.
        key = "native" if is_native else portable.key(compiler)
        with tempfile.TemporaryDirectory(prefix="pmem-library-") as folder:
            (native if is_native else portable).link(compiler, Path(folder))
            (Path(folder) / portable.KEY).write_text(key, encoding="ascii")
            for name in (*names, portable.KEY):
                shutil.copyfile(Path(folder) / name, words.out / f"{name}.new")
                os.replace(words.out / f"{name}.new", words.out / name)
    for name in names:
        os.utime(words.out / name)  # it is that of the sources as they stand
        print(words.out / name)


def main(arguments: List[str]) -> int:
    """Does what the arguments say, and gives the exit status."""
    words = _parser().parse_args(arguments)
    try:
        if words.where:
            print(words.out)
        elif words.source:
            _note_other_sources()
            for path in portable.write_source(words.source):
                print(path)
        else:
            _make(words)
    except (LibraryError, PortableError) as error:
        sys.stderr.write(f"library: {error}\n")
        return getattr(error, "status", 1)
    except OSError as error:
        sys.stderr.write(f"library: {error.filename or 'error'}: {error.strerror or error}\n")
        return 1
    except KeyboardInterrupt:
        sys.stderr.write("library: interrupted\n")
        return 130
    return 0

"""The library's own files, and what the makers share: errors, messages, commands."""
import os
import re
import subprocess
import sys
from pathlib import Path
from typing import List, Optional, Sequence

TOP = Path(os.path.realpath(__file__)).parents[2]
HEADER = TOP / "include" / "pmem.h"
LIBRARY = TOP / "library"
MODULE = TOP / "module" / "pmem.wasm"
# Each build has the common file and one that copies sessions.
NATIVE_C = ("session.c", "copy_lines.c")
PORTABLE_C = ("portable.c", "copy_memory.c", "session.c")
ARCHIVE, SHARED = "libpmem.a", "libpmem.so"
STANDARD = "-std=c11"
# The status if what a build is made of is not there: proved libraries, or exports of the module.
MISSING = 126


class LibraryError(Exception):
    """Why the library was not made, in one line, with the exit status."""

    def __init__(self, why: str, status: int = 1) -> None:
        super().__init__(why)
        self.status = status


def say(text: str) -> None:
    """Tells on standard error how far the work is."""
    sys.stderr.write(f"library: {text}\n")
    sys.stderr.flush()


def run(words: Sequence[str], what: str, folder: Optional[Path] = None) -> None:
    """Runs a command.

    Raises:
        LibraryError: it failed; the end of what it printed says why.
    """
    try:
        ended = subprocess.run(list(words), cwd=folder, stdin=subprocess.DEVNULL, stdout=subprocess.PIPE, stderr=subprocess.STDOUT,
                               universal_newlines=True, errors="replace", check=False)
    except OSError as error:
        raise LibraryError(f"{what}: {words[0]} cannot be run: {error.strerror or error}", 127) from error
    if ended.returncode:
        raise LibraryError(f"{what}: {words[0]} failed with status {ended.returncode}: {ended.stdout.strip()[-1500:]}")


def exported_calls() -> List[str]:
    """The calls that the header declares and the shared library exports."""
    return sorted(re.findall(r"^PMEM_API .*?(pmem_\w+)\(", HEADER.read_text(encoding="utf-8"), re.M))


def version() -> str:
    """The version of the repository."""
    return (TOP / "VERSION").read_text(encoding="utf-8").strip()

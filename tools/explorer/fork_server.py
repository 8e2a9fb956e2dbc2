"""The library that makes the program a server of its states (fork_server.c), on systems that can have it."""
import hashlib
import os
import platform
import shutil
import stat
import sys
import tempfile
from pathlib import Path
from typing import List, Optional, Tuple

from .processes import start, talk

SOURCE = Path(__file__).resolve().with_name("fork_server.c")
COMPILERS = ("cc", "gcc", "clang")
FLAGS = ("-std=c99", "-O2", "-fPIC", "-shared")
TEMPORARY: List["tempfile.TemporaryDirectory[str]"] = []


def compiler() -> Optional[str]:
    """The C compiler: the one that the variable CC names, else the first there is."""
    names = [os.environ["CC"]] if os.environ.get("CC") else list(COMPILERS)
    paths = [shutil.which(name) for name in names]
    return next((path for path in paths if path), None)


def cache_folder() -> Path:
    """The folder that keeps it, so that it is made once."""
    return Path(os.environ.get("XDG_CACHE_HOME") or Path.home() / ".cache") / "pmem-explore"


def library() -> Tuple[Optional[str], str]:
    """The library's path, or None and why there is none."""
    if not sys.platform.startswith("linux"):
        return None, f"on {sys.platform} a program cannot be forked so"
    path = compiler()
    if path is None:
        return None, f"there is no C compiler ({', '.join(COMPILERS)})"
    try:
        source = SOURCE.read_bytes()
        kept = writable_folder() / f"fork_server-{digest(source, path)}.so"
        if not kept.is_file():
            compile_to(path, kept)
        return str(kept), ""
    except (OSError, RuntimeError) as error:
        return None, f"fork_server.c cannot be compiled: {error}"


def is_private(folder: Path) -> bool:
    """Whether a folder belongs to this user, and nobody else may write to it: what lies there is loaded into programs."""
    found = folder.stat()
    return stat.S_ISDIR(found.st_mode) and found.st_uid == os.geteuid() and not found.st_mode & 0o022


def writable_folder() -> Path:
    """The cache folder; or one that is removed at the end, if that can't be written to or isn't only this user's."""
    try:
        folder = cache_folder()
        folder.mkdir(mode=0o700, parents=True, exist_ok=True)
        if os.access(folder, os.W_OK) and is_private(folder):
            return folder
    except (OSError, RuntimeError):
        pass
    TEMPORARY.append(tempfile.TemporaryDirectory(prefix="pmem-explore-"))
    return Path(TEMPORARY[-1].name)


def remove_temporary() -> None:
    """Removes the folders that were made for want of a cache folder."""
    while TEMPORARY:
        TEMPORARY.pop().cleanup()


def digest(source: bytes, path: str) -> str:
    """What tells one library from another: its source, the compiler, the machine."""
    return hashlib.sha256(b"\0".join((source, path.encode(), platform.machine().encode(),
                                      " ".join(FLAGS).encode()))).hexdigest()[:16]


def compile_to(path: str, kept: Path) -> None:
    """Compiles it under another name first, so that it is there whole or not at all."""
    handle, part = tempfile.mkstemp(suffix=".so", dir=kept.parent)
    os.close(handle)
    try:
        words: List[str] = [path, *FLAGS, "-o", part, str(SOURCE), "-ldl"]
        said, status = talk(start(words, with_errors=True))
        if status:
            raise RuntimeError(said.decode("utf-8", "replace").strip().split("\n")[0] or path)
        os.replace(part, kept)
    finally:
        if os.path.exists(part):
            os.unlink(part)

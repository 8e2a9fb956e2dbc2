"""The portable program that ./pmem keeps: its folder, whether it is that of the module, and how it is made."""
import hashlib
import os
import stat
import sys
import tempfile
import time
from typing import Iterator, Optional

from .compiler import FLAGS, PortableError, compile_program, find_compiler
from .digest import made_of, sources_digest
from .source import program_source

HERE = os.path.dirname(os.path.realpath(__file__))
TOP = os.path.dirname(os.path.dirname(HERE))
MODULE = f"{TOP}/module/pmem.wasm"


def module_bytes(path: str = MODULE) -> bytes:
    """The module. Errors: PortableError."""
    try:
        with open(path, "rb") as file:
            return file.read()
    except OSError as error:
        raise PortableError(f"cannot read the module {path}: {error.strerror}") from error


def check_sources(data: bytes) -> None:
    """That the module was made of the sources as they stand. Errors: PortableError."""
    if os.path.isdir(f"{TOP}/crates") and made_of(data)["sources"] != sources_digest(TOP):
        raise PortableError("the sources were changed since module/pmem.wasm was made of them: with the toolchain, ./pmem --unproved compiles "
                            "them and ./pmem --prove proves and builds them")


def key_of(data: bytes) -> str:
    """What a kept program depends on: the module, what translates it, and the flags of the compiler."""
    whole = hashlib.sha256(data)
    for name in sorted(os.listdir(HERE)):
        if name.endswith((".py", ".c", ".h")):
            with open(f"{HERE}/{name}", "rb") as file:
                whole.update(name.encode() + b"\0" + file.read())
    whole.update(" ".join(FLAGS).encode())
    return whole.hexdigest()[:32]


def is_private(folder: str) -> bool:
    """Whether a folder belongs to this user, and nobody else may write to it."""
    if not hasattr(os, "geteuid"):
        return True
    found = os.stat(folder)
    return stat.S_ISDIR(found.st_mode) and found.st_uid == os.geteuid() and not found.st_mode & 0o022


def folders(key: str) -> Iterator[str]:
    """The folders that may keep a program: out/ of the repository, else the user's cache."""
    yield f"{TOP}/out"
    cache = os.environ.get("XDG_CACHE_HOME") or (f"{os.environ['HOME']}/.cache" if os.environ.get("HOME") else "")
    if cache:
        yield f"{cache}/pmem/portable-{key}"


def folder_for(key: str) -> str:
    """The first of these folders that can be written to; made if it isn't there. Errors: PortableError."""
    for folder in folders(key):
        try:
            if folder.startswith(f"{TOP}/"):
                os.makedirs(folder, exist_ok=True)
            else:
                os.makedirs(folder, mode=0o700, exist_ok=True)
            if os.access(folder, os.W_OK) and (folder.startswith(f"{TOP}/") or is_private(folder)):
                return folder
        except OSError:
            continue
    raise PortableError(f"no program can be kept: {TOP}/out cannot be written to, and neither can the folder of XDG_CACHE_HOME")


def is_kept(folder: str, key: str) -> bool:
    """Whether the program of this key is in the folder."""
    try:
        with open(f"{folder}/pmem.key", encoding="ascii") as file:
            return file.read().strip() == key and os.access(f"{folder}/pmem", os.X_OK)
    except OSError:
        return False


class Lock:
    """Makes others wait that build in the same folder. If the system has no such locks, nothing waits."""

    def __init__(self, folder: str) -> None:
        self.path = f"{folder}/pmem.lock"

    def __enter__(self) -> None:
        self.file = open(self.path, "ab")
        try:
            import fcntl
        except ImportError:
            return
        try:
            fcntl.flock(self.file, fcntl.LOCK_EX | fcntl.LOCK_NB)
        except BlockingIOError:
            say("another run builds the program; this one waits for it")
            fcntl.flock(self.file, fcntl.LOCK_EX)
        except OSError:
            pass

    def __exit__(self, *_: object) -> None:
        self.file.close()


def say(text: str, end: str = "\n") -> None:
    """Writes a line to standard error. If nobody reads that any more, nothing is written."""
    try:
        sys.stderr.write(text if end == "" else f"pmem: {text}{end}")
        sys.stderr.flush()
    except (BrokenPipeError, ValueError):
        sys.stderr = open(os.devnull, "w", encoding="utf-8")


def progress(done: int, count: int) -> None:
    """Tells on a terminal how many parts are compiled."""
    if sys.stderr.isatty():
        say(f"\rpmem: compiled {done} of {count} parts{' ' if done < count else chr(10)}", end="")


def write(path: str, text: str) -> None:
    """Writes a file, which is there whole or not at all."""
    with open(f"{path}.new", "w", encoding="utf-8", newline="\n") as file:
        file.write(text)
    os.replace(f"{path}.new", path)


def make(data: bytes, folder: str, key: str) -> None:
    """Makes pmem.c and the program in a folder. Errors: PortableError."""
    begun = time.monotonic()
    find_compiler()
    say("building the portable program from module/pmem.wasm, which takes about half a minute, once")
    with tempfile.TemporaryDirectory(prefix="making-", dir=folder) as room:
        write(f"{folder}/pmem.c", program_source(data))
        compile_program(f"{folder}/pmem.c", f"{room}/pmem", room, told=progress)
        os.replace(f"{room}/pmem", f"{folder}/pmem")
    write(f"{folder}/pmem.key", f"{key}\n")
    say(f"built {folder}/pmem in {time.monotonic() - begun:.0f} s; nothing more is built from here on")


def kept_program(data: Optional[bytes] = None) -> str:
    """The program's path, which is made first if it isn't kept. Errors: PortableError."""
    data = module_bytes() if data is None else data
    check_sources(data)
    key = key_of(data)
    for folder in folders(key):
        if is_kept(folder, key) and (folder.startswith(f"{TOP}/") or is_private(folder)):
            break
    else:
        folder = folder_for(key)
        with Lock(folder):
            if not is_kept(folder, key):
                make(data, folder, key)
    if os.access(f"{folder}/pmem", os.W_OK):
        os.utime(f"{folder}/pmem")  # ./pmem compares its time with that of the sources
    return f"{folder}/pmem"

"""The two ways to the proved code: the program as a child process, told line by line, and the shared library in this process."""
import ctypes
import os
import shutil
import subprocess
import weakref
from abc import ABC, abstractmethod
from functools import lru_cache
from pathlib import Path
from typing import List, Optional, Sequence, Tuple, Union

from .answers import ReplyLines
from .errors import BadWords, NoMemory, NotFound, ProgramFailed

# Statuses: 0 to 8 are the program's; from 51 on those of a line that a session doesn't take, as include/pmem.h has them.
OK, NO_MEMORY, BAD_WORDS, REPLY_LOST, SHOWN, TOO_MANY_LINES, FAULT = 0, 1, 2, 4, 6, 7, 50
MOST_LINES = 1_000_000
PACKAGE = Path(__file__).resolve().parent
CHECKOUT = PACKAGE.parents[1]
EXHIBITS = (b"clash ", b"forged ", b"twin ")


class Channel(ABC):
    """A session that is open."""

    @abstractmethod
    def tell(self, line: bytes) -> Tuple[int, bytes]:
        """Tells a command, a line without its LF, and gives a status and the reply, each line with its LF. Unless the status is OK or
        SHOWN, there is no reply; nothing was done then, except at REPLY_LOST."""

    @abstractmethod
    def copy(self) -> "Channel":
        """Another session in the same state as this one."""

    @abstractmethod
    def close(self) -> None:
        """Ends the session. An ended session may be closed again."""


class Way(ABC):
    """A way to the proved code."""

    name: str
    path: str

    @abstractmethod
    def run(self, words: Sequence[str], trace: bytes) -> Tuple[int, bytes]:
        """The program's status and output for these words and this trace."""

    @abstractmethod
    def open(self, words: Sequence[str]) -> Channel:
        """Opens a session, whose words name one."""

    def __repr__(self) -> str:
        return f"<the {self.name} {self.path}>"


# ---- the program

def _end(process: "subprocess.Popen[bytes]", owner: int) -> None:
    """Ends a child that this process started."""
    for pipe in (process.stdin, process.stdout):
        if pipe:
            try:
                pipe.close()
            except OSError:
                pass
    if os.getpid() == owner:
        process.kill()
        process.wait()
    else:
        process.returncode = 0  # a child of the process that this one was forked from, which waits for it


class ProgramChannel(Channel):
    """A session of a child process. Each line's reply comes before the child asks for more. If the child ends, as it does at a line that
    is not in the grammar, when it is interrupted, and in a process forked from this one, a new child gets all lines so far."""

    BATCH = 4096

    def __init__(self, program: "Program", words: Sequence[str], lines: Sequence[bytes] = ()) -> None:
        self._program, self._words = program, list(words)
        self._lines: List[bytes] = list(lines)
        self._process: "Optional[subprocess.Popen[bytes]]" = None
        self._owner = 0
        self._is_over = False
        self._start()

    def _start(self) -> None:
        process = self._program.start(self._words)
        self._process, self._owner = process, os.getpid()
        self._ending = weakref.finalize(self, _end, process, self._owner)
        try:
            self._tell_again(process)
        except BaseException:
            self.close()
            raise

    def _tell_again(self, process: "subprocess.Popen[bytes]") -> None:
        """Tells a new child all lines so far, as many at a time as its pipe holds."""
        place = 0
        while place < len(self._lines):
            batch = [self._lines[place]]
            size = len(batch[0])
            while place + len(batch) < len(self._lines) and size + len(self._lines[place + len(batch)]) + len(batch) < self.BATCH:
                batch.append(self._lines[place + len(batch)])
                size += len(batch[-1])
            self._write(process, b"".join(line + b"\n" for line in batch))
            for _ in batch:
                status, _ = self._read_reply(process)
                if status not in (OK, SHOWN):
                    raise ProgramFailed(f"{self._program.path} does not answer the same in two runs: status {status}")
            place += len(batch)

    @staticmethod
    def _write(process: "subprocess.Popen[bytes]", data: bytes) -> None:
        assert process.stdin
        try:
            process.stdin.write(data)
            process.stdin.flush()
        except BrokenPipeError:
            pass  # it has ended; its last line says why

    def _read_reply(self, process: "subprocess.Popen[bytes]") -> Tuple[int, bytes]:
        assert process.stdout
        reply = ReplyLines("--log" in self._words)
        while True:
            line = process.stdout.readline()
            if not line.endswith(b"\n"):
                raise ProgramFailed(f"{self._program.path} ended with status {process.wait()} in the middle of a session")
            if line.startswith(b"stop "):
                return self._stop(line)
            whole = reply.add(line.decode("latin-1"))
            if whole is not None:
                return SHOWN if line.startswith(EXHIBITS) else OK, "".join(whole).encode("latin-1")

    def _stop(self, line: bytes) -> Tuple[int, bytes]:
        """The status of the last line of a child that stopped."""
        words = line.decode("latin-1").split()
        if words[1:2] == ["line"] and len(words) == 4 and words[3] in "123456":
            return FAULT + int(words[3]), b""
        status = {"memory": NO_MEMORY, "words": BAD_WORDS, "lines": TOO_MANY_LINES}.get(words[-1])
        if status is None or len(words) != 2:
            raise ProgramFailed(f"{self._program.path} ended with {line[:80]!r}")
        return status, b""

    def tell(self, line: bytes) -> Tuple[int, bytes]:
        if self._process and self._owner != os.getpid():
            self.close()
        if len(self._lines) >= MOST_LINES:
            return TOO_MANY_LINES, b""
        if self._process is None:
            self._start()
        process = self._process
        assert process
        try:
            self._write(process, line + b"\n")
            status, reply = self._read_reply(process)
        except BaseException:
            self.close()
            raise
        if status in (OK, SHOWN):
            self._lines.append(line)
        if status != OK:
            self.close()
        return status, reply

    def copy(self) -> Channel:
        return ProgramChannel(self._program, self._words, self._lines)

    def close(self) -> None:
        if self._process:
            self._process = None
            self._ending()


class Program(Way):
    """The program's file."""

    name = "program"

    def __init__(self, path: Union[str, "os.PathLike[str]"]) -> None:
        self.path = os.fspath(path)

    def start(self, words: Sequence[str]) -> "subprocess.Popen[bytes]":
        """Starts a child on these words."""
        try:
            return subprocess.Popen([self.path, *words], stdin=subprocess.PIPE, stdout=subprocess.PIPE)
        except ValueError as error:
            raise BadWords(str(error)) from error
        except OSError as error:
            raise ProgramFailed(f"the program {self.path} cannot be run: {error.strerror or error}") from error

    def run(self, words: Sequence[str], trace: bytes) -> Tuple[int, bytes]:
        process = self.start(words)
        try:
            output, _ = process.communicate(trace)
        except BaseException:
            process.kill()
            process.wait()
            raise
        if not 0 <= process.returncode <= 8:
            raise ProgramFailed(f"{self.path} ended with status {process.returncode}")
        return process.returncode, output

    def open(self, words: Sequence[str]) -> Channel:
        return ProgramChannel(self, words)


def _is_built(path: Path, top: Path) -> bool:
    """Whether a checkout's program or library is built from its sources as they stand: none of them is newer (the rule of ./pmem)."""
    if not os.access(path, os.X_OK):
        return False
    built = path.stat().st_mtime
    folders = [folder for name in ("src", "specs", "proofs") for folder in top.glob(f"crates/*/{name}")]
    return all(path.stat().st_mtime <= built for folder in folders for path in (folder, *folder.rglob("*")))


@lru_cache(maxsize=None)
def _checkout_file(top: Path, *names: str) -> Optional[str]:
    """A file of a checkout, if it is built from the sources as they stand. Calls from Python build nothing."""
    path = top.joinpath(*names)
    return str(path) if (top / "crates.txt").exists() and _is_built(path, top) else None


@lru_cache(maxsize=None)
def _checkout_program(top: Path) -> Optional[str]:
    """The program that the script ./pmem of a checkout or a bundle would run; None if there is no such script. The script may compile it
    first, which takes half a minute and is announced on standard error. It begins no proof.

    Raises:
        NotFound: there is no program and none can be made; the message says why.
    """
    script = top / "pmem"
    if not script.is_file() or not (top / "VERSION").is_file():
        return None
    try:
        asked = subprocess.run([str(script), "--where"], stdin=subprocess.DEVNULL, stdout=subprocess.PIPE, check=False)
    except OSError as error:
        raise NotFound(f"{script} cannot be run: {error.strerror or error}") from error
    if asked.returncode:
        raise NotFound(f"{script} --where ended with status {asked.returncode}, and says above why there is no program")
    return os.fsdecode(asked.stdout).rstrip("\n")


def find_program() -> Optional[str]:
    """The program: PMEM_PROGRAM, else `pmem` on the PATH, else what the script ./pmem of the checkout would run."""
    return os.environ.get("PMEM_PROGRAM") or shutil.which("pmem") or _checkout_program(CHECKOUT)


# ---- the library

class _Handle(ctypes.Structure):
    _fields_ = [("is_open", ctypes.c_bool), ("session", ctypes.c_void_p)]


_BYTES, _SIZE = ctypes.c_char_p, ctypes.c_size_t
_SIGNATURES = {
    "pmem_answer": [_BYTES, _SIZE, _BYTES, _SIZE, _BYTES, _SIZE, ctypes.POINTER(_SIZE)],
    "pmem_open": [ctypes.POINTER(_Handle), _BYTES, _SIZE],
    "pmem_tell": [ctypes.POINTER(_Handle), _BYTES, _SIZE, _BYTES, _SIZE, ctypes.POINTER(_SIZE)],
    "pmem_reply": [ctypes.POINTER(_Handle), _SIZE, _BYTES, _SIZE],
    "pmem_copy": [ctypes.POINTER(_Handle), ctypes.POINTER(_Handle)],
    "pmem_close": [ctypes.POINTER(_Handle)],
}


def _close_handle(library: ctypes.CDLL, handle: _Handle) -> None:
    library.pmem_close(ctypes.byref(handle))


class LibraryChannel(Channel):
    """A session behind a handle of the library."""

    ROOM = 1024

    def __init__(self, library: "Library", handle: _Handle) -> None:
        self._library, self._handle = library, handle
        self._ending = weakref.finalize(self, _close_handle, library.calls, handle)
        self._room = ctypes.create_string_buffer(self.ROOM)
        self._whole = _SIZE(0)

    def tell(self, line: bytes) -> Tuple[int, bytes]:
        calls, handle = self._library.calls, ctypes.byref(self._handle)
        status = int(calls.pmem_tell(handle, line, len(line), self._room, self.ROOM, ctypes.byref(self._whole)))
        whole = self._whole.value
        if whole <= self.ROOM:
            return status, ctypes.string_at(self._room, whole)
        room = ctypes.create_string_buffer(whole)
        calls.pmem_reply(handle, 0, room, whole)
        return status, room.raw

    def copy(self) -> Channel:
        handle = _Handle()
        status = int(self._library.calls.pmem_copy(ctypes.byref(self._handle), ctypes.byref(handle)))
        _must_open(status)
        return LibraryChannel(self._library, handle)

    def close(self) -> None:
        self._ending()


def _must_open(status: int) -> None:
    if status == NO_MEMORY:
        raise NoMemory("no memory for a session")
    if status == BAD_WORDS:
        raise BadWords("the library refuses the words")
    if status != OK:
        raise ProgramFailed(f"a session cannot be opened: status {status}")


class Library(Way):
    """The shared library, loaded."""

    name = "library"

    def __init__(self, path: Union[str, "os.PathLike[str]"]) -> None:
        self.path = os.fspath(path)
        try:
            self.calls = ctypes.CDLL(self.path)
            for name, types in _SIGNATURES.items():
                call = getattr(self.calls, name)
                call.argtypes, call.restype = types, ctypes.c_uint8
            self.calls.pmem_reply.restype = _SIZE
        except (OSError, AttributeError) as error:
            raise ProgramFailed(f"{self.path} is not pmem's library: {error}") from error

    @staticmethod
    def _joined(words: Sequence[str]) -> bytes:
        if any("\0" in word for word in words):
            raise BadWords("embedded null byte")
        return b"".join(word.encode("utf-8", "surrogateescape") + b"\0" for word in words)

    def run(self, words: Sequence[str], trace: bytes) -> Tuple[int, bytes]:
        joined, whole, size = self._joined(words), _SIZE(0), 4096 + 4 * len(trace)
        while True:
            room = ctypes.create_string_buffer(size)
            status = int(self.calls.pmem_answer(joined, len(joined), trace, len(trace), room, size, ctypes.byref(whole)))
            if whole.value <= size:
                return status, ctypes.string_at(room, whole.value)
            size = whole.value

    def open(self, words: Sequence[str]) -> Channel:
        handle, joined = _Handle(), self._joined(words)
        _must_open(int(self.calls.pmem_open(ctypes.byref(handle), joined, len(joined))))
        return LibraryChannel(self, handle)


def find_library() -> Optional[str]:
    """The library: the file PMEM_LIBRARY, or `libpmem.so` in that folder; else the one that `pip install` compiled into this package; else
    out/libpmem.so of the checkout, if it is built from the sources as they stand. No place of the system is searched: the library of
    another project has the same name."""
    given = os.environ.get("PMEM_LIBRARY")
    if given:
        path = Path(given)
        return str(path / "libpmem.so" if path.is_dir() else path)
    places = [PACKAGE / "libpmem.so"]
    if not (CHECKOUT / "crates.txt").exists() and (CHECKOUT / "VERSION").exists():
        places.append(CHECKOUT / "lib" / "libpmem.so")  # of a bundle
    return next((str(place) for place in places if place.exists()), None) or _checkout_file(CHECKOUT, "out", "libpmem.so")


Through = Union[None, str, Way]


def way_of(through: Through = None) -> Way:
    """The way that `through` names: `program`, `library`, or a way itself. None is the library, whose calls stay in this process; but it is
    the program if PMEM_PROGRAM names one and PMEM_LIBRARY names none, or if there is no library.

    Raises:
        NotFound: there is no such program or library here.
        ValueError: `through` names no way.
    """
    if isinstance(through, Way):
        return through
    if through not in (None, "program", "library"):
        raise ValueError(f"through must be 'program' or 'library', not {through!r}")
    library = find_library() if through != "program" else None
    if library and not (through is None and os.environ.get("PMEM_PROGRAM") and not os.environ.get("PMEM_LIBRARY")):
        return Library(library)
    program = find_program() if through != "library" else None
    if program:
        return Program(program)
    what = {"program": "the program was not found", "library": "the library was not found"}.get(
        through or "", "neither the program nor the library was found")
    raise NotFound(f"{what}: in a checkout run tools/library, which takes half a minute, or pip install ./python; elsewhere set PMEM_LIBRARY "
                   "to the folder of libpmem.so, or PMEM_PROGRAM to the program pmem, or put that on the PATH")

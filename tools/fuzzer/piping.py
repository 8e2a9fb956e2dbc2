"""The program by a pipe, in random pieces, against pmem_answer of the library for the same bytes."""
import ctypes
import os
import random
import subprocess
import sys
import time
from pathlib import Path
from typing import List, Optional, Tuple

from librarymaker import portable
from librarymaker.files import SHARED, TOP

from .building import ROOM, FuzzError

FORMS = ("post 0 N L", "drain 0", "fence 0", "read 0 N", "turn", "flush", "cut N", "off", "on", "poke N L", "flip N N", "move N N", "snap",
         "back N", "peek N", "stat", "loss 8", "write N L", "place N", "begin", "put N L", "commit", "abort", "# a comment", "")
NUMBERS = ("0", "1", "2", "3", "7", "1303", "18446744073709551615")
PIECES = (1, 7, 100, 4096, 1_000_000)
SMALL = ("--suite", "weak", "--levels", "1")
# Options of the persistence policy and of the queues, and the machines that take them. One run in three has the defaults.
POLICIES = ((), ("--shadow", "off"), ("--persist", "1"), ("--persist", "2", "--shadow", "off"))
QUEUES = ((), ("--queue", "durable"), ("--combine", "on"), ("--queue", "durable", "--combine", "on"))
ROOM_BYTES = 1 << 20
SECONDS = 60
Answer = Tuple[int, bytes]


class Library:
    """pmem_answer of a shared library."""

    def __init__(self, path: Path) -> None:
        self.call = ctypes.CDLL(str(path)).pmem_answer
        self.call.restype = ctypes.c_uint8
        self.out = ctypes.create_string_buffer(ROOM_BYTES)

    def answer(self, words: List[str], trace: bytes) -> Answer:
        """The status and the output for these arguments and this trace."""
        given, whole = b"".join(word.encode() + b"\0" for word in words), ctypes.c_size_t()
        status = self.call(given, ctypes.c_size_t(len(given)), trace, ctypes.c_size_t(len(trace)), self.out, ctypes.c_size_t(ROOM_BYTES),
                           ctypes.byref(whole))
        return int(status), self.out.raw[:whole.value]


def library(native: Optional[Path]) -> Library:
    """The library that is asked: the native one of a folder, or the portable one, which is made unless it is there."""
    if native is not None:
        return Library(native / SHARED)
    if not portable.is_current():
        raise FuzzError("module/pmem.wasm was made of other sources than those here: tools/module makes it again, or --native names a folder "
                        "with the native library", 126)
    folder = TOP / "out" / "portable"
    made = subprocess.run([sys.executable, str(TOP / "tools" / "library"), "--portable", "--out", str(folder)], stdin=subprocess.DEVNULL,
                          stdout=subprocess.PIPE, stderr=subprocess.STDOUT, universal_newlines=True, check=False)
    if made.returncode:
        raise FuzzError(made.stdout.strip(), made.returncode)
    return Library(folder / SHARED)


def made_line(chance: random.Random) -> bytes:
    """A line of a trace: N stands for a number, L for the bytes of a line."""
    words = [chance.choice(NUMBERS) if word == "N" else chance.choice(("11", "ab", "00")) * 64 if word == "L" else word
             for word in chance.choice(FORMS).split(" ")]
    return " ".join(words).encode() + chance.choice((b"\n",) * 9 + (b"\r\n",))


def made_trace(chance: random.Random) -> bytes:
    """A trace, two in five with some bytes changed, and one in twenty with a line near the longest."""
    trace = bytearray(b"".join(made_line(chance) for _ in range(chance.randrange(1, 40))))
    if chance.random() < 0.4:
        for _ in range(chance.randrange(1, 4)):
            at = chance.randrange(len(trace) + 1)
            trace[at:at + chance.randrange(3)] = bytes(chance.randrange(256) for _ in range(chance.randrange(3)))
    if chance.random() < 0.05:
        trace += b"#" + b"a" * chance.randrange(1020, 1030) + b"\n"
    return bytes(trace)


def piped(program: str, words: List[str], trace: bytes, chance: random.Random) -> Answer:
    """What the program answers if its trace comes in random pieces."""
    child = subprocess.Popen([program, *words], stdin=subprocess.PIPE, stdout=subprocess.PIPE, bufsize=0)
    assert child.stdin is not None
    try:
        at = 0
        while at < len(trace):
            size = chance.choice(PIECES)
            at += child.stdin.write(trace[at:at + size]) or 0
    except BrokenPipeError:
        pass
    said, _ = child.communicate(timeout=SECONDS)
    return child.returncode, said


def chosen_words(chance: random.Random) -> List[str]:
    """The arguments of a run."""
    machine = chance.choice(("run", "wear", "txn", "tree"))
    words = [machine, *SMALL]
    if machine != "tree" and chance.random() < 2 / 3:
        words += chance.choice(POLICIES)
        words += chance.choice(QUEUES) if machine == "run" else ()
    return words


def compared(seconds: int, seed: int, native: Optional[Path]) -> Tuple[int, str, str]:
    """Compares for some seconds. Gives how many runs there were, what is wrong (or nothing), and the arguments and trace that show it."""
    asked, chance = library(native), random.Random(seed or None)
    program = os.environ.get("PMEM_PROGRAM") or str(TOP / "pmem")
    count, end = 0, time.monotonic() + seconds
    while count == 0 or time.monotonic() < end:
        words = chosen_words(chance)
        trace = made_trace(chance)
        found, due = piped(program, words, trace, chance), asked.answer(words, trace)
        count += 1
        if found != due:
            kept = ROOM / "found" / f"pipe-{abs(hash(trace)):x}.trace"
            kept.parent.mkdir(parents=True, exist_ok=True)
            kept.write_bytes(trace)
            return count, f"{' '.join(words)} differs on {kept}", f"the program: {found!r}\npmem_answer: {due!r}\n"
    return count, "", ""

"""Compiling the C with the compiler that is there, in parts side by side."""
import os
import shutil
import signal
import subprocess
import time
from typing import Callable, List, Optional, Sequence

from .source import PARTS

COMPILERS = ("cc", "gcc", "clang")
FLAGS = ("-std=c11", "-O1")


class PortableError(Exception):
    """Why the program can't be made, in one line."""


def find_compiler() -> str:
    """The C compiler's path: what the variable CC names, else the first there is. Errors: PortableError."""
    named = os.environ.get("CC")
    for name in [named] if named else COMPILERS:
        path = shutil.which(name)
        if path:
            return path
    if named:
        raise PortableError(f"the C compiler that CC names, {named}, is not there")
    raise PortableError(f"a C compiler is needed and none is on the PATH ({', '.join(COMPILERS)}); on Debian: apt install gcc libc6-dev")


def processors() -> int:
    """How many processes may compute at a time."""
    return len(os.sched_getaffinity(0)) if hasattr(os, "sched_getaffinity") else os.cpu_count() or 1


class Interrupts:
    """Signals that end this process raise a KeyboardInterrupt, but not during the start of a child, which would be left behind."""

    def __init__(self) -> None:
        self.is_held = self.is_seen = False

    def listen(self) -> None:
        """Handles the signals."""
        for name in ("SIGTERM", "SIGHUP", "SIGINT"):
            if hasattr(signal, name):
                signal.signal(getattr(signal, name), self.handle)

    def handle(self, *_: object) -> None:
        """The handler of the signals."""
        self.is_seen = True
        if not self.is_held:
            raise KeyboardInterrupt

    def __enter__(self) -> None:
        self.is_held = True

    def __exit__(self, *_: object) -> None:
        self.is_held = False
        if self.is_seen:
            raise KeyboardInterrupt


INTERRUPTS = Interrupts()


class Compiling:
    """Runs of a compiler side by side, which all end if one fails or if this process is interrupted."""

    def __init__(self, words: Sequence[str], folder: str) -> None:
        self.words, self.folder = list(words), folder
        self.running: List["subprocess.Popen[bytes]"] = []

    def start(self, more: Sequence[str]) -> None:
        """Begins a run with further words. What it says goes to a file of the folder."""
        with open(f"{self.folder}/said", "ab") as said, INTERRUPTS:
            self.running.append(subprocess.Popen([*self.words, *more], stdin=subprocess.DEVNULL, stdout=said, stderr=said))

    def has_ended(self) -> bool:
        """Whether one more run has ended. Errors: PortableError if it failed."""
        for process in self.running:
            status = process.poll()
            if status is None:
                continue
            self.running.remove(process)
            if status:
                raise PortableError(f"{os.path.basename(self.words[0])} cannot compile the program: {self.first_line() or f'status {status}'}")
            return True
        return False

    def first_line(self) -> str:
        """The first line that the compiler said, if possible one that names an error."""
        with open(f"{self.folder}/said", encoding="utf-8", errors="replace") as file:
            lines = [line.strip() for line in file if line.strip()]
        return next((line for line in lines if "error" in line), lines[0] if lines else "")

    def wait(self) -> None:
        """Waits until one more run has ended."""
        while not self.has_ended():
            time.sleep(0.02)

    def end(self) -> None:
        """Ends all that runs."""
        for process in self.running:
            process.kill()
        for process in self.running:
            process.wait()
        self.running.clear()


def compile_parts(source: str, folder: str, flags: Sequence[str] = FLAGS, told: Optional[Callable[[int, int], None]] = None,
                  compiler: Optional[str] = None, parts: Sequence[int] = range(PARTS)) -> List[str]:
    """Compiles the C in parts, side by side on all processors, and answers the object files: all parts, or some. `told` hears how many parts of
    how many are done. Errors: PortableError."""
    work = Compiling([compiler or find_compiler(), *flags], folder)
    objects, done = [f"{folder}/part{number}.o" for number in parts], 0
    waiting = list(parts)
    try:
        while waiting or work.running:
            while waiting and len(work.running) < processors():
                number = waiting.pop(0)
                work.start([f"-DPMEM_PART={number}", "-c", source, "-o", f"{folder}/part{number}.o"])
            work.wait()
            done += 1
            if told:
                told(done, len(objects))
    finally:
        work.end()
    return objects


def compile_program(source: str, place: str, folder: str, flags: Sequence[str] = FLAGS,
                    told: Optional[Callable[[int, int], None]] = None, compiler: Optional[str] = None) -> None:
    """Compiles pmem.c to a program at a place, over files in a folder. It is there whole or not at all. Errors: PortableError."""
    compiler = compiler or find_compiler()
    objects = compile_parts(source, folder, flags, told, compiler)
    linking = Compiling([compiler, *flags], folder)
    try:
        linking.start([*objects, "-o", f"{folder}/program"])
        linking.wait()
    finally:
        linking.end()
    os.replace(f"{folder}/program", place)

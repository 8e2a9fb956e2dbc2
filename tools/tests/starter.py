"""Runs `explore` again and again from one Python that has its modules: a start takes a fork, and not the time of the imports.

What a run is given and prints is as if the command had been started: it has standard input, output and errors by pipes, its
own words and environment, and ends as Python ends.
"""
import atexit
import gc
import importlib
import json
import os
import runpy
import subprocess
import sys
import threading
from functools import lru_cache
from pathlib import Path
from typing import IO, Any, Dict, List, Sequence

TOOLS = Path(__file__).resolve().parents[1]
EXPLORE = TOOLS / "explore"


def send(file: IO[bytes], message: Any) -> None:
    """Writes a message, with its length before it."""
    text = json.dumps(message).encode()
    file.write(b"%d\n" % len(text) + text)
    file.flush()


def receive(file: IO[bytes]) -> Any:
    """The next message; None if there are no more."""
    size = file.readline()
    return json.loads(file.read(int(size))) if size else None


class Starter:
    """The process that forks, of this interpreter. It has these modules besides."""

    def __init__(self, python: str, modules: Sequence[str]) -> None:
        words = [python, "-c", f"import sys; sys.path[0] = {str(TOOLS)!r}; from tests import starter; starter.serve(sys.argv[1:])", *modules]
        self.process = subprocess.Popen(words, stdin=subprocess.PIPE, stdout=subprocess.PIPE)
        atexit.register(self.close)

    def close(self) -> None:
        """Ends it."""
        self.process.communicate()

    def run(self, words: Sequence[str], text: str, environment: Dict[str, str]) -> "subprocess.CompletedProcess[str]":
        """What a run with these words, this standard input and this environment prints."""
        assert self.process.stdin and self.process.stdout
        send(self.process.stdin, [words, text, environment, os.getcwd()])
        status, out, err = receive(self.process.stdout)
        return subprocess.CompletedProcess([str(EXPLORE), *words], status, out, err)


@lru_cache(maxsize=None)
def starter(*modules: str, python: str = sys.executable) -> Starter:
    """The one of this process that has these modules."""
    return Starter(python, modules)


def serve(modules: Sequence[str]) -> None:
    """Does what is asked, until no more is. A child comes back from here as well, and then Python ends."""
    for name in ("explorer.command_line", *modules):
        importlib.import_module(name)
    gc.freeze()  # a child needn't look at what was there before it
    asked, answers = sys.stdin.buffer, os.fdopen(os.dup(1), "wb")
    while True:
        question = receive(asked)
        if question is None:
            return
        words, text, environment, folder = question
        ends = [os.pipe() for _ in range(3)]
        child = os.fork()
        if not child:
            answers.close()
            begin(ends, words, environment, folder)
            return
        send(answers, told(child, ends, text.encode()))


def begin(ends: Sequence[Sequence[int]], words: List[str], environment: Dict[str, str], folder: str) -> None:
    """Is the command: ends by an exception, as SystemExit."""
    for file, (mine, other) in enumerate((ends[0], ends[1][::-1], ends[2][::-1])):
        os.dup2(mine, file)
        os.close(mine)
        os.close(other)
    sys.stdin = open(0, closefd=False)
    os.environ.clear()
    os.environ.update(environment)
    os.chdir(folder)
    sys.argv = [str(EXPLORE), *words]
    runpy.run_path(str(EXPLORE), run_name="__main__")


def told(child: int, ends: Sequence[Sequence[int]], text: bytes) -> List[Any]:
    """The status of a child, what it wrote to standard output and what to standard error."""
    for file in (ends[0][0], ends[1][1], ends[2][1]):
        os.close(file)
    found: Dict[int, str] = {}

    def read(file: int) -> None:
        with os.fdopen(file, encoding="utf-8", errors="surrogateescape") as pipe:
            found[file] = pipe.read()

    readers = [threading.Thread(target=read, args=(end[0],)) for end in ends[1:]]
    for reader in readers:
        reader.start()
    try:
        with os.fdopen(ends[0][1], "wb") as pipe:
            pipe.write(text)
    except BrokenPipeError:
        pass
    for reader in readers:
        reader.join()
    status = os.waitpid(child, 0)[1]
    return [os.WEXITSTATUS(status) if os.WIFEXITED(status) else -os.WTERMSIG(status), found[ends[1][0]], found[ends[2][0]]]

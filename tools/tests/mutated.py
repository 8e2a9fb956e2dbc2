"""Feeds one reader of the explorer with mutated files, within limits of memory and time. test_mutated_files.py runs it for each reader.

usage: python3 -m tests.mutated READER COUNT SEED     (in tools/)

It prints `READER: N taken, M refused`. A file must be taken, or refused by an ExploreError of one printable line; anything else ends it with
status 1 and the file's bytes.
"""
import contextlib
import io
import os
import random
import resource
import signal
import sys
import tempfile
from typing import Any, Callable, Dict, Iterator, List, NamedTuple, Tuple

from explorer import charts, cluster, command_line, costs, draw, importing, sweep, symbols
from explorer.convert import converted
from explorer.cuts import answers_before, readings_of
from explorer.errors import ExploreError
from explorer.logged import LoggedProgram, LoggedRecording, counted
from explorer.machines import MACHINES
from explorer.program import Output, Recording, StopLine, counts_of
from explorer.rows import Rows
from explorer.settings import Settings
from explorer.trace import trace_of

from .test_hostile_files import SYMBOL, elf

MOST_MEMORY = 1 << 30
MOST_SECONDS = 5
LONGEST_MESSAGE = 2000
LARGEST = 20_000
ONES = b"11" * 64


class TooSlow(BaseException):
    """One file took too long."""


class Drawn(Exception):
    """A value passed all that is looked at before it is drawn."""


class Reader(NamedTuple):
    """A reader: what it does with a path, the files that its mutants are made of, and words that are put into them."""

    read: Callable[[str], Any]
    seeds: Tuple[bytes, ...]
    words: Tuple[bytes, ...]


def imported(kind: str) -> Callable[[str], Any]:
    """Reads a file as `explore import` does."""
    def read(path: str) -> Any:
        for machine in ("run", "wear"):
            importing.import_trace(path, kind, importing.Rules(MACHINES[machine].data_lines(1), machine_name=machine, levels=1, fold=True))
    return read


def read_elf(path: str) -> Any:
    """Reads a table of symbols as `--elf` does."""
    return symbols.elf_symbols(path, 1 << 20)


def no_picture() -> Any:
    """Stands for matplotlib: what comes to it has been read."""
    raise Drawn


def read_json(path: str) -> Any:
    """Reads a result as `explore draw` does, up to the picture."""
    with open(path, "rb") as file:
        value = command_line.json_value(file.read())
    if value is None:
        raise ExploreError("not a result")
    for module in (charts, draw):
        setattr(module, "load_matplotlib", no_picture)
    try:
        found = sweep.points_of(value)
        if found is None and charts.picture_of(value, "", "svg", False, False) is None:
            raise ExploreError("not a result")
        if found is not None:
            draw.varied(found[1])
    except Drawn:
        pass


def read_trace(path: str) -> Any:
    """Reads a trace as the commands do: its commands, the names in its comments, its rows, and the trace for another machine."""
    with open(path, "rb") as file:
        trace = trace_of(path, file.read())
    names = symbols.Names(trace)
    for line in (0, 1, 255, 999_999_999):
        names.address_text(line)
    Rows(trace)
    refused = 0
    for machine in sorted(set(MACHINES) - {"run"}):
        try:
            converted(trace.commands, machine, 1)
        except ExploreError:
            refused += 1
    if refused:
        raise ExploreError("another machine doesn't take it")


def read_answer(path: str) -> Any:
    """Reads what a worker of a cluster answers: to two runs, or to two questions."""
    with open(path, "rb") as file:
        done = cluster.answer_of(file.read(), "tcp://x:1")
    try:
        return cluster.checked_texts(done, 2, "tcp://x:1")
    except ExploreError:
        return cluster.checked_outputs(done, 2, "tcp://x:1")


def read_replies(path: str) -> Any:
    """Reads what a program prints instead of the replies to `ASKED`, with its log and without, whatever its status."""
    with open(path, "rb") as file:
        data = file.read()
    program, settings, trace, refused = LoggedProgram("pmem"), Settings(levels=1, suite="weak"), trace_of("a", ASKED), 0
    for status in (0, 1, 2, 5, 6, 7, -11):
        try:
            program.check(Output(data, status), settings)
        except (ExploreError, StopLine):
            refused += 1
    answers_before(data, 1 << 30)
    readings_of(data)
    for kind in (Recording, LoggedRecording):
        try:
            recording = kind(program, settings, trace, Output(data, 0))
        except ExploreError:
            refused += 1
            continue
        for index in range(len(recording.commands)):
            recording.steps(index)
        counts_of(recording.replies[-1].answer)
    try:
        counted(data, trace.line_count, "pmem")
    except ExploreError:
        refused += 1
    if refused > 6:
        raise ExploreError("neither replies nor replies with logs")


LACKEY = (b"==7== Lackey, an example Valgrind tool\n==7==\nI  00401000,3\n S 1fff000778,8\n L 1fff00077e,4\n M 00601040,4\n"
          b" S 00602000,64\n==7== Exit code: 0\n")
PMEMCHECK = b"==7== x\nSTART|STORE;0x1000;0xa1;0x1|STORE;0x1008;0xffff;0x2|FLUSH;0x1000;0x40|FENCE|STORE;0x2000;0x1;0x8|FENCE|STOP\n"
CSV = (b"op,address,size,data,source\nstore,0x1040,8,a1a1a1a1a1a1a1a1,a.c:7\nclwb,0x1040,64\nsfence\nmark,second\nntstore,4096,2,0102\n"
       b"load,0x1000,4\nfence\nchanged,0x2000,1,ff,\"b,c\"\n")
TRACE = (b"# lines 0 to 3 are at 0x1000\n# line 9 is at 0x40\n# row 1, a.c:7: store 3 0 0101\npost 0 3 " + ONES + b"\n# row 2: clwb 3\n"
         b"drain 0\nfence 0\nread 0 3\npart 1 9 3 aabb\ncut 3\non\nflip 5 0\nstat\n")
RECORD = b'{"levels": 1, "sets": 4, "ways": 2, "loss": 4, "writes": 9, "reads": 3'
SWEEP = (b'{"sweep": "a.trace", "settings": [' + RECORD + b", " + b", ".join(b'"%s": 1.5' % name.encode() for name in sweep.FIELDS[6:]) + b"}]}")
ROWS = b'{"compare": "a", "heads": [], "designs": [{"design": "run", "trace": "a", "levels": 1, "sets": 4, "write_steps": 5.0}]}'
MOMENTS = b'[{"steps_before": 5, "line": 10, "command": "drain 0", "answer": "cut lost 0"}]'
ASKED = b"post 0 3 " + ONES + b"\ndrain 0\nread 0 3\ncut 3\non\nstat\n"
REPLIES = b"ok\nseal 3 0.1\nok 6\nline " + ONES + b" 0\nok\nalready\nstat 9 9 2 2 9\n"
LOGGED = (b"work 0 0\nok\nlook 1280\nline 3\nlatch 1\nwork 2 9\nseal 3 0.1\nok 6\nlook 3\nwork 1 0\nline " + ONES +
          b" 0\nwork 0 0\nok\nwork 0 0\nalready\nwork 0 0\nstat 9 9 2 2 9\n")
NUMBERS = (b"0", b"-1", b"1e999", b"18446744073709551615", b"18446744073709551616", b"9" * 400, b"0x" + b"f" * 40, b"NaN", b"007")
STRANGE = (b"\0", b"\x1b[31m", b"\xff\xfe", b"\r", b"\n", b"\"", b"'", b"\xe2\x80\xa8", b"\xef\xbb\xbf", b",", b";", b"|", b" ", b"\t", b"x" * 3000)


def toml_seeds() -> Tuple[bytes, ...]:
    """The files of costs that come with the explorer."""
    return tuple(path.read_bytes() for path in sorted(costs.FOLDER.glob("*.toml")))


def readers() -> Dict[str, Reader]:
    """Each reader by its name."""
    symbol, names = SYMBOL.pack(1, 1, 0, 1, 0x40, 8), b"\0first\0second\0"
    return {
        "lackey": Reader(imported("lackey"), (LACKEY, b"I  0,1\n S 0,1\n"), (b" S 1fff000778,4096\n", b"==7== ", b"Lackey: x Assertion", b"I  ")),
        "pmemcheck": Reader(imported("pmemcheck"), (PMEMCHECK, PMEMCHECK * 2), (b"|FLUSH;0x0;0x40000000", b"|FENCE", b"|STORE;", b"|", b"START")),
        "csv": Reader(imported("csv"), (CSV, (b"store,0,8\nfence\n") * 5), (b"store,", b"clwb,0x0,1099511627776\n", b"fence\n", b"# ", b"\",\"")),
        "elf": Reader(read_elf, (elf([symbol] * 3, names), elf([symbol], names)), (b"\xff" * 8, b"\0" * 8, b"\x01" + b"\0" * 7, b"\x7fELF")),
        "toml": Reader(costs.read_costs, toml_seeds(), (b"[", b"]", b"= ", b"{", b"}", b"[[" * 600, b"true", b"source = ", b"'''")),
        "json": Reader(read_json, (SWEEP, ROWS, MOMENTS), (b"[" * 3000, b"{", b"}", b"null", b"true", b"[]", b'"settings"', b'"\\ud800"', b":")),
        "replies": Reader(read_replies, (REPLIES, LOGGED, b"ok\nstop line 3 2\n"), (
            b"seal ", b"begin ", b"stop line ", b"work ", b"\nstop memory\n", b"cut kept", b"look ", b"seal 3 0.1\n" * 900, b"x" * 9000)),
        "answers": Reader(read_answer, (b'{"done": ["ok 5\\n", "line 00 0\\n"]}', b'{"done": [["ok 5\\n", 0], ["stop memory\\n", -11]]}',
                                        b'{"wrong": ["out of memory", 1]}'), (b"[" * 3000, b"null", b"true", b"[]", b"{", b'"done"', b'"\\u00e9"')),
        "scheduler": Reader(cluster.scheduler_at, (b'{"type": "Scheduler", "address": "tls://10.0.0.1:40001", "workers": {}}',
                                                   b'{"address": "tcp://[::1]:8786"}'), (b"tcp://", b":99999", b"\\ud800", b"\\u0000", b"[" * 3000)),
        "trace": Reader(read_trace, (TRACE, b"write 3 " + ONES + b"\nplace 1\nread 3\nbegin\nput 1 " + ONES + b"\ncommit\n"),
                        (b"# lines 0 to 999999999 are at 0x0\n", b"# row 999999999: ", b"post 0 ", b"on\noff\n", ONES)),
    }


def mutant(chance: random.Random, reader: Reader) -> bytes:
    """A file with one to six changes."""
    data = bytearray(chance.choice(reader.seeds))
    for _ in range(chance.choice((1, 1, 1, 2, 3, 6))):
        at = chance.randrange(len(data) + 1)
        end = min(len(data), at + chance.choice((0, 1, 1, 2, 8, 40)))
        kind = chance.randrange(7)
        if kind == 0 and at < len(data):
            data[at] ^= 1 << chance.randrange(8)
        elif kind == 1:
            data[at:end] = chance.choice(reader.words)
        elif kind == 2:
            data[at:end] = chance.choice(NUMBERS)
        elif kind == 3:
            data[at:end] = chance.choice(STRANGE)
        elif kind == 4:
            del data[at:end]
        elif kind == 5:
            data[at:at] = data[at:end] * chance.choice((1, 2, 30))
        else:
            data = data[:at] + bytearray(chance.choice(reader.seeds))[chance.randrange(len(data) + 1):]
    return bytes(data[:LARGEST])


@contextlib.contextmanager
def bounded() -> Iterator[None]:
    """Ends what computes for too long by TooSlow. Time in which other processes run doesn't count."""
    def stop(_number: int, _frame: object) -> None:
        raise TooSlow
    signal.signal(signal.SIGVTALRM, stop)
    signal.setitimer(signal.ITIMER_VIRTUAL, MOST_SECONDS)
    try:
        yield
    finally:
        signal.setitimer(signal.ITIMER_VIRTUAL, 0)


def fault_of(reader: Reader, path: str) -> Tuple[bool, str]:
    """Whether the reader took a file, and what is wrong with how it ended, if anything."""
    said = io.StringIO()
    try:
        with bounded(), contextlib.redirect_stderr(said):
            reader.read(path)
    except ExploreError as error:
        text = str(error)
        return False, "" if text.isprintable() and len(text) <= LONGEST_MESSAGE else f"its message: {text[:300]!r}"
    except TooSlow:
        return False, f"more than {MOST_SECONDS} s"
    except Exception as error:  # whatever it is, a user would see a traceback
        return False, f"{type(error).__name__}: {error}"
    return True, "" if all(line.isprintable() for line in said.getvalue().split("\n")) else f"its notes: {said.getvalue()[:300]!r}"


def main(words: List[str]) -> int:
    name, count, seed = words[0], int(words[1]), int(words[2])
    resource.setrlimit(resource.RLIMIT_AS, (MOST_MEMORY, MOST_MEMORY))
    reader, chance, taken = readers()[name], random.Random(seed), 0
    with tempfile.TemporaryDirectory() as folder:
        path = os.path.join(folder, "file.toml")
        for number in range(count):
            data = mutant(chance, reader)
            with open(path, "wb") as file:
                file.write(data)
            is_taken, fault = fault_of(reader, path)
            taken += is_taken
            if fault:
                print(f"{name}, file {number} of seed {seed}: {fault}\n{data!r}")
                return 1
    print(f"{name}: {taken} taken, {count - taken} refused")
    return 0


if __name__ == "__main__":
    sys.exit(main(sys.argv[1:]))

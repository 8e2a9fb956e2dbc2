"""The command line of `tools/record`: compiles record.c, runs the program with it, and names the places in its source."""
import argparse
import os
import re
import shutil
import signal
import subprocess
import sys
import tempfile
from pathlib import Path
from typing import Dict, Iterable, Iterator, List, NoReturn, Optional, Sequence, Set, Tuple

SOURCE = Path(__file__).resolve().with_name("record.c")
COMPILERS = ("cc", "gcc", "clang")
FLAGS = ("-std=gnu11", "-O2", "-fPIC", "-shared", "-fvisibility=hidden")
HEAD = "op,address,size,data,source\n"
PLACE = re.compile(r"([^,\n]*)\+0x([0-9a-f]+)")
FAILURE, WRONG_WORDS, INTERRUPTED = 1, 2, 130

DESCRIPTION = """\
Runs a program and records what it stores to some files, which stand for persistent memory: its
stores through libpmem, mappings with msync, and write with fsync, with their bytes, flushes,
fences and the line of the source that called. The result is a CSV for `tools/explore import csv`."""

EPILOG = """\
  tools/record --files pool -o store.csv ./store pool
  tools/explore import csv store.csv -o store.trace
  tools/explore cuts store.trace --check ./check --orders 100

Stores into a mapping cannot be seen one by one. Each flush and fence compares the mappings with
what was recorded before: rows `changed` have bytes that differ, stored in an order that nobody
knows. A value that is stored and overwritten between two such calls is not seen, nor are clwb and
sfence in the program's own code: for these see include/pmem_record.h.

Only the first process that touches such a file is recorded. It needs Linux, glibc and a C compiler.
For lines of the source, compile the program with -g, and with -O0 or -fno-optimize-sibling-calls
so that a last call stays a call; and install addr2line (Debian: binutils).

The exit status is that of the program, 128 plus the number of the signal that ended it, 1 if it
could not be recorded, or 2 if the arguments are invalid."""


class RecordError(Exception):
    """What is wrong, in one line."""


class Parser(argparse.ArgumentParser):
    """A parser whose errors begin with the command's name."""

    def error(self, message: str) -> NoReturn:
        sys.stderr.write(f"record: {message}\nrecord: see tools/record --help\n")
        sys.exit(WRONG_WORDS)


def make_parser() -> Parser:
    """The parser of the arguments."""
    parser = Parser(prog="tools/record", description=DESCRIPTION, epilog=EPILOG, allow_abbrev=False,
                    formatter_class=argparse.RawDescriptionHelpFormatter)
    parser.add_argument("--files", action="append", metavar="PATH",
                        help="a file to record, or a folder with all in it; it may be given several times (default: the current folder)")
    parser.add_argument("-o", "--output", default="recorded.csv", metavar="FILE", help="the CSV (default: recorded.csv)")
    parser.add_argument("program", metavar="PROGRAM", help="the program, found as a shell finds it")
    parser.add_argument("arguments", nargs=argparse.REMAINDER, metavar="ARGUMENT", help="its arguments")
    return parser


def compiled(folder: str) -> str:
    """Compiles the library that is loaded before the program."""
    if not sys.platform.startswith("linux"):
        raise RecordError(f"a program cannot be recorded on {sys.platform}: Linux is needed")
    names = [os.environ["CC"]] if os.environ.get("CC") else list(COMPILERS)
    compiler = next((path for path in map(shutil.which, names) if path), None)
    if compiler is None:
        raise RecordError(f"there is no C compiler ({', '.join(names)}): Debian's package is gcc")
    made = os.path.join(folder, "record.so")
    ran = subprocess.run([compiler, *FLAGS, "-o", made, str(SOURCE), "-ldl", "-lpthread"], stdout=subprocess.PIPE, stderr=subprocess.STDOUT,
                         check=False)
    if ran.returncode:
        raise RecordError(f"record.c cannot be compiled: {ran.stdout.decode('utf-8', 'replace').strip().splitlines()[:1]}")
    return made


def run(words: argparse.Namespace, library: str, log: str) -> int:
    """Runs the program, and answers its status."""
    files = [os.path.realpath(name) for name in words.files or ["."]]
    before = os.environ.get("LD_PRELOAD")
    environment = {**os.environ, "LD_PRELOAD": f"{library}:{before}" if before else library, "PMEM_RECORD_OUT": log,
                   "PMEM_RECORD_FILES": "\n".join(files)}
    ignored = signal.signal(signal.SIGINT, signal.SIG_IGN)  # of Ctrl-C the program decides
    try:
        process = subprocess.Popen([words.program, *words.arguments], env=environment,
                                   preexec_fn=lambda: signal.signal(signal.SIGINT, ignored) and None)
        status = process.wait()
    except OSError as error:
        raise RecordError(f"cannot run {words.program}: {error.strerror or error}") from error
    return 128 - status if status < 0 else status


def places_in(lines: Iterable[str]) -> Set[Tuple[str, str]]:
    """The places that rows end with: a file with code (nothing for the program) and an address in it."""
    return {(match[1], match[2]) for line in lines for match in [PLACE.fullmatch(line.rstrip("\n").rpartition(",")[2])] if match}


def source_names(places: Set[Tuple[str, str]], program: str) -> Dict[Tuple[str, str], str]:
    """The file and line of each place, or if that isn't known the place itself."""
    found = {place: f"{os.path.basename(place[0] or program)}+0x{place[1]}" for place in places}
    tool = shutil.which("addr2line")
    if tool is None:
        sys.stderr.write("record: there is no addr2line (Debian: binutils), so rows have addresses and no lines of the source\n")
        return found
    for module in sorted({module for module, _ in places}):
        addresses = sorted({address for name, address in places if name == module})
        ran = subprocess.run([tool, "-e", module or program], input="".join(f"0x{address}\n" for address in addresses),
                             stdout=subprocess.PIPE, stderr=subprocess.DEVNULL, universal_newlines=True, check=False)
        for address, text in zip(addresses, ran.stdout.splitlines()):
            name, _, number = text.split(" (")[0].rpartition(":")
            if name and name != "??" and number.isdigit() and number != "0":
                found[module, address] = f"{shown_source(name)}:{number}"
    return found


def shown_source(name: str) -> str:
    """A source's name: from the current folder on if it is in it, else its last part."""
    relative = os.path.relpath(name)
    return relative if not relative.startswith("..") else os.path.basename(name)


def rows_of(lines: Iterable[str], names: Dict[Tuple[str, str], str]) -> Iterator[str]:
    """The rows of the CSV."""
    yield HEAD
    for line in lines:
        if line.startswith("#"):
            if not line.startswith("# outside"):
                yield line
            continue
        row, _, last = line.rstrip("\n").rpartition(",")
        match = PLACE.fullmatch(last)
        source = names[match[1], match[2]] if match else last
        yield f"{row},{quoted(source)}\n"


def quoted(text: str) -> str:
    """A field of a CSV."""
    return '"' + text.replace('"', '""') + '"' if any(letter in text for letter in ',"') else text


def told(lines: Sequence[str], words: argparse.Namespace, log: str) -> None:
    """Says what was recorded, what wasn't, and what to do next."""
    rows = [line for line in lines if not line.startswith("#")]
    if not rows:
        sys.stderr.write("record: the program stored nothing to these files: --files names them (default: the current folder); a program that "
                         "is linked statically cannot be recorded\n")
    sys.stderr.write(f"record: {words.output}: {len(rows)} rows\n")
    for line in lines:
        found = re.fullmatch(r"# file ([0-9]+) at (0x[0-9a-f]+): (.*)\n?", line)
        if found:
            sys.stderr.write(f"record: {found[3]} is at {found[2]}\n")
            image = f"{log}.image{found[1]}"
            if os.path.exists(image):
                kept = f"{words.output}.image{found[1]}"
                shutil.copyfile(image, kept)
                sys.stderr.write(f"record: it was not empty: import with --image {found[2]}={kept}\n")
        if line.startswith("# outside: "):
            sys.stderr.write(f"record: flushes of memory outside these files, which are not recorded: {line.split()[-1]}\n")
    try:
        others = Path(f"{log}.others").read_text(encoding="utf-8", errors="replace").splitlines()
    except OSError:
        return
    for other in sorted(set(others)):
        sys.stderr.write(f"record: not recorded, as another process is: {other}\n")


def record(words: argparse.Namespace) -> int:
    """Records a program, and answers its status."""
    folder = os.path.dirname(os.path.realpath(words.output))
    if not os.path.isdir(folder) or os.path.isdir(words.output):
        raise RecordError(f"cannot write {words.output}")
    program = shutil.which(words.program)
    if program is None:
        raise RecordError(f"cannot run {words.program}: there is no such program")
    with tempfile.TemporaryDirectory(prefix="pmem-record-") as place:
        log = os.path.join(place, "log")
        status = run(words, compiled(place), log)
        lines: List[str] = []
        if os.path.exists(log):
            with open(log, encoding="utf-8", errors="replace", newline="\n") as file:
                lines = file.readlines()
        names = source_names(places_in(lines), program)
        try:
            with open(words.output, "w", encoding="utf-8") as out:
                out.writelines(rows_of(lines, names))
        except OSError as error:
            raise RecordError(f"cannot write {words.output}: {error.strerror}") from error
        told(lines, words, log)
    return status


def main(arguments: Optional[List[str]] = None) -> int:
    """Does what the arguments say, and answers the exit status."""
    try:
        return record(make_parser().parse_args(arguments))
    except RecordError as error:
        sys.stderr.write(f"record: {error}\n")
        return FAILURE
    except KeyboardInterrupt:
        sys.stderr.write("record: interrupted\n")
        return INTERRUPTED

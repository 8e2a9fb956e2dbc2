"""tools/fuzz: what it is asked, and what it answers."""
import argparse
import re
import subprocess
import sys
import tempfile
from pathlib import Path
from typing import Dict, List, Optional, Tuple

from librarymaker.files import ARCHIVE, SHARED, TOP, LibraryError, version
from portablemaker.compiler import PortableError

from . import piping
from .building import DRIVERS, ROOM, Driver, FuzzError, built, compiler

HELP = """\
Feeds the C library and the program with random input, and reports what breaks a rule of include/pmem.h.

The drivers in C are built with clang: the first three with libFuzzer, AddressSanitizer and UBSan, `threads` with ThreadSanitizer. They stand
on the portable library, or with --native on the native one. `pipe` needs no clang: it writes random traces to the program in random pieces,
and compares what it prints with pmem_answer of the library.

What a driver has found interesting is kept in out/fuzz/corpus, and a run begins with it. An input that breaks a rule is kept in
out/fuzz/found, and its path is printed: the driver's program, run with that path, shows the fault again."""
EXAMPLES = """\
examples:
  tools/fuzz                              10 seconds for each driver
  tools/fuzz --seconds 3600               an hour for each
  tools/fuzz sessions --seconds 60        one of them
"""
PIPE = "pipe"
UNITS = re.compile(r"^stat::number_of_executed_units: (\d+)$", re.M)
ROUNDS = re.compile(r"^(\d+) rounds$", re.M)
ARTIFACT = re.compile(r"Test unit written to (\S+)")
# Slack for a run that is slow to end, in seconds; the most of one input, in seconds, and of all memory, in megabytes.
SLACK, LONGEST_INPUT, MOST_MEMORY = 300, 60, 2048


def _parser() -> argparse.ArgumentParser:
    about = {**{driver.name: driver.about for driver in DRIVERS}, PIPE: "the program by a pipe in random pieces, against pmem_answer"}
    epilog = "drivers:\n" + "".join(f"  {name:<9} {text}\n" for name, text in about.items()) + "\n" + EXAMPLES
    parser = argparse.ArgumentParser(prog="tools/fuzz", description=HELP, epilog=epilog, formatter_class=argparse.RawDescriptionHelpFormatter)
    parser.add_argument("--version", action="version", version=f"fuzz {version()}")
    parser.add_argument("drivers", nargs="*", metavar="DRIVER", help="which drivers run (default: all)")
    parser.add_argument("--seconds", type=int, default=10, metavar="N", help="how long each driver runs, 1 to 1000000 (10)")
    parser.add_argument("--seed", type=int, default=0, metavar="N", help="the start of the random numbers, 1 to 4294967295 (another each time)")
    parser.add_argument("--native", type=Path, metavar="FOLDER", help=f"stand on {ARCHIVE} and {SHARED} of this folder: the native library")
    parser.add_argument("--build", action="store_true", help="build the drivers, and run nothing")
    return parser


def _checked(parser: argparse.ArgumentParser, arguments: List[str]) -> argparse.Namespace:
    words = parser.parse_args(arguments)
    names = [*(driver.name for driver in DRIVERS), PIPE]
    unknown = [name for name in words.drivers if name not in names]
    if unknown:
        parser.error(f"there is no driver {unknown[0]!r}: {', '.join(names)}")
    if not 1 <= words.seconds <= 1_000_000 or not 0 <= words.seed < 1 << 32:
        parser.error("--seconds is 1 to 1000000 and --seed 0 to 4294967295")
    for name in (ARCHIVE, SHARED):
        if words.native is not None and not (words.native / name).is_file():
            parser.error(f"{words.native} does not have {name}: tools/library --native --out {words.native} makes it")
    words.drivers = words.drivers or names
    return words


def _seeds(folder: Path) -> None:
    """Writes inputs for `answer` to begin with: the examples and lessons, behind a byte that chooses the arguments of `run`."""
    for number, path in enumerate([*sorted(TOP.glob("examples/*.trace")), *sorted(TOP.glob("lessons/[0-9]*/**/trace"))]):
        (folder / f"seed-{number}").write_bytes(b"\0" + path.read_bytes()[:8000])


def _dictionary(folder: Path) -> str:
    """Writes the words of the grammar for libFuzzer."""
    words = ("post part drain fence read turn flush loss cut off on poke flip move snap back peek stat write place begin put commit abort "
             "--suite --levels --sets --ways --loss --major --key --tag-key --every --log --persist --shadow --queue --combine weak blur aes "
             "off volatile durable run wear txn tree check").split()
    path = folder / "words.dict"
    path.write_text("".join(f'"{word}"\n' for word in [*words, "11" * 64]), encoding="ascii")
    return str(path)


def _fuzzed(program: Path, driver: Driver, seconds: int, seed: int) -> Tuple[int, str, str]:
    """Runs a driver of libFuzzer. Gives how many inputs it ran, what is wrong (or nothing), and all that it printed."""
    corpus, found = ROOM / "corpus" / driver.name, ROOM / "found"
    for folder in (corpus, found):
        folder.mkdir(parents=True, exist_ok=True)
    with tempfile.TemporaryDirectory(prefix="pmem-fuzz-") as room:
        seeds = Path(room, "seeds")
        seeds.mkdir()
        if driver.name == "answer":
            _seeds(seeds)
        words = [str(program), str(corpus), str(seeds), f"-max_total_time={seconds}", f"-timeout={LONGEST_INPUT}", f"-max_len={driver.longest}",
                 f"-rss_limit_mb={MOST_MEMORY}", f"-artifact_prefix={found}/{driver.name}-", "-len_control=0", "-print_final_stats=1",
                 "-verbosity=1", f"-report_slow_units={LONGEST_INPUT}", f"-dict={_dictionary(Path(room))}", *([f"-seed={seed}"] if seed else [])]
        status, said = _ended(words, seconds)
    # A slow input may have been kept before the one at fault.
    units, kept = UNITS.search(said), ARTIFACT.findall(said)
    why = "" if status == 0 and units else f"status {status}" + (f"; the input is {kept[-1]}" if kept else "")
    return int(units[1]) if units else 0, why, said


def _raced(program: Path, seconds: int) -> Tuple[int, str, str]:
    """Runs the driver with threads."""
    status, said = _ended([str(program), str(seconds)], seconds)
    rounds = ROUNDS.search(said)
    return int(rounds[1]) if rounds else 0, "" if status == 0 and rounds else f"status {status}", said


def _ended(words: List[str], seconds: int) -> Tuple[Optional[int], str]:
    """The status of a command, None if it does not end, and what it printed."""
    try:
        ended = subprocess.run(words, stdin=subprocess.DEVNULL, stdout=subprocess.PIPE, stderr=subprocess.STDOUT, universal_newlines=True,
                               errors="replace", timeout=seconds + SLACK, check=False)
    except subprocess.TimeoutExpired as error:
        return None, str(error.stdout or "")
    return ended.returncode, ended.stdout


def _run(words: argparse.Namespace) -> Tuple[int, int]:
    """Builds the drivers, then runs one after the other. Answers how many passed and failed."""
    asked = [driver for driver in DRIVERS if driver.name in words.drivers]
    clang = compiler() if asked else ""
    programs: Dict[str, Path] = {driver.name: built(clang, driver, words.native) for driver in asked}
    passed = failed = 0
    if words.build:
        return len(programs), 0
    for name in words.drivers:
        if name == PIPE:
            count, why, said = piping.compared(words.seconds, words.seed, words.native)
        else:
            driver = next(each for each in asked if each.name == name)
            count, why, said = _raced(programs[name], words.seconds) if driver.has_threads else \
                _fuzzed(programs[name], driver, words.seconds, words.seed)
        if why:
            sys.stderr.write(said[-6000:])
        print(f"{name}: {count} runs in {words.seconds} s, " + (f"FAILED: {why}" if why else "nothing found"), flush=True)
        passed, failed = passed + (not why), failed + bool(why)
    return passed, failed


def main(arguments: List[str]) -> int:
    """Does what the arguments say, and gives the exit status."""
    words = _checked(_parser(), arguments)
    try:
        passed, failed = _run(words)
    except (FuzzError, LibraryError, PortableError) as error:
        sys.stderr.write(f"fuzz: {error}\n")
        return getattr(error, "status", 1)
    except OSError as error:
        sys.stderr.write(f"fuzz: {error.filename or 'error'}: {error.strerror or error}\n")
        return 1
    except KeyboardInterrupt:
        sys.stderr.write("fuzz: interrupted\n")
        return 130
    print(f"{passed} passed, {failed} failed")
    return 1 if failed else 0

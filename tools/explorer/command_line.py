"""The words of `explore`, and what each command does."""
import argparse
import json
import os
import re
import sys
from typing import Any, Callable, Dict, List, NoReturn, Optional, Sequence, Tuple, Union

from . import (attacks, bounds, charts, compare, convert, costs, curves, cuts, designs, draw, endurance, export, figure, importing, outcomes,
               ranges, readers, settings, shell, steps, sweep)
from .cluster import SECONDS_TO_JOIN, Cluster, ClusterTogether
from .about import about, comments_of, version
from .checks import Checks
from .errors import CHECK_BROKEN, CHECK_FAILED, DONE, FAILURE, INTERRUPTED, WRONG_WORDS, ExploreError, reason_of
from .finding import REPOSITORY, default_program, found_program
from .fork_server import remove_temporary
from .logged import LoggedProgram, LoggedRecording
from .machines import MACHINE_NAMES, MACHINES
from .orders import Orders, Tried, orders_text
from .output import check_writable, json_text, put, write_file
from .package import POLICY
from .processes import INTERRUPTS, TOLD, end_all
from .program import Program, Recording
from .sampling import Plan
from .settings import Settings
from .symbols import Names, symbols_of
from .together import Together
from .trace import TAMPERING_WORDS, Trace, read_bytes, read_trace, shown_name, shown_path, trace_of

DESCRIPTION = """\
Asks the program pmem what a trace does, persist step by persist step. Everything that it
reports comes from running the program again and reading its replies."""

COMMANDS_HELP = """\
Begin with
  tools/explore steps examples/power_cut.trace
  tools/explore cuts examples/first.trace
docs/EXPLORE.md has an example of each command, docs/FORMATS.md what a trace may hold.

The program is what --program or PMEM_PROGRAM names, or the one that the repository's ./pmem
runs. If none is built yet, ./pmem compiles one first, in about half a minute.

Exit statuses: 0 done, also if a trace ends in an exhibit; 1 failed, with the reason on standard
error (a file, a line of a trace, the program); 2 the arguments are invalid; 3 a --check found
an outcome that is not right; 4 a --check could not be run, was ended by a signal or took too
long; 130 interrupted. A file named by -o is written whole or not at all."""

# All figures, and what they are made of by default.
ALL_FIGURES = "all"
WORKLOADS = REPOSITORY / "examples" / "workloads"
FIGURE_CUTS = 40
ATTACK_WRITES = 20_000
# From this number of cuts on, the output says how they can be faster.
MANY_CUTS = 2_000
LONGEST_NUMBER = 30
LONGEST_TEXT = 300
JSON_START = re.compile(rb"\s*[{\[]")
# The most bytes of a result in JSON: its values take twenty times as much memory.
LARGEST_RESULT = 1 << 26

STEPS_HELP = """\
Prints each command with its reply (behind >) and under it each persist step that it took:
a latch of the registers and what it does, or the device line written and what it holds. The
program reports its steps itself, with --log. A program without that option is cut at each step
instead."""

CUTS_HELP = """\
Cuts power before each persist step of the trace, switches it on again, and reads lines. A row
shows how many steps came before the cut, which command was cut and what it answered (kept or
lost), how many waiting writes are lost, what `on` answers about the recovery, and which lines
then read otherwise than before that command. For a cut in an `on`, the lines are compared with
the recovery without a cut. The last row is power off after the whole trace. Each cut is tried
by a fork of the program just before its command (this needs Linux and a C compiler; elsewhere
each is a run from the start), and some rows are compared with runs from the start.

--check runs your own command on each outcome. --orders also tries the states in which a cache
or the queue has written any of the stores that no fence has made sure of."""

SWEEP_HELP = """\
Runs the trace under each combination of the numbers given (several with commas between) and
prints a row for each. Writes are those that a drain or a fence performed.
  steps a write    persist steps of drains and fences
  lines a write    device lines written by commands that were done, except recoveries:
                   the write amplification
  meta reads       metadata lines read by drains and fences for a write, by reads for a read
  digests          digests made by them
  recovery         what `on` answers after power goes off at the trace's end
All but the recovery are means over the trace."""

COMPARE_HELP = """\
Runs one workload, the writes, reads and power cycles of a trace for `pmem run`, on several designs. Each design gets it in its
own commands, over a memory of the same size, with each write of a whole line at the moment when the trace makes sure of it.
Lines that one of the memories does not have are left out of all; standard error says so before anything runs. It adds up the
program's log: persist steps, line writes and reads by part of the device, latches, tags, digests; and what follows from it:
pads, hits and misses of the metadata cache. Recovery is measured after cuts that are spread over the workload. --levels, --sets,
--ways, --loss, --every and the options of a policy take several values each. With --cost FILE it prints times and energy too
(docs/COSTS.md)."""

ENDURANCE_HELP = """\
Counts how often a workload writes each line of the device, on several designs, as `explore compare` makes it: by part of the
device, as a histogram, and the hottest lines by name. It also prints how long the hottest line of each part lasts if the
workload is repeated forever. start-gap levels the lines of `wear` slowly: --repeat runs the workload several times over."""

ATTACKS_HELP = """\
Tries single attacks on the device after a trace of run or tree, with power on and off: it flips a bit of each class, zeroes a
line, puts it back from the middle of the trace, copies another line onto it or swaps the two, and puts all lines back. After
each attack it reads memory, also after a power cycle. The table says by part of the device how many attacks were refused, mended
(memory is right, and the controller wrote the line again), ended with evidence of a broken cipher, were read without effect, or
changed a line that nothing read. The exit status is 1 if memory answered wrong data."""

BOUNDS_HELP = """\
Prints what a recovery takes at most on a memory of any size: the bounds that are proved (docs/RECOVERY.md, TREE_MACHINE.md) for
memories that the program has, and the same formulas for larger ones, marked as such. With --trace it also measures the means of
a workload at several levels, and follows a straight line through them to the size that was asked for. `osiris` is run without
shadow tables: nothing names what is stale, so that recovery takes all of memory. For example:
  tools/explore bounds --memory 1T --sets 64 --ways 8 --cost optane"""

FIGURE_HELP = """\
Draws a curve that papers on secure memories show, and writes its table:
%s
`explore figure all -o FOLDER` makes all of them. Workloads are those of examples/workloads, or the traces that you name; each counts the
same, and pictures show their means. recovery-memory has the proved bounds of recovery, with dashes where the formulas go on beyond the
program's memories, and what the workloads took. For example:
  tools/explore figure trade-off my.trace -o trade-off.pdf --table trade-off.csv
Pictures need matplotlib.""" % "\n".join(f"  {name:<16} {what}" for name, what in curves.FIGURES.items())

EXPORT_HELP = """\
Writes the accesses that a trace makes to the device, each read and write of a device line, as a trace for a simulator of a
memory's timing: dramsim3 (address, READ or WRITE, cycle), ramulator (address, R or W: its DRAM mode) or ramulator2 (LD or ST,
address). Device line d is at the address 64 d, with --base further up. Latches and what the chip computes are not accesses;
standard error says how many are left out. docs/TIMING.md says how to run such a simulator."""

DRAW_HELP = """\
Draws the persist steps of a trace: a lane for each part of the device with a mark for each
step, cuts, recoveries, tampering and what was refused. It also draws the JSON of other commands:
  explore sweep      curves; with --trade-off a point for each setting: the cost of a recovery
                     against the cost of a write
  explore compare    a panel for each measure; with --trade-off a point for each design, with
                     --moments recovery against the moment of the cut
  explore endurance  how many lines have been written how often
  explore cuts       recovery against the moment of the cut
The name's ending, .svg, .png or .pdf, chooses the kind of picture.
Needs matplotlib (Debian: python3-matplotlib; elsewhere: pip install matplotlib)."""

LACKEY_HELP = """\
Makes a trace of a real program's memory accesses:
  valgrind --tool=lackey --trace-mem=yes --log-file=accesses.txt PROGRAM
  tools/explore import lackey accesses.txt --commands 500 -o program.trace
Stores become `part` (or `post`, if they fill a line) at their true offsets, loads become
`read`. An access over several lines becomes one command for each line. Each page of 4 KiB that the program
uses is a page of memory. The bytes stored are made up. If 16 writes wait, the oldest is drained
before the next. A log that ends early is an error: Debian's lackey fails at clwb and clflushopt."""

PMEMCHECK_HELP = """\
Makes a trace of the stores, flushes and fences of a program over persistent memory:
  valgrind --tool=pmemcheck --log-stores=yes --print-summary=no --log-file=stores.txt PROGRAM
  tools/explore import pmemcheck stores.txt -o program.trace
The values stored are those of the program. A store reaches memory by a flush of its line; before
that no command has it, but `explore cuts --orders` tries it. Standard error reports lines that
are never flushed, and redundant flushes and fences. Each `fence` is one of the program. Otherwise
as `import lackey`."""

CSV_HELP = """\
Makes a trace of the rows of a CSV, as tools/record writes it: op, address, size, data, source.
  store,0x1000,4,0a0b0c0d,log.c:12
                              the op is store (write, s, w), ntstore, changed, load (read, l, r),
                              clwb (flush), clflushopt, clflush, sfence, mfence, fence (f) or mark
  store,4100,8,               without data the bytes are made up
  load,0x1000,4
  fence
A first row that begins with op, blank rows and rows that begin with # are skipped. Addresses
are decimal, or hex after 0x. With a flush, an ntstore, an sfence or an mfence in the file, a store
is sure only after a flush of its line and a fence. With fence rows only, each of them makes all
stores before it sure. Otherwise as `import pmemcheck`."""

CONVERT_HELP = """\
Writes the workload of a trace for `pmem run`, its writes, reads and power cycles, as a trace for
another machine. After each drain and fence both have the same memory: wear and tree write the
lines one by one, txn in a transaction (in several if there are more than 15 lines). Cuts, the
attacker's commands and those that only show something are left out, and so are lines that the
other memory does not have; standard error and the trace's first lines say how many."""

SHELL_HELP = """\
Reads commands of the machine from standard input, and prints after each its reply and its persist
steps. You can take a command back, or do it again with power cut during it, stop at a command
that writes a line with a break, show a device line by its name, and save the trace so far. A
wrong line is reported and changes nothing. `help` in the session lists its words."""


class Parser(argparse.ArgumentParser):
    """A parser whose errors begin with the command's name and end with status 2. Options are written out."""

    def __init__(self, **arguments: Any) -> None:
        super().__init__(allow_abbrev=False, **arguments)

    def error(self, message: str) -> NoReturn:
        sys.stderr.write(f"explore: {shown_path(message)}\nexplore: see {self.prog} --help\n")
        sys.exit(WRONG_WORDS)


def number_in(values: Sequence[int]) -> Callable[[str], int]:
    """Reads a number that is one of these."""
    def read(text: str) -> int:
        if not re.fullmatch("[0-9]{1,20}", text) or int(text) not in values:
            raise argparse.ArgumentTypeError(f"{text!r} is not one of {words_for(values)}")
        return int(text)
    return read


def numbers_in(values: Sequence[int]) -> Callable[[str], List[int]]:
    """Reads numbers with commas between."""
    read = number_in(values)
    return lambda text: [read(word.strip()) for word in text.split(",")]


def words_for(values: Sequence[int]) -> str:
    """The numbers that are allowed, in words."""
    return f"{values[0]} to {values[-1]}" if isinstance(values, range) else ", ".join(map(str, values))


def count_from(low: int) -> Callable[[str], int]:
    """Reads a number that isn't below another."""
    def read(text: str) -> int:
        if not re.fullmatch("[0-9]{1,18}", text) or int(text) < low:
            raise argparse.ArgumentTypeError(f"{text!r} is not a number from {low} on")
        return int(text)
    return read


def major(text: str) -> int:
    """Reads a major counter."""
    if not re.fullmatch("[0-9]{1,20}", text) or int(text) >= 1 << 64:
        raise argparse.ArgumentTypeError(f"{text!r} is not a number below 2^64")
    return int(text)


def hex_digits(least: int, most: int) -> Callable[[str], str]:
    """Reads a key of that many hex digits."""
    def read(text: str) -> str:
        if not re.fullmatch("[0-9a-fA-F]*", text) or len(text) % 2 or not least <= len(text) <= most:
            count = str(least) if least == most else f"{least} to {most}, an even number of"
            raise argparse.ArgumentTypeError(f"a key has {count} hex digits")
        return text
    return read


def line_range(text: str) -> range:
    """Reads lines of a trace, as `7` or `5-20`."""
    match = re.fullmatch("([0-9]{1,9})(?:-([0-9]{1,9}))?", text)
    if match is None or int(match.group(1)) > int(match.group(2) or match.group(1)):
        raise argparse.ArgumentTypeError(f"{text!r} is not a line or a range of lines such as 5-20")
    return range(int(match.group(1)), int(match.group(2) or match.group(1)) + 1)


def address(text: str) -> int:
    """Reads an address, decimal or hex after 0x."""
    number = readers.whole_number(text)
    if number is None:
        raise argparse.ArgumentTypeError(f"{text!r} is not an address such as 0x1000 or 4096")
    return number


def addresses(text: str) -> Tuple[int, ...]:
    """Reads addresses with commas between."""
    return tuple(address(word.strip()) for word in text.split(","))


def cache(text: str) -> Tuple[int, int]:
    """Reads a cache's size and ways."""
    try:
        return importing.cache_size(text)
    except ValueError as error:
        raise argparse.ArgumentTypeError(str(error)) from error


def address_range(text: str) -> Tuple[int, int]:
    """Reads addresses from one to another, both included."""
    low, dash, high = text.partition("-")
    if not dash or address(low) > address(high):
        raise argparse.ArgumentTypeError(f"{text!r} is not a range of addresses such as 0x1000-0x1fff")
    return address(low), address(high)


def image(text: str) -> importing.Image:
    """Reads an address and the name of a file."""
    place, equals, name = text.partition("=")
    if not equals or not name:
        raise argparse.ArgumentTypeError(f"{text!r} is not an address and a file such as 0x1000=pool.image")
    try:
        return importing.Image(address(place), read_bytes(name))
    except ExploreError as error:
        raise argparse.ArgumentTypeError(str(error)) from error


def add_trace(parser: argparse.ArgumentParser, what: str = "a trace (docs/FORMATS.md); - is standard input") -> None:
    """The word that names the input."""
    parser.add_argument("trace", metavar="TRACE", help=what)


def add_output(parser: argparse.ArgumentParser) -> None:
    """The option that names the output."""
    parser.add_argument("-o", "--output", metavar="FILE",
                        help="write to this file, whole or not at all (default: standard output)")


def add_lines(parser: argparse.ArgumentParser) -> None:
    """The option that takes some lines of a long trace."""
    parser.add_argument("--lines", type=line_range, metavar="5-20",
                        help="only the commands on these lines of the trace (all others are run too)")


def add_program(parser: argparse.ArgumentParser) -> None:
    """The options about the runs."""
    group = parser.add_argument_group("runs")
    group.add_argument("--program", metavar="PATH",
                       help="the program to ask (default: what PMEM_PROGRAM names, else the repository's ./pmem)")
    group.add_argument("--jobs", type=count_from(1), metavar="N", help="runs at a time (default: one a processor)")
    group.add_argument("--from-start", action="store_true",
                       help="reach each state by a run from the trace's start, not by a fork just before it")


def add_cluster(parser: argparse.ArgumentParser) -> None:
    """The option that names a cluster."""
    parser.add_argument("--cluster", metavar="ADDRESS",
                        help="run on the cluster of dask.distributed whose scheduler is at this address, such as "
                             "tcp://127.0.0.1:8786, or wrote this file (docs/CLUSTER.md)")
    parser.add_argument("--cluster-wait", type=seconds, default=SECONDS_TO_JOIN, metavar="SECONDS",
                        help=f"wait this long for a first worker of the cluster (default {SECONDS_TO_JOIN:g})")


def add_settings(parser: argparse.ArgumentParser, several: bool) -> None:
    """The options of `pmem run`; several numbers each, for a sweep."""
    read: Callable[[Sequence[int]], Callable[[str], Any]] = numbers_in if several else number_in
    group = parser.add_argument_group("options of pmem" + (", several numbers with commas between" if several else ""))
    group.add_argument("--as", choices=MACHINE_NAMES, default="run", dest="machine_name", metavar="MACHINE",
                       help="the machine whose trace this is: run (the default), wear, txn or tree")
    default = Settings()
    for name, values, what in (("levels", settings.LEVELS, "levels of tree nodes, for 4^LEVELS pages of 64 lines"),
                               ("sets", settings.SETS, "sets of each bank of the metadata cache"),
                               ("ways", settings.WAYS, "ways of each set"),
                               ("loss", settings.LOSSES, "the stop-loss number")):
        group.add_argument(f"--{name}", type=read(values), metavar="1,2,.." if several else name.upper(),
                           default=None if several else getattr(default, name),
                           help=f"{what}: {words_for(values)} (default {getattr(default, name)})")
    group.add_argument("--major", type=major, default=default.major, metavar="MAJOR",
                       help="the first major counter (default 0)")
    group.add_argument("--suite", choices=settings.SUITES, default=default.suite, help="the ciphers (default aes)")
    group.add_argument("--key", type=hex_digits(32, 32), metavar="HEX", help="32 hex digits")
    group.add_argument("--tag-key", type=hex_digits(2, 128), metavar="HEX", help="2 to 128 hex digits")
    group.add_argument("--every", type=number_in(settings.EVERY), default=default.every, metavar="N",
                       help="wear: move a line after every N writes (default 100)")
    add_policy(group, several)


def add_policy(group: Any, several: bool, with_queue: bool = True) -> None:
    """The options of the persistence policy and of the write queues; several values each, for a sweep."""
    default = Settings()
    several_numbers, several_words = (numbers_in, words_in) if several else (number_in, word_in)
    group.add_argument("--persist", type=several_numbers(settings.PERSISTED), default=None if several else default.persist,
                       metavar="0,1,.." if several else "N",
                       help="run, wear, txn: the lowest lines of a path that are persisted with each write, at most LEVELS + 1 (default 0)")
    for name, values, what in (
            ("shadow", settings.SHADOWS, "run, wear, txn: whether shadow tables name the lines that may be stale"),
            ("queue", settings.QUEUE_KINDS, "run: whether the write queues outlive power (durable: ADR)"),
            ("combine", settings.COMBINING, "run: whether a posted line takes the place of one that waits"))[:3 if with_queue else 1]:
        group.add_argument(f"--{name}", type=several_words(values), default=None if several else getattr(default, name),
                           metavar=",".join(values) if several else "|".join(values), help=f"{what} (default {getattr(default, name)})")


def word_in(values: Sequence[str]) -> Callable[[str], str]:
    """Reads one of these words."""
    def read(text: str) -> str:
        if text not in values:
            raise argparse.ArgumentTypeError(f"{text!r} is not one of {', '.join(values)}")
        return text
    return read


def words_in(values: Sequence[str]) -> Callable[[str], List[str]]:
    """Reads some of these words with commas between."""
    read = word_in(values)
    return lambda text: [read(word.strip()) for word in text.split(",")]


def add_designs(parser: argparse.ArgumentParser, baselines: Sequence[str] = ()) -> None:
    """The traces, the designs and their numbers."""
    parser.add_argument("trace", metavar="TRACE", nargs="+",
                        help="traces for pmem run; a folder is all its files in .trace, such as examples/workloads; - is standard input")
    add_output(parser)
    parser.add_argument("--designs", type=design_names(baselines), default=list(MACHINE_NAMES), metavar="run,wear,..",
                        help="some of run, wear, txn and tree (default: these)" + ", plain, a memory without security, whose figures "
                        "are computed" * bool(baselines) + f", and policies of run {designs.NAMES_HELP}; docs/DESIGNS.md has what they are")
    parser.add_argument("--fold", action="store_true",
                        help="put a line that the smallest memory does not have onto the line with its remainder (default: leave it out)")
    formats = parser.add_mutually_exclusive_group()
    formats.add_argument("--csv", action="store_true", help="CSV instead of text")
    formats.add_argument("--json", action="store_true", help="JSON instead of text, which `explore draw` takes")
    formats.add_argument("--latex", action="store_true", help="a table for LaTeX instead of text")
    add_about(parser)
    group = parser.add_argument_group("options of pmem, several numbers with commas between")
    default = Settings()
    for name, values, what in (("levels", settings.LEVELS, "levels of tree nodes of run, and so the lines of memory, 64 * 4^LEVELS; "
                                "tree has two more, for as many lines"),
                               ("sets", settings.SETS, "sets of each bank of the metadata cache"),
                               ("ways", settings.WAYS, "ways of each set; tree has none"),
                               ("loss", settings.LOSSES, "the stop-loss number; tree has none"),
                               ("every", settings.EVERY, "wear: move a line after every N writes")):
        group.add_argument(f"--{name}", type=numbers_in(values), metavar="1,2,..", default=[getattr(default, name)],
                           help=f"{what}: {words_for(values)} (default {getattr(default, name)})")
    group.add_argument("--suite", choices=settings.SUITES, default=default.suite, help="the ciphers (default aes)")
    add_policy(group, True)


def design_names(baselines: Sequence[str], machines: Sequence[str] = tuple(MACHINE_NAMES)) -> Callable[[str], List[str]]:
    """Reads names of designs with commas between: these machines, policies, and baselines."""
    def read(text: str) -> List[str]:
        names = designs.ordered([word.strip() for word in text.split(",")])
        wrong = [name for name in names if name not in (*machines, *baselines) and not designs.is_policy(name)]
        if wrong:
            raise argparse.ArgumentTypeError(f"{wrong[0]!r} is not one of {', '.join((*machines, *baselines))}, {designs.NAMES}, or "
                                             f"one of the latter with {designs.WITH_ADR}")
        return names
    return read


def add_command(commands: Any, name: str, what: str, description: str,
                run: Callable[[argparse.Namespace], Optional[int]]) -> argparse.ArgumentParser:
    """A command of `explore`."""
    parser: argparse.ArgumentParser = commands.add_parser(
        name, help=what, description=description, formatter_class=argparse.RawDescriptionHelpFormatter)
    parser.set_defaults(run=run)
    return parser


def add_import(commands: Any) -> None:
    """`import` and its kinds of files."""
    parser = commands.add_parser("import", help="make a trace of a real program's stores and loads",
                                 description="Makes a trace of a real program's stores and loads.")
    kinds = parser.add_subparsers(dest="kind", metavar="KIND", required=True)
    for kind, what, description in (("lackey", "of what valgrind's lackey prints", LACKEY_HELP),
                                    ("pmemcheck", "of the stores that pmemcheck logs", PMEMCHECK_HELP),
                                    ("csv", "of a CSV of (op, address, size, data)", CSV_HELP)):
        each = add_command(kinds, kind, what, description, run_import)
        add_import_options(each)


def add_import_options(each: argparse.ArgumentParser) -> None:
    """The options of an import."""
    each.add_argument("file", metavar="FILE", help="what to import; - is standard input")
    add_output(each)
    each.add_argument("--commands", type=count_from(2), default=1000, metavar="N",
                      help="end after N commands, including a last fence (default 1000)")
    each.add_argument("--fence-every", type=count_from(0), metavar="N",
                      help="a fence after every N stores; 0 for none (default 16, and none if the program says what it "
                           "flushes)")
    each.add_argument("--combine", action="store_true",
                      help="stores to a line reach memory together, once, by the next fence or its flush")
    each.add_argument("--cache", type=cache, metavar="SIZE,WAYS",
                      help="a cache in front, such as 32k,8: a line reaches memory by the next fence or its flush, or "
                           "when it is evicted, and is read when it is not there")
    each.add_argument("--top", type=count_from(1), metavar="N",
                      help="make no trace, but list the N ranges of 4,096 bytes that are used most")
    each.add_argument("--fence-at", type=addresses, action="extend", metavar="ADDRESS,..",
                      help="also add a fence before an instruction at one of these addresses, and after a store or "
                           "load that begins at one; may be given several times")
    each.add_argument("--within", type=address_range, metavar="LOW-HIGH",
                      help="only stores and loads that lie within these addresses")
    each.add_argument("--skip", type=count_from(0), default=0, metavar="N",
                      help="leave out the first N stores and loads")
    each.add_argument("--as", choices=MACHINE_NAMES, default="run", dest="machine_name", metavar="MACHINE",
                      help="the machine that the trace is for: run (the default), wear, txn or tree. --commands counts "
                           "commands of run, which are then translated for another machine, as `explore convert` does")
    each.add_argument("--fold", action="store_true",
                      help="when the program uses more pages of 4 KiB than memory has, put several onto one (default: an error)")
    each.add_argument("--image", type=image, action="append", default=[], metavar="ADDRESS=FILE",
                      help="what memory holds from this address on before the program runs: the bytes of a file. Its lines in "
                           "pages that the program uses are written first; may be given several times")
    add_levels(each)
    each.add_argument("--port", type=number_in(range(8)), default=0, metavar="PORT",
                      help="the port of all commands: 0 to 7 (default 0)")


def add_levels(parser: argparse.ArgumentParser) -> None:
    """The option that chooses the size of memory."""
    parser.add_argument("--levels", type=number_in(settings.LEVELS), metavar="LEVELS",
                        help="the levels of tree nodes, and so the lines of memory: 64 * 4^LEVELS for run, two less for wear, "
                             "sixteen less for txn, 4 * 4^LEVELS for tree (default 2, for tree 4)")


def add_about(parser: argparse.ArgumentParser) -> None:
    """The option that says what a result was made of."""
    parser.add_argument("--about", action="store_true",
                        help="--json and --csv: also the format's version, the program's version and digest, the trace's digest and the "
                             "options. JSON is then an object with `about` and `rows`, CSV begins with comments")


def add_plan(parser: argparse.ArgumentParser) -> None:
    """The options of a search that is too long."""
    group = parser.add_argument_group("part of a long search; the output says what was left out")
    group.add_argument("--sample", type=count_from(1), metavar="N", help="N cuts, each as likely as another, and with --orders N fences")
    group.add_argument("--seed", type=count_from(0), default=0, metavar="S", help="which ones (default 0); also for --orders and --budget")
    group.add_argument("--budget", type=seconds, metavar="SECONDS", help="as many as can be done in this time, in samples that grow")


def seconds(text: str) -> float:
    """Reads a time in seconds."""
    if not re.fullmatch(r"[0-9]{1,9}(\.[0-9]{1,9})?", text) or not float(text):
        raise argparse.ArgumentTypeError(f"{text!r} is not a number of seconds such as 60 or 0.5")
    return float(text)


def add_check(parser: argparse.ArgumentParser) -> None:
    """The options of a check of your own."""
    group = parser.add_argument_group("your own check")
    group.add_argument("--check", metavar="COMMAND",
                       help="run this command once for each outcome, with two file names as its last arguments: the recovered memory, "
                            "and a row for each line that was read (its number, its addresses, the variables in it, its "
                            "bytes, with tabs between). Status 0 says that all is right; otherwise its last line says why not")
    group.add_argument("--check-timeout", type=seconds, metavar="SECONDS",
                       help="end a check that takes longer, with all that it started; that is an error, not a wrong outcome")
    group.add_argument("--check-batch", action="store_true",
                       help="start the check only once for each job: it reads the two names from a line of standard input, with a tab between, "
                            "and prints a line for each, `ok` or why not, until its input ends")
    group.add_argument("--check-addresses", type=address_range, metavar="LOW-HIGH",
                       help="the first file holds these addresses of the imported program (default: all data lines in order)")
    group.add_argument("--orders", type=count_from(2), metavar="N",
                       help="also try what is left if any of the stores that no fence has made sure of are in memory: up "
                            "to N outcomes for each fence")
    group.add_argument("--no-early", action="store_true",
                       help="--orders: a line may be in memory only after its flush (default: a cache may write it earlier)")
    group.add_argument("--torn", action="store_true",
                       help="--orders: a store of more than 8 bytes may be in memory in part (default: whole or not at all)")
    group.add_argument("--failing", metavar="FILE", help="write the shortest trace whose outcome fails the check")
    group.add_argument("--junit", metavar="FILE", help="write the checks as tests in JUnit's XML")
    group.add_argument("--elf", metavar="FILE", help="the program whose variables are named")
    group.add_argument("--elf-at", type=address, default=0, metavar="ADDRESS",
                       help="the address at which that program was loaded, if its addresses begin at 0 (default 0)")


def add_steps(commands: Any) -> None:
    """`explore steps`."""
    each = add_command(commands, "steps", "each command with its reply and its persist steps", STEPS_HELP, run_steps)
    add_trace(each)
    add_output(each)
    add_lines(each)
    each.add_argument("--reads", action="store_true",
                      help="also each device line that is read, and how many tags and digests are made")
    each.add_argument("--whole", action="store_true", help="do not shorten long hex")
    formats = each.add_mutually_exclusive_group()
    formats.add_argument("--csv", action="store_true", help="CSV instead of text")
    formats.add_argument("--json", action="store_true", help="JSON instead of text")
    add_about(each)
    add_settings(each, several=False)
    add_program(each)


def add_cuts(commands: Any) -> None:
    """`explore cuts`."""
    each = add_command(commands, "cuts", "what a cut at each persist step leaves", CUTS_HELP, run_cuts)
    add_trace(each)
    add_output(each)
    add_lines(each)
    each.add_argument("--twice", action="store_true", help="cut each recovery at each of its steps too")
    each.add_argument("--all-lines", action="store_true",
                      help="read all data lines at each cut")
    each.add_argument("--named-lines", action="store_true",
                      help="read all data lines that the trace names at each cut (the default with --as, or if the trace "
                           "tampers; otherwise the lines that wait, those that the command seals, and those of the command before)")
    shapes = each.add_mutually_exclusive_group()
    shapes.add_argument("--distinct", action="store_true", help="each outcome once, with the first cut that leads to it")
    shapes.add_argument("--ranges", action="store_true",
                        help="one row for neighbouring cuts that leave the same memory, with the step that begins them")
    add_check(each)
    each.add_argument("--check-rows", type=count_from(0), default=cuts.ROWS_CHECKED, metavar="N",
                      help=f"compare N rows with runs from the trace's start (default {cuts.ROWS_CHECKED})")
    formats = each.add_mutually_exclusive_group()
    formats.add_argument("--csv", action="store_true", help="CSV instead of text")
    formats.add_argument("--json", action="store_true", help="JSON instead of text")
    formats.add_argument("--markdown", action="store_true", help="--ranges: only the table, for a page in Markdown")
    add_about(each)
    add_plan(each)
    add_settings(each, several=False)
    add_program(each)
    add_cluster(each)


def add_sweep(commands: Any) -> None:
    """`explore sweep`."""
    each = add_command(commands, "sweep", "compare what a trace costs under several settings", SWEEP_HELP, run_sweep)
    add_trace(each)
    add_output(each)
    formats = each.add_mutually_exclusive_group()
    formats.add_argument("--csv", action="store_true", help="CSV instead of text")
    formats.add_argument("--json", action="store_true", help="JSON instead of text, which `explore draw` takes")
    formats.add_argument("--latex", action="store_true", help="a table for LaTeX instead of text")
    add_about(each)
    add_settings(each, several=True)
    add_program(each)
    add_cluster(each)


def row_names(text: str) -> List[str]:
    """Reads names of rows of a comparison, with commas between."""
    names = list(dict.fromkeys(word.strip() for word in text.split(",")))
    wrong = [name for name in names if name not in compare.ROW_TEXTS]
    if wrong:
        raise argparse.ArgumentTypeError(f"{wrong[0]!r} is not a row; they are {', '.join(compare.ROW_TEXTS)}")
    return names


def add_compare(commands: Any) -> None:
    """`explore compare`."""
    each = add_command(commands, "compare", "one workload on several designs: counts, time, energy, recovery", COMPARE_HELP, run_compare)
    add_designs(each, [compare.PLAIN])
    each.add_argument("--cost", metavar="FILE,..", type=lambda text: text.split(","), default=[],
                      help=f"figures of time and energy: files in TOML, or some of {', '.join(costs.bundled())}")
    each.add_argument("--rows", type=row_names, metavar="NAME,..",
                      help="--latex: only these rows, in this order, by their names in --csv, such as write_steps,recovery_tags_mean")
    each.add_argument("--cuts", type=count_from(0), default=compare.CUTS, metavar="N",
                      help=f"measure the recovery after N cuts, spread evenly; 0: after each step (default {compare.CUTS})")
    add_program(each)
    add_cluster(each)


def add_endurance(commands: Any) -> None:
    """`explore endurance`."""
    each = add_command(commands, "endurance", "how often each device line is written, and how long it lasts", ENDURANCE_HELP,
                       run_endurance)
    add_designs(each)
    each.add_argument("--repeat", type=count_from(1), default=1, metavar="N", help="the workload N times over (default 1)")
    each.add_argument("--rate", type=count_from(1), default=endurance.RATE, metavar="N",
                      help=f"line writes of the workload a second (default {endurance.RATE:,})")
    each.add_argument("--limit", type=count_from(1), metavar="N",
                      help=f"how many writes a line takes (default that of --cost, else {endurance.LIMIT:,})")
    each.add_argument("--cost", metavar="FILE", help="a file of figures, or the name of one, for --limit")
    each.add_argument("--top", type=count_from(0), default=endurance.TOP, metavar="N",
                      help=f"name the N hottest lines (default {endurance.TOP})")
    add_program(each)
    add_cluster(each)


def add_attacks(commands: Any) -> None:
    """`explore attacks`."""
    each = add_command(commands, "attacks", "single attacks on the device after a trace, and what becomes of them", ATTACKS_HELP, run_attacks)
    add_trace(each)
    add_output(each)
    default = attacks.Chosen()
    each.add_argument("--part-lines", type=count_from(1), default=default.lines, metavar="N",
                      help=f"attack N device lines that the trace used in each part, and N others (default {default.lines})")
    each.add_argument("--bits", type=count_from(1), default=default.bits, metavar="N",
                      help=f"flip N bits of each class of a line (default {default.bits})")
    each.add_argument("--reads", type=count_from(1), default=default.reads, metavar="N",
                      help=f"read N of the lines that the trace names, and those attacked (default {default.reads})")
    each.add_argument("--seed", type=count_from(0), default=default.seed, metavar="S", help="which bits (default 0)")
    formats = each.add_mutually_exclusive_group()
    formats.add_argument("--csv", action="store_true", help="CSV instead of text")
    formats.add_argument("--json", action="store_true", help="JSON instead of text, with each attack's commands and the deciding reply")
    add_settings(each, several=False)
    add_program(each)


def add_bounds(commands: Any) -> None:
    """`explore bounds`."""
    each = add_command(commands, "bounds", "what a recovery takes at most, on a memory of any size", BOUNDS_HELP, run_bounds)
    add_output(each)
    each.add_argument("--memory", type=bounds.memory_bytes, required=True, metavar="SIZE",
                      help="the size of memory at least, such as 1T, 64G or 16M (bytes)")
    each.add_argument("--designs", type=design_names((), ("run", "tree")), default=list(bounds.DESIGNS), metavar="run,tree,..",
                      help=f"run, tree, and policies of run {designs.NAMES_HELP} (default: {', '.join(bounds.DESIGNS)})")
    default = Settings()
    for name, values in (("sets", settings.SETS), ("ways", settings.WAYS), ("loss", settings.LOSSES)):
        each.add_argument(f"--{name}", type=number_in(values), default=getattr(default, name), metavar=name.upper(),
                          help=f"as of pmem run: {words_for(values)} (default {getattr(default, name)})")
    add_policy(each, False, False)
    each.add_argument("--cost", metavar="FILE", help=f"figures of time and energy: a file in TOML, or one of {', '.join(costs.bundled())}")
    each.add_argument("--trace", metavar="TRACE", help="a workload whose means are measured and extrapolated")
    each.add_argument("--levels", type=numbers_in(settings.LEVELS), default=[1, 2, 3], metavar="1,2,..",
                      help="--trace: the levels of run at which it is measured, at least two (default 1,2,3)")
    each.add_argument("--fold", action="store_true", help="--trace: as in explore compare")
    each.add_argument("--cuts", type=count_from(0), default=compare.CUTS, metavar="N", help="--trace: as in explore compare")
    formats = each.add_mutually_exclusive_group()
    formats.add_argument("--csv", action="store_true", help="CSV instead of text, without the means")
    formats.add_argument("--json", action="store_true", help="JSON instead of text")
    add_program(each)


def inches(text: str) -> float:
    """Reads a width in inches."""
    if not re.fullmatch(r"[0-9]{1,2}(\.[0-9]{1,4})?", text) or not 2 <= float(text) <= 20:
        raise argparse.ArgumentTypeError(f"{text!r} is not a width of 2 to 20 inches")
    return float(text)


def add_figure(commands: Any) -> None:
    """`explore figure`."""
    each = add_command(commands, "figure", "a curve of the literature, as a picture and a table", FIGURE_HELP, run_figure)
    each.add_argument("name", choices=(*curves.FIGURES, ALL_FIGURES), metavar="NAME", help=f"{', '.join(curves.FIGURES)}, or {ALL_FIGURES}")
    each.add_argument("trace", metavar="TRACE", nargs="*",
                      help="workloads: traces for pmem run, or a folder of such files in .trace (default: examples/workloads)")
    each.add_argument("-o", "--output", metavar="FILE",
                      help=f"the picture: a name in .svg, .png or .pdf. Of {ALL_FIGURES}: a folder, for NAME.svg and NAME.csv of each")
    each.add_argument("--table", metavar="FILE", help="write the numbers, as CSV; without -o nothing is drawn")
    each.add_argument("--from", dest="source", metavar="FILE",
                      help=f"draw a table that --table wrote, and run nothing. Of {ALL_FIGURES}: the folder with all of them")
    each.add_argument("--kind", choices=list(draw.KINDS), default="svg", help=f"of {ALL_FIGURES}: the kind of pictures (default svg)")
    each.add_argument("--cost", metavar="FILE", default="optane",
                      help=f"figures of time: a file in TOML, or one of {', '.join(costs.bundled())} (default optane)")
    widths = each.add_mutually_exclusive_group()
    widths.add_argument("--columns", type=number_in((1, 2)), default=1, help="as wide as 1 or 2 columns of a paper (default 1)")
    widths.add_argument("--width", type=inches, metavar="INCHES", help="as wide as this")
    each.add_argument("--cuts", type=count_from(0), default=FIGURE_CUTS, metavar="N",
                      help=f"look at recovery after N cuts of each workload and design, spread evenly; 0: after each step (default {FIGURE_CUTS})")
    each.add_argument("--attack-writes", type=count_from(1), default=ATTACK_WRITES, metavar="N",
                      help=f"of wear: the attack writes its line N times, and workloads are repeated until they wrote N lines "
                           f"(default {ATTACK_WRITES:,})")
    each.add_argument("--bounds", action="store_true", help="of recovery-memory: only the proved bounds and the formulas; nothing runs")
    each.add_argument("--levels", type=number_in(range(1, curves.MOST_OF_TREE + 1)), default=curves.MEASURED_LEVELS, metavar="LEVELS",
                      help=f"the levels of run for whose memory workloads are measured: 1 to {curves.MOST_OF_TREE}, as tree has no larger one "
                           f"(default {curves.MEASURED_LEVELS}: 4,096 lines); `designs` has all memories")
    default = Settings()
    for name, values in (("sets", settings.SETS), ("ways", settings.WAYS), ("loss", settings.LOSSES)):
        each.add_argument(f"--{name}", type=number_in(values), default=getattr(default, name), metavar=name.upper(),
                          help=f"as in pmem run, unless the curve runs along it: {words_for(values)} (default {getattr(default, name)})")
    add_program(each)
    add_cluster(each)


def add_export(commands: Any) -> None:
    """`explore export`."""
    each = add_command(commands, "export", "a trace's accesses for a simulator of a memory's timing", EXPORT_HELP, run_export)
    add_trace(each)
    add_output(each)
    each.add_argument("--to", choices=list(export.FORMATS), required=True, metavar="SIMULATOR", help=", ".join(export.FORMATS))
    each.add_argument("--base", type=address, default=0, metavar="ADDRESS", help="the address of device line 0 (default 0)")
    each.add_argument("--gap", type=count_from(0), default=0, metavar="N",
                      help="dramsim3: at least N cycles from one access to the next (default 0: each as soon as it is taken)")
    add_settings(each, several=False)
    add_program(each)


def add_draw(commands: Any) -> None:
    """`explore draw`."""
    each = add_command(commands, "draw", "a picture of a trace, or of a sweep", DRAW_HELP, run_draw)
    add_trace(each, "a trace, or what `explore sweep --json`, `compare --json`, `endurance --json` or `cuts --json` wrote; - is "
              "standard input")
    each.add_argument("-o", "--output", metavar="FILE", required=True, help="the picture: a name in .svg, .png or .pdf")
    add_lines(each)
    each.add_argument("--title", metavar="TEXT", help="the picture's title (default: the trace's name)")
    each.add_argument("--along", choices=sweep.VARIED,
                      help="for a sweep: the number along the curves (default: the one with most values)")
    each.add_argument("--trade-off", action="store_true",
                      help="for a sweep or a comparison: the cost of a recovery against the cost of a write, a point for each setting")
    each.add_argument("--moments", action="store_true", help="for a comparison: recovery against the moment of the cut")
    add_settings(each, several=False)
    add_program(each)


def add_convert(commands: Any) -> None:
    """`explore convert`."""
    each = add_command(commands, "convert", "the workload of a trace of run for another machine", CONVERT_HELP, run_convert)
    add_trace(each, "a trace for pmem run; - is standard input")
    add_output(each)
    each.add_argument("--to", choices=MACHINE_NAMES, required=True, metavar="MACHINE", help="run, wear, txn or tree")
    add_levels(each)


def add_shell(commands: Any) -> None:
    """`explore shell`."""
    each = add_command(commands, "shell", "a session in which a trace grows command by command", SHELL_HELP, run_shell)
    each.add_argument("trace", metavar="TRACE", nargs="?", help="a trace to begin with")
    add_settings(each, several=False)
    add_program(each)


def make_parser() -> Parser:
    """The parser of all words."""
    parser = Parser(prog="explore", description=DESCRIPTION, epilog=COMMANDS_HELP,
                    formatter_class=argparse.RawDescriptionHelpFormatter)
    parser.add_argument("--version", action="version", version=f"explore {version()}")
    commands = parser.add_subparsers(dest="command", metavar="COMMAND", required=True)
    for add in (add_steps, add_cuts, add_sweep, add_compare, add_endurance, add_attacks, add_bounds, add_figure, add_export, add_draw, add_import,
                add_convert, add_shell):
        add(commands)
    return parser


def settings_of(words: argparse.Namespace) -> Settings:
    """The settings that the words choose."""
    chosen = Settings(words.levels, words.sets, words.ways, words.loss, words.major, words.suite, words.key or "",
                      words.tag_key or "", words.every, words.machine_name, words.persist, words.shadow, words.queue, words.combine)
    chosen.check()
    return chosen


def together_of(words: argparse.Namespace, with_log: bool = False) -> Together:
    """The program that the words name, and how many runs of it go side by side, or on which cluster; `with_log`: it tells
    its log in all runs."""
    path = found_program(words.program or default_program())
    program = LoggedProgram(path) if with_log else Program(path)
    if getattr(words, "cluster", None):
        return ClusterTogether(program, words.jobs, words.from_start, Cluster(words.cluster, path, words.cluster_wait))
    return Together(program, words.jobs, words.from_start)


def recording_of(words: argparse.Namespace, together: Together) -> Recording:
    """The trace that the words name with its replies."""
    return Recording(together.program, settings_of(words), read_trace(words.trace))


def about_text(words: argparse.Namespace, what: str, together: Together, traces: Sequence[Trace], chosen: Optional[Settings], text: str,
               **more: Any) -> str:
    """A JSON or CSV text, with what it was made of in front if --about asks for that."""
    if not words.about:
        return text
    found = about(what, together.program.path, traces, chosen, **more)
    return json_text({"about": found, "rows": json.loads(text)}) if words.json else comments_of(found) + text


def check_about(words: argparse.Namespace) -> None:
    """Refuses --about without a format for it."""
    if words.about and not (words.json or words.csv):
        raise ExploreError("--about needs --json or --csv", WRONG_WORDS)


def run_steps(words: argparse.Namespace) -> None:
    """`explore steps`."""
    check_writable(words.output)
    check_about(words)
    together = together_of(words)
    recording = recording_of(words, together)
    traced = steps.trace_steps(recording, together, words.lines, words.reads)
    text = json_text(steps.steps_records(traced)) if words.json else steps.steps_csv(traced) if words.csv else \
        steps.steps_text(traced, words.whole)
    put(about_text(words, "steps", together, [recording.trace], recording.settings, text), words.output)


def check_cuts(words: argparse.Namespace) -> None:
    """That the options of `explore cuts` go together."""
    for name in (words.output, words.failing, words.junit):
        check_writable(name)
    check_about(words)
    for name, other, is_missing in (
            *((name, "check", not words.check) for name in ("failing", "junit", "elf", "check_timeout", "check_batch", "check_addresses")),
            *((name, "orders", not words.orders) for name in ("no_early", "torn")),
            ("markdown", "ranges", not words.ranges)):
        if getattr(words, name) and is_missing:
            raise ExploreError(f"--{name.replace('_', '-')} needs --{other}", WRONG_WORDS)
    for name in ("twice", "orders", "sample", "budget", "csv"):
        if words.ranges and getattr(words, name):
            raise ExploreError(f"--ranges and --{name} exclude each other", WRONG_WORDS)


class CutSearch:
    """What `explore cuts` looks for: cuts, other orders, and the verdicts of a check, all of them or a part."""

    def __init__(self, words: argparse.Namespace) -> None:
        self.words = words
        self.plan = Plan(words.sample, words.seed, words.budget)
        self.together = together_of(words)
        self.recording = recording_of(words, self.together)
        self.finder = cuts.CutFinder(self.recording, self.together, words.all_lines, words.named_lines)
        names = Names(self.recording.trace, symbols_of(words.elf, words.elf_at))
        self.found = outcomes.Outcomes(self.recording, self.finder.lines, names, words.check_addresses)
        if words.check or words.distinct or words.orders:
            self.finder.observe = self.found.add
        self.checks = Checks(words.check, self.found, self.together.jobs, words.check_timeout, words.check_batch) if words.check else None
        self.orders = Orders(self.finder, words.orders, words.lines, not words.no_early, words.torn, words.seed) if words.orders else None
        self.every: List[cuts.Cut] = []
        self.tried: List[Tried] = []
        self.notes: List[str] = []

    def search(self) -> None:
        """Does all of it."""
        self.search_cuts(0.5 if self.orders else 1)
        if self.orders:
            self.search_orders(self.orders)

    def search_cuts(self, share: float) -> None:
        """The cuts, in a share of the time."""
        moments = self.finder.prepared(self.words.lines)
        total = sum(moment.kind != "before" for moment in moments)
        self.advise(total)
        for places in self.plan.rounds(total, share):
            some = moments if len(places) == total else cuts.some_of(moments, places)
            rows = self.words.check_rows if not self.every else 0
            self.every += self.finder.found(some, self.words.twice, rows, self.plan.deadline(share))
            self.check(share)
        self.every.sort(key=lambda cut: (cut.index, cut.number))
        if not self.plan.is_whole:
            self.notes.append(self.plan.note("cuts", len(self.every), total))

    def search_orders(self, orders: Orders) -> None:
        """The states of other orders."""
        for places in self.plan.rounds(len(orders.moments)):
            self.tried += orders.find(self.found.add, [orders.moments[place] for place in places])
            self.check(1)
        self.tried.sort(key=lambda each: each.asked.index)
        if not self.plan.is_whole:
            self.notes.append(self.plan.note("fences", len(self.tried), len(orders.moments)))

    def check(self, share: float) -> None:
        """Asks the check about the outcomes that are new."""
        if self.checks:
            self.checks.check(self.found.unchecked(), self.plan.deadline(share))

    def advise(self, total: int) -> None:
        """Says how a long search could be faster, if the ciphers and the stop-loss number have no part in what it finds."""
        chosen = self.recording.settings
        is_tampered = any(command.word in TAMPERING_WORDS for command in self.recording.commands)
        if total >= MANY_CUTS and self.finder.observe and not is_tampered and chosen.machine.has_ports and chosen.suite == "aes":
            sys.stderr.write(f"explore: {total} cuts: --suite weak --loss 1 finds the same outcomes several times faster, as the trace "
                             "has no tampering\n")

    def text(self) -> str:
        """The result in the format that was asked for."""
        words, found, names = self.words, self.found, self.recording.settings.machine.recovery
        if words.ranges:
            rows = ranges.ranges_of(self.every, self.recording, found.verdict_of if words.check else None)
            return ranges.ranges_json(rows) if words.json else ranges.ranges_text(rows, names, words.markdown)
        if words.json:
            return json_text(outcomes.outcome_records(found) if words.distinct else cuts.cut_records(self.all, found.verdict_record_of))
        if words.csv:
            return outcomes.outcomes_csv(found, names) if words.distinct else cuts.cuts_csv(self.all, names, found.row_of)
        text = outcomes.outcomes_text(found) if words.distinct else \
            cuts.cuts_text(self.every, self.recording, found.verdict_of if words.check else None)
        if self.orders:
            text += "\n" + orders_text(self.tried, self.orders, found.number_and_verdict)
        if not words.distinct and (words.check or self.orders):
            text += "\n" + "".join(f"{note}\n" for note in outcomes.notes_of(found))
        return text + "".join(f"{note}\n" for note in self.notes)

    @property
    def all(self) -> List[cuts.Cut]:
        """The cuts, and the states of other orders as cuts."""
        return [*self.every, *(cut for each in self.tried for cut in each.cuts)]


def run_cuts(words: argparse.Namespace) -> int:
    """`explore cuts`."""
    check_cuts(words)
    search = CutSearch(words)
    search.search()
    chosen = {"orders": words.orders, "torn": words.torn or None, "early": None if not words.orders else not words.no_early,
              "sample": words.sample, "seed": words.seed, "budget": words.budget, "check": words.check, "left_out": search.notes or None}
    put(about_text(words, "cuts", search.together, [search.recording.trace], search.recording.settings, search.text(), **chosen), words.output)
    return check_status(search.all, search.found, words)


def check_status(every: Sequence[cuts.Cut], found: outcomes.Outcomes, words: argparse.Namespace) -> int:
    """Writes what goes with a check, and answers the exit status that its result has."""
    if words.junit:
        write_file(words.junit, outcomes.junit_text(every, found).encode())
    shortest = found.shortest_wrong()
    if shortest is None:
        return CHECK_BROKEN if found.broken() else DONE
    if words.failing:
        write_file(words.failing, outcomes.failing_trace(found, shortest, words.check).encode())
    return CHECK_FAILED


def run_sweep(words: argparse.Namespace) -> None:
    """`explore sweep`."""
    check_writable(words.output)
    check_about(words)
    together = together_of(words)
    base = Settings(major=words.major, suite=words.suite, key=words.key or "", tag_key=words.tag_key or "",
                    every=words.every, machine_name=words.machine_name)
    values: Dict[str, Sequence[Any]] = {name: getattr(words, name) for name in sweep.VARIED if getattr(words, name)}
    trace = read_trace(words.trace)
    costs = sweep.trace_sweep(trace, sweep.settings_of(base, values), together)
    text = sweep.sweep_csv(costs) if words.csv else sweep.sweep_latex(costs) if words.latex else \
        sweep.sweep_json(costs, trace) if words.json else sweep.sweep_text(costs)
    put(about_text(words, "sweep", together, [trace], None, text), words.output)


def designs_of(words: argparse.Namespace) -> List[Tuple[int, Settings]]:
    """The designs that the words choose."""
    values: Dict[str, Sequence[Any]] = {name: list(dict.fromkeys(getattr(words, name))) for name in compare.VARIED if getattr(words, name)}
    return compare.designs_of(words.designs, Settings(suite=words.suite), values)


def traces_of(names: Sequence[str]) -> List[Trace]:
    """The traces of these names; a folder is all traces in it, by their names."""
    traces: List[Trace] = []
    for name in names:
        if not os.path.isdir(name):
            traces.append(read_trace(name))
            continue
        inside = sorted(each for each in os.listdir(name) if each.endswith(".trace"))
        if not inside:
            raise ExploreError(f"the folder {name} has no file whose name ends in .trace")
        traces += [read_trace(os.path.join(name, each)) for each in inside]
    return traces


def comparison_text(found: Union[compare.Compared, endurance.Lifetimes], words: argparse.Namespace) -> str:
    """A comparison in the format that was asked for."""
    return found.csv() if words.csv else found.json() if words.json else found.latex() if words.latex else found.text()


def figures_about(figures: Optional[costs.Costs]) -> Optional[Dict[str, Any]]:
    """The figures of time and energy that a result was made with."""
    return None if figures is None else {"file": figures.name, "title": figures.title,
                                         **{name: figure.value for name, figure in figures.figures.items()}}


def run_compare(words: argparse.Namespace) -> None:
    """`explore compare`."""
    check_writable(words.output)
    check_about(words)
    if words.rows and not words.latex:
        raise ExploreError("--rows needs --latex", WRONG_WORDS)
    has_plain = compare.PLAIN in words.designs
    words.designs = [name for name in words.designs if name != compare.PLAIN]
    if not words.designs:
        raise ExploreError(f"--designs: {compare.PLAIN} is a baseline; name a design to compare with it, such as {compare.PLAIN},run", WRONG_WORDS)
    figures = [costs.read_costs(name) for name in words.cost]
    together = together_of(words, True)
    comparison = compare.Comparison(designs_of(words), together, words.fold, words.cuts)
    traces = traces_of(words.trace)
    found = compare.compare(traces, comparison, figures, has_plain)
    text = found.latex(words.rows) if words.rows else comparison_text(found, words)
    about_figures = [figures_about(each) for each in figures]
    put(about_text(words, "compare", together, traces, None, text, figures=about_figures[0] if len(figures) == 1 else about_figures or None,
                   cuts=words.cuts), words.output)


def run_endurance(words: argparse.Namespace) -> None:
    """`explore endurance`."""
    check_writable(words.output)
    check_about(words)
    figures = costs.read_costs(words.cost) if words.cost else None
    limit = words.limit or (int(figures.endurance) if figures else endurance.LIMIT)
    together = together_of(words, True)
    comparison = compare.Comparison(designs_of(words), together, words.fold, 0)
    traces = traces_of(words.trace)
    worn, notes = endurance.Endurance(comparison, words.repeat).find(traces)
    found = endurance.Lifetimes(worn, notes, words.rate, limit, words.top)
    put(about_text(words, "endurance", together, traces, None, comparison_text(found, words), figures=figures_about(figures),
                   repeat=words.repeat, rate=words.rate, limit=limit), words.output)


def run_attacks(words: argparse.Namespace) -> int:
    """`explore attacks`."""
    check_writable(words.output)
    chosen = attacks.Chosen(words.part_lines, words.bits, words.reads, words.seed)
    search = attacks.Attacks(read_trace(words.trace), settings_of(words), together_of(words, True), chosen)
    found = attacks.Found(search, search.find())
    put(found.json() if words.json else found.csv() if words.csv else found.text(), words.output)
    for each in found.wrong:
        sys.stderr.write(f"explore: wrong data after {', '.join(text.decode('ascii') for text in each.attack.commands)[:100]}\n")
    return FAILURE if found.wrong else DONE


def run_bounds(words: argparse.Namespace) -> None:
    """`explore bounds`."""
    check_writable(words.output)
    figures = costs.read_costs(words.cost) if words.cost else None
    base = Settings(sets=words.sets, ways=words.ways, loss=words.loss, persist=words.persist, shadow=words.shadow)
    found = bounds.Answer(bounds.bounds_of(words.designs, words.memory, base), words.memory, figures)
    if words.trace:
        measured_means(words, found, base)
    put(found.json() if words.json else found.csv() if words.csv else found.text(), words.output)


def measured_means(words: argparse.Namespace, found: bounds.Answer, base: Settings) -> None:
    """Adds to bounds the means of a workload at several levels."""
    names = [name for name in words.designs if name in MACHINES]
    levels = sorted(set(words.levels))
    if len(levels) < 2 or not names:
        raise ExploreError("--trace needs two or more --levels, and run or tree among --designs", WRONG_WORDS)
    values: Dict[str, Sequence[Any]] = {"levels": levels, **{name: [getattr(base, name)] for name in ("sets", "ways", "loss", *POLICY)}}
    comparison = compare.Comparison(compare.designs_of(names, Settings(), values), together_of(words, True), words.fold, words.cuts)
    trace = read_trace(words.trace)
    found.means = bounds.extrapolated(compare.compare([trace], comparison, [found.costs] if found.costs else []).every, names)
    found.of = trace.name


# The picture of a figure, its table, and the table that it is drawn from.
FigureFiles = Tuple[Optional[str], Optional[str], Optional[str]]


def run_figure(words: argparse.Namespace) -> None:
    """`explore figure`."""
    if words.source and (words.table or words.trace):
        raise ExploreError("--from goes without --table and traces", WRONG_WORDS)
    if words.bounds and (words.source or words.trace or words.name != "recovery-memory"):
        raise ExploreError("--bounds is for recovery-memory, without --from and traces", WRONG_WORDS)
    if words.name == ALL_FIGURES:
        run_all_figures(words)
        return
    if not words.output and not words.table:
        raise ExploreError("name the picture with -o, or its table with --table", WRONG_WORDS)
    check_figure(words.output, [words.output, words.table])
    make_figures(words, {words.name: (words.output, words.table, words.source)})


def run_all_figures(words: argparse.Namespace) -> None:
    """All figures, into a folder."""
    if not words.output or words.table:
        raise ExploreError(f"{ALL_FIGURES} takes a folder behind -o, for the pictures and the tables", WRONG_WORDS)
    if not os.path.isdir(words.output):
        raise ExploreError(f"there is no folder {words.output}")

    def path(folder: str, name: str, kind: str) -> str:
        return os.path.join(folder, f"{name}.{kind}")

    files: Dict[str, FigureFiles] = {name: (path(words.output, name, words.kind), None if words.source else path(words.output, name, "csv"),
                                            path(words.source, name, "csv") if words.source else None) for name in curves.FIGURES}
    check_figure(f"all.{words.kind}", [each for drawn, table, _ in files.values() for each in (drawn, table)])
    make_figures(words, files)


def check_figure(picture: Optional[str], names: Sequence[Optional[str]]) -> None:
    """That the files can be written, and a picture drawn, before anything runs."""
    for name in names:
        check_writable(name)
    if picture:
        draw.picture_kind(picture)
        with INTERRUPTS.at_once():
            draw.load_matplotlib()


def figure_choice(words: argparse.Namespace) -> curves.Choice:
    """What the figures are made with. The bounds of recovery-memory need no workload."""
    needs_traces = not words.source and not words.bounds
    given = words.trace or ([str(WORKLOADS)] if WORKLOADS.is_dir() and needs_traces else [])
    base = Settings(levels=words.levels, sets=words.sets, ways=words.ways, loss=words.loss)
    return curves.Choice(base, costs.read_costs(words.cost), traces_of(given), words.cuts, words.attack_writes)


def make_figures(words: argparse.Namespace, files: Dict[str, FigureFiles]) -> None:
    """Makes figures: their pictures and their tables."""
    choice = figure_choice(words)
    needs_program = not words.source and any(curves.needs_program(name, bool(choice.traces)) for name in files)
    together = together_of(words, True) if needs_program else None
    for name, (picture, table, source) in files.items():
        rows = curves.rows_in(name, read_bytes(source).decode("utf-8", "replace")) if source else curves.rows_of(name, choice, together)
        if picture:
            with INTERRUPTS.at_once():
                drawn = figure.drawn(name, rows, choice, words.width or figure.WIDTHS[words.columns], draw.picture_kind(picture))
            write_file(picture, drawn)
        if table:
            write_file(table, curves.table_of(name, rows).encode())
        if len(files) > 1:
            sys.stderr.write(f"explore: made {name}\n")


def run_export(words: argparse.Namespace) -> None:
    """`explore export`."""
    check_writable(words.output)
    program = together_of(words, True).program
    assert isinstance(program, LoggedProgram)
    recording = LoggedRecording(program, settings_of(words), read_trace(words.trace))
    text = export.exported(recording, words.to, words.base, words.gap)
    sys.stderr.write(f"explore: {export.told(recording)}\n")
    put(text, words.output)


def run_draw(words: argparse.Namespace) -> None:
    """`explore draw`."""
    kind = draw.picture_kind(words.output)
    check_writable(words.output)
    with INTERRUPTS.at_once():
        draw.load_matplotlib()
    data = read_bytes(words.trace)
    value = json_value(data)
    found = sweep.points_of(value)
    with INTERRUPTS.at_once():
        drawn = None if found else charts.picture_of(value, words.title or "", kind, words.trade_off, words.moments)
    if drawn is not None:
        if words.along:
            raise ExploreError("--along is for a sweep's JSON alone", WRONG_WORDS)
        write_file(words.output, drawn)
        return
    if words.moments:
        raise ExploreError("--moments is for a comparison's JSON alone", WRONG_WORDS)
    if found is not None:
        name, records = found
        title = words.title or os.path.basename(name)
        with INTERRUPTS.at_once():
            drawn = drawn_sweep(records, title, kind, words)
        write_file(words.output, drawn)
        return
    if JSON_START.match(data):
        raise ExploreError(f"{shown_name(words.trace)} is neither a trace nor what explore sweep --json, compare --json, endurance "
                           "--json or cuts --json wrote")
    if words.along or words.trade_off:
        raise ExploreError(f"--{'along' if words.along else 'trade-off'} is for a JSON that was written alone", WRONG_WORDS)
    together = together_of(words)
    recording = Recording(together.program, settings_of(words), trace_of(words.trace, data))
    traced = steps.trace_steps(recording, together, words.lines)
    title = words.title or f"{os.path.basename(recording.trace.name)} ({recording.settings.text()})"
    with INTERRUPTS.at_once():
        drawn = draw.timeline(traced, recording.settings, title, kind)
    write_file(words.output, drawn)


def drawn_sweep(records: List[Dict[str, Any]], title: str, kind: str, words: argparse.Namespace) -> bytes:
    """The picture of a sweep's records."""
    try:
        return draw.trade_off(records, title, kind) if words.trade_off else draw.curves(records, title, words.along, kind)
    except (KeyError, TypeError, IndexError, AttributeError, ValueError) as error:
        raise ExploreError(f"this is not what explore sweep --json wrote: {error!r}") from error


def run_shell(words: argparse.Namespace) -> int:
    """`explore shell`."""
    return shell.run_session(together_of(words), settings_of(words), words.trace)


def json_value(data: bytes) -> Any:
    """The value of a JSON text, or None."""
    if not JSON_START.match(data):
        return None
    if len(data) > LARGEST_RESULT:
        raise ExploreError(f"a result of more than {LARGEST_RESULT} bytes cannot be drawn")
    try:
        value = json.loads(data, parse_int=json_number)
    except (ValueError, RecursionError):
        return None
    clean_texts(value)
    is_about = isinstance(value, dict) and set(value) == {"about", "rows"}
    return value["rows"] if is_about else value


def clean_texts(value: Any) -> None:
    """Escapes what no picture can hold in the texts of a JSON value, and shortens those that are longer than any that explore writes."""
    waiting = [value]
    while waiting:
        each = waiting.pop()
        for key, item in list(each.items() if isinstance(each, dict) else enumerate(each)):
            if isinstance(item, str):
                text = shown_path(item)
                each[key] = text if len(text) <= LONGEST_TEXT else f"{text[:LONGEST_TEXT // 2]}..{text[-LONGEST_TEXT // 2:]}"
            elif isinstance(item, (dict, list)):
                waiting.append(item)


def json_number(digits: str) -> int:
    """A whole number of a JSON text, which no result of explore has with more digits."""
    if len(digits) > LONGEST_NUMBER:
        raise ValueError("a number is too long")
    return int(digits)


def run_import(words: argparse.Namespace) -> None:
    """`explore import`."""
    check_writable(words.output)
    levels = words.levels or default_levels(words.machine_name)
    rules = importing.Rules(MACHINES[words.machine_name].data_lines(levels), words.port, words.fence_every,
                            tuple(words.fence_at or ()), words.within, words.skip, words.commands, words.combine, words.cache,
                            words.machine_name, levels, words.fold, tuple(words.image))
    if words.top:
        put(importing.hottest(words.file, words.kind, rules, words.top), words.output)
    else:
        put(importing.import_trace(words.file, words.kind, rules), words.output)


def run_convert(words: argparse.Namespace) -> None:
    """`explore convert`."""
    check_writable(words.output)
    levels = words.levels or default_levels(words.to)
    trace = read_trace(words.trace)
    made = convert.converted(trace.commands, words.to, levels)
    for note in made.notes:
        sys.stderr.write(f"explore: {note}\n")
    put(convert.converted_text(trace, made), words.output)


def default_levels(machine_name: str) -> int:
    """The levels by which a machine has as much memory as `run` has by default."""
    return convert.levels_for(machine_name, Settings().levels)


def main(arguments: List[str]) -> int:
    """Does what the words say, and answers the exit status. Whatever happens, no process is left behind."""
    INTERRUPTS.listen()
    words = make_parser().parse_args(arguments)
    try:
        return ended(words)
    finally:
        INTERRUPTS.ignore()
        end_all()
        remove_temporary()


def ended(words: argparse.Namespace) -> int:
    """Does what the words say, and answers how that ended."""
    try:
        status: Optional[int] = words.run(words)
    except ExploreError as error:
        sys.stderr.write("explore: " + "\n".join(map(shown_path, str(error).split("\n"))) + "\n")
        return error.status
    except KeyboardInterrupt:
        INTERRUPTS.ignore()
        end_all()
        sys.stderr.write(TOLD.decode())
        return INTERRUPTED
    except BrokenPipeError:
        os.dup2(os.open(os.devnull, os.O_WRONLY), sys.stdout.fileno())
        return FAILURE
    except OSError as error:
        sys.stderr.write(f"explore: {reason_of(error)}\n")
        return FAILURE
    except MemoryError:
        sys.stderr.write("explore: out of memory\n")
        return FAILURE
    return status or DONE

"""The tables of docs/COSTS.md and docs/DESIGNS.md that are made of the tables of `explore figure`, so that no number
is written by hand."""
import csv
import io
from pathlib import Path
from typing import Callable, Dict, List, Optional, Sequence

from .curves import ATTACK, POLICY_DESIGNS
from .designs import is_policy, policy_named
from .errors import ExploreError
from .output import markdown_text
from .units import bytes_text, time_text

Row = Dict[str, str]
# The sizes of memory that the page has, of all in the table.
SIZES = (1 << 16, 1 << 18, 1 << 20, 1 << 22, 1 << 24, 1 << 30, 1 << 40)
SETS_OF_TRADE_OFF = ("4", "64")
# What a line of a part is called in a table.
LINES_OF = {"tags": "tag", "counters": "counter"}


def read_rows(text: str) -> List[Row]:
    """The rows of a table."""
    return list(csv.DictReader(io.StringIO(text)))


def means(rows: Sequence[Row]) -> List[Row]:
    """Those that are means over the workloads."""
    return [row for row in rows if row["trace"].startswith("mean of ")]


def ns(text: str) -> str:
    """A time."""
    return time_text(float(text))


def number(text: str) -> str:
    """A number: to two places below 1,000."""
    value = float(text)
    return f"{value:,.0f}" if value >= 1000 else f"{value:.2f}"


def only(rows: Sequence[Row], **values: object) -> Optional[Row]:
    """The row with these values, if there is one."""
    return next((row for row in rows if all(row[name] == str(value) for name, value in values.items())), None)


def memory_table(rows: Sequence[Row]) -> str:
    """Recovery by the size of memory: the bounds, and what was measured."""
    bound, found = [row for row in rows if row["stated_by"] != "measured"], means(rows)
    lines = []
    for size in SIZES:
        cells = [only(some, design=design, memory_bytes=size) for some in (bound, found) for design in ("run", "tree", "osiris")]
        lines.append([f"{bytes_text(size)}iB", *("" if cell is None else ns(cell["recovery_ns"]) + "*" * (cell["stated_by"] == "formula")
                                                   for cell in cells)])
    return markdown_text(["Memory", "`run`, at most", "`tree`, at most", "`osiris`, at most", "`run`, measured mean", "`tree`", "`osiris`"], lines)


def cache_table(rows: Sequence[Row]) -> str:
    """By the sets of the cache."""
    lines = []
    for sets in dict.fromkeys(row["sets"] for row in rows):
        cells = [sets]
        for design, work in (("run", "recovery_tags_mean"), ("tree", "recovery_digests_mean")):
            row = only(means(rows), design=design, sets=sets)
            assert row is not None
            cells += [bytes_text(float(row["chip_cache"])), number(row[work]), ns(row["recovery_ns_mean"]), number(row["write_steps"])]
        lines.append(cells)
    return markdown_text(["Sets", "`run`: cache (bytes)", "trials", "recovery", "steps", "`tree`: cache (bytes)", "digests", "recovery", "steps"],
                         lines)


def loss_table(rows: Sequence[Row]) -> str:
    """By the stop-loss number."""
    return markdown_text(["Stop-loss number", "steps, a line written", "trials, a recovery", "recovery"], [
        [row["loss"], number(row["write_steps"]), number(row["recovery_tags_mean"]), ns(row["recovery_ns_mean"])] for row in means(rows)])


def trade_off_table(rows: Sequence[Row]) -> str:
    """Some of the designs. The stop-loss number plays no part if counters are persisted with each write."""
    def loss(row: Row) -> str:
        return "" if is_policy(row["design"]) and policy_named(row["design"]).persist(int(row["levels"])) else row["loss"]

    return markdown_text(["Design", "sets", "stop-loss number", "a line written", "recovery"], [
        [f"`{row['design']}`", row["sets"], loss(row), ns(row["write_ns"]), ns(row["recovery_ns_mean"])] for row in means(rows)
        if row["sets"] in SETS_OF_TRADE_OFF], left=(0,))


def by_moves(row: Row) -> int:
    """Orders rows by the moves of the gap, never first."""
    return -int(row["every"] or 1_000_000)


def wear_table(rows: Sequence[Row]) -> str:
    """The attack, by the moves of the gap."""
    rows, lines = [row for row in rows if row["trace"] == ATTACK], []
    for every in dict.fromkeys(row["every"] for row in sorted(rows, key=by_moves)):
        own = {row["part"]: f"{int(row['line_writes']):,}" for row in rows if row["every"] == every}
        move = f"`wear`, each {every} writes" if every else "`run`, never"
        lines.append([move, *(own.get(part, "") for part in ("data", "record", "tags", "counters"))])
    return markdown_text(["A move", "Most written place", "The record", "Most written tag line", "Most written counter block"], lines, left=(0,))


def worn_table(rows: Sequence[Row]) -> str:
    """By workload: the most written place of data, and the most written line of the device, without start-gap and with it."""
    rows, lines = [row for row in rows if row["trace"] != ATTACK], []
    moves = list(dict.fromkeys(row["every"] for row in sorted(rows, key=by_moves)))
    for trace in dict.fromkeys(row["trace"] for row in rows):
        own = [row for row in rows if row["trace"] == trace]
        places = [max(int(row["line_writes"]) for row in own if row["every"] == every and row["part"] == "data") for every in moves]
        any_line = [max((int(row["line_writes"]), row["part"]) for row in own if row["every"] == every) for every in moves]
        lines.append([trace, f"{int(own[0]['writes']):,}", *(f"{writes:,}" for writes in places),
                      *(f"{writes:,} ({LINES_OF.get(part, part)})" for writes, part in any_line)])
    texts = [f"each {every}" if every else "never" for every in moves]
    return markdown_text(["Workload", "Lines written", f"Most written place, a move {texts[0]}", *texts[1:], f"any line, {texts[0]}", *texts[1:]],
                         lines, left=(0,))


def trees_table(rows: Sequence[Row]) -> str:
    """By workload."""
    lines = []
    for trace in dict.fromkeys(row["trace"] for row in rows):
        cells = ["mean" if trace.startswith("mean of ") else trace]
        for design in ("run", "tree"):
            row = only(rows, design=design, trace=trace)
            assert row is not None
            cells += [number(row["write_line_writes"]), number(row["write_digests"]), ns(row["recovery_ns_mean"])]
        lines.append(cells)
    return markdown_text(["Workload", "`run`: line writes", "digests", "recovery", "`tree`: line writes", "digests", "recovery"], lines, left=(0,))


def persist_table(rows: Sequence[Row]) -> str:
    """By the levels persisted, with and without tables."""
    lines = []
    for persist in dict.fromkeys(row["persist"] for row in rows):
        cells = [persist]
        for shadow in ("on", "off"):
            row = only(means(rows), persist=persist, shadow=shadow)
            assert row is not None
            cells += [number(row["write_steps"]), number(row["recovery_tags_mean"]), number(row["recovery_operations_mean"])]
        lines.append(cells)
    return markdown_text(["Levels persisted", "with tables: steps, a line written", "trials, a recovery", "operations, a recovery",
                          "without: steps", "trials", "operations"], lines)


def designs_table(rows: Sequence[Row]) -> str:
    """By the design, and in each memory: persist steps of a line written, and operations of a recovery."""
    sizes = sorted({int(row["memory_bytes"]) for row in rows})
    lines = []
    for design in POLICY_DESIGNS:
        cells = [only(means(rows), design=design, memory_bytes=size) for size in sizes]
        for what, name in (("steps, a line written", "write_steps"), ("operations, a recovery", "recovery_operations_mean"),
                           ("bytes on the chip", "chip_bytes")):
            lines.append([f"`{design}`", what, *("" if cell is None else f"{int(cell[name]):,}" if name == "chip_bytes" else number(cell[name])
                                                 for cell in cells)])
    return markdown_text(["Design", "", *(f"{bytes_text(size)}iB" for size in sizes)], lines, left=(0, 1))


def designs_claims(rows: Sequence[Row]) -> str:
    """What the literature says of each design, and the numbers of this figure that correspond."""
    sizes = sorted({int(row["memory_bytes"]) for row in rows})
    small, large = sizes[1], sizes[-1]

    def cells(name: str, column: str, *at: int) -> str:
        found = [only(means(rows), design=name, memory_bytes=size) for size in at]
        return " and ".join(number(row[column]) for row in found if row is not None)

    def work(name: str, *at: int) -> str:
        return cells(name, "recovery_operations_mean", *at)

    def steps(name: str, *at: int) -> str:
        return cells(name, "write_steps", *at)

    sizes_text = " and ".join(f"{bytes_text(size)}iB" for size in (small, large))
    return markdown_text(["Design", "The literature (m)", f"Here, in {sizes_text}", "What differs"], [
        ["Anubis", "with a table of what is cached, recovery depends on the cache and not on the size of memory; without one it takes hours in "
         "terabytes", f"`anubis` takes {work('anubis', small, large)} operations, `osiris` {work('osiris', small, large)}",
         "each named block also has a node per level to make; the papers give times of larger memories ([bounds](#bounds-for-any-size))"],
        ["Osiris", "a counter persisted at each N-th update costs few writes", f"`osiris` takes {steps('osiris', small, large)} steps per line "
         "written, of which 4 are the commit group with data and tag", "the tag is a line write; the MAC tells the counter, not an "
         "error-correcting code"],
        ["Triad-NVM", "a further level persisted costs a write, and divides recovery by the arity of the tree",
         f"in {bytes_text(large)}iB `triad-1` takes {steps('triad-1', large)} steps and {work('triad-1', large)} operations, `triad-2` "
         f"{steps('triad-2', large)} and {work('triad-2', large)}", "four children a node instead of eight; the counter block is persisted too"],
        ["strict persistence", "a write costs as many writes as the tree is high, and recovery has nothing to find",
         f"`strict` takes {steps('strict', small, large)} steps, and {work('strict', small, large)} operations to redo an armed group and to check "
         "the root", "the path is in the commit group, so a cut leaves all of it or nothing"],
        ["counters written through", "no counter is lost, so none is searched for",
         f"`counters` takes {steps('counters', small, large)} steps and {work('counters', small, large)} operations, none of them a trial",
         "nodes stay lazy and are named"]], left=(0, 1, 2, 3))


def persist_claims(rows: Sequence[Row]) -> str:
    """The same of the levels persisted, in one memory."""
    def along(shadow: str, column: str, first: int) -> str:
        found = [row for row in means(rows) if row["shadow"] == shadow and int(row["persist"]) >= first]
        return ", ".join(number(row[column]) for row in found)

    return markdown_text(["Design", "The literature (m)", "Here, in this memory", "What differs"], [
        ["Triad-NVM", "each level persisted costs a write more, and divides what recovery makes by the arity of the tree",
         f"without tables, 1 to {max(int(row['persist']) for row in rows)} levels take {along('off', 'write_steps', 1)} steps and "
         f"{along('off', 'recovery_operations_mean', 1)} operations", "four children a node instead of eight; the last one is strict persistence"],
        ["Anubis", "the table costs writes when lines become stale, and few if they are written again",
         f"with tables a line takes {along('on', 'write_steps', 0)} steps, without {along('off', 'write_steps', 0)}",
         "a line is named when it becomes dirty, not when it is cached"]], left=(0, 1, 2, 3))


TABLES: Dict[str, Callable[[Sequence[Row]], str]] = {
    "recovery-memory": memory_table, "recovery-cache": cache_table, "stop-loss": loss_table, "trade-off": trade_off_table, "wear": wear_table,
    "trees": trees_table, "persist": persist_table, "designs": designs_table}
# Further tables of a figure, by the names of their places.
MORE_TABLES: Dict[str, Dict[str, Callable[[Sequence[Row]], str]]] = {
    "wear": {"wear-by-workload": worn_table}, "designs": {"designs-claims": designs_claims}, "persist": {"persist-claims": persist_claims}}
# Which pages of docs/ have which tables.
PAGES: Dict[str, Sequence[str]] = {
    "COSTS.md": ("recovery-memory", "recovery-cache", "stop-loss", "trade-off", "wear", "trees"), "DESIGNS.md": ("persist", "designs")}


def tables_in(folder: Path, names: Sequence[str]) -> Dict[str, str]:
    """The tables of a page, by the tables of these figures in a folder."""
    found: Dict[str, str] = {}
    for name in names:
        rows = read_rows((folder / f"{name}.csv").read_text(encoding="utf-8"))
        found.update((place, table(rows)) for place, table in {name: TABLES[name], **MORE_TABLES.get(name, {})}.items())
    return found


def page_with(page: str, tables: Dict[str, str]) -> str:
    """A page with these tables between the comments `figure NAME` and `end`."""
    for name, table in tables.items():
        begin, end = f"<!-- figure {name} -->\n", "<!-- end -->\n"
        if page.count(begin) != 1 or end not in page.split(begin)[1]:
            raise ExploreError(f"the page has no single place for the table of {name}")
        before, rest = page.split(begin)
        page = before + begin + table + end + rest.split(end, 1)[1]
    return page

"""Pictures of what `compare`, `endurance` and `cuts` wrote as JSON: small multiples, the trade-off of writes against recovery,
recovery against the moment of the cut, and how often lines are written. Only this and `draw` need matplotlib."""
from typing import Any, Dict, List, Optional, Sequence, Tuple

from .accounts import PART_WORDS
from .compare import RECOVERY, VARIED
from .designs import family_of
from .draw import (BLACK, BLUE, DARK_GREY, GREEN, GREY, ORANGE, PURPLE, SKY, VERMILION, label_of, load_matplotlib, picture)
from .errors import WRONG_WORDS, ExploreError
from .labels import add_labels
from .machines import MACHINE_NAMES
from .settings import LATER
from .units import time_text

Row = Dict[str, Any]

PART_COLOURS = dict(zip(PART_WORDS, (BLUE, SKY, ORANGE, GREEN, PURPLE)))
DESIGN_MARKS = {"run": (BLUE, "o"), "wear": (ORANGE, "s"), "txn": (GREEN, "^"), "tree": (VERMILION, "D"), "plain": (DARK_GREY, "P"),
                "anubis": (BLUE, "o"), "osiris": (SKY, "v"), "counters": (GREEN, "p"), "triad": (PURPLE, "h"), "strict": (BLACK, "X")}
# What can tell designs of one name apart: their options, and the figures that their times are made with.
TOLD_APART = (*VARIED, "figures")
MOST_MOMENTS = 8
TIME = "time"

# The panels of small multiples: what is shown, what it is called, and whether it is by parts of the device.
PANELS: Tuple[Tuple[str, str, bool], ...] = (
    ("write_steps", "persist steps a line written", False),
    ("write_writes", "line writes a line written", True),
    ("write_reads", "line reads a line written", True),
    ("write_tags", "tags a line written", False),
    ("write_digests", "digests a line written", False),
    ("read_reads", "line reads a line read", True),
    ("recovery_tags", "tags of a recovery", False),
    ("recovery_steps", "persist steps of a recovery", False),
    ("chip_bytes", "bytes on the chip", False),
    ("write_ns", "time of a line written", False),
    ("read_ns_mean", "time of a line read", False),
    ("recovery_ns", "time of a recovery", False),
    ("write_nj", "nJ a line written", False),
    ("read_nj", "nJ a line read", False),
    ("recovery_nj", "nJ of a recovery", False),
)


def plain(text: str) -> str:
    """A text in which matplotlib sees no formula."""
    return text.replace("$", r"\$")


def mark_of(design: str) -> Tuple[str, str]:
    """The colour and the mark of a design."""
    return DESIGN_MARKS[family_of(design)]


def shown_rows(value: Dict[str, Any]) -> List[Row]:
    """The rows that are drawn: of several traces their means."""
    rows: List[Row] = value["designs"]
    means = [row for row in rows if str(row["trace"]).startswith("mean of ")]
    return means or rows


def varied(rows: Sequence[Row]) -> List[str]:
    """The numbers that tell the designs of one machine apart."""
    machines = {row["design"] for row in rows}
    return [name for name in TOLD_APART
            if any(len({row.get(name) for row in rows if row["design"] == machine}) > 1 for machine in machines)]


def name_of(row: Row, names: Sequence[str]) -> str:
    """A design by its machine and the numbers that vary."""
    numbers = [f"{label_of(name).split('-')[0] if name != 'loss' else 'loss'} {row[name]}" for name in names
               if row.get(name) is not None and (row["design"] in MACHINE_NAMES or name not in LATER)]
    return ", ".join([row["design"], *numbers])


def title_of(rows: Sequence[Row], title: str) -> str:
    """The title, with the traces."""
    return title or " and ".join(dict.fromkeys(str(row["trace"]).rsplit("/", 1)[-1] for row in rows))


def draw_bars(axes: Any, rows: Sequence[Row], name: str, by_parts: bool) -> None:
    """A bar for each design; of a recovery it is the mean, and a mark at the greatest."""
    places, highest = list(range(len(rows))), 0.0
    if by_parts:
        bottoms = [0.0] * len(rows)
        for word, colour in PART_COLOURS.items():
            heights = [row.get(f"{name}_{word}") or 0.0 for row in rows]
            axes.bar(places, heights, bottom=bottoms, color=colour, width=0.7, linewidth=0)
            bottoms = [bottom + height for bottom, height in zip(bottoms, heights)]
        highest = max(bottoms)
    else:
        mean = name if name in rows[0] else f"{name}_mean"
        heights = [row.get(mean) or 0.0 for row in rows]
        axes.bar(places, heights, color=DARK_GREY, width=0.7, linewidth=0)
        highest = max(heights)
        greatest = [row.get(f"{name}_greatest") for row in rows]
        if name.startswith("recovery_") and any(value is not None for value in greatest):
            axes.plot(places, greatest, linestyle="", marker="_", markersize=9, color=BLACK)
            highest = max(highest, *(value for value in greatest if value is not None))
    limit(axes, highest, "_ns" in name)


def limit(axes: Any, highest: float, is_time: bool = False) -> None:
    """The axis of values from 0 to a little above the highest, its numbers with commas, or times with their units."""
    axes.set_ylim(0, 1.08 * highest or 1)
    axes.yaxis.set_major_formatter(time_mark if is_time else lambda value, _: f"{value:,.10g}")


def time_mark(value: float, _: object) -> str:
    """A mark of an axis of times."""
    return time_text(value) if value > 0 else "0"


def has_values(rows: Sequence[Row], name: str, by_parts: bool) -> bool:
    """Whether there is something to be drawn."""
    names = [f"{name}_{word}" for word in PART_WORDS] if by_parts else [name, f"{name}_mean"]
    return any(row.get(each) for row in rows for each in names)


def multiples(value: Dict[str, Any], title: str, kind: str) -> bytes:
    """A panel for each measure with a bar for each design."""
    pyplot = load_matplotlib()
    from matplotlib.lines import Line2D
    from matplotlib.patches import Patch
    rows = shown_rows(value)
    panels = [panel for panel in PANELS if has_values(rows, panel[0], panel[2])]
    names = [name_of(row, varied(rows)) for row in rows]
    longest, count = max(map(len, names)), -(-len(panels) // 3)
    below = 0.07 * longest + 0.15
    height = count * (1.7 + below) + 0.75 + 0.16 * len(value["heads"])
    figure, grid = pyplot.subplots(count, 3, figsize=(max(9.5, 0.66 * len(rows) + 1.5), height), squeeze=False)
    for axes in grid.flat[len(panels):]:
        axes.set_visible(False)
    for axes, (name, text, by_parts) in zip(grid.flat, panels):
        draw_bars(axes, rows, name, by_parts)
        axes.set_title(text, fontsize=9, loc="left")
        axes.set_xticks(range(len(rows)))
        axes.set_xticklabels(names, fontsize=7.5, rotation=90 if longest > 6 else 0)
        axes.grid(axis="y", color=GREY, linewidth=0.6)
        axes.set_axisbelow(True)
    figure.text(0.02, 1 - 0.1 / height, plain(title_of(rows, title)), ha="left", va="top", fontsize=10.5, fontweight="bold")
    heads = 0.16 * len(value["heads"])
    for place, head in enumerate(value["heads"]):
        figure.text(0.02, 1 - (0.36 + 0.16 * place) / height, head, ha="left", va="top", fontsize=7, color=DARK_GREY)
    figure.tight_layout(rect=(0, 0.3 / height, 1, 1 - (0.4 + heads) / height))
    handles: List[Any] = [Patch(color=colour, label=word) for word, colour in PART_COLOURS.items()]
    handles.append(Line2D([], [], linestyle="", marker="_", color=BLACK, label="the greatest (bars of recoveries are means)"))
    figure.legend(handles=handles, loc="lower center", ncol=6, frameon=False, fontsize=8)
    return picture(pyplot, figure, kind)


def trade_off(value: Dict[str, Any], title: str, kind: str) -> bytes:
    """A point for each design: what a write takes against what a recovery takes, as times if there are some, otherwise as persist steps
    against tags and digests. A line goes through those that no other one is better than in both."""
    pyplot = load_matplotlib()
    from matplotlib.lines import Line2D
    rows = shown_rows(value)
    timed = rows[0].get("write_ns") is not None
    points = sorted((point for row in rows for point in points_of(row, timed)), key=lambda point: point[:2])
    if not points:
        raise ExploreError("no design of this comparison has both a write and a recovery that went through")
    figure, axes = pyplot.subplots(figsize=(6.4, 4.4 + 0.15 * len(value["heads"])))
    best = [point for place, point in enumerate(points) if all(point[1] < other[1] for other in points[:place])]
    axes.plot([point[0] for point in best], [point[1] for point in best], color=GREY, linewidth=1.2, zorder=1)
    names = varied(rows)
    told: List[Tuple[float, float, str]] = []
    for cost, recovery, row in points:
        colour, marker = mark_of(row["design"])
        axes.plot([cost], [recovery], marker=marker, color=colour, linestyle="", zorder=2)
        text = ", ".join(str(row[name]) for name in names if row.get(name) is not None)
        told.append((cost, recovery, "" if is_beside(told, text, cost, recovery, points[-1][0]) else text))
    if names:
        axes.text(0.99, 0.98, f"at each point: {', '.join(map(label_of, names))}", transform=axes.transAxes, ha="right", va="top",
                  fontsize=7.5, color=DARK_GREY)
    axes.set_yscale("log")
    axes.set_xlim(left=0)
    axes.set_xlabel("time of a line written, mean" if timed else "persist steps a line written, mean")
    axes.set_ylabel("time of a recovery, mean" if timed else "tags and digests of a recovery, mean")
    if timed:
        axes.xaxis.set_major_formatter(time_mark)
        axes.yaxis.set_major_formatter(time_mark)
    axes.grid(color=GREY, linewidth=0.5, which="both")
    axes.margins(x=0.15, y=0.12)
    handles = [Line2D([], [], color=mark_of(design)[0], marker=mark_of(design)[1], linestyle="", label=design) for design in
               sorted({row["design"] for row in rows}, key=lambda design: list(DESIGN_MARKS).index(family_of(design)))]
    axes.legend(handles=handles, frameon=False, fontsize=8, loc="lower left")
    add_title(figure, axes, plain(title_of(rows, title)), value["heads"])
    add_labels(axes, told, DARK_GREY)
    return picture(pyplot, figure, kind)


def is_beside(told: Sequence[Tuple[float, float, str]], text: str, cost: float, recovery: float, widest: float) -> bool:
    """Whether a point has the label of one so near that they would lie on each other."""
    return any(other == text and abs(cost - before) < 0.06 * widest and recovery < 1.2 * value and value < 1.2 * recovery
               for before, value, other in told)


def points_of(row: Row, timed: bool) -> List[Tuple[float, float, Row]]:
    """What a write and a recovery of a design take; nothing if there is no write, or no successful recovery."""
    names = ("write_ns", "recovery_ns_mean") if timed else ("write_steps", "recovery_tags_mean", "recovery_digests_mean")
    numbers = [row[name] for name in names]
    return [] if None in numbers else [(float(numbers[0]), float(sum(numbers[1:])), row)]


def add_title(figure: Any, axes: Any, title: str, heads: Sequence[str]) -> None:
    """The title, and under the picture what the times rest on."""
    axes.set_title(title, fontsize=10, loc="left", fontweight="bold")
    height = figure.get_figheight()
    figure.tight_layout(rect=(0, 0.14 * len(heads) / height, 1, 1))
    for place, head in enumerate(reversed(heads)):
        figure.text(0.01, (0.05 + 0.14 * place) / height, head, fontsize=5.5, color=DARK_GREY)


def moments(value: Dict[str, Any], title: str, kind: str) -> bytes:
    """What recovery takes against the moment of the cut: a column of panels for each design."""
    rows = [row for row in value["designs"] if not str(row["trace"]).startswith("mean of ")]
    if len(rows) > MOST_MOMENTS:
        raise ExploreError(f"the moments of {len(rows)} designs and traces have no room in a picture: at most {MOST_MOMENTS}", WRONG_WORDS)
    several = len({row["trace"] for row in rows}) > 1
    names = [name_of(row, varied(rows)) + (f"\n{str(row['trace']).rsplit('/', 1)[-1]}" if several else "") for row in rows]
    places = {name: RECOVERY.index(name) + 1 for name in RECOVERY}
    panels = [("tags", places["tags"]), ("digests", places["digests"]), ("persist steps", places["steps"]),
              ("line reads", places["line_reads"])]
    if value["heads"]:
        panels.append((TIME, len(RECOVERY) + 1))
    columns = [[[point[0] for point in points]] + [[point[place] for point in points] for _, place in panels]
               for points in value["recoveries"]]
    return moment_panels(list(zip(names, columns)), [name for name, _ in panels], title_of(rows, title), value["heads"], kind)


def cut_moments(records: Sequence[Dict[str, Any]], title: str, kind: str) -> bytes:
    """The same of the rows that `explore cuts --json` wrote."""
    names = [name for name in ("trials", "digests", "redone", "steps") if any(record.get(name) is not None for record in records)]
    done = [record for record in records if names and record.get(names[0]) is not None and "recovery_cut_after" not in record]
    if not done:
        raise ExploreError("none of these cuts has a recovery that went through")
    column = [[record["steps_before"] for record in done]] + [[record[name] for record in done] for name in names]
    return moment_panels([("", column)], ["persist steps" if name == "steps" else name for name in names], title, [], kind)


def moment_panels(columns: Sequence[Tuple[str, Sequence[Sequence[float]]]], names: Sequence[str], title: str, heads: Sequence[str],
                  kind: str) -> bytes:
    """A column of panels for each design: its name, the steps before each cut, and then the values of each panel."""
    pyplot = load_matplotlib()
    width, height = max(6.4, 2.4 * len(columns) + 0.6), 1.35 * len(names) + 0.9 + 0.16 * len(heads)
    figure, grid = pyplot.subplots(len(names), len(columns), figsize=(width, height), squeeze=False, sharex="col", sharey="row")
    for column, (name, (steps, *values)) in enumerate(columns):
        for place, some in enumerate(values):
            axes = grid[place][column]
            axes.plot(steps, some, linestyle="", marker=".", markersize=3, color=BLUE)
            axes.grid(axis="y", color=GREY, linewidth=0.6)
        grid[0][column].set_title(name, fontsize=9, loc="left")
        grid[-1][column].set_xlabel("persist steps before the cut", fontsize=8)
    for place, text in enumerate(names):
        grid[place][0].set_ylabel(text, fontsize=8)
        limit(grid[place][0], max(value for _, (_, *values) in columns for value in values[place]), text == TIME)
    figure.text(0.02, 1 - 0.08 / height, plain(title), ha="left", va="top", fontsize=10.5, fontweight="bold")
    for place, head in enumerate(heads):
        figure.text(0.02, 1 - (0.34 + 0.16 * place) / height, head, ha="left", va="top", fontsize=7, color=DARK_GREY)
    figure.tight_layout(rect=(0, 0, 1, 1 - (0.35 + 0.16 * len(heads)) / height))
    return picture(pyplot, figure, kind)


def worn(value: Dict[str, Any], title: str, kind: str) -> bytes:
    """How many lines of each part have how many writes: a panel for each design."""
    pyplot = load_matplotlib()
    from matplotlib.patches import Patch
    designs: Dict[Tuple[Any, ...], List[Row]] = {}
    for row in value["parts"]:
        designs.setdefault((row["trace"], row["design"], *(row.get(name) for name in VARIED)), []).append(row)
    firsts = [rows[0] for rows in designs.values()]
    several = len({row["trace"] for row in firsts}) > 1
    bins = max((list(row["histogram"]) for row in value["parts"]), key=len)
    columns = min(2, len(designs))
    lines = -(-len(designs) // columns)
    height = 2.5 * lines + 0.9
    figure, grid = pyplot.subplots(lines, columns, figsize=(max(6.4, 5.2 * columns), height), squeeze=False, sharey=True)
    for axes in grid.flat[len(designs):]:
        axes.set_visible(False)
    for axes, (key, rows) in zip(grid.flat, designs.items()):
        for place, row in enumerate(rows):
            offset = 0.16 * (place - (len(rows) - 1) / 2)
            axes.bar([number + offset for number in range(len(bins) - 1)], [row["histogram"].get(name, 0) for name in bins[1:]], width=0.16,
                     color=PART_COLOURS[row["part"]], linewidth=0)
        hottest = max(rows, key=lambda row: int(row["greatest"]))
        axes.set_title(name_of(rows[0], varied(firsts)) + (f", {key[0]}" if several else "")
                       + f": most {hottest['greatest']:,}, {hottest['hottest']}", fontsize=8, loc="left")
        axes.set_yscale("symlog", linthresh=1)
        axes.set_ylim(bottom=0)
        axes.set_xticks(range(len(bins) - 1))
        axes.set_xticklabels(bins[1:], fontsize=6.5, rotation=45, ha="right")
        axes.grid(axis="y", color=GREY, linewidth=0.6)
        axes.set_axisbelow(True)
    for axes in grid[:, 0]:
        axes.set_ylabel("lines", fontsize=8)
    for axes in grid[-1]:
        axes.set_xlabel("writes of a line", fontsize=8)
    figure.text(0.02, 1 - 0.08 / height, plain(title_of(firsts, title)), ha="left", va="top", fontsize=10.5, fontweight="bold")
    figure.tight_layout(rect=(0, 0.3 / height, 1, 1 - 0.35 / height))
    figure.legend(handles=[Patch(color=colour, label=word) for word, colour in PART_COLOURS.items()], loc="lower center", ncol=5,
                  frameon=False, fontsize=8)
    return picture(pyplot, figure, kind)


def picture_of(value: Any, title: str, kind: str, is_trade_off: bool, is_moments: bool) -> Optional[bytes]:
    """The picture of what one of these commands wrote; None of any other value."""
    if isinstance(value, list) and value and all(isinstance(each, dict) and "steps_before" in each for each in value):
        try:
            return cut_moments(value, title, kind)
        except (KeyError, TypeError, IndexError, AttributeError, ValueError) as error:
            raise ExploreError(f"this is not what explore cuts --json wrote: {error!r}") from error
    if not isinstance(value, dict):
        return None
    try:
        if "compare" in value:
            return (trade_off if is_trade_off else moments if is_moments else multiples)(value, title, kind)
        if "endurance" in value:
            return worn(value, title, kind)
    except (KeyError, TypeError, IndexError, AttributeError, ValueError) as error:
        raise ExploreError(f"this is not what explore {'compare' if 'compare' in value else 'endurance'} --json wrote: {error!r}") from error
    return None

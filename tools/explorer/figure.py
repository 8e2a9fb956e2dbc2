"""The pictures of `explore figure`: curves that papers on secure memories show, in the width of a paper's column."""
from typing import Any, Callable, Dict, List, Sequence, Tuple

from .charts import DESIGN_MARKS, PART_COLOURS, mark_of
from .curves import ATTACK, MOVES, POLICY_DESIGNS, Choice, Row, is_mean, means
from .draw import BLACK, BLUE, DARK_GREY, GREEN, GREY, ORANGE, PURPLE, SKY, load_matplotlib, picture
from .units import bytes_text, time_text

# The widths of one column and of two of a page of IEEE and ACM, in inches.
WIDTHS = {1: 3.5, 2: 7.16}
SHAPE = 0.7
SMALL, SMALLEST = 7, 6
FEW_DECADES = 200
BOUND_TEXTS = {"run": "run, at most (dashes: a formula)", "tree": "tree, at most (the same)", "osiris": "osiris, at most (the same)"}
BOUND_MARKS = {**DESIGN_MARKS, "osiris": (BLACK, "^")}
TABLE_TEXTS = {"on": "shadow tables", "off": "no shadow tables"}
TABLE_MARKS = {"on": (BLUE, "o"), "off": (BLACK, "^")}
LOSS_STYLES = {1: ":", 4: "-", 16: "--"}
MOVE_COLOURS: Dict[Any, str] = {None: DARK_GREY, 100: SKY, 16: ORANGE, 4: PURPLE}
WORN_MARKS: Dict[str, Tuple[str, str, str]] = {
    "data": (BLUE, "o", "data line"), "record": (ORANGE, "s", "record of start and gap"), "tags": (SKY, "v", "tag line"),
    "counters": (GREEN, "^", "counter block")}


def log_axis(axes: Any, label: str, text: Callable[[float], str]) -> None:
    """A logarithmic axis upwards; one of few decades has marks between them."""
    from matplotlib.ticker import LogLocator, NullFormatter
    axes.set_yscale("log")
    low, high = axes.get_ylim()
    axes.yaxis.set_major_locator(LogLocator(base=10, subs=(1, 2, 5) if high / low < FEW_DECADES else (1,)))
    axes.yaxis.set_minor_formatter(NullFormatter())
    axes.yaxis.set_major_formatter(lambda value, _: text(value))
    axes.set_ylabel(label, fontsize=SMALL)


def time_axis(axes: Any, label: str) -> None:
    """Such an axis of times, whose marks have their units."""
    log_axis(axes, label, time_text)


def count_axis(axes: Any, label: str) -> None:
    """An axis upwards from 0."""
    axes.set_ylim(0, 1.06 * axes.get_ylim()[1])
    axes.set_ylabel(label, fontsize=SMALL)


def doubling_axis(axes: Any, label: str, values: Sequence[float], text: Callable[[float], str]) -> None:
    """An axis to the right along which these values double."""
    axes.set_xscale("log", base=2)
    axes.set_xticks(list(values), [text(value) for value in values])
    axes.minorticks_off()
    axes.set_xlabel(label, fontsize=SMALL)


def finish(figure: Any, every: Sequence[Any], choice: Choice, columns: int, has_times: bool = True) -> None:
    """What all pictures have: small marks, a light grid, one legend below, and on what the times rest if there are some."""
    handles: Dict[str, Any] = {}
    for axes in every:
        axes.tick_params(labelsize=SMALLEST)
        axes.grid(axis="y", color=GREY, linewidth=0.5)
        axes.set_axisbelow(True)
        handles.update((text, handle) for handle, text in zip(*axes.get_legend_handles_labels()))
    rows = -(-len(handles) // columns)
    height = figure.get_figheight()
    below = (0.14 * rows + 0.22) / height
    figure.tight_layout(pad=0.3, rect=(0, below, 1, 1))
    figure.legend(handles.values(), handles, loc="lower center", ncol=columns, fontsize=SMALLEST, frameon=False, borderaxespad=0.1,
                  bbox_to_anchor=(0.5, 0.15 / height))
    if not has_times:
        return
    rests = "; ".join(head.split(": ", 1)[1] for head in choice.costs.heads()[:2])
    figure.text(0.5, 0.03 / height, rests, fontsize=4.5, color=DARK_GREY, ha="center")


def recovery_memory(pyplot: Any, rows: Sequence[Row], choice: Choice, width: float) -> Any:
    """Bounds: lines if contracts state them, dashes if a formula goes on. Measured means: marks that aren't filled."""
    figure, axes = pyplot.subplots(figsize=(width, (SHAPE + 0.08) * width))
    for design in dict.fromkeys(row["design"] for row in rows):
        colour, mark = BOUND_MARKS[design]
        own = [row for row in rows if row["design"] == design]
        bound = [row for row in own if row["stated_by"] != "measured"]
        proved = [row for row in own if row["stated_by"] == "contract"]
        found = means([row for row in own if row["stated_by"] == "measured"])
        for some, style, text in ((bound, "--", "" if proved else BOUND_TEXTS[design]), (proved, "-", BOUND_TEXTS[design])):
            axes.plot(*places(some, "memory_bytes", "recovery_ns"), style, color=colour, linewidth=1, label=text or None)
        if found:
            axes.plot(*places(found, "memory_bytes", "recovery_ns"), mark, color=colour, markersize=4, markerfacecolor="white",
                      label=f"{design}, measured mean")
    doubling_axis(axes, "memory (bytes)", [1 << power for power in range(16, 41, 4)], bytes_text)
    time_axis(axes, "recovery")
    finish(figure, [axes], choice, 2)
    return figure


def places(rows: Sequence[Row], along: str, up: str) -> Tuple[List[float], List[float]]:
    """Two numbers of rows, as lists."""
    return [row[along] for row in rows], [row[up] for row in rows]


def two_panels(pyplot: Any, rows: Sequence[Row], choice: Choice, width: float, along: str, label: str, text: Callable[[float], str]) -> Any:
    """Recovery over persist steps of a line written, against a number."""
    figure, (upper, lower) = pyplot.subplots(2, 1, figsize=(width, 1.15 * width if width < 5 else 0.6 * width), sharex=True)
    for design in dict.fromkeys(row["design"] for row in rows):
        colour, mark = DESIGN_MARKS[design]
        own = [row for row in means(rows) if row["design"] == design]
        for axes, name in ((upper, "recovery_ns_mean"), (lower, "write_steps")):
            axes.plot(*places(own, along, name), marker=mark, color=colour, markersize=3.5, linewidth=1, label=design)
    shown = max((sorted({row[along] for row in rows if row["design"] == design}) for design in dict.fromkeys(row["design"] for row in rows)), key=len)
    doubling_axis(lower, label, shown, text)
    time_axis(upper, "recovery, mean")
    count_axis(lower, "persist steps, a line written")
    finish(figure, [upper, lower], choice, 2)
    return figure


def recovery_cache(pyplot: Any, rows: Sequence[Row], choice: Choice, width: float) -> Any:
    """Against the bytes of the metadata cache."""
    return two_panels(pyplot, rows, choice, width, "chip_cache", "metadata cache (bytes)", bytes_text)


def stop_loss(pyplot: Any, rows: Sequence[Row], choice: Choice, width: float) -> Any:
    """Against the stop-loss number."""
    return two_panels(pyplot, rows, choice, width, "loss", "stop-loss number", "{:.0f}".format)


def policy_panels(pyplot: Any, curves: Dict[str, Tuple[List[Row], str, str]], along: str, width: float) -> Tuple[Any, Any, Any]:
    """Operations of a recovery over persist steps of a line written. A curve is rows, a colour and a mark, by its name."""
    figure, (upper, lower) = pyplot.subplots(2, 1, figsize=(width, 1.15 * width if width < 5 else 0.6 * width), sharex=True)
    for text, (rows, colour, mark) in curves.items():
        for axes, name in ((upper, "recovery_operations_mean"), (lower, "write_steps")):
            axes.plot(*places(rows, along, name), marker=mark, color=colour, markersize=3.5, linewidth=1, label=text)
    log_axis(upper, "operations, a recovery", "{:,.0f}".format)
    count_axis(lower, "persist steps, a line written")
    return figure, upper, lower


def persist(pyplot: Any, rows: Sequence[Row], choice: Choice, width: float) -> Any:
    """Against the lines of a path that are persisted with each write, with and without tables."""
    drawn = {TABLE_TEXTS[shadow]: ([row for row in means(rows) if row["shadow"] == shadow], *TABLE_MARKS[shadow]) for shadow in TABLE_TEXTS}
    figure, upper, lower = policy_panels(pyplot, drawn, "persist", width)
    every = sorted({row["persist"] for row in rows})
    lower.set_xticks(every, [f"{number}" for number in every])
    lower.set_xlabel("levels persisted with each write", fontsize=SMALL)
    finish(figure, [upper, lower], choice, 2, False)
    return figure


def designs(pyplot: Any, rows: Sequence[Row], choice: Choice, width: float) -> Any:
    """The classical designs, against the size of memory."""
    drawn = {design: ([row for row in means(rows) if row["design"] == design], *style_of(design))
             for design in POLICY_DESIGNS}
    figure, upper, lower = policy_panels(pyplot, drawn, "memory_bytes", width)
    doubling_axis(lower, "memory (bytes)", sorted({row["memory_bytes"] for row in rows}), bytes_text)
    finish(figure, [upper, lower], choice, 3, False)
    return figure


def style_of(design: str) -> Tuple[str, str]:
    """The colour and the mark of a design; those of one family differ by their marks."""
    colour, mark = mark_of(design)
    return colour, {"triad-1": "<", "triad-2": ">"}.get(design, mark)


def trade_off(pyplot: Any, rows: Sequence[Row], choice: Choice, width: float) -> Any:
    """A curve for each design along its sets."""
    figure, axes = pyplot.subplots(figsize=(width, (SHAPE + 0.2) * width))
    drawn = means(rows)
    for design, loss in dict.fromkeys((row["design"], row["loss"]) for row in drawn):
        own = [row for row in drawn if (row["design"], row["loss"]) == (design, loss)]
        colour, mark = style_of(design)
        is_run = design == "run"
        axes.plot(*places(own, "write_ns", "recovery_ns_mean"), marker=mark, markersize=3.5, linewidth=1, color=colour,
                  linestyle=LOSS_STYLES.get(loss, "-") if is_run else "-", label=f"{design}, stop-loss {loss}" if is_run else design)
        if len(own) > 1 and design in ("run", "tree") and loss in (None, choice.base.loss):
            axes.annotate("1 set", (own[0]["write_ns"], own[0]["recovery_ns_mean"]), fontsize=SMALLEST - 1, color=DARK_GREY, ha="right",
                          textcoords="offset points", xytext=(-4, -5))
    axes.set_xlim(0, 1.1 * max(row["write_ns"] for row in drawn))
    axes.xaxis.set_major_formatter(lambda value, _: time_text(value) if value > 0 else "0")
    axes.set_xlabel("a line written, mean; along a curve 1, 4, 16, 64 sets", fontsize=SMALL)
    time_axis(axes, "recovery, mean")
    finish(figure, [axes], choice, 3)
    return figure


def wear(pyplot: Any, rows: Sequence[Row], choice: Choice, width: float) -> Any:
    """The most written line of each part against how often the gap moves, dashes without start-gap; below the most written place of data by
    workload."""
    figure, (upper, lower) = pyplot.subplots(2, 1, figsize=(width, 1.45 * width if width < 5 else 0.8 * width))
    attack = [row for row in rows if row["trace"] == ATTACK]
    for part, (colour, mark, text) in WORN_MARKS.items():
        own = [row for row in attack if row["part"] == part and row["every"] is not None]
        upper.plot(*places(own, "every", "line_writes"), marker=mark, color=colour, markersize=3.5, linewidth=1, label=text)
        for row in attack:
            if row["part"] == part and row["every"] is None:
                upper.axhline(row["line_writes"], color=colour, linewidth=0.8, linestyle=(0, (4, 3)))
    upper.plot([], [], color=DARK_GREY, linewidth=0.8, linestyle=(0, (4, 3)), label="without start-gap")
    doubling_axis(upper, "an attack on one line: writes between moves of the gap", MOVES, "{:.0f}".format)
    log_axis(upper, f"most writes of a line, of {attack[0]['writes']:,}", "{:,.0f}".format)
    worn_by_workload(lower, [row for row in rows if row["trace"] != ATTACK and row["part"] == "data"])
    finish(figure, [upper, lower], choice, 2)
    return figure


def worn_by_workload(axes: Any, rows: Sequence[Row]) -> None:
    """Bars for each workload: the most written place of data, without start-gap and with it, in hundredths of all lines written."""
    names = list(dict.fromkeys(row["trace"] for row in rows))
    moves = sorted({row["every"] for row in rows}, key=lambda every: -(every or 1_000_000))
    for number, every in enumerate(moves):
        own = {row["trace"]: row for row in rows if row["every"] == every}
        axes.bar([place + 0.2 * number for place in range(len(names))], [100 * own[name]["line_writes"] / own[name]["writes"] for name in names],
                 0.18, color=MOVE_COLOURS.get(every, BLACK), label=f"a move each {every} writes" if every else "bars: no move")
    count_axis(axes, "most writes of a data line,\n% of all lines written")
    axes.set_xticks([place + 0.1 * (len(moves) - 1) for place in range(len(names))], names, rotation=30, ha="right")


def trees(pyplot: Any, rows: Sequence[Row], choice: Choice, width: float) -> Any:
    """Bars for each workload, of the hash tree at the left and of the counter tree at the right."""
    names = list(dict.fromkeys(row["trace"] for row in rows))
    figure, every = pyplot.subplots(3, 1, figsize=(width, 1.5 * width if width < 5 else 0.8 * width), sharex=True)
    for number, design in enumerate(("run", "tree")):
        own = [next(row for row in rows if row["trace"] == name and row["design"] == design) for name in names]
        at = [place + 0.4 * number for place in range(len(names))]
        bottoms = [0.0] * len(names)
        for word, colour in PART_COLOURS.items():
            heights = [row[f"write_writes_{word}"] or 0.0 for row in own]
            every[0].bar(at, heights, 0.36, bottom=bottoms, color=colour, label=f"writes: {word}")
            bottoms = [bottom + height for bottom, height in zip(bottoms, heights)]
        for axes, name in ((every[1], "write_digests"), (every[2], "recovery_ns_mean")):
            axes.bar(at, [row[name] or 0.0 for row in own], 0.36, color=DESIGN_MARKS[design][0] if number else DARK_GREY,
                     label={"run": "left: run, a hash tree", "tree": "right: tree, of counters"}[design])
    for axes, text in zip(every, ("line writes,\na line written", "digests,\na line written")):
        count_axis(axes, text)
    time_axis(every[2], "recovery, mean")
    every[2].set_xticks([place + 0.2 for place in range(len(names))], ["mean" if is_mean({"trace": name}) else name for name in names],
                        rotation=30, ha="right")
    finish(figure, every, choice, 3)
    return figure


DRAWN: Dict[str, Callable[[Any, Sequence[Row], Choice, float], Any]] = {
    "recovery-memory": recovery_memory, "recovery-cache": recovery_cache, "stop-loss": stop_loss, "trade-off": trade_off, "wear": wear,
    "trees": trees, "persist": persist, "designs": designs}


def drawn(name: str, rows: Sequence[Row], choice: Choice, width: float, kind: str) -> bytes:
    """The picture of a figure's rows."""
    pyplot = load_matplotlib()
    return picture(pyplot, DRAWN[name](pyplot, rows, choice, width), kind)

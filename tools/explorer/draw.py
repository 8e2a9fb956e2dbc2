"""Pictures of a trace's persist steps, and of a sweep's curves. Only this needs matplotlib."""
import io
import itertools
import sys
from dataclasses import dataclass
from typing import Any, Dict, List, Optional, Sequence, Tuple

from .errors import WRONG_WORDS, ExploreError
from .labels import add_labels
from .layout import CHIP, SHADOWS, AnyLayout, Place, layout_of
from .package import COUNTERS, DATA, NODES, TAGS
from .program import first_word
from .settings import DEFAULTS, LATER, Settings
from .sweep import NUMBERS, VARIED
from .trace import TAMPERING_WORDS, number_of
from .traced import ARMS, EMPTIES, LATCH, SETS, Step, Traced

# Colours that differ without red and green (Okabe and Ito).
BLUE, SKY, GREEN, ORANGE, VERMILION, PURPLE, BLACK = (
    "#0072B2", "#56B4E9", "#009E73", "#E69F00", "#D55E00", "#CC79A7", "#000000")
GREY, DARK_GREY, PALE, YELLOW = "#DDDDDD", "#666666", "#F6F6F6", "#FFF3B0"

MARKS: Dict[str, Tuple[str, str, str]] = {
    DATA: ("o", BLUE, "data line written"),
    TAGS: ("s", SKY, "tag line written"),
    COUNTERS: ("^", ORANGE, "counter block written"),
    NODES: ("v", GREEN, "tree node written"),
    SHADOWS: ("P", PURPLE, "shadow line written"),
}

# Latches by what they do: the mark, the colour of its inside, and what the legend says.
LATCHES: Dict[str, Tuple[str, str, str]] = {
    ARMS: ("D", BLACK, "latch that arms the group"),
    EMPTIES: ("D", "white", "latch that empties the group"),
    SETS: ("p", BLACK, "latch of the stop-loss number"),
}

MOST_ROWS = 8
MOST_LINES = 80
WIDE, DENSE = (1.0, 0.5), (0.3, 0.25)
UNIT = 0.15
NARROWEST, WIDEST = 8.5, 16.0
BETWEEN_LABELS = 0.12
LEFT, RIGHT, BOTTOM = 1.95, 0.15, 0.95
# The kinds of pictures, each with its metadata: nothing that would differ in another run.
KINDS: Dict[str, Dict[str, Any]] = {"svg": {"Date": None}, "png": {"Software": None},
                                    "pdf": {"Creator": None, "Producer": None, "CreationDate": None}}

PANELS: Tuple[Tuple[str, str], ...] = (
    ("steps_per_write", "persist steps a write"),
    ("write_amplification", "device lines written a write"),
    ("metadata_reads_per_write", "metadata reads a write"),
    ("digests_per_write", "digests a write"),
    ("metadata_reads_per_read", "metadata reads a read"),
    ("digests_per_read", "digests a read"),
    ("recovery_trials", "trials of a recovery"),
    ("recovery_digests", "digests of a recovery"),
    ("recovery_steps", "persist steps of a recovery"),
)
CURVES: Tuple[Tuple[str, str], ...] = (
    (BLUE, "o"), (ORANGE, "s"), (GREEN, "^"), (VERMILION, "D"), (SKY, "v"), (PURPLE, "P"), (BLACK, "X"),
    (DARK_GREY, "*"))
FEW_CURVES = 8
LINE_STYLES = ("-", "--", ":", "-.")
# How many options colours, marks and dashes tell apart.
MOST_VARIED = 3
RECOVERY = "recovery_trials"


def picture_kind(name: str) -> str:
    """The kind of picture that a name's ending says."""
    kind = name.rsplit(".", 1)[-1].lower() if "." in name else ""
    if kind not in KINDS:
        raise ExploreError(f"a picture's name ends in .svg, .png or .pdf, not as {name!r}", WRONG_WORDS)
    return kind


def load_matplotlib() -> Any:
    """The part of matplotlib that draws into files."""
    try:
        import matplotlib
        matplotlib.use("Agg")
        from matplotlib import pyplot
    except ImportError as error:
        raise ExploreError(f"pictures need the package matplotlib, which {sys.executable} lacks (Debian's own python3: "
                           f"apt-get install python3-matplotlib; elsewhere: {sys.executable} -m pip install matplotlib): "
                           f"{error}") from error
    # Type 42 is TrueType, which IEEE and ACM take; they refuse matplotlib's default, Type 3.
    matplotlib.rcParams.update({"svg.hashsalt": "pmem", "pdf.fonttype": 42, "ps.fonttype": 42, "font.size": 9, "font.family": "DejaVu Sans",
                                "axes.spines.top": False, "axes.spines.right": False})
    return pyplot


def picture(pyplot: Any, figure: Any, kind: str) -> bytes:
    """The bytes of a figure. The same figure has the same bytes each time."""
    out = io.BytesIO()
    figure.savefig(out, format=kind, dpi=110, metadata=KINDS[kind])
    pyplot.close(figure)
    return out.getvalue()


@dataclass(frozen=True)
class Span:
    """A command with its place along the picture."""

    traced: Traced
    start: float
    width: float

    @property
    def end(self) -> float:
        """Where it ends."""
        return self.start + self.width

    @property
    def middle(self) -> float:
        """Its middle."""
        return self.start + self.width / 2

    def step_at(self, number: int) -> float:
        """The place of its step number `number`, counted from 0."""
        return self.start + number + 0.5


def spans_of(traced: Sequence[Traced]) -> List[Span]:
    """The commands one after the other: one unit a step, some for a command without steps."""
    spans = placed_spans(traced, *WIDE)
    if spans and LEFT + RIGHT + UNIT * spans[-1].end > WIDEST:
        spans = placed_spans(traced, *DENSE)
    return spans


def placed_spans(traced: Sequence[Traced], idle: float, gap: float) -> List[Span]:
    """The same with these widths of a command without steps and of the gaps between."""
    spans, position = [], 0.0
    for entry in traced:
        width = max(float(len(entry.steps)), idle)
        spans.append(Span(entry, position, width))
        position += width + gap
    return spans


def is_tampering(entry: Traced) -> bool:
    """Whether a command changes a device line behind the controller's back."""
    return entry.command.word in TAMPERING_WORDS and entry.reply.answer == "ok"


def tampered_place(entry: Traced, layout: AnyLayout) -> Optional[Place]:
    """The device line that a tamper command changes."""
    words = entry.command.words
    if not is_tampering(entry):
        return None
    number = number_of(words[2] if words[0] == "move" else words[1])
    return None if number is None else layout.place(number)


def short_place(place: Place) -> str:
    """A device line's label within its lane."""
    words = place.name.split(" ")
    if place.part == TAGS:
        return f"of {words[-3]}-{words[-1]}" if "to" in words else f"of {words[-1]}"
    if place.part == COUNTERS:
        return f"page {words[-1]}"
    if place.part == SHADOWS:
        return f"slot {words[-1]}" if words[0] == "slot" else f"{'counters' if words[-2] == 'counter' else 'nodes'} {words[1]}"
    return place.name if words[0] == "body" else words[-1]


class Lanes:
    """The lanes from the top down, and in each of them a row for each device line that the trace changes."""

    def __init__(self) -> None:
        self.rows: Dict[int, float] = {}
        self.lines: List[float] = []
        self.labels: List[Tuple[float, str]] = []
        self.bounds: List[Tuple[str, float, float]] = []
        self.bottom = 0.0
        self.chip = 0.0

    def add_device(self, parts: Sequence[str], places: Sequence[Place]) -> None:
        """The lanes of the chip and of the parts of the device."""
        self.chip = self.add_lane(CHIP, [])
        for part in parts:
            self.add_lane(part, sorted({place.line: place for place in places if place.part == part}.values(),
                                       key=lambda place: place.line))

    def add_lane(self, part: str, places: Sequence[Place]) -> float:
        """Adds a lane below the others, and answers the height of its first row."""
        count = max(1, len(places))
        pitch = min(1.0, MOST_ROWS / count)
        top = self.bottom
        every = -(-count // MOST_ROWS)
        for number, place in enumerate(places):
            height = top - 0.7 - number * pitch
            self.rows[place.line] = height
            if count <= MOST_LINES:
                self.lines.append(height)
            if number % every == 0:
                self.labels.append((height, short_place(place)))
        self.bottom = top - 0.4 - count * pitch
        self.bounds.append((part, top, self.bottom))
        return top - 0.7

    def height_of(self, step: Step) -> float:
        """The row of a step."""
        return self.chip if step.place is None else self.rows[step.place.line]


def verdict(entry: Traced) -> Tuple[str, str]:
    """A command's verdict in a word or two, and its colour. Nothing if all is well."""
    answer = entry.reply.answer
    words = answer.split(" ")
    if entry.reply.is_exhibit:
        return f"exhibit: {words[0]}", VERMILION
    if words[0] == "cut":
        word = words[1] if len(words) > 2 else "cut"
        return ("kept", BLUE) if word == "kept" else (word, VERMILION)
    if "refused" in words:
        place = words[words.index("refused") + 1:]
        return "refused " + (place[0] if place[0] in ("root", "shadow") else " ".join(place[:2])), VERMILION
    if words[0] == "spent" or words[0] in ("full", "range", "none"):
        return words[0], VERMILION
    if words[0] in ("off", "empty", "idle", "clean", "already"):
        return words[0] if words[0] != entry.command.word else "", DARK_GREY
    return "", BLACK


def is_notable(entry: Traced) -> bool:
    """Whether a command is named also in a long picture."""
    return (entry.command.word in (*TAMPERING_WORDS, "on", "off") or entry.reply.is_cut
            or verdict(entry)[1] == VERMILION)


def draw_lanes(axes: Any, lanes: Lanes, end: float, name_offset: float) -> None:
    """The lanes with their names, so far to the left, and their rows' labels."""
    for number, (part, top, bottom) in enumerate(lanes.bounds):
        axes.axhspan(bottom, top, color=PALE if number % 2 == 0 else "white", zorder=0, linewidth=0)
        axes.text(-name_offset, (top + bottom) / 2, part, transform=axes.get_yaxis_transform(),
                  ha="left", va="center", fontsize=9, fontweight="bold")
    for height in lanes.lines:
        axes.plot([0, end], [height, height], color=GREY, linewidth=0.5, zorder=1)
    axes.set_yticks([height for height, _ in lanes.labels])
    axes.set_yticklabels([label for _, label in lanes.labels], fontsize=7.5)
    axes.tick_params(axis="y", length=0)


def draw_power(axes: Any, spans: Sequence[Span], top: float, bottom: float) -> List[str]:
    """The times without power, the recoveries, and the cuts; answers which of them there are."""
    drawn = []
    off_since: Optional[float] = None
    for span in spans:
        word, reply = span.traced.command.word, span.traced.reply
        if word == "on" and reply.answer != "already":
            if off_since is not None:
                axes.axvspan(off_since, span.start, color=GREY, zorder=0.5, linewidth=0)
                drawn.append("off")
            axes.axvspan(span.start, span.end, color=YELLOW, zorder=0.6, linewidth=0)
            drawn.append("recovery")
            off_since = None if first_word(reply.answer) == "on" else span.end
        elif word == "off" and reply.answer == "ok":
            off_since = span.middle
        if reply.is_cut:
            axes.plot([span.end, span.end], [bottom, top], color=VERMILION, linestyle="--", linewidth=1.4, zorder=2)
            drawn.append("cut")
            off_since = span.end
    if off_since is not None and spans:
        axes.axvspan(off_since, spans[-1].end, color=GREY, zorder=0.5, linewidth=0)
        drawn.append("off")
    return drawn


def draw_marks(axes: Any, spans: Sequence[Span], lanes: Lanes, size: float) -> List[str]:
    """A mark for each persist step; answers the parts and the latches that have one, and `again` for bytes written again."""
    drawn = []
    for does, (marker, inside, _) in LATCHES.items():
        points = [(span.step_at(number), lanes.chip) for span in spans for number, step in enumerate(span.traced.steps)
                  if step.kind == LATCH and step.does == does]
        if points:
            edge, width = (BLACK, 1.2) if inside == "white" else ("white", 0.4)
            axes.scatter(*zip(*points), marker=marker, s=size, facecolor=inside, edgecolor=edge, linewidth=width, zorder=3)
            drawn.append(f"latch {does}")
    for part, (marker, colour, _) in MARKS.items():
        for again in (False, True):
            points = [(span.step_at(number), lanes.height_of(step)) for span in spans
                      for number, step in enumerate(span.traced.steps)
                      if step.place is not None and step.part == part and bool(step.again) == again]
            if points:
                axes.scatter(*zip(*points), marker=marker, s=size, facecolor="white" if again else colour,
                             edgecolor=colour if again else "white", linewidth=1.2 if again else 0.4, zorder=3)
                drawn.append("again" if again else part)
    return drawn


def draw_tampering(axes: Any, spans: Sequence[Span], lanes: Lanes, layout: AnyLayout, size: float) -> bool:
    """A cross at each change of a device line by the attacker."""
    points = []
    for span in spans:
        place = tampered_place(span.traced, layout)
        if place is not None:
            points.append((span.middle, lanes.rows[place.line]))
    if points:
        axes.scatter(*zip(*points), marker="x", s=size * 1.6, color=VERMILION, linewidth=2, zorder=4)
    return bool(points)


def labels_of(spans: Sequence[Span], unit: float) -> List[Tuple[Span, str, str]]:
    """The commands that are named over the lanes, with their verdicts and colours: those that matter most first,
    and of the others those for which there is room. `unit` is the width of a step."""
    named: List[Tuple[Span, str, str]] = []
    taken: Dict[int, float] = {}
    for span in sorted(spans, key=lambda span: (not is_notable(span.traced), not span.traced.steps)):
        at = span.middle * unit
        slot = int(at / BETWEEN_LABELS)
        if all(abs(at - taken[near]) >= BETWEEN_LABELS for near in (slot - 1, slot, slot + 1) if near in taken):
            taken[slot] = at
            word, colour = verdict(span.traced)
            named.append((span, command_label(span.traced) + (f": {word}" if word else ""), colour))
    return named


def draw_commands(axes: Any, spans: Sequence[Span], labels: Sequence[Tuple[Span, str, str]], top: float) -> None:
    """The commands and their verdicts over the lanes."""
    for span, text, colour in labels:
        axes.text(span.middle, top + 0.25, text, rotation=90, ha="center", va="bottom", fontsize=7.5, color=colour,
                  fontweight="bold" if colour in (VERMILION, BLUE) else "normal", clip_on=False)
    for span in spans:
        if span.traced.steps:
            axes.plot([span.start + 0.1, span.end - 0.1], [top + 0.1, top + 0.1], color=BLACK, linewidth=1.2,
                      clip_on=False, zorder=3)


def command_label(entry: Traced) -> str:
    """A command without its bytes."""
    words = entry.command.words
    if words[0] in ("post", "part"):
        return " ".join(words[:3])
    return " ".join(words[:2] if words[0] in ("poke", "write", "put") else words)


def stride_for(count: int, most: int) -> int:
    """How many steps there are to a number along the bottom: the least round one by which these are not too many."""
    stride, more = 1, (2, 2.5, 2)
    for number in itertools.count():
        if count <= most * stride:
            break
        stride = int(stride * more[number % 3])
    return stride


def draw_axis(axes: Any, spans: Sequence[Span], width: float) -> None:
    """The numbers of the steps along the bottom."""
    places = [(step.number, span.step_at(number)) for span in spans for number, step in enumerate(span.traced.steps)]
    most = max(4, int(width * 2.5))
    stride = stride_for(len(places), most)
    ticks = [(number, place) for number, place in places if stride == 1 or number % stride == 0]
    axes.set_xticks([place for _, place in ticks])
    axes.set_xticklabels([str(number) for number, _ in ticks], fontsize=7.5)
    axes.set_xlabel("persist steps")


def legend_handles(drawn: Sequence[str], tampered: bool) -> List[Any]:
    """The legend's entries for what was drawn."""
    from matplotlib.lines import Line2D
    from matplotlib.patches import Patch
    handles: List[Any] = []
    for does, (marker, inside, text) in LATCHES.items():
        if f"latch {does}" in drawn:
            handles.append(Line2D([], [], marker=marker, color=BLACK, markerfacecolor=inside, linestyle="", label=text))
    for part, (marker, colour, text) in MARKS.items():
        if part in drawn:
            handles.append(Line2D([], [], marker=marker, color=colour, linestyle="", label=text))
    if "again" in drawn:
        handles.append(Line2D([], [], marker="o", markerfacecolor="white", markeredgecolor=BLACK, linestyle="",
                              label="the same bytes written again"))
    if tampered:
        handles.append(Line2D([], [], marker="x", color=VERMILION, linestyle="", markeredgewidth=2,
                              label="the attacker changes the line"))
    if "cut" in drawn:
        handles.append(Line2D([], [], color=VERMILION, linestyle="--", label="power is cut"))
    if "off" in drawn:
        handles.append(Patch(color=GREY, label="power is off"))
    if "recovery" in drawn:
        handles.append(Patch(color=YELLOW, label="recovery"))
    return handles


def changed_places(spans: Sequence[Span], layout: AnyLayout) -> List[Place]:
    """The device lines that the steps or the attacker change."""
    places = [step.place for span in spans for step in span.traced.steps if step.place is not None]
    tampered = [tampered_place(span.traced, layout) for span in spans]
    return [*places, *(place for place in tampered if place is not None)]


def timeline(traced: Sequence[Traced], settings: Settings, title: str, kind: str) -> bytes:
    """The picture of a trace."""
    pyplot = load_matplotlib()
    spans = spans_of(traced)
    end = spans[-1].end if spans else 1.0
    layout = layout_of(settings)
    lanes = Lanes()
    lanes.add_device(layout.parts, changed_places(spans, layout))
    width = min(WIDEST, max(NARROWEST, LEFT + RIGHT + UNIT * end))
    unit = (width - LEFT - RIGHT) / (end + 1)
    labels = labels_of(spans, unit)
    top = 0.45 + 0.066 * max((len(text) for _, text, _ in labels), default=0)
    height = top + BOTTOM + 0.21 * -lanes.bottom
    figure, axes = pyplot.subplots(figsize=(width, height))
    size = min(42.0, max(9.0, 42.0 * unit / UNIT))
    draw_lanes(axes, lanes, end, (LEFT - 0.15) / (width - LEFT - RIGHT))
    drawn = draw_power(axes, spans, 0.0, lanes.bottom)
    drawn += draw_marks(axes, spans, lanes, size)
    tampered = draw_tampering(axes, spans, lanes, layout, size)
    draw_commands(axes, spans, labels, 0.0)
    draw_axis(axes, spans, width)
    axes.set_xlim(-0.5, end + 0.5)
    axes.set_ylim(lanes.bottom, 0.0)
    axes.spines["left"].set_visible(False)
    figure.subplots_adjust(left=LEFT / width, right=1 - RIGHT / width, top=1 - top / height, bottom=BOTTOM / height)
    figure.suptitle(title.replace("$", r"\$"), x=0.15 / width, y=1 - 0.1 / height, ha="left", va="top", fontsize=10.5,
                    fontweight="bold")
    handles = legend_handles(drawn, tampered)
    if handles:
        figure.legend(handles=handles, loc="lower center", ncol=min(len(handles), max(4, int(width / 2.1))),
                      frameon=False, fontsize=8)
    return picture(pyplot, figure, kind)


def options_of(records: Sequence[Dict[str, Any]]) -> List[str]:
    """The options that the records of a sweep name: its numbers, and those of a policy and of the queues if one of these isn't the
    default."""
    return [name for name in VARIED if name in NUMBERS or all(name in record for record in records)]


def varied(records: Sequence[Dict[str, Any]]) -> List[str]:
    """The options that have several values in a sweep."""
    return [name for name in options_of(records) if len({record[name] for record in records}) > 1]


def chosen_number(records: Sequence[Dict[str, Any]], along: Optional[str]) -> str:
    """The option that goes along the curves: the one chosen, else that with most values."""
    if along and along not in options_of(records):
        raise ExploreError(f"--along {along}: it is the default in all settings of this sweep")
    return along or max(options_of(records), key=lambda name: len({record[name] for record in records}))


@dataclass(frozen=True)
class Curves:
    """The curves of a sweep: one for each choice of the numbers that vary but don't go along it. The first of those
    numbers, the one with most values, is shown by the colour, the next by the mark, the last by the dashes."""

    along: str
    values: Tuple[Any, ...]
    others: Tuple[str, ...]
    choices: Dict[str, Tuple[Any, ...]]
    groups: Tuple[Tuple[Tuple[Any, ...], Tuple[Dict[str, Any], ...]], ...]

    def style(self, place: int, value: Any) -> Dict[str, Any]:
        """What tells the value of the number at this place."""
        number = self.choices[self.others[place]].index(value)
        if place == 0:
            colour, marker = CURVES[number % len(CURVES)]
            return {"color": colour, "marker": marker} if len(self.others) == 1 else {"color": colour}
        if place == 1:
            return {"marker": CURVES[number % len(CURVES)][1]}
        return {"linestyle": LINE_STYLES[number % len(LINE_STYLES)]}

    def curve_style(self, number: int) -> Dict[str, Any]:
        """How a curve looks. If there are only a few, earlier ones are thicker, so that they show under later ones with the
        same points."""
        style: Dict[str, Any] = {"color": BLUE, "marker": "o"}
        for place, value in enumerate(self.groups[number][0]):
            style.update(self.style(place, value))
        later = min(4, len(self.groups) - 1 - number) if len(self.groups) <= FEW_CURVES else 0
        return {**style, "markersize": 4.5 + 1.1 * later, "linewidth": 1.2 + 0.7 * later}


def curves_of(records: Sequence[Dict[str, Any]], along: str) -> Curves:
    """The curves of a sweep along one of its numbers."""
    choices = {name: tuple(sorted({record[name] for record in records})) for name in options_of(records)}
    others = tuple(sorted((name for name in varied(records) if name != along), key=lambda name: -len(choices[name])))
    if len(others) > MOST_VARIED:
        raise ExploreError(f"{1 + len(others)} options vary in this sweep, and a picture has room for {1 + MOST_VARIED}")
    groups: Dict[Tuple[Any, ...], List[Dict[str, Any]]] = {}
    for record in sorted(records, key=lambda record: [record[name] for name in (*others, along)]):
        groups.setdefault(tuple(record[name] for name in others), []).append(record)
    return Curves(along, choices[along], others, choices,
                  tuple((values, tuple(group)) for values, group in groups.items()))


def draw_panel(axes: Any, name: str, title: str, drawn: Curves) -> None:
    """The curves of one measure."""
    highest = None
    for number, (_, group) in enumerate(drawn.groups):
        points = [(drawn.values.index(record[drawn.along]), record[name]) for record in group
                  if record[name] is not None]
        if points:
            highest = max(highest or 0, *(value for _, value in points))
            style = drawn.curve_style(number)
            axes.plot(*zip(*points), clip_on=False, **style)
            short = [(drawn.values.index(record[drawn.along]), record[name]) for record in group
                     if record[name] is not None and record["out_of_range"]]
            if short:
                axes.plot(*zip(*short), clip_on=False, **{**style, "linestyle": "", "markerfacecolor": "white"})
    axes.set_title(title, fontsize=9, loc="left")
    axes.set_xticks(range(len(drawn.values)))
    axes.set_xticklabels([str(value) for value in drawn.values], fontsize=8)
    axes.set_xlim(-0.25, len(drawn.values) - 0.75)
    if highest is not None:
        axes.set_ylim(0, 1.1 * highest or 1)
        axes.grid(axis="y", color=GREY, linewidth=0.6)
    else:
        axes.set_yticks([])
        axes.text(0.5, 0.5, "none", transform=axes.transAxes, ha="center", va="center", color=DARK_GREY)


def legend_columns(drawn: Curves) -> List[List[Any]]:
    """The legend's entries, a list for each number that the curves tell apart."""
    from matplotlib.lines import Line2D
    plain: Tuple[Dict[str, Any], ...] = ({}, {"color": DARK_GREY, "linestyle": ""}, {"color": DARK_GREY})
    return [[Line2D([], [], label=f"{label_of(name)} {value}", **{**plain[place], **drawn.style(place, value)})
             for value in drawn.choices[name]] for place, name in enumerate(drawn.others)]


def curves(records: Sequence[Dict[str, Any]], title: str, along: Optional[str], kind: str) -> bytes:
    """The picture of a sweep."""
    drawn = curves_of(records, chosen_number(records, along))
    pyplot = load_matplotlib()
    columns = legend_columns(drawn)
    notes = dropped_notes(records)
    below = 0.15 + 0.3 * len(columns) + 0.16 * len(notes)
    height = 7.0 + below
    figure, panels = pyplot.subplots(3, 3, figsize=(9.5, height))
    for axes, (name, text) in zip(panels.flat, PANELS):
        draw_panel(axes, name, text, drawn)
    for axes in panels[-1]:
        axes.set_xlabel(label_of(drawn.along))
    figure.suptitle(title_of(records, title).replace("$", r"\$"), x=0.02, y=1 - 0.1 / height, ha="left", va="top",
                    fontsize=10.5, fontweight="bold")
    figure.tight_layout(rect=(0, below / height, 1, 1 - 0.35 / height))
    for place, handles in enumerate(columns):
        figure.legend(handles=handles, loc="lower center", ncol=min(8, len(handles)), frameon=False, fontsize=8,
                      bbox_to_anchor=(0.5, (below - 0.3 * (place + 1)) / height))
    for place, note in enumerate(reversed(notes)):
        figure.text(0.02, (0.06 + 0.16 * place) / height, note, ha="left", va="bottom", fontsize=7.5, color=VERMILION)
    return picture(pyplot, figure, kind)


def trade_off(records: Sequence[Dict[str, Any]], title: str, kind: str) -> bytes:
    """The picture of what recovery costs against what a write does: a point for each setting, those that no other one is
    better than in both joined by a line."""
    points = sorted(((record["steps_per_write"], record[RECOVERY], record) for record in records
                     if record["steps_per_write"] is not None and record[RECOVERY] is not None), key=lambda point: point[:2])
    if not points:
        raise ExploreError(f"no setting of this sweep has both steps a write and {RECOVERY.replace('_', ' ')}")
    pyplot = load_matplotlib()
    figure, axes = pyplot.subplots(figsize=(6.0, 4.2))
    best = [point for place, point in enumerate(points) if all(point[1] < other[1] for other in points[:place])]
    axes.plot([point[0] for point in best], [point[1] for point in best], color=GREY, linewidth=1.2, zorder=1)
    names = varied(records)
    for steps, recovery, record in points:
        axes.plot([steps], [recovery], marker="o", color=BLUE, linestyle="", zorder=2,
                  markerfacecolor="white" if record["out_of_range"] else BLUE)
    if names:
        axes.text(0.99, 0.98, f"at each point: {', '.join(map(label_of, names))}", transform=axes.transAxes, ha="right", va="top",
                  fontsize=7.5, color=DARK_GREY)
    axes.set_yscale("symlog", linthresh=1)
    axes.set_xlabel("persist steps a write")
    axes.set_ylabel("trials of the recovery at the end")
    axes.grid(color=GREY, linewidth=0.5)
    axes.margins(x=0.18, y=0.12)
    notes = dropped_notes(records)
    axes.set_title(title_of(records, title).replace("$", r"\$"), fontsize=10, loc="left", fontweight="bold")
    figure.tight_layout(rect=(0, 0.05 * len(notes), 1, 1))
    for place, note in enumerate(reversed(notes)):
        figure.text(0.02, 0.01 + 0.04 * place, note, fontsize=6.5, color=VERMILION)
    add_labels(axes, [(steps, recovery, ", ".join(str(record[name]) for name in names)) for steps, recovery, record in points],
               DARK_GREY)
    return picture(pyplot, figure, kind)


def dropped_notes(records: Sequence[Dict[str, Any]]) -> List[str]:
    """Which settings leave commands out, since these name a place that a smaller memory lacks: their points are hollow,
    and stand for another workload."""
    dropped: Dict[Any, List[Dict[str, Any]]] = {}
    for record in records:
        if record["out_of_range"]:
            dropped.setdefault(record["levels"], []).append(record)
    notes = []
    for levels, some in dropped.items():
        most = max(record["out_of_range"] for record in some)
        total = some[0].get("commands")
        notes.append(f"levels {levels} (hollow): {most}{f' of {total}' if total else ''} commands name a place that is not "
                     "there and are left out")
    return notes


def label_of(name: str) -> str:
    """The name of a number along the axis."""
    return "stop-loss number" if name == "loss" else name


def is_quiet(name: str, value: Any) -> bool:
    """Whether an option needs no mention: it is one of a policy or of the queues, and the default."""
    return name in LATER and value == DEFAULTS[name]


def title_of(records: Sequence[Dict[str, Any]], title: str) -> str:
    """The title, with the numbers that don't vary."""
    fixed = [f"{label_of(name)} {records[0][name]}" for name in options_of(records)
             if name not in varied(records) and records[0][name] is not None and not is_quiet(name, records[0][name])]
    return title + (f" ({', '.join(fixed)})" if fixed else "")

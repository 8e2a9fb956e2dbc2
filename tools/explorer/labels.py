"""Labels of the points of a picture, each at a place that overlaps no other one."""
from dataclasses import dataclass, field
from typing import Any, Iterator, List, Sequence, Tuple

# All in points of 1/72 inch. A letter's width is that of the font's wider ones.
SIZE = 6.5
LETTER, LINE = 0.62 * SIZE, 1.25 * SIZE
ASIDE, ABOVE = 5.0, 3.0
MARK = 3.0
COINCIDE = 2.0
MOST_LINES = 6
TRIES = 12

Box = Tuple[float, float, float, float]


@dataclass
class Label:
    """The texts of the points that lie on each other here, each once, with the place of the first of them in data and on paper."""

    point: Tuple[float, float]
    at: Tuple[float, float]
    texts: List[str] = field(default_factory=list)

    @property
    def lines(self) -> List[str]:
        """The lines of the label."""
        more = len(self.texts) - MOST_LINES
        return self.texts if more <= 0 else [*self.texts[:MOST_LINES - 1], f"and {more + 1} more"]

    @property
    def size(self) -> Tuple[float, float]:
        """How wide and high it is."""
        return LETTER * max(map(len, self.lines)), LINE * len(self.lines)

    def places(self) -> Iterator[Tuple[float, float]]:
        """The places of its lower left corner, seen from the point, the best first: next to it, and then higher and lower."""
        width, height = self.size
        for step in range(TRIES):
            for up in (ABOVE + step * LINE, -ABOVE - height - step * LINE):
                for aside in (ASIDE, -ASIDE - width):
                    yield aside, up

    def box(self, place: Tuple[float, float]) -> Box:
        """What it covers there."""
        left, low = self.at[0] + place[0], self.at[1] + place[1]
        return left, low, left + self.size[0], low + self.size[1]


def labels_of(points: Sequence[Tuple[float, float, str]], on_paper: Sequence[Tuple[float, float]]) -> List[Label]:
    """One label for all points that lie on each other."""
    labels: List[Label] = []
    for (x, y, text), at in zip(points, on_paper):
        for label in labels:
            if max(abs(label.at[0] - at[0]), abs(label.at[1] - at[1])) < COINCIDE:
                break
        else:
            label = Label((x, y), at)
            labels.append(label)
        if text and text not in label.texts:
            label.texts.append(text)
    return [label for label in labels if label.texts]


def meet(one: Box, other: Box) -> bool:
    """Whether two boxes have a place in common."""
    return one[0] < other[2] and other[0] < one[2] and one[1] < other[3] and other[1] < one[3]


def placed(labels: Sequence[Label], on_paper: Sequence[Tuple[float, float]], room: Box) -> Iterator[Tuple[Label, Tuple[float, float]]]:
    """Each label with the first of its places that lies within the picture, on no point, and on no label before it. If no place
    is free, with the best one."""
    taken: List[Box] = [(x - MARK, y - MARK, x + MARK, y + MARK) for x, y in on_paper]
    for label in labels:
        free = (place for place in label.places() if is_free(label.box(place), taken, room))
        place = next(free, next(label.places()))
        taken.append(label.box(place))
        yield label, place


def is_free(box: Box, taken: Sequence[Box], room: Box) -> bool:
    """Whether a box lies within the room, and meets none of those that are taken."""
    return room[0] <= box[0] and box[2] <= room[2] and room[1] <= box[1] and box[3] <= room[3] \
        and not any(meet(box, other) for other in taken)


def add_labels(axes: Any, points: Sequence[Tuple[float, float, str]], colour: str) -> None:
    """Draws the labels of these points, once all else has its place."""
    axes.autoscale_view()
    scale = 72 / axes.figure.dpi
    on_paper = [(x * scale, y * scale) for x, y in (axes.transData.transform((x, y)) for x, y, _ in points)]
    left, low, right, high = (edge * scale for edge in axes.bbox.extents)
    for label, (aside, up) in placed(labels_of(points, on_paper), on_paper, (left, low, right, high)):
        axes.annotate("\n".join(label.lines), label.point, fontsize=SIZE, textcoords="offset points", xytext=(aside, up),
                      ha="left", va="bottom", color=colour)

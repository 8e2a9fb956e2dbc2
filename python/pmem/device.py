"""The device of `Controller`: its lines."""
from dataclasses import dataclass, field
from typing import List, Tuple

from .layout import Layout
from .traces import code, table

SHOWN_LINES = 4


@dataclass(frozen=True)
class Device:
    """All lines of a device, as they lie there."""

    layout: Layout
    lines: Tuple[bytes, ...] = field(repr=False)

    def __len__(self) -> int:
        return len(self.lines)

    def __getitem__(self, place: int) -> bytes:
        return self.lines[place]

    def differences(self, other: "Device") -> List[int]:
        """The places at which another device of the same layout has another line."""
        if other.layout != self.layout:
            raise ValueError("the devices have different layouts")
        return [place for place, (mine, its) in enumerate(zip(self.lines, other.lines)) if mine != its]

    def _repr_html_(self) -> str:
        rows = []
        for name, places in self.layout.parts.items():
            if not places:
                continue
            first = "<br>".join(f"{place}: {code(self.lines[place].hex())}" for place in places[:SHOWN_LINES])
            more = f"<br>and {len(places) - SHOWN_LINES} more" if len(places) > SHOWN_LINES else ""
            rows.append((name, f"{places.start} to {places.stop - 1}", first + more))
        return table(("part", "device lines", "bytes"), rows)

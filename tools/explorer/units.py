"""Times and sizes as texts, in the unit in which they are short."""
from typing import Tuple

TIMES: Tuple[Tuple[str, float], ...] = (("s", 1e9), ("ms", 1e6), ("µs", 1e3), ("ns", 1.0))
BYTES: Tuple[Tuple[str, int], ...] = (("T", 40), ("G", 30), ("M", 20), ("K", 10))


def time_text(nanos: float) -> str:
    """A time in the unit in which it is at least 1, such as `25 µs`."""
    name, size = next(((name, size) for name, size in TIMES if nanos >= size), TIMES[-1])
    return f"{nanos / size:,.0f} {name}" if nanos >= 1000 * size else f"{nanos / size:.4g} {name}"


def bytes_text(count: float) -> str:
    """A size in the unit in which it is at least 1, such as `64 K`."""
    name, power = next(((name, power) for name, power in BYTES if count >= 1 << power), ("", 0))
    return f"{count / (1 << power):.3g} {name}".strip()

"""The accesses that a trace makes to the device, as a trace for a simulator of a memory's timing. docs/TIMING.md says how one of
them is run."""
from typing import Callable, Dict, Iterator, Tuple

from .accesses import LINE, LOOK
from .errors import WRONG_WORDS, ExploreError
from .logged import LoggedRecording
from .package import LINE_BYTES

# A line of each simulator's trace, of whether it writes, its address, and the cycle from which on it may begin.
FORMATS: Dict[str, Callable[[bool, int, int], str]] = {
    "dramsim3": lambda writes, address, cycle: f"0x{address:x} {'WRITE' if writes else 'READ'} {cycle}\n",
    "ramulator": lambda writes, address, cycle: f"0x{address:x} {'W' if writes else 'R'}\n",
    "ramulator2": lambda writes, address, cycle: f"{'ST' if writes else 'LD'} 0x{address:x}\n",
}
TIMED = ("dramsim3",)


def accesses_of(recording: LoggedRecording) -> Iterator[Tuple[bool, int]]:
    """The reads and the writes of device lines, in order: whether it is a write, and the line."""
    for entry in recording.entries:
        for word, number in entry.accesses:
            if word in (LOOK, LINE):
                yield word == LINE, number


def exported(recording: LoggedRecording, to: str, base: int, gap: int) -> str:
    """The trace for a simulator: line d at address base + 64 d, one access every `gap` cycles if the format has times."""
    if gap and to not in TIMED:
        raise ExploreError(f"a trace for {to} has no times: --gap is for {', '.join(TIMED)}", WRONG_WORDS)
    line = FORMATS[to]
    return "".join(line(writes, base + LINE_BYTES * number, place * gap)
                   for place, (writes, number) in enumerate(accesses_of(recording)))


def told(recording: LoggedRecording) -> str:
    """What isn't in the trace."""
    kinds = [writes for writes, _ in accesses_of(recording)]
    latches = sum(word not in (LOOK, LINE) for entry in recording.entries for word, _ in entry.accesses)
    return (f"{len(kinds):,} accesses, {sum(kinds):,} of them writes; left out, as they are not of the device: {latches:,} latches, "
            f"{sum(entry.tags for entry in recording.entries):,} tags, {sum(entry.digests for entry in recording.entries):,} digests")

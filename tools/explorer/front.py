"""What stands between a program's stores and loads and memory: nothing, a buffer that combines stores, or a cache."""
from collections import OrderedDict
from typing import Callable, Dict, Iterator, List, Optional, Tuple

from .package import LINE_BYTES

# What reaches memory: a line, and of a write its first byte and its bytes; of a read no bytes.
Reaching = Tuple[int, int, Optional[bytes]]


class Front:
    """What stands in front of memory. Each call answers what reaches memory by it."""

    def store(self, line: int, start: int, data: bytes) -> Iterator[Reaching]:
        """A store into one line."""
        raise NotImplementedError

    def load(self, line: int) -> Iterator[Reaching]:
        """A load from one line."""
        raise NotImplementedError

    def store_past(self, line: int, start: int, data: bytes) -> Iterator[Reaching]:
        """A store into one line past the cache."""
        yield line, start, data

    def flush(self, line: int) -> Iterator[Reaching]:
        """The program writes a line back."""
        return iter(())

    def held(self, first: int, last: int) -> List[int]:
        """Which of these lines have stores that aren't in memory yet."""
        return []

    def fence(self) -> Iterator[Reaching]:
        """The program waits for what it wrote."""
        return iter(())

    def told(self) -> List[str]:
        """What a reader of the trace should know of it."""
        return []


class Straight(Front):
    """Nothing: each store and load reaches memory at once."""

    def store(self, line: int, start: int, data: bytes) -> Iterator[Reaching]:
        yield line, start, data

    def load(self, line: int) -> Iterator[Reaching]:
        yield line, 0, None


class Held(Front):
    """Lines with stores that aren't in memory yet. With flushes a line is written by its flush, else by the fence. What
    the program never stored into a line is as `before` has it."""

    def __init__(self, has_flushes: bool, before: Callable[[int], bytes] = lambda line: bytes(LINE_BYTES)) -> None:
        self.has_flushes = has_flushes
        self.before = before
        self.bytes: Dict[int, bytearray] = {}
        self.dirty: Dict[int, None] = {}

    def put(self, line: int, start: int, data: bytes) -> None:
        """The bytes of a store."""
        self.known(line)[start:start + len(data)] = data
        self.dirty[line] = None

    def known(self, line: int) -> bytearray:
        """The bytes of a line."""
        if line not in self.bytes:
            self.bytes[line] = bytearray(self.before(line))
        return self.bytes[line]

    def store_past(self, line: int, start: int, data: bytes) -> Iterator[Reaching]:
        self.known(line)[start:start + len(data)] = data
        yield line, start, data

    def held(self, first: int, last: int) -> List[int]:
        if last - first < len(self.dirty):
            return [line for line in range(first, last + 1) if line in self.dirty]
        return sorted(line for line in self.dirty if first <= line <= last)

    def written(self, line: int) -> Iterator[Reaching]:
        """A line is written, if it has to be."""
        if line in self.dirty:
            del self.dirty[line]
            yield line, 0, bytes(self.bytes[line])

    def flush(self, line: int) -> Iterator[Reaching]:
        yield from self.written(line)

    def fence(self) -> Iterator[Reaching]:
        if not self.has_flushes:
            for line in list(self.dirty):
                yield from self.written(line)

    def told(self) -> List[str]:
        if self.has_flushes and self.dirty:
            return [f"Lines stored to and never flushed after that: {len(self.dirty)}. Those stores are in no command."]
        return []


class Combining(Held):
    """Stores to a line are combined until it is written. Loads reach memory, except for lines that are held."""

    def store(self, line: int, start: int, data: bytes) -> Iterator[Reaching]:
        self.put(line, start, data)
        return iter(())

    def load(self, line: int) -> Iterator[Reaching]:
        if line not in self.dirty:
            yield line, 0, None

    def told(self) -> List[str]:
        by = "its flush" if self.has_flushes else "the next fence"
        return [f"Stores to a line are combined until {by}.", *super().told()]


class WriteBackCache(Held):
    """A cache that writes back, with that many bytes and ways: of each set the line that wasn't used for longest is evicted. A
    store takes its line into the cache, as a load does."""

    def __init__(self, size: int, ways: int, has_flushes: bool, before: Callable[[int], bytes] = lambda line: bytes(LINE_BYTES)) -> None:
        super().__init__(has_flushes, before)
        self.size = size
        self.ways = ways
        self.sets: List["OrderedDict[int, None]"] = [OrderedDict() for _ in range(size // (LINE_BYTES * ways))]

    def use(self, line: int) -> Iterator[Reaching]:
        """A line is used: if it isn't there, it is read and another one is evicted."""
        lines = self.sets[line % len(self.sets)]
        if line in lines:
            lines.move_to_end(line)
            return
        if len(lines) == self.ways:
            yield from self.written(lines.popitem(last=False)[0])
        lines[line] = None
        yield line, 0, None

    def store(self, line: int, start: int, data: bytes) -> Iterator[Reaching]:
        if len(data) == LINE_BYTES:
            found = [each for each in self.use(line) if each[2] is not None]
        else:
            found = list(self.use(line))
        self.put(line, start, data)
        return iter(found)

    def load(self, line: int) -> Iterator[Reaching]:
        return self.use(line)

    def told(self) -> List[str]:
        by = "by its flush" if self.has_flushes else "by the next fence"
        return [f"A cache of {self.size} bytes and {self.ways} ways stands in front: a line is written {by} or when it "
                "is evicted, and read when it is not there.", *super().told()]

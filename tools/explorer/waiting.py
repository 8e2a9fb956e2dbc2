"""The writes that wait before each command of a trace, by its replies: a cut loses them, unless the queues are durable."""
from dataclasses import dataclass, field
from typing import Dict, List, Sequence, Set, Tuple

from .package import LINE_BYTES, PORTS
from .program import Reply
from .trace import Command, number_of

# A write that waits: its port, the line of memory, and the line of the trace that posted it.
Write = Tuple[int, int, int]


@dataclass
class Waiting:
    """The queues of the ports, and of `txn` the lines of the open transaction, which it has at port 0. `is_durable`: a queue outlives power.
    `combines`: a posted line takes the place of the newest one that waits for its line at its port."""

    is_durable: bool = False
    combines: bool = False
    queues: Dict[int, List[Write]] = field(default_factory=lambda: {port: [] for port in range(PORTS)})
    parts: Set[Write] = field(default_factory=set)

    def all(self) -> List[Write]:
        """All writes that wait."""
        return [write for queue in self.queues.values() for write in queue]

    def lost(self, command: Command, answer: str) -> List[Write]:
        """The writes that are lost by a cut in a command that is answered like this, or by `off`. In a durable queue they wait on."""
        if self.is_durable:
            return []
        words = answer.split(" ")
        if words[0] == "cut" and command.word in ("drain", "fence"):
            own, done = port_of(command), int(words[2]) if command.word == "fence" else 0
            done += words[1] == "kept"
            return [write for port, queue in self.queues.items() for write in (queue[done:] if port == own else queue)]
        if words[:2] == ["cut", "kept"]:
            return []
        return self.all() + ([write_of(command)] if words[:2] == ["cut", "lost"] and command.word == "write" else [])

    def empty(self) -> None:
        """Nothing waits any more."""
        for queue in self.queues.values():
            queue.clear()

    def go_on(self, command: Command, reply: Reply) -> None:
        """What a command and its answer do to the queues."""
        words = reply.answer.split(" ")
        if self.is_durable and words[0] == "cut":
            self.kept(command, words)
        elif words[0] == "cut" or command.word == "off":
            if not self.is_durable:
                self.empty()
        elif command.word in ("post", "part", "put"):
            if words[0] == "ok":
                self.post(command)
        elif command.word in ("commit", "abort"):
            self.queues[0].clear()
        elif command.word == "drain":
            del self.queues[port_of(command)][:words[0] not in ("empty", "off")]
        elif command.word == "fence":
            queue = self.queues[port_of(command)]
            del queue[:len(queue) if words[0] == "ok" else int(words[1]) + 1 if words[0] in ("refused", "spent") else 0]

    def kept(self, command: Command, words: Sequence[str]) -> None:
        """What a cut leaves of durable queues: a write that is in memory leaves its queue."""
        if command.word in ("drain", "fence"):
            done = int(words[2]) if command.word == "fence" else 0
            del self.queues[port_of(command)][:done + (words[1] == "kept")]

    def post(self, command: Command) -> None:
        """One more write waits. A second put of a line takes the first one's place, and so does a line that is combined with the newest
        write to it."""
        write = write_of(command)
        queue = self.queues[write[0]]
        if not is_whole(command):
            self.parts.add(write)
        own = [place for place, other in enumerate(queue) if other[1] == write[1]]
        is_combined = self.combines and bool(own) and is_whole(command) and queue[own[-1]] not in self.parts
        place = own[-1] if own and (command.word == "put" or is_combined) else len(queue)
        queue[place:place + 1] = [write]


def write_of(command: Command) -> Write:
    """The write that a command posts or puts."""
    port, line = (0, command.word_at(1)) if command.word in ("put", "write") else (port_of(command), command.word_at(2))
    return port, number_of(line) or 0, command.number


def is_whole(command: Command) -> bool:
    """Whether the write that a command posts or puts has all bytes of its line."""
    return command.word != "part" or len(command.word_at(-1)) == 2 * LINE_BYTES


def port_of(command: Command) -> int:
    """The port that a command names."""
    return number_of(command.word_at(1)) or 0

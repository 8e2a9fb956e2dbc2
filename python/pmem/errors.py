"""What is raised. `NotDone` and its kinds are answers of the controller that aren't that the command was done; the others are wrong use."""
from typing import TYPE_CHECKING, Dict, Type

if TYPE_CHECKING:
    from .answers import Answer, Exhibit, Marks


class PmemError(Exception):
    """Any error of this package."""


class NotDone(PmemError):
    """A command that was answered otherwise than done; `answer` is its answer."""

    def __init__(self, answer: "Answer") -> None:
        super().__init__(answer)
        self.answer = answer

    @property
    def marks(self) -> "Marks":
        """The marks of the command."""
        return self.answer.marks

    def __str__(self) -> str:
        return str(self.answer)


class PowerCut(NotDone):
    """Power was cut in the command. Its answer is a `Cut`."""

    @property
    def kept(self) -> bool:
        """Whether a write was in flight, and had reached memory."""
        return str(self.answer).startswith("cut kept ")


class Refused(NotDone):
    """The device was tampered with, and that was seen. Its answer is a `Refusal`."""


class CounterSpent(NotDone):
    """A counter that a write needs is exhausted. Its answer is a `Spent`."""


class LogStuck(NotDone):
    """The log of the transactions is stuck at an exhausted counter. Its answer is a `Stuck`."""


class BreakShown(NotDone):
    """The run ended with the evidence of a break of the suite: `exhibit`."""

    @property
    def exhibit(self) -> "Exhibit":
        """The evidence."""
        from .answers import Exhibit
        assert isinstance(self.answer, Exhibit)
        return self.answer


class Unsuited(NotDone):
    """The command doesn't fit the state, and did nothing. Its answer is an `Unfit`."""


class QueueFull(Unsuited):
    """`post`, `part`: 16 writes wait at the port. `put`: the transaction has 15 other lines."""


class QueueEmpty(Unsuited):
    """`drain`: no write waits at the port."""


class NothingToTurn(Unsuited):
    """`turn`: no page is under re-encryption."""


class NothingDirty(Unsuited):
    """`flush`: no metadata is dirty."""


class PowerIsOff(Unsuited):
    """Power is off."""


class PowerIsOn(Unsuited):
    """`on`: power is on already."""


class OutOfRange(Unsuited, IndexError):
    """There is no such line, bit, place in a line, or stop-loss number."""


class NoSnapshot(Unsuited):
    """`back`: no snapshot was taken."""


class TransactionOpen(Unsuited):
    """`begin`: a transaction is open already."""


class NoTransaction(Unsuited):
    """`put`, `commit`, `abort`: no transaction is open."""


UNSUITED: Dict[str, Type[Unsuited]] = {
    "full": QueueFull, "empty": QueueEmpty, "idle": NothingToTurn, "clean": NothingDirty, "off": PowerIsOff, "already": PowerIsOn,
    "range": OutOfRange, "none": NoSnapshot, "busy": TransactionOpen, "closed": NoTransaction,
}

KINDS: Dict[int, str] = {
    1: "no such command",
    2: "too few or too many words",
    3: "a word is not a number",
    4: "a port is above 7",
    5: "a word has the wrong hex digits",
    6: "more than 1,024 bytes",
}


class LineFault(PmemError, ValueError):
    """A line isn't in the grammar: nothing was done, and the session goes on. `kind` is 1 to 6, as the program numbers them."""

    def __init__(self, kind: int) -> None:
        super().__init__(KINDS.get(kind, f"a fault of kind {kind}"))
        self.kind = kind


class BadWords(PmemError, ValueError):
    """The program refuses these words."""


class NoMemory(PmemError, MemoryError):
    """Out of memory; nothing was done."""


class TooManyLines(PmemError):
    """A session has had 1,000,000 commands."""


class SessionClosed(PmemError, ValueError):
    """The session is closed."""


class SessionOver(PmemError):
    """An exhibit ended the session; it can only be closed."""


class NotFound(PmemError):
    """Neither the program nor the library is there."""


class ProgramFailed(PmemError):
    """The program or the library isn't pmem's, can't be run, or was ended from outside."""

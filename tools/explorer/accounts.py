"""What commands take, added up from the program's log: line reads and writes by part of the device, latches, pads, tags,
digests, hits and misses of the metadata cache; and what of that can go on side by side."""
from collections import Counter
from dataclasses import dataclass, field
from typing import Dict, List, Sequence

from .accesses import LINE, LOOK
from .layout import PARTS, SHADOWS, Parts, layout_of
from .logged import Entry
from .package import COUNTERS, DATA, NODES, TAGS
from .settings import Settings

DATA_PART, TAG_PART, COUNTER_PART, NODE_PART, SHADOW_PART = map(PARTS.index, (DATA, TAGS, COUNTERS, NODES, SHADOWS))
# The parts in a word each, in the order of `PARTS`.
PART_WORDS = ("data", "tags", "counters", "tree", "shadow")


def no_parts() -> List[int]:
    """A count of 0 for each part."""
    return [0] * len(PARTS)


@dataclass
class Account:
    """What some commands took together. `read_runs`: how many reads came one after the other, without a persist step
    between. `groups`: how many lines were written between the latch that arms a group and the one that empties it, or by a
    recovery before that one. `single_writes`: all other line writes."""

    reads: List[int] = field(default_factory=no_parts)
    writes: List[int] = field(default_factory=no_parts)
    latches: int = 0
    pads_opening: int = 0
    pads_sealing: int = 0
    tags: int = 0
    digests: int = 0
    hits: int = 0
    misses: int = 0
    single_writes: int = 0
    read_runs: "Counter[int]" = field(default_factory=Counter)
    groups: "Counter[int]" = field(default_factory=Counter)

    @property
    def steps(self) -> int:
        """The persist steps."""
        return sum(self.writes) + self.latches

    @property
    def pads(self) -> int:
        """The pads."""
        return self.pads_opening + self.pads_sealing

    def add(self, other: "Account") -> None:
        """Adds what other commands took."""
        self.reads = [one + more for one, more in zip(self.reads, other.reads)]
        self.writes = [one + more for one, more in zip(self.writes, other.writes)]
        for name in ("latches", "pads_opening", "pads_sealing", "tags", "digests", "hits", "misses", "single_writes"):
            setattr(self, name, getattr(self, name) + getattr(other, name))
        self.read_runs.update(other.read_runs)
        self.groups.update(other.groups)

    def numbers(self) -> Dict[str, int]:
        """The counts by name."""
        return {"steps": self.steps, "line_writes": sum(self.writes),
                **{f"writes_{word}": count for word, count in zip(PART_WORDS, self.writes)},
                "line_reads": sum(self.reads),
                **{f"reads_{word}": count for word, count in zip(PART_WORDS, self.reads)},
                "latches": self.latches, "pads": self.pads, "tags": self.tags, "digests": self.digests,
                "hits": self.hits, "misses": self.misses}


COUNTS = tuple(Account().numbers())


def added(accounts: Sequence[Account]) -> Account:
    """What several took together."""
    total = Account()
    for account in accounts:
        total.add(account)
    return total


class Accountant:
    """Adds up what commands of a machine took.

    Pads, hits and misses aren't in the log, and follow from it. A pad is made for each data line that is opened (read) or
    sealed (written), but not for those that a recovery tries or redoes. A miss is a block or node of a path that is read. A
    path has as many of them as the tree has levels and its top; one is fetched for each line that the controller is asked
    to open or to seal, and what isn't a miss is a hit. A page that is re-encrypted is fetched once."""

    def __init__(self, settings: Settings) -> None:
        self.machine_name = settings.machine_name
        self.part = Parts(layout_of(settings)).of
        self.path = settings.levels + 1

    def account(self, word: str, entry: Entry) -> Account:
        """What a command, whose first word is `word`, took."""
        account = Account(tags=entry.tags, digests=entry.digests)
        begins = self.add_accesses(account, entry)
        if word == "on":
            self.add_pads_of_on(account, entry)
            return account
        account.pads_opening, account.pads_sealing = account.reads[DATA_PART], account.writes[DATA_PART]
        account.misses = account.reads[COUNTER_PART] + account.reads[NODE_PART]
        calls = account.pads
        if self.machine_name != "tree":
            # Each sealed line, a reseal aside, and each begin changes a path, with a digest for each of its lines.
            sealed = (account.digests - account.misses) // self.path - begins
            resealed = account.writes[DATA_PART] - sealed
            calls -= 2 * resealed
        account.hits = calls * self.path - account.misses
        return account

    def add_accesses(self, account: Account, entry: Entry) -> int:
        """Adds reads, writes and latches; answers how many pages were begun to be re-encrypted: those are the groups without a data
        line."""
        reads = lines = begins = data_before = 0
        armed = False
        for access, number in entry.accesses:
            if access == LOOK:
                account.reads[self.part(number)] += 1
                reads += 1
                continue
            if reads:
                account.read_runs[reads] += 1
                reads = 0
            if access == LINE:
                account.writes[self.part(number)] += 1
                lines += 1
                continue
            account.latches += 1
            if number or not lines:
                account.single_writes += lines
            else:
                account.groups[lines] += 1
            begins += armed and account.writes[DATA_PART] == data_before
            armed, lines, data_before = bool(number), 0, account.writes[DATA_PART]
        if reads:
            account.read_runs[reads] += 1
        if armed and lines:
            account.groups[lines] += 1
        else:
            account.single_writes += lines
        return begins

    def add_pads_of_on(self, account: Account, entry: Entry) -> None:
        """Pads of `on`: recovery makes none; `wear` then opens its record, and `txn` its header, the bodies that it redoes,
        and seals these and the header."""
        words = entry.reply.answer.split(" ")
        if words[0] != "on" or self.machine_name not in ("wear", "txn"):
            return
        redone = int(words[1]) if self.machine_name == "txn" else 0
        account.pads_opening, account.pads_sealing = 1 + redone, redone + 1 if redone else 0

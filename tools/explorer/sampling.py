"""Which part of a long search is done: all of it, a fair sample, or as much as fits into a time."""
import random
import time
from dataclasses import dataclass, field
from typing import Iterator, List, Optional

FIRST_ROUND = 64


@dataclass
class Plan:
    """`sample`: that many, chosen by `seed`, each as likely as another. `budget`: as many as can be done in that many seconds from now,
    in samples that grow."""

    sample: Optional[int] = None
    seed: int = 0
    budget: Optional[float] = None
    begun: float = field(default_factory=time.monotonic)

    @property
    def is_whole(self) -> bool:
        """Whether all is done."""
        return self.sample is None and self.budget is None

    def deadline(self, share: float = 1) -> Optional[float]:
        """When a share of the time is over."""
        return None if self.budget is None else self.begun + share * self.budget

    def rounds(self, total: int, share: float = 1) -> Iterator[List[int]]:
        """Which of `total` things are done, in rounds until a share of the time is over. Each round is in order."""
        if self.is_whole:
            yield list(range(total))
            return
        chosen = random.Random(self.seed).sample(range(total), min(total, total if self.sample is None else self.sample))
        deadline, at, size = self.deadline(share), 0, FIRST_ROUND
        while at < len(chosen):
            end = len(chosen) if deadline is None else min(len(chosen), at + size)
            yield sorted(chosen[at:end])
            at, size = end, 2 * size
            if deadline is not None and time.monotonic() >= deadline:
                return

    def note(self, what: str, done: int, total: int) -> str:
        """How much was done, if that isn't all."""
        if done == total:
            return f"all {total} {what} tried"
        why = f"{self.budget:g} s" if self.budget is not None else f"--sample {self.sample}"
        return f"{done} of {total} {what} tried ({why}, --seed {self.seed}); {total - done} left out"

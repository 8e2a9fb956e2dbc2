"""Power failures in tests: a piece of code run once for each persist step at which power can fail in it."""
from types import TracebackType
from typing import Callable, Generic, Iterator, Optional, Type, TypeVar

from .answers import Cut, Done, Unfit
from .errors import PowerCut
from .sessions import Session, raise_not_done
from .settings import MOST_NUMBER

S = TypeVar("S", bound=Session)


class Trial(Generic[S]):
    """One run of a piece of code in which power fails after `steps` persist steps (`each_cut`).

    As a context manager it gives the session, a copy of the one that the code starts from. If power fails in the block, the rest of the
    block is skipped, and at its end power comes back with recovery. `steps` is the number of persist steps before the cut, `cut` the
    answer of the command that was cut; None if the block ended before the cut. `is_cut` says which.
    """

    def __init__(self, memory: S, steps: int, recover: bool) -> None:
        self.memory, self.steps = memory, steps
        self.cut: Optional[Cut] = None
        self.was_run = False
        self._recover = recover

    @property
    def is_cut(self) -> bool:
        """Whether power failed in the block."""
        return self.cut is not None

    @property
    def kept(self) -> Optional[bool]:
        """Whether the write that was cut is in memory: True or False, or None if no write was in flight."""
        return self.cut.kept if self.cut else None

    def __enter__(self) -> S:
        if self.was_run:
            raise RuntimeError("a trial is run once: use it in one with statement")
        self.was_run = True
        self.memory._cut = None
        self.memory.cut(self.steps)
        return self.memory

    def __exit__(self, kind: Optional[Type[BaseException]], error: Optional[BaseException], where: Optional[TracebackType]) -> bool:
        self.cut = self.memory._cut
        if error is not None and not (isinstance(error, PowerCut) and error.answer is self.cut):
            return False
        if self.cut is None:
            self.memory.cut(MOST_NUMBER)  # what follows the block is not cut
        elif self._recover:
            answer = self.memory.tell("on")
            # The block itself may have turned power on.
            if answer is not None and not isinstance(answer, Done) and answer != Unfit("already"):
                raise_not_done(answer)
        return True

    def __repr__(self) -> str:
        came = f"cut: {self.cut}" if self.cut else "not cut" if self.was_run else "not run yet"
        return f"<power fails after {self.steps} persist step{'' if self.steps == 1 else 's'}, {came}>"


def each_cut(memory: S, *, recover: bool = True) -> Iterator[Trial[S]]:
    """Runs the body of a loop once for each persist step at which power can fail in a piece of code, and once without a cut.

        for trial in pmem.each_cut(memory):
            with trial as copy:                     # power fails in this block, after 0, 1, 2, .. persist steps
                update(copy)
            assert is_old(copy) or is_new(copy)     # here power is back, after recovery

    Each time the code gets a new copy of `memory`, which itself is not changed. The loop ends after the run in which the code came to its
    end. With `recover=False` power stays off after a cut, so that recovery itself can be cut: `for second in each_cut(copy)`, with
    `again.on()` in its block.

    Raises:
        RuntimeError: the body did not enter the trial.
    """
    steps = 0
    while True:
        with memory.copy() as copy:
            trial = Trial(copy, steps, recover)
            yield trial
            if not trial.was_run:
                raise RuntimeError("the body of the loop must run the code in `with trial as memory:`")
            if not trial.is_cut:
                return
        steps += 1


def persist_steps(memory: Session, code: Callable[[Session], object]) -> int:
    """How many persist steps a piece of code takes: how many cuts `each_cut` tries. For pytest.mark.parametrize. `memory` is not changed."""
    for trial in each_cut(memory):
        with trial as copy:
            code(copy)
    return trial.steps

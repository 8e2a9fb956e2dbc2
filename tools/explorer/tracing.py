"""A trace with all that can be asked of it, for notebooks and scripts."""
import os
from typing import Any, Dict, List, Optional, Sequence, Tuple, Union

from . import compare, cuts, sweep
from .costs import read_costs
from .designs import NAMES, WITH_ADR, is_design
from .finding import default_program, found_program
from .logged import LoggedProgram
from .machines import MACHINE_NAMES
from .program import Program, Recording, Reply
from .settings import Settings
from .steps import trace_steps
from .together import Together
from .trace import Command, Trace, read_trace, trace_of
from .traced import Traced


class Explored:
    """A trace that was run under some settings. Lines are those of the trace, counted from 1."""

    def __init__(self, trace: Trace, settings: Settings, together: Together) -> None:
        settings.check()
        self.trace = trace
        self.settings = settings
        self.together = together
        self.recording = Recording(together.program, settings, trace)

    @property
    def commands(self) -> Tuple[Command, ...]:
        """Its commands."""
        return self.recording.commands

    @property
    def replies(self) -> List[Reply]:
        """The reply to each command, up to an exhibit if the trace ends in one."""
        return self.recording.replies

    def steps(self, lines: Optional[range] = None, with_work: bool = False) -> List[Traced]:
        """Each command (on these lines) with its persist steps; `with_work`: with what it read, and the tags and digests
        that it made."""
        return trace_steps(self.recording, self.together, lines, with_work)

    def cuts(self, lines: Optional[range] = None, twice: bool = False) -> List[cuts.Cut]:
        """What a cut at each persist step (of the commands on these lines) leaves; `twice`: each recovery is cut too."""
        return cuts.CutFinder(self.recording, self.together, False, False).find(lines, twice, 0)

    def costs(self, settings: Sequence[Settings]) -> List[sweep.Cost]:
        """What the trace costs under each of several settings."""
        return sweep.trace_sweep(self.trace, settings, self.together)


def open_trace(trace: Union[str, "os.PathLike[str]", bytes], program: Optional[str] = None, jobs: Optional[int] = None,
               **settings: Any) -> Explored:
    """Runs a trace, a file by its name or the bytes themselves. The settings are the fields of `Settings`: `levels`, `sets`,
    `ways`, `loss`, `major`, `suite`, `key`, `tag_key`, `every`, `persist`, `shadow`, `queue`, `combine`, and `machine_name`, which is run,
    wear, txn or tree."""
    together = Together(Program(found_program(program or default_program())), jobs)
    read = trace_of("the trace", trace) if isinstance(trace, bytes) else read_trace(os.fspath(trace))
    return Explored(read, Settings(**settings), together)


def compare_designs(traces: Sequence[Union[str, "os.PathLike[str]", bytes]], designs: Sequence[str] = tuple(MACHINE_NAMES),
                    cost: Optional[str] = None, program: Optional[str] = None, jobs: Optional[int] = None, fold: bool = False,
                    recoveries: int = compare.CUTS, suite: str = "aes", **numbers: Sequence[Any]) -> List[Dict[str, Any]]:
    """What workloads take on several designs, as `explore compare` finds it: a row for each trace and each design, and those of the
    means if there are several traces. `designs` may have `plain` and policies such as `osiris` besides machines. `numbers` are lists:
    `levels`, `sets`, `ways`, `loss`, `every`, `persist`, `shadow`, `queue`, `combine`; `cost` is a file of figures; `recoveries` after how
    many cuts recovery is looked at."""
    base = Settings(suite=suite)
    wrong = sorted(set(numbers) - set(compare.VARIED))
    if wrong:
        raise TypeError(f"there is no number {wrong[0]}: {', '.join(compare.VARIED)}")
    values = {name: list(numbers.get(name, [getattr(base, name)])) for name in compare.VARIED}
    together = Together(LoggedProgram(found_program(program or default_program())), jobs)
    names = [name for name in designs if name != compare.PLAIN]
    wrong = [name for name in names if not is_design(name)]
    if wrong:
        raise ValueError(f"there is no design {wrong[0]}: {', '.join(MACHINE_NAMES)}, {NAMES}, or one of the latter with {WITH_ADR}")
    comparison = compare.Comparison(compare.designs_of(names, base, values), together, fold, recoveries)
    read = [trace_of("the trace", trace) if isinstance(trace, bytes) else read_trace(os.fspath(trace)) for trace in traces]
    return compare.compare(read, comparison, [read_costs(cost)] if cost else [], compare.PLAIN in designs).every

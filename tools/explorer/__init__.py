"""What `tools/explore` is made of, for notebooks and scripts too. Everything here asks the program `pmem` and reads its replies.

    import sys; sys.path.insert(0, "tools")
    import explorer

    session = explorer.open_trace("examples/power_cut.trace", loss=4)
    for command, reply in zip(session.commands, session.replies):
        print(command.short, reply.answer)
    for traced in session.steps():
        print(traced.command.number, [step.text for step in traced.steps])
    for cut in session.cuts():
        print(cut)
    for row in explorer.compare_designs(["examples/power_cut.trace"], ["run", "tree"], sets=[1, 4]):
        print(row["design"], row["sets"], row["write_steps"], row["recovery_tags_mean"])

What is wrong (a file, a line of the trace, no program) is an `ExploreError`, whose text says it in one line. The program is
the one that `program=` names, or the variable PMEM_PROGRAM, or else the repository's own if it is built.
"""
from .errors import ExploreError
from .program import Reply
from .settings import Settings
from .trace import Command, Trace
from .traced import Step, Traced
from .tracing import Explored, compare_designs, open_trace

__all__ = ["Command", "ExploreError", "Explored", "Reply", "Settings", "Step", "Trace", "Traced", "compare_designs", "open_trace"]

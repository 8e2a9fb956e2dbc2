"""Tests of code over a persistent memory, each run with power cut at every persist step. Run it with `pytest`, or as a script."""
import pmem

OLD, NEW = b"old".ljust(pmem.LINE_BYTES), b"new".ljust(pmem.LINE_BYTES)


def memory_with(data):
    """A small memory whose lines 3 and 40 have this data."""
    memory = pmem.Controller(levels=1, suite="weak")
    for line in (3, 40):
        memory.post(0, line, data)
    memory.fence(0)
    return memory


def update(memory):
    """Writes line 3 and then line 40."""
    for line in (3, 40):
        memory.post(0, line, NEW)
        memory.drain(0)


def test_no_line_is_torn():
    """After a cut each line is old or new as a whole, and the second line is never newer than the first."""
    memory = memory_with(OLD)
    for trial in pmem.each_cut(memory):
        with trial as copy:
            update(copy)
        first, second = lines_of(copy)
        assert first in (OLD, NEW) and second in (OLD, NEW), trial
        assert (first, second) != (OLD, NEW), trial


def lines_of(memory):
    """What lines 3 and 40 hold."""
    return memory.read(0, 3).data, memory.read(0, 40).data


def test_each_cut_of_recovery():
    """Power is cut in the update and then, at each step, in the recovery. A second recovery gives what one without a cut gives."""
    memory = memory_with(OLD)
    for trial in pmem.each_cut(memory, recover=False):
        with trial as copy:
            update(copy)
        if trial.is_cut:
            with copy.copy() as uncut:
                uncut.on()
                recovered = lines_of(uncut)
            for second in pmem.each_cut(copy):
                with second as again:
                    again.on()
                assert lines_of(again) == recovered, (trial, second)


if __name__ == "__main__":
    test_no_line_is_torn()
    test_each_cut_of_recovery()
    print("an update of two lines takes", pmem.persist_steps(memory_with(OLD), update), "steps")

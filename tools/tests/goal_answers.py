"""Right and wrong answers to the lessons' questions and to the exercises: what a teacher would accept, and what not. The verdicts
are a person's, none is taken from the grader."""
from typing import Callable, List, NamedTuple

A, B, C = "11" * 64, "22" * 64, "33" * 64
OLD, NEW = "77" * 64, "88" * 64
FF = "ff" * 64
ZERO = "00" * 64
# The cipher of line 0 under 0.1 for 64 bytes of 11.
CIPHER = ("6b9789124092df8154659d8be39449eb9b55dc706bb5c9fd6e4b39f4925bc396"
          "22a3d1bcfafaacf8e257f680349277b489e3832bb6f3b8418874e2b6fc356bf1")


class Answer(NamedTuple):
    """A trace for a task: whether it is right, and why (or what a wrong one lacks)."""

    task: str
    is_right: bool
    why: str
    trace: str


def lines(*commands: str) -> str:
    """A trace of commands, separated by commas."""
    return "\n".join(word.strip() for command in commands for word in command.split(",")) + "\n"


W200 = f"post 0 200 {A}, drain 0"
REPLACED = f"post 0 5 {OLD}, drain 0, snap, post 0 5 {NEW}, drain 0"
KEPT = f"post 0 0 {A}, cut 4, drain 0"
TWICE = f"post 0 0 {A}, drain 0, post 0 0 {B}, drain 0, off, on, read 0 0"
OVERFLOW = ", ".join([", ".join(["part 0 0 0 11"] * 16 + ["fence 0"])] * 8)
FLIPS = f"post 0 5 {OLD}, drain 0, flip 5 0, flip 5 8, read 0 5"
MOVED = "00" * 15 + "02" + "00" * 48
CLASH = f"snap, post 0 0 {A}, drain 0, off, on, peek 1285, poke 1285 {MOVED}, back 0, back 1024, read 0 0"


def recovered(*steps: int) -> str:
    """A kept write, recoveries cut after these steps, and one that isn't."""
    return lines(KEPT, *(f"cut {step}, on" for step in steps), "on, read 0 0")


def commit(steps: int, *places: int) -> str:
    """A transaction of some lines, cut after these steps."""
    return lines("begin", *(f"put {place} {value}" for place, value in zip(places, (A, B, C))), f"cut {steps}, commit, on")


def lost_and_kept(entry: str, length: str, end: str) -> str:
    """Lesson 14: how the entry and the length are stored, and the reads."""
    return lines(f"part 0 64 0 656e, {entry}, part 0 0 0 01, {length}, on, {end}")


ANSWERS: List[Answer] = []


def add(task: str) -> Callable[[bool, str, str], None]:
    """What adds answers to a task."""
    return lambda is_right, why, trace: ANSWERS.append(Answer(task, is_right, why, trace))


def add_steps() -> None:
    """The first steps."""
    it = add("first-1")
    two = f"post 0 5 {A}, post 1 70 {B}"
    end = "off, on, read 0 5, read 0 70"
    it(True, "two drains, the reads in another order", lines(f"post 1 70 {B}, post 0 5 {A}, drain 0, drain 1, off, on, read 3 70, read 3 5"))
    it(True, "each drained at once", lines(f"post 0 5 {A}, drain 0, post 1 70 {B}, fence 1, {end}"))
    it(False, "one port's fence", lines(two, "fence 0", end))
    it(False, "no fence", lines(two, end))
    it(False, "power stays on", lines(two, "read 0 5, read 1 70"))
    it(False, "one port for both", lines(f"post 0 5 {A}, post 0 70 {B}, fence 0", end))
    it = add("first-2")
    pad = "".join(f"{value ^ 0x11:02x}" for value in bytes.fromhex(CIPHER))
    it(True, "fence", lines(f"post 3 0 {pad}, fence 3, peek 0"))
    it(True, "the weak suite, whose pad of line 0 under 0.1 is 01 to 40", "# pmem: run --suite weak\n"
       + lines(f"post 0 0 {''.join(f'{value:02x}' for value in range(1, 65))}, drain 0, peek 0"))
    it(False, "the cipher itself is written", lines(f"post 0 0 {CIPHER}, drain 0, peek 0"))
    it(False, "zeros are written", lines(f"post 0 0 {ZERO}, drain 0, peek 0"))
    it(False, "the second write", lines(f"post 0 0 {A}, drain 0, post 0 0 {pad}, drain 0, peek 0"))
    it(False, "zeros put there by the attacker", lines(f"post 0 0 {pad}, drain 0, poke 0 {ZERO}, peek 0"))
    it = add("first-3")
    both = f"post 0 5 {A}, drain 0, post 0 6 {B}, drain 0"
    it(True, "the tag's last bit, line 5 read first", lines(both, "flip 1025 383, read 0 5, read 0 6"))
    it(True, "one fence", lines(f"post 0 6 {B}, post 0 5 {A}, fence 0, flip 1025 300, read 0 6, read 0 5"))
    it(False, "the tag of line 5", lines(both, "flip 1025 128, read 0 6, read 0 5"))
    it(False, "line 6 itself", lines(both, "flip 6 0, read 0 6, read 0 5"))
    it(False, "the tag of line 7", lines(both, "flip 1025 384, read 0 6, read 0 5"))
    it(False, "line 5 isn't read", lines(both, "flip 1025 256, read 0 6"))
    it = add("first-4")
    thrice = f"post 0 0 {A}, post 0 0 {B}, post 0 0 {C}"
    it(True, "three drains", lines(thrice, "drain 0, drain 0, drain 0, off, on, peek 1285"))
    it(True, "another page's line too", lines(thrice, f"post 0 70 {A}, fence 0, off, on, peek 1285"))
    it(False, "twice", lines(f"post 0 0 {A}, post 0 0 {B}, fence 0, off, on, peek 1285"))
    it(False, "line 1 too", lines(thrice, f"post 0 1 {A}, fence 0, off, on, peek 1285"))
    it(False, "power stays on", lines(thrice, "fence 0, peek 1285"))
    it(False, "the attacker writes the block", lines(f"post 0 0 {A}, drain 0, off, on, poke 1285 {'00' * 8}06{'00' * 55}, peek 1285"))


def add_first() -> None:
    """Lessons 0 to 5."""
    it = add("lesson-0")
    it(True, "off and on bring both to their places", lines(W200, "peek 1074, off, on, peek 1288"))
    it(True, "the block before the tag", lines(W200, "flush, flush, flush, peek 1288, peek 1074"))
    it(True, "fence", lines(f"post 0 200 {A}, fence 0, peek 1074, flush, flush, flush, peek 1288"))
    it(True, "part", lines("part 0 200 0 41, drain 0, peek 1074, flush, flush, flush, peek 1288"))
    it(True, "stop-loss number 1", lines(f"loss 1, {W200}, peek 1074, peek 1288"))
    it(True, "port 1, with a leading zero and a comment", f"# mine\npost 1 0200 {A}\ndrain 1\npeek 1074\nflush\nflush\nflush\npeek 1288\n")
    it(True, "an option of one's own", "# pmem: run --ways 4\n" + lines(W200, "peek 1074, off, on, peek 1288"))
    it(False, "nothing is drained", lines(f"post 0 200 {A}, peek 1074, peek 1288"))
    it(False, "the tag alone", lines(W200, "peek 1074"))
    it(False, "the block is still zeros", lines(W200, "peek 1074, peek 1288"))
    it(False, "line 199", lines(f"post 0 199 {A}, drain 0, peek 1073, off, on, peek 1288"))
    it(False, "shown before the write", lines(f"peek 1074, peek 1288, {W200}"))
    it(False, "other levels, in which these lines are data lines", "# pmem: run --levels 3\n" + lines(W200, "peek 1074, peek 1288"))
    it = add("lesson-1")
    it(True, "fence", lines(f"post 0 0 {A}, fence 0, post 0 0 {B}, cut 3, fence 0, on, read 0 0"))
    it(True, "another line of the page", lines(f"post 0 0 {A}, drain 0, post 0 1 {B}, cut 3, drain 0, on, read 0 1"))
    it(False, "the first write of another page", lines(f"post 0 0 {A}, drain 0, post 0 64 {B}, cut 3, drain 0, on, read 0 64"))
    it(False, "two steps", lines(f"post 0 0 {A}, drain 0, post 0 0 {B}, cut 2, drain 0, on, read 0 0"))
    it(False, "no read", lines(f"post 0 0 {A}, drain 0, post 0 0 {B}, cut 3, drain 0, on"))
    it(False, "power stays off", lines(f"post 0 0 {A}, drain 0, post 0 0 {B}, cut 3, drain 0, read 0 0"))
    it = add("lesson-2")
    it(True, "a read before", lines(f"post 0 0 {A}, drain 0, read 0 0, post 0 0 {B}, cut 1, drain 0, on, read 0 0"))
    it(True, "none", lines(f"post 0 0 {A}, drain 0, post 0 0 {B}, cut 1, drain 0, on, read 0 0"))
    it(True, "another line of the page", lines(f"post 0 0 {A}, drain 0, post 0 1 {B}, cut 1, drain 0, on, read 0 1"))
    it(True, "the second of a fence", lines(f"post 0 0 {A}, post 0 1 {B}, cut 8, fence 0, on, read 0 1"))
    it(True, "other levels", "# pmem: run --levels 1\n" + lines(f"post 0 0 {A}, drain 0, post 0 0 {B}, cut 1, fence 0, on, read 0 0"))
    it(False, "lost", lines(f"post 0 0 {A}, drain 0, post 0 0 {B}, cut 0, drain 0, on, read 0 0"))
    it(False, "kept, and not by the first cut", lines(f"post 0 0 {A}, drain 0, post 0 0 {B}, cut 2, drain 0, on, read 0 0"))
    it(False, "the first write of its page", lines(f"post 0 0 {A}, cut 4, drain 0, on, read 0 0"))
    it(False, "zeros are written", lines(f"post 0 0 {A}, drain 0, post 0 0 {ZERO}, cut 1, drain 0, on, read 0 0"))
    it = add("lesson-3")
    it(True, "one step each time at the end", recovered(2, 2, 3, 1, 1, 1, 1))
    it(True, "two, two, three, three, and whole", recovered(2, 2, 3, 3))
    it(True, "fence", recovered(2, 2, 2, 3).replace("drain", "fence"))
    it(False, "two again and again, and then whole", recovered(2, 2, 2, 2, 2))
    it(False, "three only", recovered(3, 3))
    it(False, "no end", lines(KEPT, "cut 2, on, cut 2, on, cut 3, on"))
    it = add("lesson-4")
    end = f"back 5, back 1025, poke 1285 {FF}, read 0 6, read 0 5"
    it(True, "the reads in another order", lines(REPLACED, end))
    it(True, "the block first", lines(REPLACED, f"poke 1285 {FF}, back 5, read 0 5, read 0 6"))
    it(False, "line 5 is written again before it", lines(REPLACED, f"back 5, read 0 5, post 0 5 {C}, drain 0, poke 1285 {FF}, read 0 5, read 0 6"))
    it(False, "power goes off", lines(REPLACED, f"off, {end}"))
    it(False, "line 6 isn't read", lines(REPLACED, f"back 5, back 1025, poke 1285 {FF}, read 0 5"))
    it(False, "another page's block", lines(REPLACED, end.replace("1285", "1286")))
    it = add("lesson-5")
    it(True, "the tag before the line", lines(REPLACED, "off, back 1025, back 5, on"))
    it(True, "a read after it", lines(REPLACED, "off, back 5, back 1025, on, read 0 5"))
    it(True, "power fails in the next write", lines(REPLACED, f"post 0 70 {A}, cut 0, drain 0, back 5, back 1025, on"))
    it(False, "one line alone", lines(REPLACED, "off, back 5, on"))
    it(False, "three lines", lines(REPLACED, "off, back 5, back 1025, back 1285, on"))
    it(False, "power stays on", lines(REPLACED, "back 5, back 1025, on"))
    it(False, "no snapshot", lines(f"post 0 5 {OLD}, drain 0, off, back 5, back 1025, on"))


def add_second() -> None:
    """Lessons 6 to 15."""
    it = add("lesson-6")
    it(True, "by the command", lines("loss 1", TWICE))
    it(True, "by the option", "# pmem: run --loss 1\n" + lines(TWICE))
    it(True, "by the option with =", "# pmem: run --loss=1\n" + lines(TWICE.replace("drain", "fence")))
    it(False, "nothing is chosen", lines(TWICE))
    it(False, "number 2", lines("loss 2", TWICE))
    it(False, "nothing is written", lines("loss 1, off, on"))
    it = add("lesson-7")
    it(True, "before its turn", lines(OVERFLOW, f"turn, turn, post 0 3 {A}, drain 0, turn, read 0 3"))
    it(True, "earlier still, by fence and part", lines(OVERFLOW, "turn, part 0 3 0 aa, fence 0, turn, turn"))
    it(False, "after its turn", lines(OVERFLOW, f"turn, turn, turn, post 0 3 {A}, drain 0, turn"))
    it(False, "line 5", lines(OVERFLOW, f"turn, turn, post 0 5 {A}, drain 0, turn"))
    it(False, "no turn after it", lines(OVERFLOW, f"turn, turn, post 0 3 {A}, drain 0"))
    it(False, "no overflow", lines(f"post 0 3 {A}, drain 0, turn"))
    it = add("lesson-8")
    it(True, "no option", "# pmem: run\n" + lines(FLIPS))
    it(True, "the suite's name", "# pmem: run --suite aes\n" + lines(FLIPS))
    it(False, "the weak suite", lines(FLIPS))
    it(False, "blur", "# pmem: run --suite blur\n" + lines(FLIPS))
    it(False, "other flips", "# pmem: run\n" + lines(FLIPS.replace("flip 5 8", "flip 5 1")))
    it(False, "one flip", "# pmem: run\n" + lines(FLIPS.replace("flip 5 8, ", "")))
    it = add("lesson-9")
    it(True, "loss 1", lines(f"loss 1, post 0 0 {A}, drain 0, off, on, read 0 0"))
    it(True, "the option, and no read", "# pmem: run --suite blur --loss 1\n" + lines(f"post 0 0 {A}, fence 0, off, on"))
    it(False, "another suite", "# pmem: run --loss 1\n" + lines(f"post 0 0 {A}, drain 0, off, on"))
    it(False, "loss 2", lines(f"loss 2, post 0 0 {A}, drain 0, off, on"))
    it(False, "nothing is written", lines("loss 1, off, on"))
    it = add("lesson-10")
    it(True, "another order", "# pmem: run\n" + lines(CLASH))
    it(True, "the suite's name, and the block first", "# pmem: run --suite aes\n" + lines(CLASH.replace(", read 0 0", ", read 3 0")))
    it(False, "the weak suite", lines(CLASH))
    it(False, "the block is cached", "# pmem: run\n" + lines(CLASH.replace("off, on, ", "")))
    it = add("lesson-11")
    it(True, "line 5", lines(f"cut 14, write 5 {A}, on, place 1021"))
    it(True, "looked at before as well, and read", lines(f"place 1021, cut 14, write 0 {A}, on, read 0, place 1021, place 0"))
    it(False, "no cut", lines(f"write 0 {A}, place 1021"))
    it(False, "one step less", lines(f"cut 13, write 0 {A}, on, place 1021"))
    it(False, "one step more", lines(f"cut 15, write 0 {A}, on, place 1021"))
    it(False, "a second write", lines(f"write 1 {A}, cut 14, write 0 {A}, on, place 1021"))
    it = add("lesson-12")
    two = f"begin, put 0 {A}, put 1 {B}"
    it(True, "cut 28", lines(two, "cut 28, commit, on, read 0, read 1"))
    it(True, "the reads in another order", lines(two, "cut 28, commit, on, read 1, read 0"))
    it(False, "recovery writes them", lines(two, "cut 12, commit, on, read 0, read 1"))
    it(False, "no cut", lines(two, "commit, read 0, read 1"))
    it(False, "one line", lines(f"begin, put 0 {A}, cut 18, commit, on, read 0"))
    it = add("lesson-13")
    again = f"write 5 {A}, snap, write 5 {B}"
    it(True, "the tag before the line", lines(again, "off, back 69, back 5, on, read 5"))
    it(True, "power fails in another write", lines(again, f"cut 1, write 6 {C}, back 5, back 69, on, read 6, read 5"))
    it(False, "new lines are put back", lines(f"write 5 {A}, write 5 {B}, snap, off, back 69, back 5, on, read 5"))
    it(False, "the line alone", lines(again, "off, back 5, on, read 5"))
    it(False, "power stays on", lines(again, "back 69, back 5, read 5"))
    it = add("lesson-14")
    cut, both = "cut 0, fence 0", "read 0 0, read 0 64"
    it(True, "drain first", lost_and_kept("drain 0", cut, both))
    it(True, "drain second", lost_and_kept("fence 0", "cut 0, drain 0", both))
    it(True, "the reads in another order", lost_and_kept("fence 0", cut, "read 0 64, read 0 0"))
    it(True, "post", lines(f"post 0 64 {A}, fence 0, post 0 0 {B}, cut 0, fence 0, on, {both}"))
    it(True, "power goes off while the length waits", lost_and_kept("fence 0", "off", both))
    it(False, "no fence", lost_and_kept("read 0 64", "cut 9, fence 0", both))
    it(False, "the length is kept", lost_and_kept("fence 0", "cut 9, fence 0", both))
    it(False, "the length first", lines(f"part 0 0 0 01, fence 0, part 0 64 0 65, {cut}, on, {both}"))
    it = add("lesson-15")
    twice = f"post 0 0 {A}, drain 0, post 0 0 {B}, drain 0"
    it(True, "tables in words, and fences", "# pmem: run --persist 1 --shadow on\n" + lines(twice.replace("drain", "fence"), "off, on"))
    it(True, "a cut in a third write", "# pmem: run --persist=1\n" + lines(twice, f"post 0 64 {C}, cut 4, drain 0, on, read 0 0"))
    it(True, "parts, and another page of the same node too", "# pmem: run --persist 1\n"
       + lines(f"part 0 0 0 aa, drain 0, post 1 200 {C}, drain 1, part 0 0 1 bb, drain 0, off, on"))
    it(True, "durable queues too", "# pmem: run --persist 1 --queue durable\n" + lines(twice, "off, on"))
    it(False, "strict persistence", "# pmem: run --persist 3 --shadow off\n" + lines(twice, "off, on"))
    it(False, "Triad-NVM", "# pmem: run --persist 2 --shadow off\n" + lines(twice, "off, on"))
    it(False, "the tree is rebuilt", "# pmem: run --persist 1 --shadow off\n" + lines(twice, "off, on"))
    it(False, "Osiris with tables", "# pmem: run\n" + lines(twice, "off, on"))
    it(False, "the stop-loss number 1, whose counters are tried once", "# pmem: run --loss 1\n" + lines(twice, "off, on"))
    it(False, "a recovery with trials before", "# pmem: run --loss 1\n" + lines(twice, f"off, on, post 0 64 {C}, cut 2, drain 0, on"))
    it(False, "power stays on", "# pmem: run --persist 1\n" + lines(twice, "read 0 0"))
    it(False, "one write", "# pmem: run --persist 1\n" + lines(f"post 0 0 {A}, drain 0, off, on"))
    it(False, "levels that change the bounds", "# pmem: run --levels 1 --persist 1\n" + lines(twice, "off, on"))


def add_exercises() -> None:
    """The exercises."""
    it = add("exercise-1")
    p0, p1, p2 = f"post 0 0 {A}", f"post 0 64 {B}", f"post 1 128 {C}"
    reads = "read 0 0, read 0 64, read 0 128"
    it(True, "two ports", lines(p0, "drain 0", p1, p2, "drain 1, off, on", reads))
    it(True, "the reads in another order", lines(p0, "drain 0", p1, p2, "drain 1, off, on, read 0 64, read 0 0, read 0 128"))
    it(True, "one fence, and off", lines(p0.replace("post 0", "post 1"), p1, p2, "fence 1, off, on", reads))
    it(True, "the cut falls into the second", lines(p0, "fence 0", p1, "cut 0, drain 0, on", p2, "drain 1", reads))
    it(False, "no power cut: the second waits at another port",
       lines(p0, p1.replace("post 0", "post 1"), p2.replace("post 1", "post 0"), "fence 0", reads))
    it(False, "nothing is drained, and each is read before the next", lines(p0, "read 0 0", p1, "read 1 64", p2, "read 1 128"))
    it(False, "zeros are written", lines(p0, "drain 0", p1.replace(B, ZERO), "drain 0, off, on", p2, "drain 1", reads))
    it(False, "all are lost", lines(p0, p1, p2, "off, on", reads))
    it(False, "tampered with", lines(p0, "drain 0", p1, "flip 5 0", p2, "drain 1, off, on", reads))
    it(False, "a fourth write", lines(p0, "drain 0", p1, "drain 0", f"post 0 64 {ZERO}, drain 0", p2, "drain 1, off, on", reads))
    it = add("exercise-2")
    reads = "read 0, read 64, read 128"
    it(True, "lost first", commit(15, 0, 64, 128) + commit(16, 0, 64, 128) + lines(reads))
    it(True, "the reads in another order", commit(15, 0, 64, 128) + commit(16, 64, 0, 128) + lines("read 128, read 64, read 0"))
    it(False, "kept first: the second needs fewer steps then", commit(16, 0, 64, 128) + commit(15, 0, 64, 128) + lines("read 128, read 64, read 0"))
    it(False, "other lines", commit(15, 0, 1, 2) + commit(16, 0, 64, 128) + lines(reads))
    it(False, "two steps apart", commit(14, 0, 64, 128) + commit(16, 0, 64, 128) + lines(reads))
    it(False, "lost alone", commit(15, 0, 64, 128) + lines(reads))
    it(False, "two lines each", commit(11, 0, 64) + commit(12, 0, 64) + lines("read 0, read 64"))
    it = add("exercise-3")
    old = f"post 0 5 {OLD}, drain 0, peek 5, snap, post 0 5 {NEW}, drain 0, back 5"
    it(True, "fence", lines(old.replace("drain", "fence"), "back 1025, flip 1025 248, flip 1025 249, read 0 5"))
    it(True, "the flips in another order", lines(old, "back 1025, flip 1025 249, flip 1025 248, read 0 5"))
    it(False, "the line alone", lines(old, "read 0 5"))
    it(False, "a changed cipher, and not the old one",
       lines(f"post 0 5 {OLD}, drain 0, peek 5, post 0 5 {NEW}, drain 0, flip 5 0, flip 5 8, read 0 5"))
    it(False, "the suite that is meant for use", "# pmem: run\n" + lines(old, "back 1025, flip 1025 248, flip 1025 249, read 0 5"))
    it = add("exercise-4")
    it(True, "none, one and two", recovered(0, 1, 2))
    it(True, "fence", recovered(0, 2, 5).replace("drain", "fence"))
    it(False, "two of them alike", recovered(1, 2, 1))
    it(False, "two recoveries", recovered(1, 2))
    it(False, "the last is cut too", lines(KEPT, "cut 0, on, cut 1, on, cut 2, on, read 0 0"))
    it = add("exercise-5")
    bit = f"post 0 0 {A}, drain 0, off, flip 0 0, on, flip 0 0, on, read 0 0"
    it(True, "a bit of the line", lines(bit))
    it(True, "fence", lines(bit.replace("drain", "fence")))
    it(True, "a bit of the tag", lines(bit.replace("flip 0 0", "flip 1024 0")))
    it(True, "part", lines(bit.replace(f"post 0 0 {A}", "part 0 0 0 11")))
    it(False, "never flipped back", lines(bit.replace("on, flip 0 0, on", "on, on")))
    it(False, "another bit is flipped", lines(bit.replace("on, flip 0 0", "on, flip 0 1")))
    it(True, "a bit of the page's major counter", lines(bit.replace("flip 0 0", "flip 1285 0")))
    it(False, "a bit of the tree, which recovery makes again", lines(bit.replace("flip 0 0", "flip 1281 0")))
    it = add("exercise-6")
    erased = f"post 0 5 {OLD}, drain 0, off, poke 1302 {ZERO}, poke 1301 {ZERO}, on, read 0 5"
    it(True, "the second line first", "# pmem: run --persist 3\n" + lines(erased))
    it(True, "fence, and port 1", "# pmem: run --persist 3 --shadow on\n" + lines(erased.replace("post 0", "post 1").replace("drain 0", "fence 1")))
    it(True, "another suite", "# pmem: run --persist 3 --suite weak\n" + lines(erased))
    it(False, "the default", "# pmem: run\n" + lines(erased))
    it(False, "the top is still lazy", "# pmem: run --persist 2\n" + lines(erased))
    it(False, "there are no tables", "# pmem: run --persist 3 --shadow off\n" + lines(erased))
    it(False, "flushed", "# pmem: run\n" + lines(erased.replace("off,", "flush, flush, flush, off,")))
    it(False, "recovered before", "# pmem: run\n" + lines(erased.replace("off,", "off, on, off,", 1)))
    it(False, "one line is erased", "# pmem: run --persist 3\n" + lines(erased.replace(f"poke 1302 {ZERO}, ", "")))
    it(False, "power is on", "# pmem: run --persist 3\n" + lines(erased.replace("off, ", "").replace("on, ", "off, on, ")))
    it(False, "zeros are written", "# pmem: run --persist 3\n" + lines(erased.replace(OLD, ZERO)))
    it(False, "other tables", "# pmem: run --persist 3 --sets 64 --ways 8\n" + lines(erased))


add_steps()
add_first()
add_second()
add_exercises()

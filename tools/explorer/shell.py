"""`explore shell`: a session over the program, in which a trace grows command by command and each can be taken back."""
import importlib
import shlex
import sys
from typing import Callable, Dict, Iterable, List, Optional, Tuple

from .errors import DONE, FAILURE, ExploreError
from .layout import layout_of
from .output import write_file
from .processes import INTERRUPTS, end_all
from .program import Recording, StopLine, text_of
from .settings import Settings
from .steps import trace_steps
from .stops import line_text
from .together import Together
from .trace import commands_of, read_bytes, short_text, shown_line, trace_of
from .traced import Traced

PROMPT = "pmem> "
HELP = """\
A line is a command of the machine (docs/FORMATS.md, WEAR.md, TXN.md, TREE_MACHINE.md), or one of these words:
  cut here [N]      repeats the last command, with power cut after N of its steps, or before the step of a break
  undo [N], redo    takes back the last N commands, or what `cut here` or `load` did; does it again
  break LINE        stops at a command that writes a device line; without LINE: shows all; `break off` removes them
  load FILE         runs the commands of a trace, up to a break; `go` continues
  show LINE         shows a device line's 64 bytes
  list, save FILE   shows the trace so far; writes it to a file, whole or not at all
  steps on|off      whether each command's persist steps are looked for (on)
  help, quit        shows this; ends the session, as Ctrl-D does
A LINE is a device line's number, or: data A, tag A (of data line A), counter PAGE, node X, shadow counters N,
shadow nodes N; for tree: data A, tag A, node X, slot N. A wrong line is reported and changes nothing."""


class Session:
    """A trace that grows. `lines` are its lines so far; everything shown of it comes from runs of the program on them."""

    def __init__(self, together: Together, settings: Settings, say: Callable[[str], None]) -> None:
        self.together = together
        self.settings = settings
        self.layout = layout_of(settings)
        self.say = say
        self.lines: Tuple[bytes, ...] = ()
        self.before: List[Tuple[bytes, ...]] = []
        self.after: List[Tuple[bytes, ...]] = []
        self.breaks: Dict[int, str] = {}
        self.waiting: Tuple[bytes, ...] = ()
        self.stopped: Optional[int] = None
        self.with_steps = True
        self.words: Dict[str, Callable[[List[str]], None]] = {
            "undo": self.undo, "redo": self.redo, "break": self.set_break, "load": self.load, "go": self.go,
            "show": self.show, "list": self.list, "save": self.save, "steps": self.set_steps, "help": self.help}

    def do(self, line: str) -> None:
        """Does what a line says."""
        words = line.split()
        if not words:
            return
        if words[:2] == ["cut", "here"]:
            self.cut_here(words[2:])
        elif words[0] in self.words:
            self.words[words[0]](shlex.split(line)[1:] if words[0] in ("load", "save") else words[1:])
        else:
            self.add((line.encode("utf-8", "surrogateescape"),))

    def recording(self, lines: Tuple[bytes, ...]) -> Recording:
        """The run of a trace of these lines."""
        trace = trace_of("the session", text_of(lines))
        try:
            self.together.program.run(trace.data, self.settings)
        except StopLine as stop:
            line = trace.line(stop.number)
            raise ExploreError(line_text(stop.kind, line.decode("ascii", "replace"), shown_line(line))) from stop
        recording = Recording(self.together.program, self.settings, trace)
        if recording.ends_in_exhibit and len(recording.replies) < len(recording.commands):
            raise ExploreError("the run ended with the exhibit, which proves that a cipher was broken; `undo` takes its command back")
        return recording

    def add(self, lines: Tuple[bytes, ...]) -> None:
        """Goes on with these lines, up to a break."""
        recording = self.recording(self.lines + lines)
        first = len(self.lines) + 1
        traced = self.traced(recording, range(first, first + len(lines)))
        at, stopped = self.break_in(traced)
        if at is not None:
            self.waiting = lines[at - first + 1:]
            lines = lines[:at - first + 1]
            traced = [each for each in traced if each.command.number <= at]
        self.change(self.lines + lines)
        self.stopped = stopped
        for each in traced:
            self.tell(each, stopped if each.command.number == at else None)

    def traced(self, recording: Recording, numbers: range) -> List[Traced]:
        """The commands on these lines with what became of them, and with their steps if those are asked for."""
        if self.with_steps or self.breaks:
            return trace_steps(recording, self.together, numbers)
        return [Traced(command, reply, ()) for command, reply in zip(recording.commands, recording.replies)
                if command.number in numbers]

    def break_in(self, traced: Iterable[Traced]) -> Tuple[Optional[int], Optional[int]]:
        """The first command that writes a line with a break: its line, and how many of its steps come before."""
        for each in traced:
            for before, step in enumerate(each.steps):
                if step.place is not None and step.place.line in self.breaks:
                    return each.command.number, before
        return None, None

    def change(self, lines: Tuple[bytes, ...]) -> None:
        """Makes these lines the trace; `undo` takes that back."""
        self.before.append(self.lines)
        self.after.clear()
        self.lines = lines
        self.stopped = None

    def tell(self, traced: Traced, stopped: Optional[int] = None) -> None:
        """Tells a command that was done, and behind how many of its steps a break stands."""
        self.say(f"{traced.command.number}  {traced.command.short}")
        for text in traced.reply.lines:
            self.say(f"    > {short_text(text)}")
        if not self.with_steps:
            return
        for number, step in enumerate(traced.steps, 1):
            mark = "   <- break: `cut here` cuts power before it" if number - 1 == stopped else ""
            self.say(f"      step {number}  {step.text}{mark}")

    def cut_here(self, words: List[str]) -> None:
        """The last command again, with a cut."""
        if not self.lines:
            raise ExploreError("there is no command yet to cut")
        number = number_in(words) if words else self.stopped
        if number is None:
            raise ExploreError("cut here N: after how many of the last command's steps?")
        recording = self.recording(self.lines)
        last = len(recording.commands) - 1
        traced = trace_steps(recording, self.together, range(len(self.lines), len(self.lines) + 1))
        total = len(traced[0].steps) if traced else 0
        if traced and traced[0].reply.is_cut:
            raise ExploreError("the last command was cut already; `undo` takes that back")
        if number >= total:
            raise ExploreError(f"the last command, {recording.commands[last].short if traced else 'a comment'}, took {total} steps")
        lines = self.lines[:-1] + (b"cut %d" % number, self.lines[-1])
        recording = self.recording(lines)
        found = self.traced(recording, range(len(lines) - 1, len(lines) + 1))
        self.change(lines)
        for each in found:
            self.tell(each)

    def undo(self, words: List[str]) -> None:
        """Takes back what was done last."""
        for _ in range(number_in(words) if words else 1):
            if not self.before:
                raise ExploreError("nothing is left to take back")
            self.after.append(self.lines)
            self.lines = self.before.pop()
        self.stopped = None
        self.tell_length()

    def redo(self, words: List[str]) -> None:
        """Does again what was taken back last."""
        no_more(words)
        if not self.after:
            raise ExploreError("nothing was taken back")
        self.before.append(self.lines)
        self.lines = self.after.pop()
        self.stopped = None
        self.tell_length()

    def tell_length(self) -> None:
        """Shows how far the trace is."""
        commands = commands_of(text_of(self.lines))
        self.say(f"{len(self.lines)} lines" + (f", the last: {commands[-1].short}" if commands else ""))

    def set_break(self, words: List[str]) -> None:
        """Sets a break, takes them all away, or lists them."""
        if words == ["off"]:
            self.breaks.clear()
        elif words:
            line = self.line_named(words)
            self.breaks[line] = self.layout.place(line).name
        for line, name in sorted(self.breaks.items()):
            self.say(f"a break at line {line}: {name}")
        if not self.breaks:
            self.say("no breaks")

    def line_named(self, words: List[str]) -> int:
        """The device line of these words."""
        layout = self.layout
        kinds = {**layout.named(), "tag": (0, layout.data_lines), "": (0, layout.size)}
        kind = " ".join(words[:-1])
        if kind not in kinds or not words:
            raise ExploreError(f"no such line: {' '.join(words)}; `help` has their names")
        number = number_in(words[-1:])
        start, count = kinds[kind]
        if number >= count:
            raise ExploreError(f"no such line: {' '.join(words)}; the last is {count - 1}")
        return layout.tag_line(number) if kind == "tag" else start + number

    def show(self, words: List[str]) -> None:
        """Shows a device line."""
        if not self.settings.machine.has_counts:
            raise ExploreError(f"pmem {self.settings.machine_name} does not show its device")
        line = self.line_named(words)
        recording = self.recording(self.lines)
        if recording.ends_in_exhibit:
            raise ExploreError("the run ended with the exhibit; `undo` takes its command back")
        bytes_text = recording.ask(len(recording.commands), [b"peek %d" % line])[0].answer.split(" ")[-1]
        self.say(f"line {line}: {self.layout.place(line).name}")
        for start in range(0, 128, 32):
            pairs = [bytes_text[at:at + 2] for at in range(start, start + 32, 2)]
            self.say(f"  {start // 2:2}  {' '.join(pairs[:8])}  {' '.join(pairs[8:])}")

    def load(self, words: List[str]) -> None:
        """Goes on with the lines of a file."""
        if len(words) != 1:
            raise ExploreError("load FILE: which file?")
        data = read_bytes(words[0])
        lines = data.split(b"\n")
        self.add(tuple(lines[:-1] if lines[-1] == b"" else lines))

    def go(self, words: List[str]) -> None:
        """Goes on behind a break."""
        no_more(words)
        lines, self.waiting = self.waiting, ()
        if not lines:
            raise ExploreError("nothing waits behind a break")
        self.add(lines)

    def list(self, words: List[str]) -> None:
        """Shows the trace so far."""
        no_more(words)
        for number, line in enumerate(self.lines, 1):
            self.say(f"{number}  {shown_line(line)}")

    def save(self, words: List[str]) -> None:
        """Writes the trace so far."""
        if len(words) != 1:
            raise ExploreError("save FILE: which file?")
        write_file(words[0], text_of(self.lines))
        self.say(f"{len(self.lines)} lines are in {words[0]}; ./pmem {' '.join(self.settings.words())} answers them")

    def set_steps(self, words: List[str]) -> None:
        """Whether steps are looked for."""
        if words not in (["on"], ["off"]):
            raise ExploreError("steps on, or steps off?")
        self.with_steps = words == ["on"]

    def help(self, words: List[str]) -> None:
        """Shows the words."""
        no_more(words)
        self.say(HELP)


def no_more(words: List[str]) -> None:
    """That a word stands alone."""
    if words:
        raise ExploreError(f"too many words: {shown_line(' '.join(words).encode('utf-8', 'replace'))}")


def number_in(words: List[str]) -> int:
    """The one number that these words are."""
    if len(words) != 1 or not (words[0].isascii() and words[0].isdigit() and len(words[0]) < 10):
        raise ExploreError(f"expected a number: {shown_line(' '.join(words).encode('utf-8', 'replace'))}")
    return int(words[0])


def say(text: str) -> None:
    """Prints a line at once."""
    sys.stdout.write(text + "\n")
    sys.stdout.flush()


def read_line(is_terminal: bool) -> Optional[str]:
    """The next line, or None at the end."""
    if is_terminal:
        try:
            return input(PROMPT)
        except EOFError:
            say("")
            return None
    data = sys.stdin.buffer.readline()
    return data.rstrip(b"\r\n").decode("utf-8", "surrogateescape") if data else None


def tried(session: Session, line: str) -> bool:
    """Does what a line says; answers whether that went well. An error is reported, and changes nothing."""
    try:
        session.do(line)
    except (ExploreError, ValueError, MemoryError) as error:
        end_all()
        sys.stderr.write(f"explore: {error or 'out of memory'}\n")
        sys.stderr.flush()
        return False
    return True


def run_session(together: Together, settings: Settings, begin: Optional[str] = None) -> int:
    """Reads lines from standard input and does what they say, after those of a trace if one is named; answers the
    exit status: a failure if a line was wrong and standard input is not a terminal."""
    is_terminal = sys.stdin.isatty()
    if is_terminal:
        try:
            importlib.import_module("readline")  # with it, lines can be edited and called back
        except ImportError:
            pass
        say(f"pmem {settings.machine_name}, {settings.text()}; `help` lists the words")
    session = Session(together, settings, say)
    all_well = True
    if begin is not None:
        session.load([begin])
    while True:
        try:
            line = read_line(is_terminal)
            if line is None or line.split() == ["quit"]:
                return DONE if all_well or is_terminal else FAILURE
            all_well &= tried(session, line)
        except KeyboardInterrupt:
            end_all()
            INTERRUPTS.forget()
            if not is_terminal:
                raise
            say("")

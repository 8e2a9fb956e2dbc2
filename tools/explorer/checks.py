"""Asks a command of the user's whether each recovered memory is all right: one process for each outcome, or one for many."""
import os
import shlex
import signal
import subprocess
import tempfile
import time
from collections import deque
from pathlib import Path
from typing import Deque, Dict, List, Optional, Protocol, Sequence

from .errors import CHECK_BROKEN, ExploreError, reason_of
from .processes import Channel, Orphans, new_selector, serve, start
from .together import Progress
from .trace import told_line
from .verdicts import Outcome, Verdict

# How often a process is looked at that has ended, while one that it started keeps its output open.
SECONDS_BETWEEN_LOOKS = 0.2
# What a shell answers when a command can't be run, or isn't there.
CANNOT_RUN = (126, 127)
OK = b"ok"


class Files(Protocol):
    """Who writes the two files of an outcome."""

    def write_files(self, outcome: Outcome, image: Path, lines: Path) -> None:
        """Writes the recovered memory, and a row for each line that was read."""


def verdict_of(status: int, said: bytes) -> Verdict:
    """The verdict of a check that ended so: status 0 is right, a signal or a status of a shell that found no command an error, and any
    other status wrong, with the last line as the reason."""
    last = told_line(said.strip().split(b"\n")[-1])
    if status < 0:
        return Verdict(False, f"the check was ended by signal {-status} ({signal_name(-status)})", True)
    if status in CANNOT_RUN:
        return Verdict(False, f"the check could not be run, status {status}" + (f": {last}" if last else ""), True)
    return Verdict(status == 0, last or f"status {status}")


def signal_name(number: int) -> str:
    """A signal's name."""
    try:
        return signal.Signals(number).name
    except ValueError:
        return "unknown"


def has_ended(process: "subprocess.Popen[bytes]") -> bool:
    """Whether a process has ended. It is left to be waited for, so that its group keeps its number."""
    if process.returncode is not None or not hasattr(os, "waitid"):  # as on macOS before Python 3.13
        return process.poll() is not None
    found = os.waitid(os.P_PID, process.pid, os.WEXITED | os.WNOHANG | os.WNOWAIT)
    return found is not None


def kill_group(process: "subprocess.Popen[bytes]") -> None:
    """Ends all that a process started in its group, also if it has ended itself but wasn't waited for yet."""
    if process.returncode is None:
        try:
            os.killpg(process.pid, signal.SIGKILL)
        except (ProcessLookupError, PermissionError):
            pass


class Asker:
    """A process that checks outcomes: one, or with `is_batch` one after the other, by a line for each. `asked` is the outcome that it
    is busy with."""

    def __init__(self, checks: "Checks", is_batch: bool) -> None:
        self.checks = checks
        self.is_batch = is_batch
        self.channel: Optional[Channel] = None
        self.asked: Optional[Outcome] = None
        self.last: Optional[Outcome] = None
        self.deadline: Optional[float] = None
        self.said = b""
        self.answers = 0
        self.is_over = False

    def ask(self, outcome: Outcome) -> None:
        """Asks about an outcome."""
        files = self.checks.files_for(outcome)
        self.asked = self.last = outcome
        self.deadline = None if self.checks.timeout is None else time.monotonic() + self.checks.timeout
        if not self.is_batch:
            self.start(files).send(b"", last=True)
        else:
            channel = self.channel or self.start([])
            channel.send("\t".join(files).encode() + b"\n")

    def start(self, files: Sequence[str]) -> Channel:
        """Starts a process."""
        words = [*self.checks.words, *files]
        try:
            process = start(words, with_errors=True)
        except (OSError, ValueError) as error:
            reason = reason_of(error) if isinstance(error, OSError) else str(error)
            raise ExploreError(f"cannot run {words[0]}: {reason}", CHECK_BROKEN) from error
        self.said, self.answers, self.is_over = b"", 0, False
        self.channel = Channel(self.checks.selector, process, self)
        return self.channel

    def told(self, channel: Channel, data: bytes) -> None:
        """What the process said: nothing (`b""`) at its end."""
        if channel is not self.channel:
            return
        self.said += data
        if not data:
            self.ended()
        elif self.is_batch and self.asked is not None and b"\n" in self.said:
            line, _, self.said = self.said.partition(b"\n")
            self.answer(Verdict(line.strip() == OK, "" if line.strip() == OK else told_line(line) or "it said nothing"))

    def answer(self, verdict: Verdict) -> None:
        """Notes the verdict of the outcome that it is busy with."""
        if self.asked is not None:
            self.checks.done(self.asked, verdict)
            self.asked = None
            self.answers += 1

    def ended(self) -> None:
        """Its output has ended: waits for it, and ends what it left behind."""
        assert self.channel is not None
        channel, self.channel = self.channel, None
        process = channel.process
        while not has_ended(process):
            if self.deadline is not None and time.monotonic() > self.deadline:
                break
            time.sleep(0.001)
        kill_group(process)
        status = channel.finish()
        if not self.is_batch:
            self.answer(verdict_of(status, self.said))
        elif self.asked is not None and self.answers:
            self.ask(self.asked)  # another process shows whether this outcome ended it
        elif self.asked is not None:
            reason = f"the check ended with status {status} before it answered" if status >= 0 else verdict_of(status, b"").reason
            self.answer(Verdict(False, reason, True))
        elif status and self.last is not None:
            self.last.verdict = Verdict(False, f"the check ended with status {status} after its last answer", True)

    def look(self) -> None:
        """Ends a process that takes too long, and one that has ended while its output is kept open."""
        if self.channel is None:
            return
        if self.deadline is not None and self.asked is not None and time.monotonic() > self.deadline:
            channel, self.channel = self.channel, None
            kill_group(channel.process)
            channel.close()
            self.answer(Verdict(False, f"the check took longer than {self.checks.timeout:g} s", True))
        elif has_ended(self.channel.process):
            kill_group(self.channel.process)
            if self.is_over:  # what left its group still keeps the output open
                self.ended()
            self.is_over = True

    def close(self) -> None:
        """Ends its process: one that checks many by the end of what it reads, but not after its deadline."""
        if self.channel is not None and self.is_batch:
            self.channel.send(b"", last=True)
            end = time.monotonic() + (self.checks.timeout or 60)
            while self.channel is not None and time.monotonic() < end:
                serve(self.checks.selector, SECONDS_BETWEEN_LOOKS)
                self.look()
        self.end()

    def end(self) -> None:
        """Ends its process at once."""
        if self.channel is not None:
            channel, self.channel = self.channel, None
            kill_group(channel.process)
            channel.close()


class Checks:
    """A command that is asked about outcomes. `timeout` is how many seconds it may take for each; `is_batch`: a process checks many."""

    def __init__(self, command: str, files: Files, jobs: int, timeout: Optional[float] = None, is_batch: bool = False) -> None:
        try:
            self.words = shlex.split(command)
        except ValueError as error:
            raise ExploreError(f"--check: {error}") from error
        if not self.words:
            raise ExploreError("--check names no command")
        self.files = files
        self.jobs = jobs
        self.timeout = timeout
        self.is_batch = is_batch
        self.count = 0

    def files_for(self, outcome: Outcome) -> List[str]:
        """Writes an outcome's files, and answers their names."""
        names = [Path(self.folder) / f"{outcome.number}.{kind}" for kind in ("memory", "lines")]
        self.files.write_files(outcome, *names)
        return [str(name) for name in names]

    def done(self, outcome: Outcome, verdict: Verdict) -> None:
        """Notes a verdict, and removes the outcome's files."""
        outcome.verdict = verdict
        self.count += 1
        for kind in ("memory", "lines"):
            (Path(self.folder) / f"{outcome.number}.{kind}").unlink()

    def check(self, outcomes: Sequence[Outcome], deadline: Optional[float] = None) -> None:
        """Asks about these outcomes; after the deadline about no further ones."""
        waiting: Deque[Outcome] = deque(outcomes)
        askers = [Asker(self, self.is_batch) for _ in range(min(self.jobs, max(1, len(waiting))))]
        progress = Progress("checks", len(waiting))
        total, self.count = len(waiting), 0
        with tempfile.TemporaryDirectory() as self.folder, new_selector() as self.selector, Orphans():
            try:
                while self.count < total:
                    for asker in askers:
                        if waiting and asker.asked is None and (deadline is None or time.monotonic() < deadline):
                            asker.ask(waiting.popleft())
                    if all(asker.asked is None for asker in askers):
                        break
                    serve(self.selector, SECONDS_BETWEEN_LOOKS)
                    for asker in askers:
                        asker.look()
                    progress.reach(self.count)
                for asker in askers:
                    asker.close()
            finally:
                progress.end()
                for asker in askers:
                    asker.end()


def reasons(outcomes: Sequence[Outcome]) -> Dict[str, int]:
    """How many of these outcomes couldn't be checked, by why not."""
    found: Dict[str, int] = {}
    for outcome in outcomes:
        if outcome.verdict is not None and outcome.verdict.is_error:
            found[outcome.verdict.reason] = found.get(outcome.verdict.reason, 0) + 1
    return found

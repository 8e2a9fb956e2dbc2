"""Processes that an interrupt ends, whenever it comes, and talk with several of them at once in one thread."""
import os
import selectors
import signal
import subprocess
import sys
import time
from collections import deque
from contextlib import contextmanager
from types import FrameType
from typing import Deque, Dict, Iterator, List, Optional, Protocol, Sequence, Set, Tuple

from .errors import INTERRUPTED

TOLD = b"explore: interrupted\n"
PIPE_BYTES = 1 << 20
SIGNALS = (signal.SIGINT, signal.SIGTERM, signal.SIGHUP)
SET_PIPE_SIZE = 1031  # Linux's F_SETPIPE_SZ
SET_SUBREAPER = 36  # Linux's PR_SET_CHILD_SUBREAPER


class Interrupts:
    """Ctrl-C: noted, and raised at once, but not during the start of a process, which would be left behind, and not again while
    the first one ends all. One that comes just before a wait for processes ends that wait too: `woken` can be read then."""

    def __init__(self) -> None:
        self.seen = False
        self.held = 0
        self.is_last = False
        self.woken: Optional[int] = None

    def listen(self) -> None:
        """Handles the signals that end a command."""
        self.woken, waking = os.pipe()
        for file in (self.woken, waking):
            os.set_blocking(file, False)
        signal.set_wakeup_fd(waking, warn_on_full_buffer=False)
        sys.unraisablehook = self.dropped
        for number in SIGNALS:
            signal.signal(number, self.handle)

    def dropped(self, raised: "sys.UnraisableHookArgs") -> None:
        """What was raised and Python drops. An interrupt isn't printed there, as the next check raises it."""
        if raised.exc_type is not KeyboardInterrupt:
            sys.__unraisablehook__(raised)

    def handle(self, _number: int, _frame: Optional[FrameType]) -> None:
        """The handler of the signals."""
        self.seen = True
        if self.is_last and not RUNNING:
            os.write(2, TOLD)
            os._exit(INTERRUPTED)
        if not self.held:
            raise KeyboardInterrupt

    @contextmanager
    def at_once(self) -> Iterator[None]:
        """Within it an interrupt ends the command at once: no process of it runs then, and during the callbacks of a library an
        exception could be lost."""
        self.is_last = True
        try:
            yield
        finally:
            self.is_last = False

    def check(self) -> None:
        """Raises an interrupt that came while they were held, or that Python dropped."""
        if self.seen and not self.held:
            raise KeyboardInterrupt

    def woke(self) -> None:
        """A signal ended a wait."""
        try:
            if self.woken is not None:
                os.read(self.woken, 512)
        except BlockingIOError:
            pass
        self.check()

    def ignore(self) -> None:
        """Leaves all further ones unheard: the command ends, and has its status."""
        self.held += 1
        if self.woken is not None:
            for number in SIGNALS:
                signal.signal(number, signal.SIG_IGN)

    def forget(self) -> None:
        """The one that came is dealt with, and the command goes on."""
        self.seen = False

    def __enter__(self) -> None:
        self.held += 1

    def __exit__(self, *_: object) -> None:
        self.held -= 1
        if not self.held:
            self.check()


RUNNING: Set["subprocess.Popen[bytes]"] = set()
INTERRUPTS = Interrupts()


def new_selector() -> selectors.BaseSelector:
    """What waits for several processes at once, and for an interrupt."""
    selector = selectors.DefaultSelector()
    if INTERRUPTS.woken is not None:
        selector.register(INTERRUPTS.woken, selectors.EVENT_READ)
    return selector


def serve(selector: selectors.BaseSelector, timeout: Optional[float] = None, rest: float = 0) -> None:
    """Waits until a process prints something or takes something, and serves it; that many seconds pass first, in which none
    needs it."""
    INTERRUPTS.check()
    if rest:
        time.sleep(rest)
    for key, events in selector.select(timeout):
        channel: Optional["Channel"] = key.data
        if channel is None:
            INTERRUPTS.woke()
        elif events & selectors.EVENT_WRITE:
            channel.write()
        else:
            data = channel.read()
            if data is not None:
                channel.owner.told(channel, data)


def start(command: Sequence[str], environment: Optional[Dict[str, str]] = None,
          with_errors: bool = False) -> "subprocess.Popen[bytes]":
    """Begins a process in its own process group, with pipes to and from it, its standard error in the output
    or apart."""
    with INTERRUPTS:
        process = subprocess.Popen(command, stdin=subprocess.PIPE, stdout=subprocess.PIPE, env=environment,
                                   stderr=subprocess.STDOUT if with_errors else None, start_new_session=True)
        RUNNING.add(process)
    return process


def end(process: "subprocess.Popen[bytes]") -> int:
    """Ends a process with all that it started, if it hasn't ended by itself, and answers its status."""
    if process.poll() is None:
        try:
            os.killpg(process.pid, signal.SIGKILL)
        except (ProcessLookupError, PermissionError):
            process.kill()
    status = process.wait()
    for pipe in (process.stdin, process.stdout):
        if pipe is not None and not pipe.closed:
            try:
                pipe.close()
            except BrokenPipeError:
                pass
    RUNNING.discard(process)
    return status


def end_all() -> None:
    """Ends all that run."""
    for process in list(RUNNING):
        end(process)


class Orphans:
    """Processes that left the group of the one that started them, once that one has ended: Linux gives them to this process. Within
    it they are collected, and at its end they are ended. Other systems don't do that."""

    def __enter__(self) -> None:
        self.before = children()
        try:
            import ctypes  # Here, as few commands need it.
            self.is_reaper = sys.platform.startswith("linux") and ctypes.CDLL(None, use_errno=True).prctl(SET_SUBREAPER, 1, 0, 0, 0) == 0
        except (ImportError, OSError, AttributeError):
            self.is_reaper = False

    def __exit__(self, *_: object) -> None:
        while self.is_reaper:
            left = children() - self.before - {process.pid for process in RUNNING}
            if not left:
                return
            for number in left:  # whose own children come to this process then
                end_orphan(number)


def end_orphan(number: int) -> None:
    """Ends a child that isn't in `RUNNING`."""
    try:
        os.kill(number, signal.SIGKILL)
        os.waitpid(number, 0)
    except (ProcessLookupError, ChildProcessError):
        pass


def children() -> Set[int]:
    """The children of this process, if the system lists them."""
    try:
        with open("/proc/self/task/%d/children" % os.getpid(), encoding="ascii") as file:
            return set(map(int, file.read().split()))
    except (OSError, ValueError):
        return set()


class Listener(Protocol):
    """Who gets the output of a process."""

    def told(self, channel: "Channel", data: bytes) -> None:
        """What it told: nothing (`b""`) at its end."""


class Channel:
    """A process whose pipes are served without waiting. `owner` gets their output."""

    def __init__(self, selector: selectors.BaseSelector, process: "subprocess.Popen[bytes]",
                 owner: Listener) -> None:
        assert process.stdin is not None and process.stdout is not None
        self.selector = selector
        self.process = process
        self.owner = owner
        self.source = process.stdout.fileno()
        self.sink = process.stdin.fileno()
        self.pending: Deque[memoryview] = deque()
        self.is_last = False
        self.is_writing = False
        self.is_released = False
        for file in (self.source, self.sink):
            os.set_blocking(file, False)
            widen(file)
        selector.register(self.source, selectors.EVENT_READ, self)

    def send(self, data: bytes, last: bool = False) -> None:
        """Bytes for its standard input; after the last ones that is closed."""
        if data:
            self.pending.append(memoryview(data))
        self.is_last = self.is_last or last
        self.write()

    def write(self) -> None:
        """Writes what the pipe takes. A process that reads no more is waited for: its output says why."""
        if self.is_released:
            return
        try:
            while self.pending:
                count = os.write(self.sink, self.pending[0][:PIPE_BYTES])
                self.pending[0] = self.pending[0][count:]
                if not len(self.pending[0]):
                    self.pending.popleft()
        except BlockingIOError:
            pass
        except BrokenPipeError:
            self.pending.clear()
        self.watch(bool(self.pending))
        if self.is_last and not self.pending and self.process.stdin is not None and not self.process.stdin.closed:
            self.process.stdin.close()

    def watch(self, writing: bool) -> None:
        """Waits for room in the pipe, or no more."""
        if writing and not self.is_writing:
            self.selector.register(self.sink, selectors.EVENT_WRITE, self)
        elif self.is_writing and not writing:
            self.selector.unregister(self.sink)
        self.is_writing = writing

    def read(self) -> Optional[bytes]:
        """What it has printed, nothing (`b""`) at its end, or None if there is nothing now."""
        if self.is_released:
            return None
        try:
            return os.read(self.source, PIPE_BYTES)
        except BlockingIOError:
            return None

    def finish(self) -> int:
        """Waits for its end, after that of its output, and answers its status."""
        self.release()
        self.process.wait()
        return end(self.process)

    def close(self) -> None:
        """Ends it."""
        self.release()
        end(self.process)

    def release(self) -> None:
        """Serves its pipes no more, also if they were found to be ready before: their numbers may be those of other pipes."""
        self.watch(False)
        self.is_released = True
        if self.source in self.selector.get_map():
            self.selector.unregister(self.source)


class Told:
    """What one process prints."""

    def __init__(self) -> None:
        self.pieces: List[bytes] = []
        self.status: Optional[int] = None

    def told(self, channel: Channel, data: bytes) -> None:
        """What it told: nothing (`b""`) at its end."""
        if data:
            self.pieces.append(data)
        else:
            self.status = channel.finish()


def talk(process: "subprocess.Popen[bytes]", given: bytes = b"") -> Tuple[bytes, int]:
    """All that a process prints for what it is given, and its status."""
    told = Told()
    try:
        with new_selector() as selector:
            Channel(selector, process, told).send(given, last=True)
            while told.status is None:
                serve(selector)
    finally:
        end(process)
    return b"".join(told.pieces), told.status


def widen(file: int) -> None:
    """A larger pipe if the system has them, so that fewer turns are taken."""
    try:
        import fcntl
        fcntl.fcntl(file, SET_PIPE_SIZE, PIPE_BYTES)
    except (ImportError, OSError):
        pass

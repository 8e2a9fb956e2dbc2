"""The proved controller of an untrusted persistent memory, from Python.

    import pmem

    with pmem.Controller() as controller:
        controller.post(0, 7, b"a" * 64)       # data line 7 waits at port 0 to be written
        controller.cut(3)                      # power fails after three more persist steps
        try:
            controller.drain(0)
        except pmem.PowerCut as cut:
            print(cut, cut.kept)               # cut lost 3 False
        controller.on()                        # power comes on, with recovery
        controller.read(0, 7).data             # 64 zeros, as before the write

The library in this process or the program `pmem` as a child process answers (`way_of`). This package spells commands and reads answers;
it is tested, not proved.
"""
from .answers import (
    Access, AccessKind, Answer, Begin, Clash, Counter, Cut, Done, Exhibit, Fenced, Flushed, Forged, Held, Line, Log, LogOpened,
    Mark, Ok, Place, Raw, Recovered, Refusal, RefusedCounter, RefusedData, RefusedMetadata, RefusedNode, RefusedRoot, RefusedShadow, Seal,
    Spent, Stat, Stepped, Stuck, TreeRecovered, Turned, Twin, Unfit, WearOpened, read_answer, read_log, read_mark,
)
from .cuts import Trial, each_cut, persist_steps
from .device import Device
from .errors import (
    BadWords, BreakShown, CounterSpent, LineFault, LogStuck, NoMemory, NoSnapshot, NotDone, NotFound, NothingDirty, NothingToTurn,
    NoTransaction, OutOfRange, PmemError, PowerCut, PowerIsOff, PowerIsOn, ProgramFailed, QueueEmpty, QueueFull, Refused, SessionClosed,
    SessionOver, TooManyLines, TransactionOpen, Unsuited,
)
from .layout import LINE_BYTES, Layout
from .sessions import Controller, LevelledMemory, Session, TransactionMemory, TreeController
from .traces import Command, Output, Status, Trace, answer, check
from .ways import Library, Program, Way, way_of

__version__ = "1.0.0"

__all__ = [
    "LINE_BYTES", "Access", "AccessKind", "Answer", "BadWords", "Begin", "BreakShown", "Clash", "Command", "Controller", "Counter",
    "CounterSpent", "Cut",
    "Device", "Done", "Exhibit", "Fenced", "Flushed", "Forged", "Held", "Layout", "LevelledMemory", "Library", "Line", "LineFault",
    "Log", "LogOpened", "LogStuck", "Mark", "NoMemory", "NoSnapshot", "NoTransaction", "NotDone", "NotFound", "NothingDirty", "NothingToTurn",
    "Ok", "OutOfRange", "Output", "Place", "PmemError", "PowerCut", "PowerIsOff", "PowerIsOn", "Program", "ProgramFailed", "QueueEmpty",
    "QueueFull", "Raw", "Recovered", "Refusal", "Refused", "RefusedCounter", "RefusedData", "RefusedMetadata", "RefusedNode",
    "RefusedRoot", "RefusedShadow", "Seal", "Session", "SessionClosed", "SessionOver", "Spent", "Stat", "Status", "Stepped", "Stuck",
    "TooManyLines", "Trace", "TransactionMemory", "TransactionOpen", "TreeController", "TreeRecovered", "Trial", "Turned", "Twin", "Unfit",
    "Unsuited", "WearOpened", "Way", "answer", "check", "each_cut", "persist_steps", "read_answer", "read_log", "read_mark", "way_of",
]

"""What a worker of a cluster runs: a batch of runs or of questions, in a new process that the worker's task starts in
the folder of this package. The batch comes on standard input, and the answers go to standard output, both as
JSON; bytes are texts whose letters are the bytes."""
import json
import os
import sys
import threading
import time
from typing import Any, Dict, List

from .errors import ExploreError
from .logged import LoggedProgram, LoggedRecording
from .processes import end_all
from .program import Output, Program, Question, Recording, Run
from .settings import Settings
from .together import Together, in_order_from_start
from .trace import trace_of

PROGRAM = "pmem"
SECONDS_BETWEEN_LOOKS = 1.0

Batch = Dict[str, Any]


def program_of(batch: Batch) -> Program:
    """The program that was put next to this package, asked for its log if the batch says so."""
    return (LoggedProgram if batch["logged"] else Program)(batch["program"])


def runs(batch: Batch) -> List[Any]:
    """The outputs of runs: each its data and its status, which the one who asked judges."""
    scripts = {name: read(name) for name, _ in batch["runs"]}
    tasks = [Run(scripts[name], Settings(**fields)) for name, fields in batch["runs"]]
    return [(text_of_bytes(output.data), output.status) for output in in_order_from_start(program_of(batch), tasks, 1)]


def answers(batch: Batch) -> List[Any]:
    """The answers to questions about a trace, whose output is known."""
    program, settings = program_of(batch), Settings(**batch["settings"])
    trace = trace_of(batch["name"], read(batch["trace"]))
    known = Output(read(batch["output"]), batch["status"])
    recording = LoggedRecording(program, settings, trace, known) if isinstance(program, LoggedProgram) else \
        Recording(program, settings, trace, known)
    questions = [Question(index, tuple(map(bytes_of_text, script)), bytes_of_text(tail)) for index, script, tail in batch["questions"]]
    together = Together(program, 1, batch["from_start"])
    return [text_of_bytes(data) for _, data in together.answers(recording, questions, len(questions), "")]


def text_of_bytes(data: bytes) -> str:
    """Bytes as JSON has them."""
    return data.decode("latin-1")


def bytes_of_text(text: str) -> bytes:
    """The bytes of such a text."""
    return text.encode("latin-1")


def read(name: str) -> bytes:
    """A file that was put next to this package."""
    with open(name, "rb") as file:
        return file.read()


def end_with(parent: int) -> None:
    """Ends all once the worker is gone."""
    while os.getppid() == parent:
        time.sleep(SECONDS_BETWEEN_LOOKS)
    end_all()
    os._exit(1)


def main() -> int:
    """Does one batch."""
    threading.Thread(target=end_with, args=(os.getppid(),), daemon=True).start()
    batch = json.load(sys.stdin)
    try:
        result: Any = {"done": runs(batch) if "runs" in batch else answers(batch)}
    except ExploreError as error:
        result = {"wrong": [str(error), error.status]}
    finally:
        end_all()
    json.dump(result, sys.stdout)
    return 0


if __name__ == "__main__":
    sys.exit(main())

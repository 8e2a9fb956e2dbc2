"""Runs of the program on a cluster of `dask.distributed`, instead of this machine's processors. What a worker needs (the
program, this package, the trace) is put there once, by its digest; runs go several to a task; answers come back in order,
the same as here."""
import hashlib
import importlib
import json
import logging
import os
import random
import re
import subprocess
import sys
from collections import deque
from dataclasses import asdict
from pathlib import Path
from typing import Any, Callable, Deque, Dict, Iterable, Iterator, List, Optional, Sequence, Set, Tuple, Type, TypeVar

from .errors import FAILURES, WRONG_WORDS, ExploreError, reason_of
from .logged import LoggedProgram
from .package import PYTHON
from .program import Output, Program, Question, Recording, Run
from .remote import PROGRAM, bytes_of_text, text_of_bytes
from .together import Progress, Together
from .trace import printable, read_bytes, shown_path

# What a worker runs: the explorer, and the Python package in python/.
SOURCES = ((Path(__file__).resolve().parent, ("*.py", "*.c", "*.txt")), (PYTHON, ("pmem/*.py",)))
BATCHES_OF_SLOT = 8
LARGEST_BATCH = 2048
LEAST_RUNS, LEAST_QUESTIONS = 4, 64
UNDER_WAY = 3
RETRIES = 3
SECONDS_TO_CONNECT = 20
# How long a first worker may take to join, if the command line doesn't say it.
SECONDS_TO_JOIN = 60.0
# How many answers of each search are compared with runs here.
COMPARED = 2
# A host's name, or its number in brackets; dask.distributed hangs for a while at anything else.
ADDRESS = re.compile(r"(?:tcp|tls|ws|wss|ucx)://(?:(?:[\w-]{1,63}\.)*[\w-]{1,63}|\[[0-9A-Fa-f:.]{2,45}\]):([0-9]{1,5})", re.ASCII)
LAST_PORT = 65535
LARGEST_SCHEDULER_FILE = 1 << 20
# What a worker may say: the statuses of a run, and how long a message is.
RUN_STATUSES = range(-64, 256)
LONGEST_MESSAGE = 1000
# Those of dask.distributed: an error is reported here in one line.
LOGGERS = ("distributed", "tornado", "asyncio")
INSTALL = "Debian: python3-distributed; else: pip install distributed"

Item = TypeVar("Item")
Files = Dict[str, bytes]


def load_distributed() -> Any:
    """dask.distributed, which is needed only for a cluster."""
    try:
        importlib.import_module("distributed.diagnostics.plugin")
        return importlib.import_module("distributed")
    except ImportError as error:
        raise ExploreError(f"a cluster needs dask.distributed, which {sys.executable} lacks ({INSTALL})") from error


def is_address(text: str) -> bool:
    """Whether a text is the address of a scheduler."""
    found = ADDRESS.fullmatch(text)
    return found is not None and 1 <= int(found[1]) <= LAST_PORT


def scheduler_at(text: str) -> str:
    """The scheduler's address: the text itself, or what the scheduler wrote into the file of this name (--scheduler-file)."""
    if is_address(text):
        return text
    wrong = ExploreError(f"{shown_path(text)} is not the address of a scheduler, such as tcp://127.0.0.1:8786 or tls://127.0.0.1:8786, "
                         "nor a file that a scheduler wrote", WRONG_WORDS)
    try:
        value = json.loads(read_bytes(text, LARGEST_SCHEDULER_FILE))
    except (ExploreError, ValueError, RecursionError) as error:
        raise wrong from error
    address = value.get("address") if isinstance(value, dict) else None
    if not isinstance(address, str) or not is_address(address):
        raise wrong
    return address


def check_tls(distributed: Any, address: str) -> None:
    """That there are certificates for an address that needs them."""
    if not address.startswith(("tls://", "wss://")):
        return
    try:
        found = distributed.Security().get_connection_args("client").get("ssl_context")
    except (OSError, ValueError) as error:
        raise ExploreError(f"the certificates for {address} cannot be read: {error}") from error
    if found is None:
        raise ExploreError(f"{address} needs certificates: set DASK_DISTRIBUTED__COMM__TLS__CA_FILE, and __TLS__CLIENT__CERT and "
                           "__TLS__CLIENT__KEY likewise (docs/CLUSTER.md)")


def digest_of(data: bytes) -> str:
    """What tells one file from another."""
    return hashlib.sha256(data).hexdigest()[:32]


def put_files(folder: str, files: Files) -> None:
    """Puts files into a worker's folder, each whole or not at all, except those that are there."""
    for name, data in files.items():
        path = os.path.join(folder, name)
        if os.path.exists(path):
            continue
        os.makedirs(os.path.dirname(path), exist_ok=True)
        part = f"{path}.{os.getpid()}.part"
        with open(part, "wb") as file:
            file.write(data)
        os.chmod(part, 0o755)
        os.replace(part, path)


def do_batch(folder: str, batch: bytes) -> bytes:
    """At a worker: does a batch, by a new process in the folder of these files."""
    place = os.path.join(importlib.import_module("distributed").get_worker().local_directory, folder)
    ran = subprocess.run([sys.executable, "-m", "explorer.remote"], input=batch, cwd=place, stdout=subprocess.PIPE,
                         stderr=subprocess.PIPE, check=False)
    if ran.returncode:
        raise RuntimeError(ran.stderr.decode("utf-8", "replace").strip().rsplit("\n", 1)[-1] or f"status {ran.returncode}")
    return ran.stdout


def plugin_of(distributed: Any, folder: str, files: Files) -> Any:
    """What puts files at each worker, also at one that joins later or again."""
    base: Any = distributed.diagnostics.plugin.WorkerPlugin

    class Put(base):  # type: ignore[misc]
        """Puts them there."""

        name = f"pmem-explore-{digest_of(''.join(sorted(files)).encode())}"

        def setup(self, worker: Any) -> None:
            """At a worker, before its first task."""
            put_files(os.path.join(worker.local_directory, folder), files)

    return Put()


class Cluster:
    """A cluster by the address of its scheduler, and the files that were put at its workers."""

    def __init__(self, address: str, program: str, wait: float = SECONDS_TO_JOIN) -> None:
        self.address = scheduler_at(address)
        self.wait = wait
        self.distributed = load_distributed()
        check_tls(self.distributed, self.address)
        for name in LOGGERS:
            logging.getLogger(name).setLevel(logging.CRITICAL)
        importlib.import_module("cloudpickle").register_pickle_by_value(sys.modules[__name__])
        try:
            data = Path(program).read_bytes()
        except OSError as error:
            raise ExploreError(f"cannot run the program {program}: {reason_of(error)}") from error
        files = {path.relative_to(folder.parent).as_posix(): path.read_bytes() for folder, kinds in SOURCES for kind in kinds
                 for path in sorted(folder.glob(kind))}
        self.folder = "pmem-" + digest_of(data + b"".join(name.encode() + text for name, text in sorted(files.items())))
        self.there: Dict[str, None] = {}
        self.client = self.asked(self.connected)
        self.put({**files, PROGRAM: data})

    def connected(self) -> Any:
        """The client, once a worker is there."""
        # Here, as the other commands don't need it.
        import asyncio
        try:
            client = self.distributed.Client(self.address, timeout=SECONDS_TO_CONNECT, set_as_default=False)
        except ImportError as error:
            raise ExploreError(f"dask.distributed of {sys.executable} cannot reach {self.address}: {printable(str(error))}") from error
        try:
            client.wait_for_workers(1, timeout=self.wait)
        except (asyncio.TimeoutError, TimeoutError) as error:
            raise ExploreError(f"the cluster at {self.address} has no workers after {self.wait:g} s (--cluster-wait)") from error
        return client

    def asked(self, what: Callable[[], Item]) -> Item:
        """What the cluster answers. If it or its workers are gone, that is an error."""
        # Here, as the other commands don't need them.
        import asyncio
        import concurrent.futures
        lost: Tuple[Type[BaseException], ...] = (
            OSError, asyncio.TimeoutError, TimeoutError, asyncio.CancelledError, concurrent.futures.CancelledError,
            concurrent.futures.TimeoutError, self.distributed.comm.CommClosedError)
        try:
            return what()
        except self.distributed.KilledWorker as error:
            raise ExploreError(f"the cluster at {self.address} has lost the workers of a task, one after the other") from error
        except lost as error:
            raise ExploreError(f"the cluster at {self.address} does not answer, or is gone") from error

    def put(self, files: Files) -> None:
        """Puts files at all workers, except those that are there."""
        new = {name: data for name, data in files.items() if name not in self.there}
        if not new:
            return
        self.there.update(dict.fromkeys(new))
        plugin = plugin_of(self.distributed, self.folder, new)
        register = getattr(self.client, "register_plugin", None) or self.client.register_worker_plugin
        self.asked(lambda: bool(register(plugin)))

    def named(self, data: bytes) -> str:
        """The name of a file with this text, which is put there."""
        name = digest_of(data)
        self.put({name: data})
        return name

    @property
    def slots(self) -> int:
        """How many tasks the workers do at a time."""
        threads: Dict[str, int] = self.asked(self.client.nthreads)
        return max(1, sum(threads.values()))

    def results(self, batches: Iterable[Dict[str, Any]]) -> Iterator[Any]:
        """What batches give, in their order. So many are under way as the workers are busy with."""
        most = UNDER_WAY * self.slots
        under_way: Deque[Any] = deque()
        try:
            for batch in batches:
                under_way.append(self.client.submit(do_batch, self.folder, json.dumps(batch).encode("ascii"), pure=False,
                                                    retries=RETRIES))
                if len(under_way) >= most:
                    yield self.result(under_way[0])
                    under_way.popleft()
            while under_way:
                yield self.result(under_way[0])
                under_way.popleft()
        finally:
            for future in under_way:
                future.release()

    def result(self, future: Any) -> Any:
        """What one batch gives."""
        try:
            answer = self.asked(future.result)
        except RuntimeError as error:
            raise ExploreError(f"a worker of the cluster at {self.address} failed: {error}") from error
        return answer_of(answer, self.address)


def answer_of(answer: Any, address: str) -> List[Any]:
    """What a worker's answer says, which is JSON: what was done, or what is wrong."""
    try:
        value = json.loads(answer) if isinstance(answer, bytes) else None
    except (ValueError, RecursionError):
        value = None
    if isinstance(value, dict) and isinstance(value.get("done"), list):
        done: List[Any] = value["done"]
        return done
    wrong = value.get("wrong") if isinstance(value, dict) else None
    if isinstance(wrong, list) and list(map(type, wrong)) == [str, int] and wrong[1] in FAILURES:
        raise ExploreError(printable(wrong[0][:LONGEST_MESSAGE]), wrong[1])
    raise not_as_asked(address)


def not_as_asked(address: str) -> ExploreError:
    """What is reported of a worker that answers something else than what it was asked."""
    return ExploreError(f"a worker of the cluster at {address} does not answer what it was asked")


def checked_texts(found: Sequence[Any], asked: int, address: str) -> List[bytes]:
    """Answers that are texts of bytes, as many as were asked for."""
    if len(found) != asked or not all(isinstance(text, str) and text.isascii() for text in found):
        raise not_as_asked(address)
    return list(map(bytes_of_text, found))


def checked_outputs(found: Sequence[Any], asked: int, address: str) -> List[Output]:
    """Answers that are outputs: each a text of bytes and a status, as many as were asked for."""
    if not all(isinstance(each, list) and len(each) == 2 and type(each[1]) is int and each[1] in RUN_STATUSES for each in found):
        raise not_as_asked(address)
    texts = checked_texts([text for text, _ in found], asked, address)
    return [Output(text, status) for text, (_, status) in zip(texts, found)]


class ClusterTogether(Together):
    """Runs of one program on a cluster. What is small, and the rows that are compared, run here."""

    def __init__(self, program: Program, jobs: Optional[int], from_start: bool, cluster: Cluster) -> None:
        super().__init__(program, jobs, from_start)
        self.cluster = cluster
        self.from_start = from_start

    def runs(self, tasks: Sequence[Run], what: str) -> Iterator[Output]:
        named = [(self.cluster.named(run.script), asdict(run.settings)) for run in tasks]
        common: Dict[str, Any] = {"program": f"./{PROGRAM}", "logged": isinstance(self.program, LoggedProgram)}
        sizes: Deque[int] = deque()

        def batches() -> Iterator[Dict[str, Any]]:
            for some in pieces(named, self.batch_size(len(tasks), LEAST_RUNS)):
                sizes.append(len(some))
                yield {**common, "runs": some}

        progress, done, compared = Progress(what, len(tasks)), 0, some_places(len(tasks))
        try:
            for found in self.cluster.results(batches()):
                for output in checked_outputs(found, sizes.popleft(), self.cluster.address):
                    if done in compared and output != self.program.output(tasks[done]):
                        raise self.differs()
                    self.program.check(output, tasks[done].settings)
                    done += 1
                    progress.reach(done)
                    yield output
        finally:
            progress.end()

    def answers(self, recording: Recording, questions: Iterable[Question], total: int,
                what: str) -> Iterator[Tuple[Question, bytes]]:
        common = {"program": f"./{PROGRAM}", "logged": isinstance(self.program, LoggedProgram),
                  "settings": asdict(recording.settings), "name": recording.trace.name,
                  "trace": self.cluster.named(recording.trace.data), "output": self.cluster.named(recording.output),
                  "status": recording.status, "from_start": self.from_start}
        asked: Deque[List[Question]] = deque()

        def batches() -> Iterator[Dict[str, Any]]:
            for some in pieces(questions, self.batch_size(total, LEAST_QUESTIONS)):
                asked.append(some)
                yield {**common, "questions": [(each.index, list(map(text_of_bytes, each.script)), text_of_bytes(each.tail)) for each in some]}

        progress, done, compared = Progress(what, total), 0, some_places(total)
        try:
            for found in self.cluster.results(batches()):
                some = asked.popleft()
                for question, data in zip(some, checked_texts(found, len(some), self.cluster.address)):
                    if done in compared and data != recording.answer(question, recording.program.output(recording.run_of(question))):
                        raise self.differs()
                    done += 1
                    progress.reach(done)
                    yield question, data
        finally:
            progress.end()

    def differs(self) -> ExploreError:
        """What is reported of an answer that isn't the one here."""
        return ExploreError(f"the cluster at {self.cluster.address} answers otherwise than the program here")

    def batch_size(self, total: int, least: int) -> int:
        """How many runs go to a task: enough that it takes more than milliseconds, if all workers have some then."""
        slots = self.cluster.slots
        return min(LARGEST_BATCH, max(1, min(least, total // slots), total // (BATCHES_OF_SLOT * slots)))


def some_places(total: int) -> Set[int]:
    """Which of that many answers are compared with runs here; nobody can know them beforehand."""
    return set(random.SystemRandom().sample(range(total), min(COMPARED, total)))


def pieces(items: Iterable[Item], size: int) -> Iterator[List[Item]]:
    """The items, a fixed number at a time."""
    some: List[Item] = []
    for item in items:
        some.append(item)
        if len(some) == size:
            yield some
            some = []
    if some:
        yield some

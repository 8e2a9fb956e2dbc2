"""`--cluster`: sweeps and cuts on two workers over loopback, also if one is killed, against those of this machine."""
import json
import os
import pickle
import re
import shutil
import signal
import subprocess
import sys
import threading
import time
import unittest
from dataclasses import asdict
from functools import lru_cache
from pathlib import Path
from types import SimpleNamespace
from typing import Any, Dict, Iterable, Iterator, List, Optional, cast
from unittest import mock

from .helpers import EXAMPLES, EXPLORE, ONES, QUICK, TOOLS, ExploreTest, program_path, words_of
from .starter import starter

from explorer import cluster
from explorer.errors import ExploreError
from explorer.program import Output, Program, Run
from explorer.settings import Settings

# The ciphers play no part in what is shared out.
WEAK = words_of(QUICK)
SWEEP = ("--sets", "1,2,4,8", "--loss", "1,2,4,16")


# Whether an interpreter has both, which takes a second to load.
FOUND = "import sys; from importlib.util import find_spec; sys.exit(not (find_spec('distributed') and find_spec('cloudpickle')))"
# What a run with a cluster takes, which is loaded late.
DASK = ("distributed.diagnostics.plugin", "cloudpickle")


@lru_cache(maxsize=None)
def python_with_distributed() -> Optional[str]:
    """An interpreter that has dask.distributed."""
    for path in (sys.executable, "/usr/bin/python3"):
        if shutil.which(path) and subprocess.run([path, "-c", FOUND], check=False).returncode == 0:
            return path
    return None


class WithoutDaskTest(ExploreTest):
    def test_what_is_missing_is_named(self) -> None:
        Path(self.path("distributed.py")).write_text("raise ImportError('none here')\n")
        result = self.explore("cuts", str(EXAMPLES / "first.trace"), "--cluster", "tcp://127.0.0.1:1", PYTHONPATH=str(self.directory))
        self.assert_fails(result, 1, "a cluster needs dask.distributed", "python3-distributed", sys.executable)


class AnswersTest(ExploreTest):
    """What a worker answers is plain data of the right type and length, or it is refused."""

    RUN = Run(f"post 0 0 {ONES}\ndrain 0\n".encode(), Settings(levels=1, suite="weak"))

    def test_what_is_no_answer(self) -> None:
        for data in (pickle.dumps(("done", [])), b"", b"[]", b"{}", b'{"done": 1}', b'{"wrong": ["x"]}', b'{"wrong": [1, 1]}', "{}", None,
                     b'{"wrong": ["x", 0]}', b'{"wrong": ["x", true]}', b'{"wrong": ["x", 1' + b"0" * 400 + b"]}", b"[" * 200_000):
            with self.subTest(str(data)[:60]), self.assertRaisesRegex(ExploreError, "does not answer what it was asked"):
                cluster.answer_of(data, "tcp://x:1")
        self.assertEqual(cluster.answer_of(b'{"done": ["a", "b"]}', "tcp://x:1"), ["a", "b"])
        with self.assertRaises(ExploreError) as found:
            cluster.answer_of(b'{"wrong": ["too \\u001b[31mmuch", 2]}', "tcp://x:1")
        self.assertEqual((str(found.exception), found.exception.status), ("too ?[31mmuch", 2))
        with self.assertRaises(ExploreError) as found:
            cluster.answer_of(b'{"wrong": ["' + b"x" * 100_000 + b'", 1]}', "tcp://x:1")
        self.assertLessEqual(len(str(found.exception)), 1000)

    def test_types_and_lengths(self) -> None:
        self.assertEqual(cluster.checked_texts(["ok\n"], 1, ""), [b"ok\n"])
        for texts in cast(List[List[Any]], ([], ["ok", "ok"], [1], [None], ["\u0100"])):
            with self.subTest(texts), self.assertRaises(ExploreError):
                cluster.checked_texts(texts, 1, "")
        self.assertEqual(cluster.checked_outputs([["ok\n", 6]], 1, ""), [Output(b"ok\n", 6)])
        for outputs in cast(List[List[Any]], ([], [["ok", 0], ["ok", 0]], [["ok"]], [["ok", "0"]], [["ok", True]], ["ok"], [[1, 0]], [["ok", 256]],
                                              [["ok", -10 ** 400]])):
            with self.subTest(outputs), self.assertRaises(ExploreError):
                cluster.checked_outputs(outputs, 1, "")

    def test_a_worker_reads_and_writes_json(self) -> None:
        script = self.file("script", f"post 0 0 {ONES}\nread 0 0\n")
        batch = {"program": where(), "logged": False, "runs": [[script, asdict(self.RUN.settings)]]}
        ran = subprocess.run([sys.executable, "-m", "explorer.remote"], input=json.dumps(batch).encode(), stdout=subprocess.PIPE, cwd=TOOLS,
                             check=True)
        self.assertEqual(json.loads(ran.stdout), {"done": [[f"ok\nline {ONES} 0\n", 0]]})

    def test_an_answer_that_is_another_one_is_found(self) -> None:
        """`sweep`, `compare` and `endurance` ask for runs, some of which are compared with runs here."""
        program = Program(where())
        true = program.output(self.RUN)
        self.assertIn(b"ok 6\n", true.data)
        for data, told in ((true.data, ""), (true.data.replace(b"ok 6", b"ok 7"), "answers otherwise than the program here")):
            together = cluster.ClusterTogether(program, 1, True, cast(Any, FalseCluster([[data.decode(), 0]])))
            if told:
                with self.assertRaisesRegex(ExploreError, told):
                    list(together.runs([self.RUN], ""))
            else:
                self.assertEqual(list(together.runs([self.RUN], "")), [true])

    def test_a_cluster_without_workers(self) -> None:
        asked: List[float] = []

        class Client:
            """The client of a scheduler that no worker joins."""

            def __init__(self, *_: object, **__: object) -> None:
                pass

            def wait_for_workers(self, count: int, timeout: float) -> None:
                """Waits for workers."""
                asked.append(timeout)
                raise TimeoutError

        found = cluster.Cluster.__new__(cluster.Cluster)
        found.address, found.wait, found.distributed = "tcp://x:1", 2.5, SimpleNamespace(Client=Client)
        with self.assertRaisesRegex(ExploreError, r"the cluster at tcp://x:1 has no workers after 2\.5 s \(--cluster-wait\)"):
            found.connected()
        self.assertEqual(asked, [2.5])

    def test_a_scheduler_file(self) -> None:
        self.assertEqual(cluster.scheduler_at(self.file("a.json", '{"type": "Scheduler", "address": "tls://10.0.0.1:40001"}')),
                         "tls://10.0.0.1:40001")
        for text in ("{", "[]", "{}", '{"address": 1}', '{"address": "127.0.0.1:1"}', "[" * 100_000):
            with self.subTest(text[:40]), self.assertRaises(ExploreError) as found:
                cluster.scheduler_at(self.file("b.json", text))
            self.assertEqual(found.exception.status, 2)

    def test_addresses(self) -> None:
        """dask.distributed would answer the wrong ones with a traceback, some of them after 40 s."""
        for text in ("tcp://127.0.0.1:8786", "tls://node-7.cluster_a.example:1", "tcp://[::1]:65535", "ucx://10.0.0.1:1", "wss://a:80"):
            self.assertEqual(cluster.scheduler_at(text), text)
        for text in ("tcp://[:1", "tcp://a:0", "tcp://a:65536", f"tcp://{'a' * 64}:1", "tcp://\u00e9:1", "tcp://a b:1", "tcp://:1", "tcp://a.:1",
                     "http://a:1", "tcp://[::1%\x1b]:1", "x\x1b[31m\0"):
            with self.subTest(text), self.assertRaisesRegex(ExploreError, "is not the address of a scheduler") as found:
                cluster.scheduler_at(text)
            self.assertEqual((found.exception.status, str(found.exception).isprintable()), (2, True))

    def test_a_protocol_whose_package_is_missing(self) -> None:
        asked = cluster.Cluster.__new__(cluster.Cluster)
        asked.address = "ucx://127.0.0.1:1"
        asked.distributed = SimpleNamespace(Client=mock.Mock(side_effect=ModuleNotFoundError("No module named 'ucp'")))
        with self.assertRaisesRegex(ExploreError, r"cannot reach ucx://127\.0\.0\.1:1: No module named 'ucp'"):
            asked.connected()


class PageTest(unittest.TestCase):
    """The recipes of docs/CLUSTER.md open no port to which anyone else on the network can send code."""

    def test_schedulers(self) -> None:
        text = (TOOLS.parent / "docs" / "CLUSTER.md").read_text(encoding="utf-8").replace("\\\n", " ")
        found = [line for block in re.findall(r"^```\n(.*?)^```$", text, re.M | re.S) for line in block.splitlines() if "dask-scheduler" in line]
        self.assertEqual(len(found), 3)
        for line in found:
            self.assertTrue("--host 127.0.0.1" in line or "--protocol tls" in line, line)
            self.assertIn("--port 0", line)
            self.assertIn("--scheduler-file", line)
        for block in re.findall(r"^```\n(.*?)^```$", text, re.M | re.S):
            if "--protocol tls" in block:
                self.assertIn("REQUIRE_ENCRYPTION=true", block)
                self.assertLess(block.index("umask 077"), block.index("openssl"))


class FalseCluster:
    """A cluster that answers each batch with the same."""

    address = "tcp://x:1"
    slots = 1

    def __init__(self, answer: List[Any]) -> None:
        self.answer = answer

    def named(self, data: bytes) -> str:
        """The name of a file."""
        return "name"

    def results(self, batches: Iterable[Dict[str, Any]]) -> Iterator[List[Any]]:
        """The answers."""
        for _ in batches:
            yield self.answer


class ClusterTest(ExploreTest):
    python: str
    address: str
    folder: str
    processes: List["subprocess.Popen[bytes]"]

    @classmethod
    def setUpClass(cls) -> None:
        python = python_with_distributed()
        if python is None:
            raise unittest.SkipTest("dask.distributed is missing (Debian: python3-distributed)")
        cls.python, cls.processes = python, []

    def setUp(self) -> None:
        super().setUp()
        self.processes = []
        self.addCleanup(self.end)
        scheduler = self.begin("dask_scheduler", "--host", "127.0.0.1", "--port", "0")
        self.address = ""
        assert scheduler.stderr is not None
        while not self.address:
            line = scheduler.stderr.readline().decode()
            self.assertTrue(line, "the scheduler ended")
            match = re.search(r"Scheduler at:\s+(tcp://\S+)", line)
            self.address = match.group(1) if match else ""
        threading.Thread(target=scheduler.stderr.read, daemon=True).start()
        self.workers = [self.worker(number) for number in range(2)]

    def begin(self, module: str, *words: str) -> "subprocess.Popen[bytes]":
        """Begins a process of dask."""
        process = subprocess.Popen([self.python, "-m", f"distributed.cli.{module}", *words, "--no-dashboard"], stdin=subprocess.DEVNULL,
                                   stdout=subprocess.DEVNULL, stderr=subprocess.PIPE if "scheduler" in module else subprocess.DEVNULL,
                                   cwd=self.directory, start_new_session=True)
        self.processes.append(process)
        return process

    def worker(self, number: int) -> "subprocess.Popen[bytes]":
        """Begins a worker."""
        return self.begin("dask_worker", self.address, "--no-nanny", "--nworkers", "1", "--nthreads", "1", "--local-directory",
                          self.path(f"worker{number}"))

    def end(self) -> None:
        """Ends what was begun."""
        for process in self.processes:
            process.kill()
        for process in self.processes:
            process.wait()
            if process.stderr is not None:
                process.stderr.close()

    def on_cluster(self, *words: str, meanwhile: str = "") -> "subprocess.CompletedProcess[str]":
        """What explore prints with the cluster; `meanwhile`: which process is killed once tasks are under way."""
        words = (*words, "--cluster", self.address, "--program", where())
        if not meanwhile:
            return starter(*DASK, python=self.python).run(words, "", dict(os.environ))
        process = subprocess.Popen([self.python, str(EXPLORE), *words], stdout=subprocess.PIPE, stderr=subprocess.PIPE,
                                   universal_newlines=True)
        while not self.is_under_way() and process.poll() is None:
            time.sleep(0.02)
        self.assertIsNone(process.poll())
        victim = self.processes[0] if meanwhile == "scheduler" else self.workers[0]
        os.kill(victim.pid, signal.SIGKILL)
        out, err = process.communicate(timeout=300)
        return subprocess.CompletedProcess(words, process.returncode, out, err)

    def is_under_way(self) -> bool:
        """Whether the first worker does a batch."""
        children = Path(f"/proc/{self.workers[0].pid}/task").glob("*/children")
        return any(Path(f"/proc/{child}/cmdline").read_bytes().find(b"explorer.remote") >= 0
                   for path in children for child in path.read_text().split())

    def assert_same(self, *words: str, meanwhile: str = "") -> None:
        """The cluster prints what this machine does."""
        here = self.explore(*words)
        there = self.on_cluster(*words, meanwhile=meanwhile)
        self.assertEqual((there.returncode, there.stderr), (0, ""))
        self.assertEqual(there.stdout, here.stdout)
        self.assertGreater(len(there.stdout), 400)

    def test_one_cluster_from_its_begin_to_its_end(self) -> None:
        self.same_as_here()
        self.a_worker_is_killed()
        self.the_scheduler_is_killed()

    def same_as_here(self) -> None:
        """What a cluster prints is what this machine does."""
        trace = str(EXAMPLES / "power_cut.trace")
        self.assert_same("cuts", trace, "--json", "--twice", *WEAK)
        self.assert_same("sweep", trace, "--json", *SWEEP, *WEAK)
        self.assert_same("cuts", str(EXAMPLES / "txn.trace"), "--as", "txn", "--distinct", *WEAK)
        small = self.file("small.trace", f"post 0 0 {ONES}\ndrain 0\nread 0 0\npost 0 9 {ONES}\nfence 0\n")
        self.assert_same("compare", small, "--designs", "run", "--loss", "1,4", "--cuts", "0", "--json", *WEAK)
        result = self.on_cluster("sweep", "/dev/null/none")
        self.assertEqual((result.returncode, result.stdout), (1, ""))
        files = [path for number in range(2) for path in Path(self.path(f"worker{number}")).rglob("pmem-*/pmem")]
        self.assertEqual(len(files), 2)

    def a_worker_is_killed(self) -> None:
        """The other one does its tasks again."""
        trace = self.file("a.trace", (EXAMPLES / "power_cut.trace").read_text() + "post 0 3 " + "33" * 64 + "\ndrain 0\n" * 2)
        self.assert_same("cuts", trace, "--json", "--twice", *WEAK, meanwhile="worker")

    def the_scheduler_is_killed(self) -> None:
        """It is reported in one line."""
        self.workers[0] = self.workers[1]
        result = self.on_cluster("cuts", str(EXAMPLES / "database.trace"), "--lines", "1-2000", *WEAK, meanwhile="scheduler")
        self.assertEqual((result.returncode, result.stdout), (1, ""))
        self.assertIn(f"explore: the cluster at {self.address} does not answer, or is gone\n", result.stderr)
        self.assertNotIn("Traceback", result.stderr)


class WrongAddressTest(ExploreTest):
    def test_an_address_where_nobody_answers(self) -> None:
        python = python_with_distributed()
        if python is None:
            self.skipTest("dask.distributed is missing (Debian: python3-distributed)")
        for address, status, told in (("tcp://127.0.0.1:1", 1, "does not answer, or is gone"),
                                      ("tls://127.0.0.1:1", 1, "needs certificates: set DASK_DISTRIBUTED__COMM__TLS__CA_FILE"),
                                      ("nowhere://x", 2, "is not the address of a scheduler")):
            words = ("cuts", str(EXAMPLES / "first.trace"), "--cluster", address, "--program", where())
            found = starter(*DASK, python=python).run(words, "", dict(os.environ))
            self.assertEqual((found.returncode, found.stdout), (status, ""), found.stderr)
            self.assertIn(told, found.stderr)
            self.assertNotIn("Traceback", found.stderr)


class CommandsTest(ExploreTest):
    """The commands of docs/CLUSTER.md, as they stand."""

    PAGE = TOOLS.parent / "docs" / "CLUSTER.md"
    # Their processes end with the shell: each by its number, and after that the folder is there no more.
    END = "\nstatus=$?\nkill $(jobs -p)\nwait\nexit $status\n"

    def commands(self, heading: str) -> str:
        """The first block under a heading."""
        match = re.search(rf"^## {heading}\n.*?^```\n(.*?)^```$", self.PAGE.read_text(encoding="utf-8"), re.MULTILINE | re.DOTALL)
        assert match is not None, heading
        return re.sub(r"^\$ ", "", match[1], flags=re.MULTILINE)

    def test_the_commands(self) -> None:
        for tool in ("dask-scheduler", "dask-worker", "openssl"):
            if not Path("/usr/bin", tool).exists():
                self.skipTest(f"there is no /usr/bin/{tool} (Debian: python3-distributed, openssl)")
        os.symlink(TOOLS, self.path("tools"))
        trace = self.file("work.trace", f"post 0 0 {ONES}\ndrain 0\nread 0 0\npost 0 9 {ONES}\nfence 0\n")
        variables = {**os.environ, "PATH": f"/usr/bin:{os.environ['PATH']}", "PMEM_PROGRAM": where()}
        ran = subprocess.Popen(["bash", "-c", self.commands("With certificates") + self.END], cwd=self.directory, env=variables,
                               stdin=subprocess.DEVNULL, stdout=subprocess.PIPE, stderr=subprocess.PIPE, universal_newlines=True,
                               start_new_session=True)
        try:
            out, told = ran.communicate(timeout=600)
        except subprocess.TimeoutExpired:
            os.killpg(ran.pid, signal.SIGKILL)
            out, told = ran.communicate()
        self.assertEqual((ran.returncode, out), (0, self.output("cuts", trace)), told[-2000:])
        self.assertRegex(told, r"Scheduler at: +tls://127\.0\.0\.1:[0-9]+")

    def test_the_commands_without_certificates_are_the_same(self) -> None:
        """But for the protocol."""
        plain, secured = self.commands("On one machine"), self.commands("With certificates")
        self.assertTrue(secured.endswith(plain.replace("dask-scheduler ", "dask-scheduler --protocol tls ")), plain)
        self.assertIn("tools/explore cuts work.trace --cluster scheduler.json\n", plain)


def where() -> str:
    """The program's own file."""
    path = program_path()
    if Path(path).read_bytes()[:2] != b"#!":
        return path
    return subprocess.run([path, "--where"], stdout=subprocess.PIPE, universal_newlines=True, check=True).stdout.strip()

"""Sources and sinks that fail during sessions of each machine, of those that end by a stop and by a twin too: the status, and what
was printed until then. The source is a connection that is broken off, the sink a file that takes a number of bytes and no more."""
import resource
import signal
import socket
import struct
import subprocess
import unittest
from typing import List, Optional, Tuple

from .helpers import ExploreTest, program_path
from .test_outputs import SESSIONS, read_session

DONE, READ, SINK, LINE, EXHIBIT = 0, 3, 4, 5, 6
BREAK_OFF = struct.pack("ii", 1, 0)

# A session of each kind that ends by itself, and of two kinds one that ends by a twin.
ENDING = ("wear-1", "txn-1", "tree-1", "wear-4", "txn-6")
WORDS = {"wear": ["wear", "--every", "1"], "txn": ["txn"], "tree": ["tree"], "run": ["run"]}
ANSWERED = [("off", "ok"), ("off", "off"), ("cut 7", "ok")]


def broken_off(given: bytes) -> socket.socket:
    """A source that gives these bytes, and then fails."""
    with socket.socket() as listening:
        listening.bind(("127.0.0.1", 0))
        listening.listen(1)
        giving = socket.create_connection(listening.getsockname())
        taking, _ = listening.accept()
    giving.sendall(given)
    giving.setsockopt(socket.SOL_SOCKET, socket.SO_LINGER, BREAK_OFF)
    while given and len(taking.recv(len(given), socket.MSG_PEEK)) < len(given):
        pass
    giving.close()
    return taking


class FailureTest(ExploreTest):
    def run_from(self, words: List[str], given: bytes, breaks: bool) -> Tuple[int, bytes]:
        """The status and the output of a run whose source fails at the end, or doesn't."""
        if not breaks:
            result = subprocess.run([program_path(), *words], input=given, stdout=subprocess.PIPE, check=False)
            return result.returncode, result.stdout
        with broken_off(given) as source:
            result = subprocess.run([program_path(), *words], stdin=source.fileno(), stdout=subprocess.PIPE, check=False)
            return result.returncode, result.stdout

    def run_into(self, words: List[str], given: bytes, room: Optional[int]) -> Tuple[int, bytes]:
        """The same of a run whose sink takes `room` bytes, or is full."""
        def bounded() -> None:
            signal.signal(signal.SIGXFSZ, signal.SIG_IGN)
            resource.setrlimit(resource.RLIMIT_FSIZE, (room or 0, room or 0))
        path = self.directory / "sink"
        with open("/dev/full" if room is None else path, "wb") as sink:
            status = subprocess.run([program_path(), *words], input=given, stdout=sink, preexec_fn=bounded, check=False).returncode
        return status, b"" if room is None else path.read_bytes()

    def sessions(self) -> List[Tuple[str, List[str], bytes, int, bytes]]:
        """Sessions with their words, traces, statuses and outputs: stored ones, and of each machine one that a line stops."""
        found = []
        for name in ENDING:
            words, status, trace, output = read_session((SESSIONS / f"{name}.txt").read_text())
            found.append((name, words, trace.encode(), status, output.encode()))
        for name, words in WORDS.items():
            trace = "".join(f"{command}\n" for command, _ in ANSWERED) + "halt\non\n"
            output = "".join(f"{reply}\n" for _, reply in ANSWERED) + "stop line 4 1\n"
            found.append((f"{name}, a line that is no command", words, trace.encode(), LINE, output.encode()))
        return found

    def test_they_end_so_where_nothing_fails(self) -> None:
        ends = {DONE: 0, LINE: 0, EXHIBIT: 0}
        for name, words, trace, status, output in self.sessions():
            self.assertEqual(self.run_from(words, trace, False), (status, output), name)
            ends[status] += 1
        self.assertEqual(ends, {DONE: 3, LINE: 4, EXHIBIT: 2})

    def test_a_source_that_fails(self) -> None:
        for name, words, trace, status, output in self.sessions():
            # Behind a stop or a twin the source isn't asked any more; else its failure stops the session.
            wanted = (READ, output + b"stop read\n") if status == DONE else (status, output)
            self.assertEqual(self.run_from(words, trace, True), wanted, name)
            # A line that it leaves unfinished isn't answered.
            lines, replies = trace.splitlines(True), output.splitlines(True)
            if not any(reply.startswith((b"seal ", b"begin ")) for reply in replies):
                half = b"".join(lines[:2]) + lines[2][:-1]
                self.assertEqual(self.run_from(words, half, True), (READ, b"".join(replies[:2]) + b"stop read\n"), name)
        for words in WORDS.values():
            self.assertEqual(self.run_from(words, b"", True), (READ, b"stop read\n"), words)

    def test_a_sink_that_fails(self) -> None:
        for name, words, trace, _, output in self.sessions():
            self.assertEqual(self.run_into(words, trace, None), (SINK, b""), name)
            # Whatever the end, a prefix of the whole output is written: up to the last byte of the stop or of the twin.
            for room in sorted({1, 2, len(output) // 2, len(output) - 1}):
                self.assertEqual(self.run_into(words, trace, room), (SINK, output[:room]), (name, room))

    def test_both_fail(self) -> None:
        for name, words, trace, status, output in self.sessions():
            if status == DONE:
                output += b"stop read\n"
            with broken_off(trace) as source, open("/dev/full", "wb") as sink:
                self.assertEqual(subprocess.run([program_path(), *words], stdin=source.fileno(), stdout=sink, check=False).returncode, SINK, name)


if __name__ == "__main__":
    unittest.main()

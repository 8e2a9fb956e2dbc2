"""Every way to the program answers random traces under each policy, with durable queues and with combining, as a reference program of the same
rules does (agreed.txt). The ways are the program itself, the script, the explorer, the Python package, the library, and the page's model in
node. What each tool keeps of the queues is what the program still has in them."""
import hashlib
import os
import subprocess
import sys
import unittest
from collections import Counter
from functools import lru_cache
from pathlib import Path
from typing import Any, Dict, List, NamedTuple, Optional, Sequence, Tuple
from unittest import mock

from .helpers import TOOLS, ExploreTest, library_folder, program_path

from explorer.cuts import waiting_of
from explorer.layout import layout_of
from explorer.logged import LoggedProgram, LoggedRecording
from explorer.program import Program, Recording
from explorer.settings import Settings
from explorer.trace import trace_of
from librarymaker import portable
from policy_traces import POLICIES, Trace, traces

TOP = TOOLS.parent
sys.path.insert(0, str(TOP / "python"))

import pmem  # noqa: E402

STORED = Path(__file__).resolve().parent / "agreed.txt"
TRACES = 10
PORTS = (0, 1)
# No cut any more, power, and more drains than a queue has writes.
ASKED = ["cut 18446744073709551615", "on"]
DRAINS = 17
# What the page's model says of each trace: all replies, the size of the device, and how many writes wait at the first two ports.
MODELS = """
import {readFileSync} from 'node:fs';
import {spawnSync} from 'node:child_process';
import {Model} from './src/model.js';
import {readOptions, wordsFor} from './src/options.js';
import {Program} from './src/program.js';
const [path] = process.argv.slice(2);
const answer = (words, input) => {
  const {status, stdout} = spawnSync(path, words, {input, maxBuffer: 1e9, encoding: 'latin1'});
  return {status, text: stdout};
};
const found = JSON.parse(readFileSync('traces.json', 'utf8')).map(({words: [machine, ...words], commands}) => {
  const {options, faults} = readOptions(machine, words);
  const model = new Model(new Program({answer}), machine, options, commands);
  return {faults, words: wordsFor(machine, options), size: model.layout.size, fault: model.fault,
    text: model.replies.flatMap(({marks, answer}) => [...marks, answer, '']).join('\\n').replace(/\\n\\n/g, '\\n'),
    waiting: model.chip(model.replies.length).waiting.slice(0, 2).map(queue => queue.length)};
});
console.log(JSON.stringify(found));
"""


# What the page takes of arguments: the arguments again, and how many it doesn't take.
OPTIONS = """
import {readFileSync} from 'node:fs';
import {readOptions, wordsFor} from './src/options.js';
console.log(JSON.stringify(JSON.parse(readFileSync('words.json', 'utf8')).map(([machine, ...words]) => {
  const {options, faults} = readOptions(machine, words);
  return [wordsFor(machine, options).join(' '), faults];
})));
"""


class Agreed(NamedTuple):
    """A trace, its policy, and what the reference program answered: its status, how many lines it printed, and their SHA-256."""

    name: str
    trace: Trace
    status: int
    lines: int
    digest: str

    @property
    def settings(self) -> Settings:
        """The words as the explorer has them."""
        values: Dict[str, Any] = dict(zip((word[2:] for word in self.trace.words[1::2]), self.trace.words[2::2]))
        numbers = ("levels", "sets", "ways", "loss", "major", "persist", "every")
        return Settings(machine_name=self.trace.words[0],
                        **{name: int(value) if name in numbers else value for name, value in values.items()})


@lru_cache(maxsize=None)
def agreed() -> Tuple[Agreed, ...]:
    """The stored traces."""
    made = {name: list(traces(name, TRACES)) for name in POLICIES}
    found = []
    for row in STORED.read_text(encoding="utf-8").splitlines():
        if not row.startswith("#"):
            name, rest = row.split(": ")
            number, status, lines, digest = rest.split(" ")
            found.append(Agreed(name, made[name][int(number)], int(status), int(lines), digest))
    return tuple(found)


def answered(words: List[str], text: str) -> Tuple[int, bytes]:
    """The status and the output of a command."""
    ran = subprocess.run(words, input=text.encode(), stdout=subprocess.PIPE, check=False)
    return ran.returncode, ran.stdout


def opened(words: Sequence[str], through: str) -> "pmem.sessions.Session":
    """The session of these words, by keywords."""
    options: Dict[str, Any] = {}
    for name, value in zip(words[1::2], words[2::2]):
        options[name[2:]] = value == "on" if name in ("--shadow", "--combine") else value if name in ("--suite", "--queue") else int(value)
    kinds: Dict[str, Any] = {"run": pmem.Controller, "wear": pmem.LevelledMemory, "txn": pmem.TransactionMemory}
    session: "pmem.sessions.Session" = kinds[words[0]](through=through, **options)
    return session


class PathsTest(ExploreTest):
    def is_answered(self, each: Agreed, status: int, output: bytes) -> None:
        """An output is that of the reference program."""
        self.assertEqual((status, output.count(b"\n"), hashlib.sha256(output).hexdigest()), (each.status, each.lines, each.digest),
                         f"{each.name}: {' '.join(each.trace.words)}")

    def test_what_is_stored(self) -> None:
        """Ten traces of each policy, for trees of one and of two levels, of the three machines; a few end in an exhibit."""
        every = agreed()
        self.assertEqual(Counter(each.name for each in every), {name: TRACES for name in POLICIES})
        self.assertEqual(Counter(each.trace.words[0] for each in every), {"run": 96, "wear": 12, "txn": 12})
        for name in POLICIES:
            own = [each for each in every if each.name == name]
            self.assertEqual({each.settings.levels for each in own}, {1, 2})
            text = "".join(each.trace.text for each in own)
            for word in ("post", "part", "drain", "fence", "cut", "on", "flip", "write", "commit"):
                self.assertRegex(text, rf"(?m)^{word}\b", name)

    def test_the_program(self) -> None:
        for each in agreed():
            self.is_answered(each, *answered([program_path(), *each.trace.words], each.trace.text))

    def test_the_script(self) -> None:
        """./pmem checks the words itself until there is a program."""
        for name in POLICIES:
            each = next(each for each in agreed() if each.name == name)
            self.is_answered(each, *answered([str(TOP / "pmem"), *each.trace.words], each.trace.text))

    def test_the_explorer(self) -> None:
        """By its settings, with the log, without which the replies are left."""
        program = LoggedProgram(program_path())
        for each in agreed():
            each.settings.check()
            recording = LoggedRecording(program, each.settings, trace_of("a trace", each.trace.text.encode()))
            text = "".join(f"{line}\n" for reply in recording.replies for line in reply.lines)
            self.is_answered(each, recording.status, text.encode())

    def test_the_python_package(self) -> None:
        with mock.patch.dict(os.environ, {"PMEM_PROGRAM": program_path()}):
            self.by_package("program")

    def test_the_library(self) -> None:
        """The portable library of the module, if that was made of these sources; otherwise the native one of what is proved."""
        if portable.is_current():
            folder = library_folder("portable")
        else:
            folder = library_folder("native")
        with mock.patch.dict(os.environ, {"PMEM_LIBRARY": str(folder)}):
            self.by_package("library")

    def by_package(self, through: str) -> None:
        """Whole traces, and a session that gets their lines."""
        for each in agreed():
            output = pmem.answer(list(each.trace.words), each.trace.text, through)
            self.is_answered(each, int(output.status), output.data)
            with opened(each.trace.words, through) as session:
                told = [session.tell(line) for line in each.trace.commands[:len(output.replies)]]
            self.is_answered(each, 6 if session.is_over else 0, "".join(answer.reply for answer in told if answer).encode())

    def test_the_options_of_the_page(self) -> None:
        """Arguments that the program takes are taken; a path has a line for each level, and one more."""
        given = ["run --persist 3 --shadow off --queue durable --combine on", "wear --every 7 --persist=1 --shadow=off", "txn --persist 2",
                 "run --persist 0 --shadow on --queue volatile --combine off", "run --persist 4 --levels 3", "run --persist 4",
                 "run --levels 1 --persist 3",
                 "wear --queue durable", "txn --combine on", "tree --persist 1", "run --persist 5 --levels 3", "run --shadow no"]
        found = self.by_node(OPTIONS, "words.json", [words.split() for words in given])
        self.assertEqual([words for words, _ in found], [
            "--persist 3 --shadow off --queue durable --combine on", "--every 7 --persist 1 --shadow off", "--persist 2", "",
            "--levels 3 --persist 4", "", "--levels 1", "", "", "", "--levels 3", ""])
        self.assertEqual([len(faults) for _, faults in found], [0, 0, 0, 0, 0, 1, 1, 1, 1, 1, 1, 1])
        self.assertEqual(found[5][1], ["--persist 4: persist is at most 3 with levels 2"])

    def test_the_model_of_the_page(self) -> None:
        for each, found in zip(agreed(), self.by_node(MODELS, "traces.json", [each.trace._asdict() for each in agreed()])):
            self.assertEqual((found["faults"], found["fault"]), ([], None))
            self.is_answered(each, each.status, found["text"].encode())
            self.assertEqual(found["size"], layout_of(each.settings).size)
            waiting = self.waiting(each)
            self.assertIn(waiting, (None, found["waiting"]), each.trace.words)

    def waiting(self, each: Agreed) -> Optional[List[int]]:
        """How many writes wait at the first ports after a trace of `run`: as often a drain finds one. None if power doesn't come on."""
        if each.trace.words[0] != "run" or each.status:
            return None
        drains = [f"drain {port}" for port in PORTS for _ in range(DRAINS)]
        text = each.trace.text + "".join(f"{command}\n" for command in [*ASKED, *drains])
        _, output = answered([program_path(), *each.trace.words], text)
        answers = [line for line in output.decode().splitlines() if line.split(" ")[0] not in ("seal", "begin")][-len(drains):]
        if "off" in answers:
            return None
        return [sum(answer != "empty" for answer in answers[first:first + DRAINS]) for first in (0, DRAINS)]

    def test_what_waits(self) -> None:
        """The explorer's queues are the program's, also after cuts."""
        counted = 0
        for each in agreed():
            waiting = self.waiting(each)
            if waiting is None:
                continue
            recording = Recording(Program(program_path()), each.settings, trace_of("a trace", each.trace.text.encode()))
            queues = waiting_of(recording)
            for command, reply in zip(recording.commands, recording.replies):
                queues.go_on(command, reply)
            self.assertEqual([len(queues.queues[port]) for port in PORTS], waiting, each.trace.words)
            counted += each.settings.is_durable and waiting != [0, 0]
        self.assertGreater(counted, 10)


if __name__ == "__main__":
    unittest.main()

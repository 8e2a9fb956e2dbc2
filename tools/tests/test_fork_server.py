"""The library that makes a program a server of its states (fork_server.c): a small program in C that is asked through it."""
import os
import shutil
import subprocess
import unittest
from pathlib import Path
from typing import Dict, List, Optional, Sequence, Tuple
from unittest import mock

from .helpers import ExploreTest
from explorer import fork_server
from explorer.errors import ExploreError
from explorer.processes import new_selector, serve, start
from explorer.program import Output, Program, Question, Recording
from explorer.settings import Settings
from explorer.together import FORKS, Forked, Together
from explorer.trace import trace_of

# It adds numbers and says what they come to, and which process that is.
SOURCE = r"""
#define _GNU_SOURCE
#include <errno.h>
#include <pthread.h>
#include <stdio.h>
#include <stdlib.h>
#include <string.h>
#include <sys/mman.h>
#include <unistd.h>

static long sum;
static char *last, *shut;

static void say(const char *word, long value)
{
    char text[64];
    int size = snprintf(text, sizeof text, "%s %ld\n", word, value);
    if (write(1, text, (size_t)size) != size)
        _exit(9);
}

static void *nothing(void *unused) { return unused; }

static long deep(int depth)
{
    volatile char room[4096];
    room[0] = (char)depth;
    return depth ? deep(depth - 1) + room[0] : 0;
}

static void answer(char *line)
{
    long value = atol(strchr(line, ' ') ? strchr(line, ' ') : "0");
    pthread_t thread;
    switch (line[0]) {
    case 'a': say("sum", sum += value); break;
    case 'p': say("process", getpid()); break;
    case 'g': /* `grow N`: that many bytes more, on which the others hang */
        last = realloc(last, (size_t)value);
        memset(last, (int)sum, (size_t)value);
        say("last", last[value - 1]);
        break;
    case 'c': { /* `calloc N`: zeros */
        char *zeros = calloc(1, (size_t)value);
        long found = 0;
        for (long i = 0; i < value; i++)
            found += zeros[i];
        memset(zeros, 1, (size_t)value);
        say("zeros", found);
        break; }
    case 'm': say("map", mmap(NULL, 4096, PROT_READ, MAP_PRIVATE | MAP_ANONYMOUS, -1, 0) != MAP_FAILED); break;
    case 'w': /* `write`: memory that was mapped before, and can be written from here on */
        mprotect(shut, 4096, PROT_READ | PROT_WRITE);
        say("written", ++*shut);
        break;
    case 't': say("thread", pthread_create(&thread, NULL, nothing, NULL) || pthread_join(thread, NULL)); break;
    case 'd': say("deep", deep((int)value)); break;
    case 'o': errno = (int)value; say("error", errno); break;
    case 'e': say("end", value); exit((int)value);
    case 's': say("stop", 0); abort();
    }
}

int main(void)
{
    static char text[1 << 16];
    size_t have = 0;
    shut = mmap(NULL, 4096, PROT_NONE, MAP_PRIVATE | MAP_ANONYMOUS, -1, 0);
    if (getenv("LARGE")) /* may stand beside the thread's own variables */
        memset(calloc(1, (size_t)1 << 32), 1, 4096);
    for (;;) {
        ssize_t count = read(0, text + have, sizeof text - have);
        if (count <= 0)
            return 0;
        have += (size_t)count;
        char *line = text, *end;
        for (; (end = memchr(line, '\n', have - (size_t)(line - text))); line = end + 1) {
            *end = 0;
            answer(line);
        }
        have -= (size_t)(line - text);
        memmove(text, line, have);
    }
}
"""
IN_PLACE, BY_FORKS = False, True
ROUNDS = 50


class SumProgram(Program):
    """The program in C, which takes no words."""

    def start(self, settings: Settings, environment: Optional[Dict[str, str]] = None, *more: str) -> "subprocess.Popen[bytes]":
        return start([self.path], environment)


class SumRecording(Recording):
    """A trace of it."""

    def check_replies(self, output: Output) -> None:
        """Its replies aren't those of pmem."""


class ForkServerTest(ExploreTest):
    """Asks the program in C, by frames that the test makes."""

    program: str
    library: str

    @classmethod
    def setUpClass(cls) -> None:
        library, why = fork_server.library()
        compiler = fork_server.compiler()
        if library is None or compiler is None:
            raise unittest.SkipTest(why)
        cls.library = library
        folder = Path(library).parent
        cls.program = str(folder / f"sum-{os.getpid()}")
        cls.addClassCleanup(os.unlink, cls.program)
        subprocess.run([compiler, "-std=gnu99", "-x", "c", "-", "-o", cls.program, "-pthread"], input=SOURCE.encode(), check=True)

    def asked(self, frames: Sequence[Tuple[str, str]], by_forks: bool) -> Tuple[int, List[str]]:
        """The program's status and the lines that it prints to these frames."""
        text = "".join(f"{kind}{len(text)}\n{text}" for kind, text in frames)
        environment = {**os.environ, "LD_PRELOAD": self.library, "LD_BIND_NOW": "1"}
        environment.pop(FORKS, None)
        if by_forks:
            environment[FORKS] = "1"
        found = subprocess.run([self.program], input=text.encode(), stdout=subprocess.PIPE, env=environment, check=False)
        return found.returncode, found.stdout.decode().split("\n")[:-1]

    def process(self, lines: Sequence[str]) -> List[str]:
        """The processes that said who they are."""
        return [line for line in lines if line.startswith("process ")]

    def test_each_compiler(self) -> None:
        frames = [("L", "p\n"), ("F", "deep 30\np\n"), ("F", "grow 5000000\np\n"), ("L", "p\n")]
        is_in_place, found = self.is_in_place(), []
        for name in fork_server.COMPILERS:
            path = shutil.which(name)
            if path is not None:
                self.library = self.path(f"{name}.so")
                fork_server.compile_to(path, Path(self.library))
                status, lines = self.asked(frames, IN_PLACE)
                found.append((status, len(lines), len(set(self.process(lines)))))
        self.assertEqual(set(found), {(0, 11, 1 if is_in_place else 3)})

    def is_in_place(self) -> bool:
        """Whether this system lets a program's memory be put back."""
        _, lines = self.asked([("L", "p\n"), ("F", "p\n")], IN_PLACE)
        return len(set(self.process(lines))) == 1

    def test_it_stands_where_it_stood(self) -> None:
        frames = [("L", "add 5\n"), ("F", "add 1\nadd 1\n"), ("F", "add 10\n"), ("F", ""), ("L", "add 2\nadd 3\n"), ("F", "add 1\n")]
        for by_forks in (IN_PLACE, BY_FORKS):
            status, lines = self.asked(frames, by_forks)
            self.assertEqual((status, lines), (0, [
                "\1H", "sum 5", "\1F", "sum 6", "sum 7", "\1E0", "\1F", "sum 15", "\1E0", "\1F", "\1E0", "sum 7", "sum 10", "\1F", "sum 11", "\1E0"]))

    def test_all_memory_is_put_back(self) -> None:
        frames: List[Tuple[str, str]] = [("L", "grow 100\n")]
        for number in range(ROUNDS):
            frames += [
                ("F", f"add 7\ngrow {300_000 + number}\nadd 1\ncalloc 500000\ncalloc 100\n"),
                ("F", f"calloc {100_000 * number}\ndeep 30\nout 3\n"),
                ("F", f"grow {10 * number + 1}\ngrow 3000000\nadd 2\n"),
                ("L", f"add {number}\ngrow {10_000 * number + 100}\ncalloc {number}\n")]
        found = self.asked(frames, IN_PLACE)
        self.assertEqual(found, self.asked(frames, BY_FORKS))
        self.assertEqual((found[0], len(found[1])), (0, 2 + ROUNDS * (5 + 3 + 3 + 3 + 3 * 2)))

    def test_the_program_answers_itself_where_that_can_be(self) -> None:
        if not self.is_in_place():
            self.skipTest("memory isn't put back here")
        frames = [("L", "p\n"), ("F", "p\nexit 3\n"), ("F", "p\ngrow 5000000\n"), ("L", "p\n")]
        _, lines = self.asked(frames, IN_PLACE)
        self.assertEqual([len(lines), len(set(self.process(lines)))], [11, 1])
        _, lines = self.asked(frames, BY_FORKS)
        self.assertEqual([len(lines), len(set(self.process(lines)))], [11, 3])

    def test_ends_amid_an_answer(self) -> None:
        for status in (0, 6, 255):
            frames = [("L", "add 1\n"), ("F", f"add 1\nexit {status}\nadd 1\n"), ("F", "add 5\n"), ("L", "add 1\n")]
            for by_forks in (IN_PLACE, BY_FORKS):
                self.assertEqual(self.asked(frames, by_forks), (0, [
                    "\1H", "sum 1", "\1F", "sum 2", f"end {status}", f"\1E{status << 8}", "\1F", "sum 6", "\1E0", "sum 2"]))
        self.assertEqual(self.asked([("L", "add 1\nexit 5\n"), ("F", "add 1\n")], IN_PLACE), (5, ["\1H", "sum 1", "end 5"]))

    def test_what_cannot_be_put_back(self) -> None:
        if not self.is_in_place():
            self.skipTest("memory isn't put back here")
        for text, said in (("map\n", "map 1"), ("write\n", "written 1"), ("thread\n", "thread 0")):
            status, lines = self.asked([("L", "add 1\n"), ("F", text), ("F", "add 1\n")], IN_PLACE)
            self.assertEqual(status, 98, lines)
            frames = [("L", "add 1\n"), ("L", text), ("F", "add 1\n"), ("L", "add 1\n")]
            for by_forks in (IN_PLACE, BY_FORKS):
                self.assertEqual(self.asked(frames, by_forks), (0, ["\1H", "sum 1", said, "\1F", "sum 2", "\1E0", "sum 2"]))

    def test_memory_that_was_changed_before_is_put_back(self) -> None:
        frames = [("L", "write\n"), ("F", "add 2\n"), ("L", "add 1\n"), ("F", "add 5\n")]
        for by_forks in (IN_PLACE, BY_FORKS):
            status, lines = self.asked(frames, by_forks)
            self.assertEqual((status, lines), (0, ["\1H", "written 1", "\1F", "sum 2", "\1E0", "sum 1", "\1F", "sum 6", "\1E0"]))

    def test_a_program_that_reserved_much_memory(self) -> None:
        if not self.is_in_place():
            self.skipTest("memory isn't put back here")
        with mock.patch.dict(os.environ, {"LARGE": "1"}):
            status, lines = self.asked([("L", "p\n"), ("F", "p\ndeep 30\n"), ("F", "p\n")], IN_PLACE)
        self.assertEqual((status, len(set(self.process(lines)))), (0, 1))

    def test_a_first_question_without_text_is_refused(self) -> None:
        self.assertEqual(self.asked([("F", ""), ("L", "add 1\n")], IN_PLACE)[0], 99)

    def test_a_cache_folder_of_others_is_not_used(self) -> None:
        for mode, is_used in ((0o700, True), (0o777, False)):
            with mock.patch.dict(os.environ, {"XDG_CACHE_HOME": self.path(f"cache{mode}")}):
                os.makedirs(self.path(f"cache{mode}/pmem-explore"))
                os.chmod(self.path(f"cache{mode}/pmem-explore"), mode)
                self.addCleanup(fork_server.remove_temporary)
                library, why = fork_server.library()
                assert library, why
                self.assertEqual(library.startswith(self.path(f"cache{mode}")), is_used)
                with mock.patch.object(os, "geteuid", lambda user=os.geteuid() + 1: user):
                    library, why = fork_server.library()
                    assert library, why
                    self.assertFalse(library.startswith(self.path(f"cache{mode}")))

    def answers(self, questions: Sequence[str]) -> List[Output]:
        """What a worker gets to questions, each after one more of the trace's commands."""
        trace = b"".join(b"add %d\n" % number for number in range(len(questions)))
        known = Output(b"".join(b"sum %d\n" % sum(range(number + 1)) for number in range(len(questions))), 0)
        program = SumProgram(self.program)
        recording = SumRecording(program, Settings(), trace_of("the trace", trace), known)
        done: Dict[int, Output] = {}
        with new_selector() as selector:
            worker = Forked(selector, recording, self.library, done)
            try:
                for number, question in enumerate(questions):
                    worker.give(number, Question(number, (question.encode(),)))
                worker.push()
                while len(done) < len(questions):
                    serve(selector, 10.0)
            finally:
                worker.close()
        return [done[number] for number in range(len(questions))]

    def test_what_cannot_be_put_back_is_asked_again_by_forks(self) -> None:
        self.assertEqual(self.answers(["add 1", "map", "write", "write", "thread", "exit 6"]), [
            Output(b"sum 1\n", 0), Output(b"map 1\n", 0), Output(b"written 1\n", 0), Output(b"written 1\n", 0),
            Output(b"thread 0\n", 0), Output(b"end 6\n", 6)])
        found = self.answers(["add 1", "stop", "add 5"])
        self.assertEqual(found, [Output(b"sum 1\n", 0), Output(b"stop 0\n", -6), Output(b"sum 6\n", 0)])
        with mock.patch.dict(os.environ, {FORKS: "1"}):
            self.assertEqual(self.answers(["add 1", "stop", "add 5"]), found)

    def test_a_program_that_answers_otherwise_is_told(self) -> None:
        trace = trace_of("the trace", b"add 1\nadd 2\n")
        recording = SumRecording(SumProgram(self.program), Settings(), trace, Output(b"sum 1\nsum 4\n", 0))
        with self.assertRaises(ExploreError) as caught:
            list(Together(recording.program, 1).answers(recording, [Question(2, (b"add 1",))], 1, ""))
        self.assertIn("does not answer", str(caught.exception))


if __name__ == "__main__":
    unittest.main()

"""Judges traces: reads a file, runs it through the program with a time limit, and holds the run against the goal of its task."""
import base64
import concurrent.futures
import csv
import os
import re
import stat
import subprocess
import time
import urllib.parse
import zlib
from typing import Dict, IO, List, Mapping, NamedTuple, Optional, Sequence, Tuple

from goals import goal_of, missing, run_of
from variants import LINE_BYTES, MOST_SEED

HERE = os.path.dirname(os.path.realpath(__file__))
FOLDERS = {"first": "first", "lesson": ".", "exercise": "exercises"}
MOST_BYTES = 2_000_000
DEFAULTS = {"levels": "2", "sets": "4", "ways": "2", "loss": "4", "major": "0", "suite": "aes", "key": "", "tag-key": "",
            "every": "100", "persist": "0", "shadow": "on", "queue": "volatile", "combine": "off"}
FAULTS = {"1": "does not begin with a command", "2": "has too few or too many words", "3": "has a word that is not a number",
          "4": "has a port that is too great", "5": "has a wrong hex value", "6": "is longer than 1,024 bytes"}
TASK = re.compile(r"(?P<student>.*?)[-_ ]*\b(?P<kind>first|lesson|exercise|f|l|e)[-_ ]?(?P<number>\d{1,3})", re.IGNORECASE)
COLUMNS = ("student", "task", "verdict", "missing", "seconds", "file")


class NotJudged(Exception):
    """Why a trace can't be judged, in words."""


class Task(NamedTuple):
    """A first step, a lesson or an exercise: its kind, its number and its folder."""

    kind: str
    number: int
    folder: str

    def name(self) -> str:
        """The name of its file in a class's folder."""
        return f"{self.kind}-{self.number}"


class Row(NamedTuple):
    """A row of a class's table."""

    student: str
    task: str
    verdict: str
    missing: str
    seconds: float
    file: str


def read_text(path: str, default: str = "") -> str:
    """The text of a lesson's file, or `default` if there is none."""
    if not os.path.isfile(path):
        return default
    with open(path, encoding="utf-8") as file:
        return file.read()


def task_of(kind: str, number: int) -> Optional[Task]:
    """The first step, lesson or exercise with a number, or None if none with a goal has it."""
    top = f"{HERE}/{FOLDERS[kind]}"
    for name in sorted(os.listdir(top)):
        if re.match(rf"0*{number}-", name) and os.path.isfile(f"{top}/{name}/goal"):
            return Task(kind, number, f"{top}/{name}")
    return None


def find_program(tool: str) -> Tuple[Optional[str], str]:
    """Returns the built program's file and "", or None and why there is none. Builds nothing."""
    named = os.environ.get("PMEM_PROGRAM")
    if named:
        path = os.path.abspath(named)
        is_program = os.access(path, os.X_OK) and not os.path.isdir(path)
        return (path, "") if is_program else (None, f"{tool}: PMEM_PROGRAM names {path}, which is not a program")
    bundled = f"{HERE}/../program/pmem"
    if os.access(bundled, os.X_OK):
        return bundled, ""
    asked = subprocess.run([f"{HERE}/../pmem", "--where"], stdout=subprocess.PIPE, stderr=subprocess.PIPE, check=False)
    if asked.returncode == 0:
        return asked.stdout.decode().rstrip("\n"), ""
    return None, asked.stderr.decode("utf-8", "replace").rstrip("\n") or f"{tool}: no program is built yet: run ./pmem first"


def decoded(given: bytes) -> str:
    """The text of a submission. NotJudged: it isn't plain UTF-8 text of a bearable length."""
    if len(given) > MOST_BYTES:
        raise NotJudged(f"the file has more than {MOST_BYTES} bytes")
    if given.startswith((b"\xff\xfe", b"\xfe\xff")) or b"\0" in given[:200]:
        raise NotJudged("the file is UTF-16, or not a text: save it as UTF-8")
    if given.startswith(b"\xef\xbb\xbf"):
        raise NotJudged("the file begins with a byte order mark: save it as UTF-8 without one")
    try:
        return given.decode()
    except UnicodeDecodeError:
        raise NotJudged("the file is not UTF-8: save it as UTF-8") from None


def trace_of_link(text: str) -> Optional[str]:
    """The trace of a link that the page copied, with its machine and options in a first line; None if the text isn't such a link.
    NotJudged: the link's trace is damaged, or it has none."""
    link = re.fullmatch(r"\s*(?:(?:https?|file)://\S*)?#(\S*)\s*", text)
    parts = dict(re.findall("([a-z]+)=([^&]*)", link[1])) if link else {}
    if not link or not set(parts) & {"lesson", "machine"}:
        return None
    if not {"z", "trace"} & set(parts):
        raise NotJudged("the link has no trace: it opens the lesson as it stands")
    try:
        lines = inflated(parts["z"]).split("\n") if "z" in parts else [readable(line) for line in parts["trace"].split("~")]
    except (ValueError, zlib.error):
        raise NotJudged("the trace in the link is damaged") from None
    words = ["# pmem:", parts.get("machine", "run"), *parts.get("options", "").split("_")]
    return "\n".join([" ".join(word for word in words if word), *lines]) + "\n"


def inflated(text: str) -> str:
    """A deflated text, as a link has it. ValueError, zlib.error: it isn't one, or it is too long."""
    machine = zlib.decompressobj(-zlib.MAX_WBITS)
    data = machine.decompress(base64.urlsafe_b64decode(text + "=" * (-len(text) % 4)), MOST_BYTES)
    if machine.unconsumed_tail or not machine.eof:
        raise ValueError("too long, or cut off")
    return data.decode()


def readable(text: str) -> str:
    """A line of a trace that a link has in words, with 11x64 for a line of one byte. ValueError: it is damaged."""
    line = urllib.parse.unquote(text.replace("_", " ").replace("+", " "), errors="strict")
    if line.lstrip().startswith("#"):
        return line
    return re.sub(r"(?<!\S)([0-9a-fA-F]{2})x([0-9]{1,2})(?!\S)", lambda found: found[1] * min(LINE_BYTES, int(found[2])), line)


def read_trace(path: str) -> str:
    """A submission's text. NotJudged: it can't be read as a trace."""
    try:
        if not stat.S_ISREG(os.stat(path).st_mode):
            raise NotJudged("it is not a file")
        with open(path, "rb") as file:
            return decoded(file.read(MOST_BYTES + 1))
    except OSError as error:
        raise NotJudged(f"the file cannot be read: {error.strerror}") from None


def chosen_words(trace: str) -> Optional[List[str]]:
    """The machine and options of a line `# pmem: run --loss 1` before the first command, or None if there isn't one."""
    for line in trace.split("\n"):
        found = re.match(r"\s*#\s*pmem:(.*)", line)
        if found:
            return found[1].split()
        if line.strip() and not line.strip().startswith("#"):
            break
    return None


def options_of(words: Sequence[str]) -> Dict[str, str]:
    """All options of a run by name. NotJudged: a word isn't an option that a trace may choose."""
    options, given = dict(DEFAULTS), " ".join(words).replace("=", " ").split()
    for name, value in zip(given[::2], [*given[1::2], ""]):
        if not name.startswith("--") or name[2:] not in DEFAULTS or not re.fullmatch("[0-9a-zA-Z]{1,128}", value):
            raise NotJudged(f"the options of its line `# pmem:` are not known: {name} {value}".rstrip())
        options[name[2:]] = value
    return options


def words_for(task: Task, trace: str) -> Tuple[str, List[str]]:
    """The machine and the options of a submission: those that its first line chooses, or else those that the task begins with."""
    machine = read_text(f"{task.folder}/machine", "run").strip()
    chosen = chosen_words(trace)
    if chosen is None:
        return machine, read_text(f"{task.folder}/options").split()
    if not chosen or chosen[0] != machine:
        raise NotJudged(f"the task is for `pmem {machine}`, and the trace's line `# pmem:` says {' '.join(chosen[:1]) or 'nothing'}")
    return machine, chosen[1:]


def replies_to(program: str, words: Sequence[str], trace: str, seconds: float) -> str:
    """The program's replies to a trace. NotJudged: the run fails, or takes longer than the limit."""
    try:
        ran = subprocess.run([program, *words], input=trace.encode(), stdout=subprocess.PIPE, stderr=subprocess.PIPE, check=False,
                             timeout=seconds)
    except subprocess.TimeoutExpired:
        raise NotJudged(f"the run takes longer than {seconds:g} s") from None
    except OSError as error:
        raise NotJudged(f"the program cannot be run: {error.strerror}") from None
    said = ran.stdout.decode("utf-8", "replace")
    last = said.rstrip("\n").split("\n")[-1]
    if ran.returncode not in (0, 6) and not last.startswith("stop "):
        raise NotJudged(f"the program ends with status {ran.returncode} and `{last[:60]}`")
    return said


def fault_of(replies: str) -> Optional[str]:
    """What stopped a run, in words, or None."""
    last = replies.rstrip("\n").split("\n")[-1]
    line = re.fullmatch(r"stop line (\d+) (\d)", last)
    if line:
        return f"Line {line[1]} of the trace {FAULTS.get(line[2], 'is wrong')}."
    return f"The run stops with `{last}`." if last.startswith("stop ") else None


def judge(program: str, task: Task, trace: str, seconds: float, seed: Optional[int] = None) -> Optional[str]:
    """None if a trace reaches the goal of its task, or of the task's variant by a seed, or a sentence on what is missing. NotJudged: it
    can't be judged."""
    trace = trace_of_link(trace) or trace
    machine, words = words_for(task, trace)
    options = options_of(words)
    replies = replies_to(program, [machine, *words], trace, seconds)
    return fault_of(replies) or missing(goal_of(read_text(f"{task.folder}/goal"), seed), run_of(trace, replies), options)


def seed_of(text: str) -> int:
    """A seed as it is written. NotJudged: it isn't one."""
    if not re.fullmatch("[0-9]{1,4}", text) or not 1 <= int(text) <= MOST_SEED:
        raise NotJudged(f"a seed is a number from 1 to {MOST_SEED}, and not {text}")
    return int(text)


def read_seeds(path: str) -> Dict[str, int]:
    """The seeds of students, from a table with the columns student and seed. NotJudged: it can't be read."""
    try:
        with open(path, encoding="utf-8-sig", newline="") as file:
            rows = list(csv.DictReader(file))
    except (OSError, UnicodeDecodeError, csv.Error) as error:
        raise NotJudged(f"{path} cannot be read: {error}") from None
    if not rows or not {"student", "seed"} <= set(rows[0]):
        raise NotJudged(f"{path} needs the columns student and seed, with a line of titles")
    return {row["student"] or "": seed_of(row["seed"] or "") for row in rows}


def named_task(path: str) -> Optional[Tuple[str, Task]]:
    """The student and the task of a file's path below the folder, as ada/lesson-2.trace or ada-lesson-2.trace, or None."""
    parts = path.split(os.sep)
    found = TASK.fullmatch(os.path.splitext(parts[-1])[0])
    if not found:
        return None
    task = task_of(next(kind for kind in FOLDERS if kind[0] == found["kind"][0].lower()), int(found["number"]))
    student = parts[0] if len(parts) > 1 else found["student"]
    return (student, task) if task and student else None


def submissions(folder: str) -> List[str]:
    """The paths of all files below a folder, without hidden ones."""
    found = []
    for place, folders, names in os.walk(folder):
        folders[:] = sorted(name for name in folders if not name.startswith((".", "__MACOSX")))
        found += [os.path.relpath(f"{place}/{name}", folder) for name in sorted(names) if not name.startswith(".")]
    return found


def row_of(program: str, folder: str, path: str, seconds: float, seeds: Optional[Mapping[str, int]] = None) -> Row:
    """The row of one submission. With `seeds` each student has a variant of the task."""
    named = named_task(path)
    start = time.monotonic()
    try:
        if named is None:
            student = path.split(os.sep)[0]
            return Row(student, "", "not judged", "the file's name names no task: lesson-2.trace, exercise-1.trace", 0.0, path)
        if seeds is not None and named[0] not in seeds:
            raise NotJudged("the table of seeds does not have this student")
        seed = None if seeds is None else seeds[named[0]]
        why = judge(program, named[1], read_trace(os.path.join(folder, path)), seconds, seed)
        verdict = "reached" if why is None else "not reached"
    except NotJudged as error:
        verdict, why = "not judged", str(error)
    assert named is not None
    return Row(named[0], named[1].name(), verdict, why or "", time.monotonic() - start, path)


def table_of(program: str, folder: str, tasks: Sequence[str], seconds: float, jobs: int, seeds: Optional[Mapping[str, int]] = None) -> List[Row]:
    """One row for each student and task: the best of their files. A student without a file for one of `tasks` gets a row too, and so
    does a student who is only in the table of seeds."""
    with concurrent.futures.ThreadPoolExecutor(jobs) as pool:
        rows = list(pool.map(lambda path: row_of(program, folder, path, seconds, seeds), submissions(folder)))
    best: Dict[Tuple[str, str, str], Row] = {}
    for row in rows:
        if tasks and row.task and row.task not in tasks:
            continue
        key = (row.student, row.task, "" if row.task else row.file)
        if key not in best or best[key].verdict != "reached":
            best[key] = row
    for student in {row.student for row in rows} | set(seeds or {}):
        for task in tasks:
            best.setdefault((student, task, ""), Row(student, task, "no file", "", 0.0, ""))
    return [best[key] for key in sorted(best)]


def plain_cell(text: str) -> str:
    """A cell that no spreadsheet takes for a formula; what a terminal would act on is escaped, as in a string of Python."""
    shown = "".join(letter if letter.isprintable() else ascii(letter)[1:-1] for letter in text)
    return "'" + shown if shown.startswith(("=", "+", "-", "@")) else shown


def write_table(rows: Sequence[Row], file: IO[str]) -> None:
    """Writes rows as CSV, with a line of titles."""
    writer = csv.writer(file, lineterminator="\n")
    writer.writerow(COLUMNS)
    for row in rows:
        writer.writerow([*map(plain_cell, row[:4]), f"{row.seconds:.2f}", plain_cell(row.file)])

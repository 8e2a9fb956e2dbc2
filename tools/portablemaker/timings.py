"""How long each form of the program takes next to the one that the toolchain built: what `tools/bench --forms` prints."""
import os
import shutil
import subprocess
import sys
import time
from pathlib import Path
from typing import Callable, Dict, List, NamedTuple, Optional, Sequence

from .compiler import compile_program
from .kept import TOP, module_bytes, write
from .source import node_source, program_source

# Forms that a C compiler makes: its name, and its flags.
COMPILED = (("gcc -O1", "gcc", ("-O1",)), ("gcc -O2", "gcc", ("-O2",)), ("clang -O1", "clang", ("-O1",)),
            ("checked", "gcc", ("-O1", "-DPMEM_CHECKED")))
COPIED = """\
#include "pmem.h"
#include <stdio.h>
#include <time.h>

int main(void) {
    pmem memory = PMEM_CLOSED, copy = PMEM_CLOSED;
    uint8_t bytes[PMEM_LINE_BYTES] = {1};
    struct timespec from, to;
    if (pmem_open_text(&memory, "run") != PMEM_OK) return 1;
    for (uint64_t i = 0; i < 1000; i++) {
        if (pmem_post(&memory, 0, i % 64, bytes).kind != PMEM_DONE) return 1;
        pmem_drain(&memory, 0);
    }
    clock_gettime(CLOCK_MONOTONIC, &from);
    if (pmem_copy(&memory, &copy) != PMEM_OK) return 1;
    clock_gettime(CLOCK_MONOTONIC, &to);
    printf("%.6f\\n", (double)(to.tv_sec - from.tv_sec) + (double)(to.tv_nsec - from.tv_nsec) / 1e9);
    return 0;
}
"""


class Measure(NamedTuple):
    """A row: its name, and what takes the time: a program's path to arguments, and the file that is standard input."""

    name: str
    words: Callable[[str], List[str]]
    given: Optional[Path]


def measures(program: str, folder: Path, commands: int, cut: int) -> List[Measure]:
    """The rows, whose traces are made by a program in a folder."""
    traces = {}
    for name, count in (("sample", commands), ("cut", cut)):
        traces[name] = folder / f"{name}.trace"
        with open(traces[name], "wb") as file:
            subprocess.run([program, "make", "7", str(count)], stdout=file, check=True)
    explore, trace = f"{TOP}/tools/explore", str(traces["cut"])
    return [
        Measure("aes", lambda path: [path, "run"], traces["sample"]),
        Measure("weak", lambda path: [path, "run", "--suite", "weak"], traces["sample"]),
        Measure("levels 6", lambda path: [path, "run", "--levels", "6"], traces["sample"]),
        Measure("sample", lambda path: [path, "sample", "7", str(commands)], None),
        Measure("start-up", lambda path: [path, "make", "0", "0"], None),
        Measure("all cuts", lambda path: [sys.executable, explore, "cuts", trace, "--suite", "weak", "--program", path, "-o", os.devnull], None)]


def forms(program: str, folder: Path) -> Dict[str, str]:
    """The programs by name: the one that the toolchain built, and those that compilers and node are there for."""
    found = {"native": os.path.abspath(program)}
    source = str(folder / "pmem.c")
    write(source, program_source(module_bytes()))
    for number, (name, compiler, flags) in enumerate(COMPILED):
        if shutil.which(compiler):
            place = str(folder / f"form{number}")
            room = folder / f"room{number}"
            room.mkdir()
            compile_program(source, place, str(room), ["-std=c11", *flags], compiler=shutil.which(compiler))
            found[name] = place
    if shutil.which("node"):
        path = folder / "pmem.mjs"
        write(str(path), node_source(module_bytes()))
        path.chmod(0o755)
        found["node"] = str(path)
    return found


def seconds_of(words: Sequence[str], given: Optional[Path]) -> float:
    """The processor time of a run with all that it starts, in seconds."""
    before = os.times()
    with open(given or os.devnull, "rb") as source:
        subprocess.run(words, stdin=source, stdout=subprocess.DEVNULL, check=True)
    after = os.times()
    return after.children_user + after.children_system - before.children_user - before.children_system


def copy_seconds(library: Path, folder: Path) -> Optional[float]:
    """How long a copy of a session takes after 1,000 writes, in seconds; None without a library or a compiler."""
    compiler, archive = shutil.which("cc"), library / "libpmem.a"
    if compiler is None or not archive.exists():
        return None
    (folder / "copied.c").write_text(COPIED)
    subprocess.run([compiler, "-std=gnu11", "-O1", f"-I{TOP}/include", str(folder / "copied.c"), str(archive), "-o", str(folder / "copied")],
                   check=True)
    return min(float(subprocess.run([str(folder / "copied")], stdout=subprocess.PIPE, check=True).stdout) for _ in range(3))


def table(program: str, library: Path, folder: Path, commands: int, cut: int, repeat: int) -> str:
    """The table: a row for each measure, a column for each form; the least of several runs, which take turns."""
    begun = time.monotonic()
    programs = forms(program, folder)
    rows = measures(program, folder, commands, cut)
    least: Dict[str, Dict[str, float]] = {row.name: {} for row in rows}
    for _ in range(repeat):
        for row in rows:
            for name, path in programs.items():
                seconds = seconds_of(row.words(path), row.given)
                least[row.name][name] = min(seconds, least[row.name].get(name, seconds))
    lines = [f"{'seconds':10}" + "".join(f"  {name:>9}" for name in programs)]
    lines += [f"{row.name:10}" + "".join(f"  {least[row.name][name]:9.3f}" for name in programs) for row in rows]
    copied = copy_seconds(library, folder)
    if copied is not None:
        lines.append(f"pmem_copy after 1,000 writes: {copied * 1000:.2f} ms")
    lines.append(f"{commands:,} commands; all cuts of {cut:,}; the least of {repeat}; {time.monotonic() - begun:.0f} s in all")
    return "\n".join(lines)

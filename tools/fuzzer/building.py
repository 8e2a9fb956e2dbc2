"""Builds the drivers: the library's C with sanitizers, over the proved code of one of its builds."""
import hashlib
import os
import shutil
import subprocess
import sys
import tempfile
from dataclasses import dataclass
from pathlib import Path
from typing import List, Optional, Sequence, Tuple

from librarymaker import portable
from librarymaker.files import ARCHIVE, HEADER, LIBRARY, NATIVE_C, TOP
from librarymaker.source import library_c
from portablemaker.compiler import compile_parts
from portablemaker.source import PARTS

HERE = Path(__file__).resolve().parent
ROOM = TOP / "out" / "fuzz"
STANDARD = ("-std=c11", "-O1", "-g")
STRICT = ("-Wall", "-Wextra", "-Wpedantic", "-Wconversion", "-Wshadow", "-Werror")
WATCHED = ("-fsanitize=address,undefined", "-fno-sanitize-recover=all")
# The translated C checks each of its accesses itself (-DPMEM_CHECKED), and AddressSanitizer and most of UBSan would check them again, which
# takes most of the time. What is left watches its arithmetic and its tables; the library's own C around it is watched by everything.
CHECKED_ITSELF = ("address", "alignment", "bool", "builtin", "enum", "function", "nonnull-attribute", "null", "object-size", "pointer-overflow",
                  "returns-nonnull-attribute", "vla-bound")
TRANSLATED = ("/* ---- What the functions of the module stand on", "/* ---- The calls of pmem.h. */")
RACES = ("-fsanitize=thread",)
# Each session reserves as much as its memory may grow to. AddressSanitizer marks all of it, so it is less than in a build for use.
PORTABLE = ("-w", "-g1", "-DPMEM_CHECKED", "-DPMEM_INSTANCE_BYTES=33554432")
REFUSING = "-Wl,--wrap=malloc,--wrap=calloc,--wrap=realloc"
MISSING = 127


class FuzzError(Exception):
    """Why nothing was run, in one line, with the exit status."""

    def __init__(self, why: str, status: int = 1) -> None:
        super().__init__(why)
        self.status = status


@dataclass(frozen=True)
class Driver:
    """A driver in C: its sources in this folder and in library/, and whether it stands on the proved code."""

    name: str
    about: str
    sources: Tuple[str, ...]
    needs_proved: bool = True
    options: Tuple[str, ...] = ()
    longest: int = 2048
    has_threads: bool = False


DRIVERS = (
    Driver("answer", "pmem_answer on any arguments and any trace", ("answer.c",)),
    Driver("sessions", "sessions with lines, copies, refused memory and wrong use, against pmem_answer", ("sessions.c",),
           options=(REFUSING,)),
    Driver("typed", "the typed calls over a stand-in that replies anything", ("typed.c", "stand_in.c"), needs_proved=False),
    Driver("threads", "eight threads with a session each, under ThreadSanitizer", ("threads.c",), has_threads=True),
)


def compiler() -> str:
    """Clang, which has libFuzzer.

    Raises:
        FuzzError: it is missing, or cannot link a driver.
    """
    name = os.environ.get("CC") or "clang"
    found = shutil.which(name)
    if found is None:
        raise FuzzError(f"{name} is not on the PATH: install clang and its runtime (Debian: apt install clang libclang-rt-dev)", MISSING)
    with tempfile.TemporaryDirectory(prefix="pmem-fuzz-") as folder:
        source = Path(folder, "it.c")
        source.write_text("#include <stddef.h>\n#include <stdint.h>\nint LLVMFuzzerTestOneInput(const uint8_t *it, size_t len);\n"
                          "int LLVMFuzzerTestOneInput(const uint8_t *it, size_t len) { return it == 0 && len != 0; }\n", encoding="ascii")
        tried = subprocess.run([found, "-fsanitize=fuzzer,address", str(source), "-o", f"{folder}/it"], stdin=subprocess.DEVNULL,
                               stdout=subprocess.DEVNULL, stderr=subprocess.DEVNULL, check=False)
    if tried.returncode:
        raise FuzzError(f"{found} cannot link libFuzzer and AddressSanitizer: install its runtime (Debian: apt install libclang-rt-dev)",
                        MISSING)
    return found


def digest_of(words: Sequence[str], files: Sequence[Path]) -> str:
    """A digest of what a program is made of."""
    whole = hashlib.sha256("\0".join(words).encode())
    for path in sorted(files):
        whole.update(f"\n{path.name} ".encode() + hashlib.sha256(path.read_bytes()).digest())
    return whole.hexdigest()[:16]


def ran(words: Sequence[str], what: str) -> None:
    """Runs a compiler.

    Raises:
        FuzzError: it failed; the first lines that it printed say why.
    """
    ended = subprocess.run(list(words), stdin=subprocess.DEVNULL, stdout=subprocess.PIPE, stderr=subprocess.STDOUT, universal_newlines=True,
                           errors="replace", check=False)
    if ended.returncode:
        raise FuzzError(f"{what} cannot be built: {ended.stdout.strip()[:1500]}")


def checked_itself(text: str) -> str:
    """The library's C in which `CHECKED_ITSELF` leaves the translated functions alone.

    Raises:
        FuzzError: the text doesn't have the comments in front of and behind them.
    """
    kinds = ", ".join(f'"{kind}"' for kind in CHECKED_ITSELF)
    around = (f"#pragma clang attribute push(__attribute__((no_sanitize({kinds}))), apply_to = function)\n", "#pragma clang attribute pop\n")
    for comment, pragma in zip(TRANSLATED, around):
        if text.count(comment) != 1:
            raise FuzzError(f"the portable library's C does not have the comment {comment!r} once")
        text = text.replace(comment, pragma + comment)
    return text


def portable_objects(clang: str, has_threads: bool) -> List[str]:
    """The portable library as objects, made unless they are there. The C that was translated reports what it reaches to libFuzzer, and
    checks each access to its memory (-DPMEM_CHECKED). Cost: a minute or two of processor time, once.

    Raises:
        FuzzError: the module was made of other sources.
    """
    if not portable.is_current():
        raise FuzzError("module/pmem.wasm was made of other sources than those here: tools/module makes it again, or --native names a folder "
                        "with the native library", 126)
    flags = [*STANDARD, *PORTABLE, *(RACES if has_threads else ("-fsanitize=fuzzer-no-link", *WATCHED))]
    text = library_c(portable.module()) if has_threads else checked_itself(library_c(portable.module()))
    objects = [part_object(number, [clang, *flags], text, has_threads) for number in range(PARTS)]
    missing = [number for number, path in enumerate(objects) if not path.exists()]
    if missing:
        compile_missing(missing, objects, text, [clang, *flags])
    return [str(path) for path in objects]


def part_object(number: int, words: Sequence[str], text: str, has_threads: bool) -> Path:
    """The file of a part's object, by what it is made of. Part 0 has the library's own C, which changes more often than the rest."""
    made_of = text + HEADER.read_text(encoding="utf-8") if number == 0 else text[:text.index(TRANSLATED[1])]
    return ROOM / f"{'threads' if has_threads else 'watched'}-part{number}-{digest_of([*words, made_of], [])}.o"


def compile_missing(missing: Sequence[int], objects: Sequence[Path], text: str, words: Sequence[str]) -> None:
    """Compiles these parts of the portable library, and drops their older objects."""
    sys.stderr.write("fuzz: the portable library is compiled with sanitizers, which takes some minutes once\n")
    ROOM.mkdir(parents=True, exist_ok=True)
    with tempfile.TemporaryDirectory(dir=ROOM) as room:
        Path(room, "libpmem.c").write_text(text, encoding="utf-8")
        shutil.copyfile(HEADER, f"{room}/{HEADER.name}")
        made = compile_parts(f"{room}/libpmem.c", room, words[1:], compiler=words[0], parts=missing)
        for number, path in zip(missing, made):
            for older in ROOM.glob(f"{objects[number].name.rpartition('-')[0]}-*.o"):
                older.unlink()
            os.replace(path, objects[number])


def proved_code(clang: str, driver: Driver, native: Optional[Path]) -> List[str]:
    """What a driver links: the library's C with sanitizers over a native archive, or the portable library."""
    if not driver.needs_proved or native is not None:
        archive = [] if native is None or not driver.needs_proved else [str(native / ARCHIVE)]
        return [*(str(LIBRARY / name) for name in NATIVE_C), *archive]
    return portable_objects(clang, driver.has_threads)


def built(clang: str, driver: Driver, native: Optional[Path]) -> Path:
    """The program of a driver, made unless it is there. `native` is a folder with the native library, or None for the portable one.

    Raises:
        FuzzError: it cannot be built.
    """
    sanitizers = RACES if driver.has_threads else ("-fsanitize=fuzzer", *WATCHED)
    below = proved_code(clang, driver, native)
    sources = [str(HERE / name) for name in driver.sources]
    words = [clang, *STANDARD, *STRICT, *sanitizers, f"-I{HEADER.parent}", f"-I{LIBRARY}", f"-I{HERE}", *sources, *below, *driver.options,
             "-lpthread"]
    files = [HEADER, *HERE.glob("*.[ch]"), *LIBRARY.glob("*.[ch]"), *(Path(it) for it in below)]
    place = ROOM / f"{driver.name}-{digest_of(words, files)}"
    if not place.exists():
        ROOM.mkdir(parents=True, exist_ok=True)
        new = place.with_suffix(".new")
        ran([*words, "-o", str(new)], f"the driver {driver.name}")
        os.replace(new, place)
    return place

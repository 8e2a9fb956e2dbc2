"""The native build: what the toolchain proved and compiled, with library/*.c around it."""
import os
import shutil
import subprocess
from pathlib import Path
from typing import List, Optional, Tuple

from .files import ARCHIVE, HEADER, LIBRARY, MISSING, NATIVE_C, SHARED, STANDARD, TOP, LibraryError, exported_calls, run, say

CRATE = TOP / "crates" / "pmem_c"
PROVED = CRATE / "out" / "libpmem_c.a"
LOG = CRATE / "out" / "build.log"


def kit() -> Optional[Path]:
    """The toolchain's folder; None if it is not there."""
    rt = shutil.which("rt")
    folder = Path(os.path.realpath(rt)).parents[1] if rt else None
    return folder if folder and (folder / "bin" / "rattle").exists() else None


def _below() -> List[str]:
    """The libraries that the crate stands on, as crates.txt has them."""
    for line in (TOP / "crates.txt").read_text(encoding="utf-8").splitlines():
        head, colon, below = line.partition("#")[0].partition(":")
        if colon and head.split()[:1] == ["pmem_c"]:
            return below.split()
    raise LibraryError("crates.txt has no crate pmem_c")


def _is_current(made: Path, name: str) -> bool:
    """Whether a file or folder is there and no source of a crate is newer."""
    if not made.exists():
        return False
    when = made.stat().st_mtime
    folders = [TOP / "crates" / name / part for part in ("src", "specs", "proofs")]
    files = [TOP / "crates.txt", *(path for folder in folders if folder.is_dir() for path in (folder, *folder.rglob("*")))]
    return all(path.stat().st_mtime <= when for path in files)


def is_built() -> bool:
    """Whether the proved archive is that of the sources as they stand."""
    return all(_is_current(PROVED, name) for name in ("pmem_c", *_below()) if (TOP / "crates" / name).is_dir())


def _libraries(folder: Path) -> Optional[List[Tuple[str, Path]]]:
    """The proved libraries below the crate with their places; None if one is missing or older than its sources."""
    found = []
    for name in _below():
        place = TOP / "crates" / name / "out" / "rlib" / f"{name}.rlib"
        if not (TOP / "crates" / name).is_dir():
            place = folder / "rlibs" / f"{name}.rlib"
        elif not (place / "format").exists() or not _is_current(place, name):
            return None
        found.append((name, place))
    return found


def is_proved_below() -> bool:
    """Whether the libraries below the crate are there as proved from the sources as they stand."""
    folder = kit()
    return folder is not None and _libraries(folder) is not None


def _build_over_proved(folder: Path, libraries: List[Tuple[str, Path]]) -> None:
    """Has the toolchain's compiler check and build the crate, with the arguments that rt gives it."""
    say("the exports are checked and built over the proved libraries, which takes about a minute")
    words = [str(folder / "bin" / "rattle"), "build", "--crate-name", "pmem_c", "src/lib.rt", "--extern", f"std={folder}/rlibs/std.rlib"]
    for name, place in libraries:
        words += ["--extern", f"{name}={place}"]
    words += ["-L", f"dependency={folder}/rlibs"]
    for _, place in libraries:
        if place.parent != folder / "rlibs":
            words += ["-L", f"dependency={place.parent}"]
    words += ["--antt-project", f"{folder}/rattle/logic/antt-project.json", "--logic-built", f"{folder}/logic_built", "--jobs", "1",
              "--links", "pmem_c=", "--crate-type", "staticlib", "--toolchain", f"{folder}/toolchain", "--backend", "llvm",
              "-o", "out/libpmem_c.a"]
    with open(LOG, "wb") as log:
        ended = subprocess.run(words, cwd=CRATE, stdin=subprocess.DEVNULL, stdout=log, stderr=subprocess.STDOUT, check=False)
    said = LOG.read_text(encoding="utf-8", errors="replace")
    if ended.returncode or not any(line.startswith("logic=proved ") for line in said.splitlines()):
        if PROVED.exists():
            PROVED.unlink()
        raise LibraryError(f"the exports could not be checked and built; the end of {LOG} says why:\n" + "\n".join(said.splitlines()[-5:]))


def _prove_all() -> None:
    """Proves the crate and everything below it. What was proved before is kept."""
    say(f"the library is proved first; from nothing that takes about 20 minutes on four processors. The log: {LOG}")
    with open(LOG, "wb") as log:
        ended = subprocess.run(["rt", "lib"], cwd=CRATE, stdin=subprocess.DEVNULL, stdout=log, stderr=subprocess.STDOUT, check=False)
    if ended.returncode or not PROVED.exists():
        said = LOG.read_text(encoding="utf-8", errors="replace").splitlines()
        raise LibraryError(f"the library could not be proved and built; the end of {LOG} says why:\n" + "\n".join(said[-5:]))


def build(may_prove: bool) -> None:
    """Makes the proved archive of the sources as they stand.

    Raises:
        LibraryError: with status 126 if libraries are missing and `may_prove` is false.
    """
    if is_built():
        return
    folder = kit()
    if folder is None:
        raise LibraryError("the toolchain's command rt is not on the PATH", 127)
    (CRATE / "out").mkdir(parents=True, exist_ok=True)
    libraries = _libraries(folder)
    if libraries is not None:
        _build_over_proved(folder, libraries)
    elif may_prove:
        _prove_all()
    else:
        raise LibraryError("the libraries below crates/pmem_c are not all there as proved from the sources as they stand: rt ci leaves them so",
                           MISSING)
    os.utime(PROVED)


def heap(folder: Path) -> Path:
    """The heap of the proved code: three functions over malloc, which come with the toolchain."""
    found = folder / "c" / "liblibc_c.a"
    if not found.exists():
        raise LibraryError(f"the toolchain has no {found}")
    return found


def link(compiler: str, room: Path) -> None:
    """Makes both libraries in a folder."""
    folder = kit()
    if folder is None:
        raise LibraryError("the toolchain's command rt is not on the PATH", 127)
    for tool in ("ar", "objcopy"):
        if not shutil.which(tool):
            raise LibraryError(f"{tool} is not there: install binutils", 127)
    objects = []
    for name in NATIVE_C:
        made = room / f"pmem_{Path(name).stem}.o"
        run([compiler, STANDARD, "-O2", "-fPIC", f"-I{HEADER.parent}", "-c", str(LIBRARY / name), "-o", str(made)], name)
        objects.append(str(made))
    renamed = room / "proved.a"
    run(["objcopy", "--redefine-sym", "pmem_answer=pmem_proved_answer", str(PROVED), str(renamed)], "the proved archive")
    script = "\n".join([f"create {room / ARCHIVE}", f"addlib {renamed}", f"addlib {heap(folder)}", *(f"addmod {it}" for it in objects),
                        "save", "end", ""])
    made_archive = subprocess.run(["ar", "-M"], input=script, stdout=subprocess.PIPE, stderr=subprocess.STDOUT, universal_newlines=True,
                                  check=False)
    if made_archive.returncode:
        raise LibraryError(f"ar cannot make {ARCHIVE}: {made_archive.stdout.strip()}")
    exports = room / "exports"
    exports.write_text("{ global: " + " ".join(f"{name};" for name in exported_calls()) + " local: *; };\n", encoding="utf-8")
    run([compiler, "-shared", "-o", str(room / SHARED), f"-Wl,-soname,{SHARED}", f"-Wl,--version-script={exports}", *objects,
         "-Wl,--whole-archive", str(renamed), "-Wl,--no-whole-archive", str(heap(folder))], SHARED)

"""The portable build: C translated from the WebAssembly module of the proved program, compiled for this machine."""
import hashlib
import shutil
from pathlib import Path
from typing import List

import portablemaker
from portablemaker.compiler import compile_parts
from portablemaker.digest import made_of, sources_digest

from .files import ARCHIVE, HEADER, LIBRARY, MODULE, SHARED, STANDARD, TOP, LibraryError, run
from .source import library_c

SOURCE, KEY = "libpmem.c", "libpmem.key"
FLAGS = [STANDARD, "-O1", "-fPIC", "-fvisibility=hidden"]
VISIBLE = '__attribute__((visibility("default")))'


def module() -> bytes:
    """The module that the repository has.

    Raises:
        LibraryError: it has none.
    """
    try:
        return MODULE.read_bytes()
    except OSError as error:
        raise LibraryError(f"the module {MODULE} cannot be read: {error.strerror or error}") from error


def is_current() -> bool:
    """Whether the module was made of the sources as they stand. Without sources, as in a source archive of the C, it is."""
    if not (TOP / "crates.txt").exists():
        return True
    return MODULE.exists() and made_of(MODULE.read_bytes()).get("sources") == sources_digest(str(TOP))


def key(compiler: str) -> str:
    """A digest of everything that the libraries are made of. Libraries with the same one need not be made again."""
    whole = hashlib.sha256(" ".join([shutil.which(compiler) or compiler, *FLAGS]).encode())
    maker = Path(portablemaker.__file__).parent
    files = [*maker.glob("*.py"), *maker.glob("*.[ch]"), *LIBRARY.glob("*.[ch]"), *Path(__file__).parent.glob("*.py"), HEADER, MODULE]
    for path in sorted(files):
        whole.update(f"{path.name} {hashlib.sha256(path.read_bytes()).hexdigest()}\n".encode())
    return whole.hexdigest()


def is_made(compiler: str, folder: Path) -> bool:
    """Whether a folder has the libraries as they would be made."""
    kept = folder / KEY
    return all((folder / name).exists() for name in (ARCHIVE, SHARED, KEY)) and kept.read_text(encoding="ascii").strip() == key(compiler)


def write_source(folder: Path) -> List[Path]:
    """Writes libpmem.c and pmem.h into a folder."""
    folder.mkdir(parents=True, exist_ok=True)
    made = folder / SOURCE
    made.write_text(library_c(module()), encoding="utf-8")
    shutil.copyfile(HEADER, folder / HEADER.name)
    return [made, folder / HEADER.name]


def link(compiler: str, room: Path) -> None:
    """Makes both libraries in a folder. Cost: about half a minute of processor time."""
    for tool in ("ar", "ld", "objcopy"):
        if not shutil.which(tool):
            raise LibraryError(f"{tool} is not there: install binutils", 127)
    source, _ = write_source(room)
    objects = compile_parts(str(source), str(room), [*FLAGS, f"-DPMEM_API={VISIBLE}", f"-ffile-prefix-map={room}=."], compiler=compiler)
    run([compiler, "-shared", "-o", str(room / SHARED), f"-Wl,-soname,{SHARED}", *objects], SHARED)
    # One object, whose only global names are the calls of pmem.h.
    whole = str(room / "libpmem.o")
    run(["ld", "-r", "-o", whole, *objects], ARCHIVE)
    run(["objcopy", "--localize-hidden", whole], ARCHIVE)
    run(["ar", "rcsD", str(room / ARCHIVE), whole], ARCHIVE)

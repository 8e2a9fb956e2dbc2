"""The digest of the sources from which the program and the library are compiled, and what a module says that it was made of."""
import hashlib
import json
import os
import sys
from typing import Dict, Iterator, List

from .wasm import Module, WasmError

CRATES = ("pmem", "pmem_c")
SECTION = "pmem.made"


def crate_lines(top: str) -> Dict[str, str]:
    """The lines of crates.txt that name a crate, by its name."""
    found = {}
    with open(f"{top}/crates.txt", encoding="utf-8") as file:
        for line in file:
            text = line.partition("#")[0].strip()
            if ":" in text:
                found[text.split(":")[0].split()[0]] = text
    return found


def crates_below(top: str) -> List[str]:
    """The repository's crates that the program and the library are made of, they themselves included, sorted."""
    lines = crate_lines(top)
    found, waiting = set(), list(CRATES)
    while waiting:
        name = waiting.pop()
        if name in lines and name not in found:
            found.add(name)
            waiting += lines[name].partition(":")[2].split()
    return sorted(found)


def source_files(top: str) -> Iterator[str]:
    """Their files below src and specs, sorted, from the repository's top. Proofs don't change what is compiled."""
    for name in crates_below(top):
        for part in ("specs", "src"):
            found = [os.path.join(folder, file) for folder, _, files in os.walk(f"{top}/crates/{name}/{part}") for file in files]
            yield from sorted(os.path.relpath(path, top).replace(os.sep, "/") for path in found)


def sources_digest(top: str) -> str:
    """SHA-256 of the lines of crates.txt and of the sources of all those crates."""
    whole = hashlib.sha256()
    lines = crate_lines(top)
    for name in crates_below(top):
        whole.update(f"{lines[name]}\n".encode())
    for path in source_files(top):
        with open(f"{top}/{path}", "rb") as file:
            whole.update(f"{path} {hashlib.sha256(file.read()).hexdigest()}\n".encode())
    return whole.hexdigest()


def made_of(data: bytes) -> Dict[str, str]:
    """What a module says that it was made of: `sources`, their digest, and `toolchain`."""
    text = Module(data).customs.get(SECTION)
    if text is None:
        raise WasmError("the module does not say of which sources it was made")
    made: Dict[str, str] = json.loads(text)
    return made


def main() -> int:
    """Prints the digest of the sources of the repository that this file is in."""
    top = os.path.dirname(os.path.dirname(os.path.dirname(os.path.realpath(__file__))))
    print(sources_digest(top))
    return 0


if __name__ == "__main__":
    sys.exit(main())

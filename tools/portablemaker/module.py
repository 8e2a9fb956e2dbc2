"""Makes module/pmem.wasm by the toolchain: the program and the exports of the crate pmem_c, compiled for 64-bit WebAssembly from what is proved.

A folder that stands for the toolchain has a `clang` that copies the LLVM bitcode aside. `rattle build` checks each crate again over the proved
libraries, and builds only what is proved. The toolchain's own clang and linker then make one module of that bitcode and of host.c.
"""
import json
import os
import re
import shutil
import subprocess
import tempfile
from concurrent.futures import ThreadPoolExecutor
from typing import Any, Dict, List

from .compiler import PortableError
from .digest import CRATES, SECTION, crate_lines, sources_digest
from .lowered import name_bytes
from .wasm import MAGIC, Reader, sections, sized

HERE = os.path.dirname(os.path.realpath(__file__))
TOP = os.path.dirname(os.path.dirname(HERE))
TARGET = ["--target=wasm64-unknown-unknown", "-mcpu=lime1", "-mllvm", "-expand-div-rem-bits=64", "-mllvm", "-expand-fp-convert-bits=64",
          "-ffunction-sections", "-fdata-sections"]
NATIVE = ("target-cpu", "target-features", "probe-stack", "stack-probe-size")
# The bytes of the stack, which stands first in the memory.
STACK = 1 << 20
EXPORT = re.compile(r'^#\[unsafe\(no_mangle\)\]\npub extern "C" fn (\w+)\(', re.M)


def kit() -> str:
    """The toolchain's folder. Errors: PortableError."""
    found = shutil.which("rt")
    if not found:
        raise PortableError("the toolchain's command rt is not on the PATH")
    top = os.path.dirname(os.path.dirname(os.path.realpath(found)))
    for name in ("bin/rattle", "toolchain/bin/clang", "toolchain/bin/ld.lld"):
        if not os.path.isfile(f"{top}/{name}"):
            raise PortableError(f"the toolchain in {top} has no {name}")
    return top


def run(words: List[str], **how: Any) -> str:
    """Runs a command, and answers its output. Errors: PortableError, with the end of that output."""
    ran: "subprocess.CompletedProcess[str]" = subprocess.run(
        words, stdin=subprocess.DEVNULL, stdout=subprocess.PIPE, stderr=subprocess.STDOUT, text=True,
        errors="replace", check=False, **how)
    if ran.returncode:
        raise PortableError(f"{os.path.basename(words[0])} {words[1]} failed:\n{ran.stdout[-1500:]}")
    return ran.stdout


def crates() -> Dict[str, List[str]]:
    """The repository's crates, each with the words after its colon."""
    return {name: [word for word in line.partition(":")[2].split() if "=" not in word] for name, line in crate_lines(TOP).items()}


def library(name: str) -> str:
    """The file of a crate's library once it is proved. Errors: PortableError."""
    folder = f"{TOP}/crates/{name}/out/rlib"
    if not os.path.isfile(f"{folder}/{name}.rlib/format"):
        raise PortableError(f"the library {name} is not proved and built yet: run ./pmem --prove and tools/library, or rt ci, first")
    return folder


def build_words(top: str, crate: str) -> List[str]:
    """The words by which `rattle build` checks and builds a crate, as rt gives them."""
    own = crates()
    is_program = os.path.isfile(f"{TOP}/crates/{crate}/src/main.rt")
    below, words = own[crate], ["--crate-name", crate, "src/main.rt" if is_program else "src/lib.rt"]
    for name in ["std", *[name for name in below if name not in own]]:
        words += ["--extern", f"{name}={top}/rlibs/{name}.rlib"]
    words += ["-L", f"dependency={top}/rlibs"]
    mine = [name for name in below if name in own]
    for name in mine:
        words += ["--extern", f"{name}={library(name)}/{name}.rlib"]
    for name in mine:
        words += ["-L", f"dependency={library(name)}"]
    return words + ["--antt-project", f"{top}/rattle/logic/antt-project.json", "--logic-built", f"{top}/logic_built", "--jobs", "1",
                    "--links", f"{crate}=", "--backend", "llvm", *([] if is_program else ["--crate-type", "staticlib"])]


STAND_IN = """\
#!/bin/bash
# Keeps the bitcode that it is given, and makes an empty object of it: the code for this machine isn't needed.
out="" before="" given=""
for word in "$@"; do
    case "$word" in *.bc) given="$word" ;; esac
    if [ "$before" = -o ]; then out="$word"; fi
    before="$word"
done
if [ -n "$given" ] && [ -n "$out" ]; then
    cp -f "$given" "{room}/bitcode.bc" &&
        exec "{clang}" --target=x86_64-unknown-linux-gnu --no-default-config -c -x c /dev/null -o "$out"
fi
exec "{clang}" "$@"
"""


def stand_in(top: str, room: str) -> str:
    """A folder that stands for the toolchain, whose clang keeps the bitcode that it is given."""
    place = f"{room}/toolchain"
    os.makedirs(f"{place}/bin")
    os.symlink(f"{top}/toolchain/lib", f"{place}/lib")
    for name in os.listdir(f"{top}/toolchain/bin"):
        if name != "clang":
            os.symlink(f"{top}/toolchain/bin/{name}", f"{place}/bin/{name}")
    with open(f"{place}/bin/clang", "w", encoding="utf-8") as file:
        file.write(STAND_IN.format(room=room, clang=f"{top}/toolchain/bin/clang"))
    os.chmod(f"{place}/bin/clang", 0o755)
    return place


def proved_bitcode(top: str, room: str, crate: str) -> str:
    """The bitcode of a crate, once `rattle build` has said that it is proved. Errors: PortableError."""
    made = f"{room}/{crate}"
    os.makedirs(made)
    words = [f"{top}/bin/rattle", "build", *build_words(top, crate), "--toolchain", stand_in(top, made), "-o", f"{made}/made"]
    said = run(words, cwd=f"{TOP}/crates/{crate}")
    if "logic=proved" not in said:
        raise PortableError(f"rattle does not report the crate {crate} as proved:\n{said[-1500:]}")
    if not os.path.isfile(f"{made}/bitcode.bc"):
        raise PortableError("the toolchain's clang was not given a file of bitcode (.bc)")
    return f"{made}/bitcode.bc"


def exports() -> List[str]:
    """The functions that the crate pmem_c exports, as its sources say."""
    found: List[str] = []
    for name in sorted(os.listdir(f"{TOP}/crates/pmem_c/src")):
        with open(f"{TOP}/crates/pmem_c/src/{name}", encoding="utf-8") as file:
            found += EXPORT.findall(file.read())
    return found


def retargeted(text: str) -> str:
    """The text of LLVM bitcode without what it says of x86-64."""
    text = re.sub(r"^target (datalayout|triple).*\n", "", text, flags=re.M)
    for name in NATIVE:
        text = re.sub(rf'"{name}"="[^"]*"', "", text)
    # clang gives a wasm `main` another name.
    return re.sub(r"@main\b", "@program_main", text)


def compiled(top: str, bitcode: str) -> str:
    """The object file for WebAssembly of an x86-64 program's bitcode."""
    clang, stem = f"{top}/toolchain/bin/clang", bitcode[:-len(".bc")]
    run([clang, "--target=x86_64-unknown-linux-gnu", "-S", "-emit-llvm", "-x", "ir", bitcode, "-o", f"{stem}.ll"])
    with open(f"{stem}.ll", encoding="utf-8", errors="surrogateescape") as file:
        text = retargeted(file.read())
    with open(f"{stem}.ll", "w", encoding="utf-8", errors="surrogateescape") as file:
        file.write(text)
    run([clang, *TARGET, "-Wno-override-module", "-c", "-x", "ir", f"{stem}.ll", "-O3", "-o", f"{stem}.o"])
    return f"{stem}.o"


def linked(top: str, room: str, objects: List[str]) -> bytes:
    """The module of the object files of the program and of the exports."""
    run([f"{top}/toolchain/bin/clang", *TARGET, "-O2", "-ffreestanding", "-nostdinc", "-Dmain=program_main", "-c", f"{HERE}/host.c",
         "-o", f"{room}/host.o"])
    names = ["run_main", "host_alloc", "host_free", *exports()]
    run([f"{top}/toolchain/bin/ld.lld", "-flavor", "wasm", "-mwasm64", "--no-entry", "--stack-first", "-z", f"stack-size={STACK}",
         *[f"--export={name}" for name in names], "--gc-sections", "--strip-debug", *objects, f"{room}/host.o", "-o", f"{room}/pmem.wasm"])
    with open(f"{room}/pmem.wasm", "rb") as made:
        return made.read()


def marked(data: bytes, made: Dict[str, str]) -> bytes:
    """A module that says of what it was made, with the names of its functions and no other section of its tools."""
    kept = []
    for kind, content in sections(data):
        if kind != 0 or Reader(content).name() == "name":
            kept.append(bytes([kind]) + sized(content))
    text = json.dumps(made, sort_keys=True, separators=(",", ":")).encode()
    return MAGIC + b"".join(kept) + b"\0" + sized(name_bytes(SECTION) + text)


def toolchain() -> str:
    """The toolchain's name: the first word of what `rt version` says."""
    return run(["rt", "version"]).split()[0]


def built() -> bytes:
    """The module of the sources as they stand. Errors: PortableError. Cost: six processor minutes on two processors."""
    top = kit()
    with tempfile.TemporaryDirectory(prefix="pmem-module-") as room:
        with ThreadPoolExecutor(len(CRATES)) as both:
            bitcodes = list(both.map(lambda crate: proved_bitcode(top, room, crate), CRATES))
            objects = list(both.map(lambda bitcode: compiled(top, bitcode), bitcodes))
        return marked(linked(top, room, objects), {"sources": sources_digest(TOP), "toolchain": toolchain()})

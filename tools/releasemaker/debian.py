"""The package for Debian and Ubuntu: program, man page, library, header, documents and examples."""
import os
import shutil
from pathlib import Path
from typing import Dict, List

from .archives import TOP, ReleaseError, gzipped, run

NAME = "pmem-simulator"
# The library of PMDK is called libpmem too: ours has its own folder, which pkg-config prints.
FOLDER = "usr/lib/pmem-simulator"
CONTROL = """\
Package: {name}
Version: {version}
Section: science
Priority: optional
Architecture: {architecture}
Installed-Size: {size}
Depends: libc6
Maintainer: The pmem developers <pmem@localhost>
Description: simulator of the secure controller of an untrusted persistent memory
 pmem simulates a memory controller that encrypts and authenticates persistent
 memory, guards it by a hash tree, writes metadata back lazily, and recovers
 after a power failure at any step. Its sources are proved to meet their
 contracts. This package has the program, and the C library with its header.
"""
PKG_CONFIG = """\
libdir=/{folder}
includedir=/usr/include/pmem-simulator

Name: pmem-simulator
Description: the controller of an untrusted persistent memory, as a library
Version: {version}
Cflags: -I${{includedir}}
Libs: ${{libdir}}/libpmem.a
"""
COPYRIGHT = """\
pmem: a simulator of the secure controller of an untrusted persistent memory.

{license}
"""
NO_LICENSE = "There is no license yet. All rights are reserved by the authors: this package may not be distributed."
DOCUMENTS = ("README.md", "CHANGELOG.md", "CITATION.cff", *(f"docs/{name}.md" for name in (
    "MACHINE", "FORMATS", "WEAR", "TXN", "SHADOW", "LIBRARY", "PROMISES", "PORTABLE", "BACKGROUND")))


def architecture() -> str:
    """Debian's name of this machine."""
    return os.fsdecode(run(["dpkg", "--print-architecture"])).strip()


def license_text() -> str:
    """The license; or that there is none."""
    place = TOP / "LICENSE"
    return place.read_text(encoding="utf-8") if place.exists() else NO_LICENSE


def _files(program: bytes, library: Path, version: str, when: int) -> Dict[str, bytes]:
    doc = f"usr/share/doc/{NAME}"
    files = {
        "usr/bin/pmem": program,
        "usr/share/man/man1/pmem.1.gz": gzipped((TOP / "docs" / "man" / "pmem.1").read_bytes(), 0),
        "usr/include/pmem-simulator/pmem.h": (TOP / "include" / "pmem.h").read_bytes(),
        "usr/share/pkgconfig/pmem-simulator.pc": PKG_CONFIG.format(folder=FOLDER, version=version).encode(),
        f"{doc}/copyright": COPYRIGHT.format(license=license_text()).encode(),
    }
    for name in ("libpmem.a", "libpmem.so"):
        files[f"{FOLDER}/{name}"] = (library / name).read_bytes()
    for name in DOCUMENTS:
        if (TOP / name).exists():
            files[f"{doc}/{Path(name).name}"] = (TOP / name).read_bytes()
    for path in sorted((TOP / "examples").rglob("*")):
        if path.suffix in (".trace", ".out", ".c", ".cc"):
            files[f"{doc}/{path.relative_to(TOP).as_posix()}"] = path.read_bytes()
    return files


def make(room: Path, program: bytes, library: Path, version: str, when: int) -> Path:
    """Makes the package in a folder, by dpkg-deb.

    Raises:
        ReleaseError: dpkg-deb is missing, or refuses it.
    """
    if not shutil.which("dpkg-deb"):
        raise ReleaseError("dpkg-deb is not there: install dpkg (or leave the package out with --no-deb)")
    files = _files(program, library, version, when)
    tree = room / "tree"
    for name, data in files.items():
        (tree / name).parent.mkdir(parents=True, exist_ok=True)
        (tree / name).write_bytes(data)
        (tree / name).chmod(0o755 if name.startswith("usr/bin/") else 0o644)
    size = sum(-(-len(data) // 1024) for data in files.values())
    (tree / "DEBIAN").mkdir()
    (tree / "DEBIAN" / "control").write_text(CONTROL.format(name=NAME, version=version, architecture=architecture(), size=size), encoding="utf-8")
    _date(tree, when)
    made = room / f"{NAME}_{version}_{architecture()}.deb"
    run(["dpkg-deb", "--root-owner-group", "--uniform-compression", "-Zgzip", "--build", str(tree), str(made)], when)
    return made


def _date(tree: Path, when: int) -> None:
    """Gives everything in a folder one time and the usual rights."""
    found: List[Path] = [tree, *tree.rglob("*")]
    for path in found:
        if path.is_dir():
            path.chmod(0o755)
        os.utime(path, (when, when))

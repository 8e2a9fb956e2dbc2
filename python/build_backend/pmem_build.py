"""Builds the package for pip, with Python's standard library and only a C compiler, so that it needs no network (PEP 517).

A wheel has the package and the C library, compiled for this machine. A source archive has the library as one file of C (c/libpmem.c) that a
checkout translates from the module of the proved program. What is built twice is the same bytes: times are those of SOURCE_DATE_EPOCH.
"""
import ast
import base64
import gzip
import hashlib
import io
import os
import re
import shutil
import subprocess
import sys
import sysconfig
import tarfile
import tempfile
import time
import zipfile
from pathlib import Path
from typing import Any, Dict, Iterator, List, Optional, Tuple

HERE = Path(__file__).resolve().parents[1]
CHECKOUT = HERE.parent
SOURCE, HEADER, SHARED = "libpmem.c", "pmem.h", "libpmem.so"
FLAGS = ["-std=c11", "-O1", "-fPIC", "-fvisibility=hidden", '-DPMEM_API=__attribute__((visibility("default")))']
# Zip files begin here.
FIRST_TIME = 315532800

Settings = Optional[Dict[str, Any]]


# ---- what the project says

def _project() -> Dict[str, Any]:
    """The table [project] of pyproject.toml, whose values are strings and lists on a line each."""
    text = (HERE / "pyproject.toml").read_text(encoding="utf-8").partition("\n[project]\n")[2].partition("\n[")[0]
    found: Dict[str, Any] = {}
    for line in text.splitlines():
        name, equals, value = line.partition(" = ")
        if equals:
            found[name] = ast.literal_eval(value)
    version = re.search(r'^__version__ = "(.+)"$', (HERE / "pmem" / "__init__.py").read_text(encoding="utf-8"), re.M)
    if version is None:
        raise ValueError("pmem/__init__.py has no __version__")
    return {**found, "version": version.group(1)}


def _metadata() -> str:
    """The text of METADATA and PKG-INFO."""
    project = _project()
    heads = [("Metadata-Version", "2.1"), ("Name", project["name"]), ("Version", project["version"]), ("Summary", project["description"]),
             ("Requires-Python", project["requires-python"]), *(("Classifier", it) for it in project["classifiers"]),
             ("Description-Content-Type", "text/markdown")]
    return "".join(f"{name}: {value}\n" for name, value in heads) + "\n" + (HERE / "README.md").read_text(encoding="utf-8")


def _full_name() -> str:
    project = _project()
    return f"{project['name']}-{project['version']}"


def _time() -> int:
    return max(int(os.environ.get("SOURCE_DATE_EPOCH") or FIRST_TIME), FIRST_TIME)


def _package() -> Iterator[Path]:
    """The package's own files."""
    return (path for path in sorted((HERE / "pmem").iterdir()) if path.suffix == ".py" or path.name == "py.typed")


# ---- the library

def _put_source(folder: Path) -> None:
    """Puts libpmem.c and pmem.h into a folder: those of a source archive, or what the checkout makes."""
    if (HERE / "c" / SOURCE).exists():
        for name in (SOURCE, HEADER):
            shutil.copyfile(HERE / "c" / name, folder / name)
        return
    tool = CHECKOUT / "tools" / "library"
    if not tool.exists():
        sys.exit(f"pmem: neither {HERE / 'c' / SOURCE} nor {tool} is there: build from a checkout or from a whole source archive")
    made = subprocess.run([sys.executable, str(tool), "--source", str(folder)], stdin=subprocess.DEVNULL, stdout=subprocess.PIPE,
                          stderr=subprocess.STDOUT, universal_newlines=True, check=False)
    if made.returncode:
        sys.exit(f"pmem: {made.stdout.strip()}")


def _compiler() -> str:
    names = [os.environ["CC"]] if os.environ.get("CC") else ["cc", "gcc", "clang"]
    for name in names:
        if shutil.which(name):
            return name
    sys.exit(f"pmem: a C compiler is needed, and {' or '.join(names)} is not on the PATH; on Debian: apt install gcc libc6-dev")


def _finished(process: "subprocess.Popen[str]") -> None:
    said = process.communicate()[0]
    if process.returncode:
        sys.exit(f"pmem: the C library cannot be compiled: {said.strip()[-1500:]}")


def _compiled(room: Path) -> bytes:
    """The shared library. Cost: about half a minute of processor time, in parts side by side."""
    _put_source(room)
    words = [_compiler(), *FLAGS, f"-ffile-prefix-map={room}=."]
    parts = 1 + max(map(int, re.findall(r"PMEM_PART == (\d+)", (room / SOURCE).read_text(encoding="utf-8"))))
    objects = [f"part{part}.o" for part in range(parts)]
    print(f"pmem: compiling the library in {parts} parts", flush=True)
    waiting = list(enumerate(objects))
    running: List["subprocess.Popen[str]"] = []
    try:
        while waiting or running:
            while waiting and len(running) < (os.cpu_count() or 1):
                part, made = waiting.pop(0)
                running.append(subprocess.Popen([*words, f"-DPMEM_PART={part}", "-c", SOURCE, "-o", made], cwd=room, stdin=subprocess.DEVNULL,
                                                stdout=subprocess.PIPE, stderr=subprocess.STDOUT, universal_newlines=True))
            _finished(running.pop(0))
    finally:
        for process in running:
            process.kill()
    _finished(subprocess.Popen([*words, "-shared", *objects, "-o", SHARED], cwd=room, stdin=subprocess.DEVNULL, stdout=subprocess.PIPE,
                               stderr=subprocess.STDOUT, universal_newlines=True))
    return (room / SHARED).read_bytes()


# ---- archives

def _write_wheel(folder: str, tag: str, files: List[Tuple[str, bytes]]) -> str:
    """Writes a wheel of these files and its metadata, and gives its name."""
    info = f"{_full_name()}.dist-info"
    purity = "true" if tag.endswith("-any") else "false"
    wheel = f"Wheel-Version: 1.0\nGenerator: pmem_build\nRoot-Is-Purelib: {purity}\nTag: {tag}\n"
    files = [*files, (f"{info}/METADATA", _metadata().encode()), (f"{info}/WHEEL", wheel.encode())]
    rows = []
    for name, data in files:
        digest = base64.urlsafe_b64encode(hashlib.sha256(data).digest()).rstrip(b"=").decode()
        rows.append(f"{name},sha256={digest},{len(data)}\n")
    files.append((f"{info}/RECORD", "".join([*rows, f"{info}/RECORD,,\n"]).encode()))
    made = f"{_full_name()}-{tag}.whl"
    with zipfile.ZipFile(os.path.join(folder, made), "w", zipfile.ZIP_DEFLATED, compresslevel=9) as archive:
        for name, data in files:
            entry = zipfile.ZipInfo(name, time.gmtime(_time())[:6])
            entry.compress_type = zipfile.ZIP_DEFLATED
            entry.create_system = 3
            entry.external_attr = (0o100755 if name.endswith(".so") else 0o100644) << 16
            archive.writestr(entry, data)
    return made


def build_wheel(wheel_directory: str, config_settings: Settings = None, metadata_directory: Optional[str] = None) -> str:
    """Builds the wheel for this machine."""
    platform = re.sub(r"[-.]", "_", sysconfig.get_platform())
    with tempfile.TemporaryDirectory(prefix="pmem-build-") as room:
        library = _compiled(Path(room))
    files = [(f"pmem/{path.name}", path.read_bytes()) for path in _package()]
    return _write_wheel(wheel_directory, f"py3-none-{platform}", [*files, (f"pmem/{SHARED}", library)])


def build_editable(wheel_directory: str, config_settings: Settings = None, metadata_directory: Optional[str] = None) -> str:
    """Builds a wheel that leads to this folder; the library is then the checkout's (tools/library)."""
    return _write_wheel(wheel_directory, "py3-none-any", [("pmem_here.pth", f"{HERE}\n".encode())])


def build_sdist(sdist_directory: str, config_settings: Settings = None) -> str:
    """Builds the source archive, with the library as one file of C."""
    made = f"{_full_name()}.tar.gz"
    with tempfile.TemporaryDirectory(prefix="pmem-build-") as room:
        _put_source(Path(room))
        files = {f"c/{name}": (Path(room) / name).read_bytes() for name in (SOURCE, HEADER)}
    for path in (HERE / "pyproject.toml", HERE / "README.md", Path(__file__).resolve(), *_package()):
        files[path.relative_to(HERE).as_posix()] = path.read_bytes()
    files["PKG-INFO"] = _metadata().encode()
    whole = io.BytesIO()
    with tarfile.open(fileobj=whole, mode="w", format=tarfile.PAX_FORMAT) as archive:
        for name in sorted(files):
            entry = tarfile.TarInfo(f"{_full_name()}/{name}")
            entry.size, entry.mtime, entry.mode = len(files[name]), _time(), 0o644
            archive.addfile(entry, io.BytesIO(files[name]))
    with open(os.path.join(sdist_directory, made), "wb") as file, gzip.GzipFile("", "wb", 9, file, _time()) as packed:
        packed.write(whole.getvalue())
    return made

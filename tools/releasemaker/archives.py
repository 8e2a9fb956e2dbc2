"""Archives whose bytes depend only on the files: sorted names, fixed owners, one time for all."""
import gzip
import hashlib
import io
import os
import subprocess
import tarfile
from pathlib import Path
from typing import Dict, List, Optional, Sequence

TOP = Path(os.path.realpath(__file__)).parents[2]


class ReleaseError(Exception):
    """Why there is no release, in one line."""


def run(words: Sequence[str], when: Optional[int] = None) -> bytes:
    """Runs a command and gives its output. `when` is the time that it puts into what it makes.

    Raises:
        ReleaseError: it cannot be run, or failed.
    """
    try:
        ended = subprocess.run(list(words), stdin=subprocess.DEVNULL, stdout=subprocess.PIPE, stderr=subprocess.PIPE, check=False,
                               env={**os.environ, **({} if when is None else {"SOURCE_DATE_EPOCH": str(when)})})
    except OSError as error:
        raise ReleaseError(f"{words[0]} cannot be run: {error.strerror or error}") from error
    if ended.returncode:
        why = os.fsdecode(ended.stderr or ended.stdout).strip()[-1000:]
        raise ReleaseError(f"{' '.join(words[:3])} failed with status {ended.returncode}: {why}")
    return ended.stdout


def git(*words: str) -> str:
    """What git says about this repository."""
    return os.fsdecode(run(["git", "-C", str(TOP), *words])).strip()


def sha256(data: bytes) -> str:
    """The digest of some bytes, as sha256sum prints it."""
    return hashlib.sha256(data).hexdigest()


def tar_of(files: Dict[str, bytes], when: int, programs: Sequence[str] = ()) -> bytes:
    """A tar archive of these files, with their folders. Those named `programs` may be run."""
    whole = io.BytesIO()
    with tarfile.open(fileobj=whole, mode="w", format=tarfile.GNU_FORMAT) as archive:
        folders = {parent.as_posix() for name in files for parent in Path(name).parents if parent.as_posix() not in (".", "/")}
        for name in sorted({*files, *folders}):
            entry = tarfile.TarInfo(name)
            entry.mtime, entry.uname, entry.gname = when, "root", "root"
            if name in folders:
                entry.type, entry.mode = tarfile.DIRTYPE, 0o755
                archive.addfile(entry)
            else:
                entry.size, entry.mode = len(files[name]), 0o755 if name in programs else 0o644
                archive.addfile(entry, io.BytesIO(files[name]))
    return whole.getvalue()


def gzipped(data: bytes, when: int) -> bytes:
    """Data packed by gzip, with no name in it."""
    whole = io.BytesIO()
    with gzip.GzipFile("", "wb", 9, whole, when) as packed:
        packed.write(data)
    return whole.getvalue()


def folder_files(folder: Path, prefix: str) -> Dict[str, bytes]:
    """All files of a folder, under names with a prefix."""
    return {f"{prefix}/{path.relative_to(folder).as_posix()}": path.read_bytes() for path in folder.rglob("*") if path.is_file()}


def folder_programs(folder: Path, prefix: str) -> List[str]:
    """Those of its files that may be run."""
    return [f"{prefix}/{path.relative_to(folder).as_posix()}" for path in folder.rglob("*") if path.is_file() and path.stat().st_mode & 0o100]

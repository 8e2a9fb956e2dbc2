"""Finding the program: ./pmem says which one would run, and builds the portable one if none is built."""
import os
from pathlib import Path

from .errors import ExploreError, reason_of
from .processes import start, talk

REPOSITORY = Path(__file__).resolve().parents[2]
SCRIPT = REPOSITORY / "pmem"
BUNDLED = REPOSITORY / "program" / "pmem"


def built_program() -> str:
    """The program of this repository, or of this bundle. The script `pmem` prints its path, and says on standard error what it builds
    for it, or why that fails."""
    if os.access(BUNDLED, os.X_OK):
        return str(BUNDLED)
    try:
        said, status = talk(start([str(SCRIPT), "--where"]))
    except OSError as error:
        raise ExploreError(f"cannot run {SCRIPT}: {reason_of(error)}") from error
    if status != 0:
        raise ExploreError(f"no program to ask: {SCRIPT} --where ended with status {status}")
    return os.fsdecode(said).rstrip("\n")


def default_program() -> str:
    """The program that is asked if no option names one: what PMEM_PROGRAM names, else that of this repository."""
    return os.environ.get("PMEM_PROGRAM") or str(SCRIPT)


def found_program(path: str) -> str:
    """The program's own file: if the repository's script is named, the file that it would run."""
    return built_program() if os.path.exists(path) and SCRIPT.exists() and os.path.samefile(path, SCRIPT) else path

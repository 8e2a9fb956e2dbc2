"""What a result was made of: its format, the program, the traces, the options."""
import hashlib
import os
from pathlib import Path
from typing import Any, Dict, List, Optional, Sequence

from .finding import REPOSITORY
from .settings import Settings
from .trace import Trace, shown_path

# Rises when a key or a column changes its meaning or goes. New ones may come without that.
FORMAT = 1


def version() -> str:
    """The version of this repository or bundle."""
    try:
        return (REPOSITORY / "VERSION").read_text(encoding="utf-8").strip()
    except OSError:
        return "unknown"


def file_digest(path: str) -> Optional[str]:
    """The SHA-256 of a file."""
    try:
        return hashlib.sha256(Path(path).read_bytes()).hexdigest()
    except OSError:
        return None


def about(what: str, program: str, traces: Sequence[Trace], settings: Optional[Settings] = None, **more: Any) -> Dict[str, Any]:
    """What a result of `what` (a command of explore) was made of. `more` has options of the search and figures."""
    return {"format": FORMAT, "made_by": f"explore {what}", "version": version(),
            "program": {"name": shown_path(os.path.basename(program)), "sha256": file_digest(program)},
            "traces": [{"name": trace.name, "sha256": hashlib.sha256(trace.data).hexdigest()} for trace in traces],
            **({"settings": settings.words()} if settings else {}), **{name: value for name, value in more.items() if value is not None}}


def comments_of(found: Dict[str, Any]) -> str:
    """The same as comments before a CSV."""
    lines: List[str] = []
    for name, value in found.items():
        if isinstance(value, dict):
            value = " ".join(f"{key}={each}" for key, each in value.items())
        elif isinstance(value, list):
            value = " ".join(" ".join(map(str, each.values())) if isinstance(each, dict) else str(each) for each in value)
        elif isinstance(value, bool):
            value = str(value).lower()
        lines.append(f"# {name}: {shown_path(str(value))}\n")
    return "".join(lines)

"""The page of its parts."""
import base64
import gzip
import hashlib
import json
import re
from typing import Any, Dict, Optional

from . import sources
from .markdown import html_of


class PageError(Exception):
    """Why the page can't be made."""


def packed(module: bytes) -> str:
    """A module as the page has it: base64 of gzip."""
    return base64.b64encode(gzip.compress(module, 9, mtime=0)).decode()


def unpacked(text: str) -> bytes:
    """The module again."""
    return gzip.decompress(base64.b64decode(text))


def json_in_page(value: Any) -> str:
    """JSON that can stand in a script element."""
    return json.dumps(value, ensure_ascii=False, separators=(",", ":")).replace("<", "\\u003c")


def policy(script: str) -> str:
    """What the page allows itself: this script, WebAssembly, its own styles and pictures in it; nothing from elsewhere."""
    digest = base64.b64encode(hashlib.sha256(script.encode()).digest()).decode()
    return (f"default-src 'none'; script-src 'sha256-{digest}' 'wasm-unsafe-eval'; style-src 'unsafe-inline'; img-src data:; "
            "base-uri 'none'; form-action 'none'")


def without_answer(lesson: Dict[str, Any]) -> Dict[str, Any]:
    """A lesson for students: without its answer, and without what its goal says to teachers."""
    goal = {name: entry for name, entry in json.loads(lesson["goal"] or "{}").items() if name != "about"}
    return {**lesson, "answer": None, "goal": json.dumps(goal) if goal else ""}


def assembled(module: str, made: Dict[str, str], suffix: str = ".md", has_answers: bool = True) -> str:
    """The whole page. `module` is packed; `made` says of what it was made; pages in docs/ are linked with this suffix."""
    lessons = [lesson if has_answers else without_answer(lesson) for lesson in sources.lessons(suffix)]
    page = sources.read(f"{sources.SOURCES}/page.html")
    script = "\n" + sources.script().rstrip() + "\n"
    reference = json.loads(sources.read(f"{sources.SOURCES}/reference.json"))
    parts = {"@STYLE@": sources.read(f"{sources.SOURCES}/style.css").rstrip(), "@LESSONS@": json_in_page(lessons),
             "@MODULE@": module, "@MADE@": json_in_page(made),
             "@HONEST@": html_of(sources.read(f"{sources.SOURCES}/honest.md")),
             "@KEYS@": html_of(sources.read(f"{sources.SOURCES}/keys.md")), "@REFERENCE@": json_in_page(reference),
             "@POLICY@": policy(script), "@SCRIPT@": script}
    return re.sub("@[A-Z]+@", lambda found: parts.get(found.group(), found.group()), page)


def element_of(page: str, name: str) -> str:
    """The text of a script element of a page."""
    found = re.search(rf'<script type="[^"]*" id="{name}">(.*?)</script>', page, re.S)
    if not found:
        raise PageError(f"page/pmem.html has no element {name}")
    return found.group(1)


def kept() -> Optional[str]:
    """The page as it stands."""
    return sources.read_or(sources.PAGE, "") or None

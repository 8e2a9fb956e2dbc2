"""What the page is made of: its own sources, the lessons, exercises and examples."""
import html
import os
import re
from typing import Any, Dict, List, Optional

from explorer.package import OPTIONS

from .markdown import How, html_of

TOP = os.path.dirname(os.path.dirname(os.path.dirname(os.path.realpath(__file__))))
PAGE = f"{TOP}/page/pmem.html"
SOURCES = f"{TOP}/page/src"

MODULES = ("dom", "trace", "table", "options", "layout", "address", "variants", "goal", "engine", "bounded", "program", "device", "model",
           "reference", "lanes", "view", "chip", "map", "compare", "lessons", "files", "app", "main")
DEFAULTS = {f"--{name}": str(option.default) for name, option in OPTIONS.items()}
# The folders of lessons, and what the ids of their lessons begin with.
PREFIXES = {"first/": "first-", "": "", "exercises/": "exercise-"}
EXAMPLES = (("first", "run", "A write waits until it is drained"), ("power_cut", "run", "Power cuts"), ("attack", "run", "An attack"),
            ("forged_tag", "run", "A forged tag"), ("wear", "wear", "Lines that move"), ("txn", "txn", "A transaction, and cuts in it"),
            ("tree", "tree", "The counter tree"))
EXAMPLE_WORDS = {"forged_tag": ["--suite", "weak"], "wear": ["--every", "1"]}


def read(path: str) -> str:
    """A text of the repository."""
    with open(path, encoding="utf-8") as file:
        return file.read()


def read_or(path: str, default: str) -> str:
    """The same, or a default if there is no such file."""
    return read(path) if os.path.isfile(path) else default


def script() -> str:
    """The page's modules as one: imports are dropped, and names are the same everywhere."""
    parts = []
    for name in MODULES:
        text = read(f"{SOURCES}/{name}.js")
        text = re.sub(r"^import [^;]*;\n", "", text, flags=re.M)
        text = re.sub(r"^export ", "", text, flags=re.M)
        parts.append(re.sub(r"\bview\.", "", text))
    return "\n".join(parts)


def words_of(options: str) -> List[str]:
    """The words of an `options` file in the order in which the page writes them, without defaults."""
    words = options.split()
    given = dict(zip(words[::2], words[1::2]))
    return [word for name in DEFAULTS if given.get(name, DEFAULTS[name]) != DEFAULTS[name] for word in (name, given[name])]


def commands_of(trace: str) -> List[str]:
    """The lines of a trace that hold commands."""
    return [line for line in trace.split("\n") if line.strip() and not line.strip().startswith("#")]


def part_of(folder: str, machine: str, suffix: str) -> Dict[str, Any]:
    """A trace with its machine, its arguments, and the page next to it."""
    return {"machine": read_or(f"{folder}/machine", machine).strip(), "words": words_of(read_or(f"{folder}/options", "")),
            "trace": read(f"{folder}/trace"), "text": html_in_page(read_or(f"{folder}/README.md", ""), folder, suffix)}


def html_in_page(text: str, folder: str, suffix: str) -> str:
    """A lesson's text below its title, as the page shows it: without what is typed in a shell, with pictures that the page draws,
    links to lessons that open them, and links to other pages, which have this suffix."""
    text = re.sub(r"^# .*\n", "", text, count=1)
    text = re.sub(r"(?m)^    (?:\./pmem|lessons/|tools/)[^\n]*\n(?:    [^\n]*\n)*", "", text)
    text = re.sub(r"\s*(?:Begin with \[trace\]\(trace\)|The traces are `next-[^`]*` in this folder|Back to \[the lesson\]\([^)]*\))\.", "", text)
    text = re.sub(r"`lessons/grade[^`]*`", "*check my trace* below", text)
    return html_of(text, How(lambda address: link_in_page(address, folder, suffix), picture_in_page))


def picture_in_page(says: str, address: str) -> str:
    """A place for a picture, which the page draws."""
    return f'<span class="picture">{html.escape(says)}</span>'


def link_in_page(address: str, folder: str, suffix: str) -> Optional[str]:
    """The target of a lesson's link on the page; None if the page has no such place."""
    if re.match(r"https?://", address):
        return address
    path, _, anchor = address.partition("#")
    target = os.path.normpath(os.path.join(folder, path))
    lesson = re.fullmatch(r"lessons/(exercises/|first/|)(\d+)-[^/]*(?:/README\.md)?", os.path.relpath(target, TOP))
    if lesson:
        return f"#lesson={PREFIXES[lesson[1]]}{lesson[2]}"
    if not path.endswith(".md") or not os.path.isfile(target):
        return None
    name = os.path.relpath(target, os.path.dirname(PAGE))
    return re.sub(r"\.md$", suffix, name) + (f"#{anchor}" if anchor else "")


def title_of(folder: str) -> str:
    """A page's title."""
    return read(f"{folder}/README.md").split("\n", 1)[0].lstrip("# ")


def lesson_of(folder: str, kind: str, name: str, suffix: str = ".md") -> Dict[str, Any]:
    """A lesson or an exercise. Links to pages have this suffix."""
    lesson: Dict[str, Any] = {"id": name, "kind": kind, "title": title_of(folder), **part_of(folder, "run", suffix)}
    lesson.update({"goal": read_or(f"{folder}/goal", ""), "answer": None})
    answer = f"{TOP}/lessons/answers/{os.path.relpath(folder, f'{TOP}/lessons')}"
    if os.path.isdir(answer):
        lesson["answer"] = part_of(answer, lesson["machine"], suffix)
    lesson["goalMachine"] = lesson["machine"]
    return lesson


def numbered(folder: str) -> List[str]:
    """The folders whose names begin with a number."""
    return sorted(name for name in os.listdir(folder) if re.match(r"\d", name)) if os.path.isdir(folder) else []


def lessons(suffix: str = ".md") -> List[Dict[str, Any]]:
    """All that can be opened in the page. Links to pages have this suffix."""
    found: List[Dict[str, Any]] = []
    for folder, kind in (("first/", "first step"), ("", "lesson"), ("exercises/", "exercise")):
        for name in numbered(f"{TOP}/lessons/{folder}"):
            found.append(lesson_of(f"{TOP}/lessons/{folder}{name}", kind, PREFIXES[folder] + name.split("-")[0], suffix))
    for name, machine, title in EXAMPLES:
        found.append({"id": name, "kind": "example", "title": title, "machine": machine, "words": EXAMPLE_WORDS.get(name, []),
                      "trace": read(f"{TOP}/examples/{name}.trace"), "text": "", "goal": "", "answer": None})
    return found

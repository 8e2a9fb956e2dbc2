#!/usr/bin/env python3
"""Counts turns of phrase that CONTRIBUTING.md ("How we write") asks to avoid, in pages, doc comments and tools.

usage: tools/prose_lint.py [--list | --limits] [FOLDER]

FOLDER is the repository's top. --list shows each place, with what to write instead. Blocks of code and what is quoted in
backquotes don't count. --limits prints the counts only, as tools/tests/prose_limits.txt has them. The last lines are a
table of counts, with these columns:

    pages     all *.md and include/pmem.h
    comments  the doc comments of crates/*/src
    tools     the help texts and messages of ./pmem and of the Python programs
    code      the docstrings and comments of all programs outside crates/

The counts may only fall: tools/tests/test_prose.py compares them with those limits. The status is 0, or 2 if an argument
is wrong.
"""
import ast
import re
import sys
from pathlib import Path
from typing import Dict, Iterator, List, NamedTuple, Tuple

TOP = Path(__file__).resolve().parents[1]
KINDS = ("pages", "comments", "tools", "code")
LONGEST = 40
# The folders of programs. Those without a suffix are known by their first line.
FOLDERS = ("tools", "lessons", "library", "python", "page/src", ".ci")
SUFFIXES = {".py": "python", ".js": "c", ".mjs": "c", ".c": "c", ".h": "c", ".sh": "shell"}


class Rule(NamedTuple):
    """A turn of phrase, and what to write instead."""

    name: str
    pattern: "re.Pattern[str]"
    instead: str


def rule(name: str, pattern: str, instead: str) -> Rule:
    return Rule(name, re.compile(pattern), instead)


# Words before a `where` that asks for a place: `says where`, `from where`, and the head of a table's column.
PLACE = "".join(f"(?<!{word} )" for word in ("says", "say", "state", "states", "show", "shows", "lists", "find", "[Ff]rom", "by", r"\|", "address")) \
    + "(?<!--)"
RULES = (
    rule("where = if", PLACE + r"\b(?:exactly |only |also )?[Ww]here (?!to\b|is\b|it is said|k\b|h\b|n\b|each (?:line|mechanism)|does\b)",
         "if, when"),
    rule("want of memory", r"[Ww]ant of (?:memory|it)|[Mm]emory (?:may be |is |was )wanted|wants? memory|could(?:n't)? be had|can(?:'t)? be had",
         "out of memory, allocation fails"),
    rule("front = prefix", r"\ba front\b|\bat (?:the|its) front\b", "prefix"),
    rule("told, said", r"\b(?:is|are|was|were|be) (?:told|said)\b", "reports, states"),
    rule("topic Of", r"(?:(?<=[.:;] )|^)Of (?:`|[a-z])", "For X, .. or X as the subject"),
    rule("hasn't = lacks", r"\b(?:hasn't|haven't|has it not)\b(?! \w+(?:ed|en|ne|un|de|ut)\b)", "doesn't have, lacks"),
    rule("archaic", r"\b(?:anew|amid|beside|whoever|manieth|but for|told apart|of its own|in place of)\b",
         "again, during, next to, anyone who, Nth, except, detected, its own, instead of"),
    rule("is no", r"(?<![Tt]here )\b(?:is|are|makes it) (?:no|none)\b(?! longer)", "isn't a"),
    rule("so many", r"\bso many\b", "N, that many"),
    rule("words = arguments", r"\b(?:wrong words|words are wrong|its own words|behind its)\b", "arguments"),
    rule("by figures", r"\bby (?:a file of|assumed) figures\b", "using"),
    rule("contraction", r"\b\w+n't\b", "not, cannot"),
)
# The rules for help texts and messages alone.
OF_TOOLS = {"contraction"}
LONG = "long sentence"
NAMES = tuple(it.name for it in RULES) + (LONG,)
QUOTED = re.compile(r"`[^`]*`")
END_OF_SENTENCE = re.compile(r"(?<=[.!?])[)*\"']*\s+(?=[*(\"'`\[]*(?:[A-Z0-9`\[]|pmem\b))|: *$|\n\s*\n", re.M)

# A comment that begins with a place: `Where each part of the device lies.`
PLACE_COMMENT = re.compile(r"Where [^,;:]*$")

# A line of a text: its kind, its file, its number, and what stands on it.
Line = Tuple[str, Path, int, str]
# A kind, a file, a line, a rule, and what is there.
Finding = Tuple[str, Path, int, str, str]


def prose_of_page(path: Path) -> Iterator[Line]:
    fenced = False
    for number, text in enumerate(path.read_text(encoding="utf-8").split("\n"), 1):
        if text.lstrip().startswith("```"):
            fenced = not fenced
        elif not fenced:
            yield "pages", path, number, text


def pages(top: Path) -> List[Path]:
    found = [path for path in top.rglob("*.md") if "out" not in path.relative_to(top).parts and ".git" not in path.parts]
    return sorted(found) + [path for path in [top / "include" / "pmem.h"] if path.exists()]


def language_of(path: Path) -> str:
    """The language of a program: python, c (or JavaScript, whose comments are alike), shell, or nothing."""
    if path.suffix:
        return SUFFIXES.get(path.suffix, "")
    with path.open("rb") as file:
        first = file.readline(100)
    return "" if not first.startswith(b"#!") else "python" if b"python" in first else "shell"


def programs(top: Path) -> List[Tuple[str, Path]]:
    """The programs outside crates/, each with its language."""
    found = [path for folder in FOLDERS for path in top.glob(f"{folder}/**/*") if path.is_file() and "out" not in path.relative_to(top).parts]
    found += [path for path in [top / "pmem"] if path.exists()]
    return [(language, path) for path in sorted(found) for language in [language_of(path)] if language]


def docstrings(tree: ast.AST) -> Iterator[ast.Constant]:
    """The docstrings of a module, and of the classes and functions in it."""
    body = getattr(tree, "body", None)
    if not isinstance(body, list) or not body:
        return
    first = body[0]
    if isinstance(first, ast.Expr) and isinstance(first.value, ast.Constant) and isinstance(first.value.value, str):
        yield first.value
    for node in body:
        yield from docstrings(node)


def messages(path: Path) -> Iterator[Line]:
    """The texts in a Python program, other than docstrings."""
    tree = ast.parse(path.read_text(encoding="utf-8"))
    left_out = {id(node) for node in docstrings(tree)}
    for node in ast.walk(tree):
        if isinstance(node, ast.Constant) and isinstance(node.value, str) and id(node) not in left_out:
            yield "tools", path, node.lineno, " ".join(node.value.split())


# A string or a comment of Python.
TOKEN = re.compile(r"""(?P<quotes>\"{3}|'{3})(?:\\.|[^\\])*?(?P=quotes)|"(?:\\.|[^"\\\n])*"|'(?:\\.|[^'\\\n])*'|(?P<comment>#[^\n]*)""", re.S)
# Some lines of comment in a row: the number of the first, and their texts.
Comment = Tuple[int, List[str]]


def joined(rows: List[Tuple[int, str]]) -> Iterator[Comment]:
    """Comments on single lines, those in a row as one."""
    for at, (number, text) in enumerate(rows):
        if at == 0 or rows[at - 1][0] != number - 1:
            begun, texts = number, [text]
        else:
            texts.append(text)
        if at + 1 == len(rows) or rows[at + 1][0] != number + 1:
            yield begun, texts


def comments_of_python(text: str) -> Iterator[Comment]:
    for node in docstrings(ast.parse(text)):
        yield node.lineno, str(node.value).split("\n")
    rows: List[Tuple[int, str]] = []
    number = at = 0
    for found in TOKEN.finditer(text):
        number, at = number + text.count("\n", at, found.start()), found.start()
        if found["comment"] is not None:
            rows.append((number + 1, found["comment"].lstrip("#! ")))
    yield from joined(rows)


def comments_of_c(text: str) -> Iterator[Comment]:
    yield from joined([(number, line[1]) for number, line in
                       ((number, re.search(r"(?:^|[\s;{}])//(.*)", line)) for number, line in enumerate(text.split("\n"), 1)) if line])
    for block in re.finditer(r"(?:^|(?<=\s))/\*(.*?)\*/", text, re.S):
        yield text[:block.start()].count("\n") + 1, [re.sub(r"^\s*\*", "", line).rstrip() for line in block[1].split("\n")]


def comments_of_shell(text: str) -> Iterator[Comment]:
    yield from joined([(number, line.strip().lstrip("#! ")) for number, line in enumerate(text.split("\n"), 1) if line.strip().startswith("#")])


COMMENTS = {"python": comments_of_python, "c": comments_of_c, "shell": comments_of_shell}


def comments(top: Path) -> Iterator[Tuple[Path, Comment]]:
    """The docstrings and comments of the programs."""
    for language, path in programs(top):
        for comment in COMMENTS[language](path.read_text(encoding="utf-8")):
            yield path, comment


def lines(top: Path, of_programs: List[Tuple[Path, Comment]]) -> Iterator[Line]:
    """The lines that are looked at. `of_programs` are the programs' comments."""
    for path in pages(top):
        yield from prose_of_page(path)
    for path in sorted(top.glob("crates/*/src/**/*.rt")):
        yield from (("comments", path, number, text) for number, text in enumerate(path.read_text(encoding="utf-8").split("\n"), 1)
                    if re.match(r"\s*//[/!]", text))
    for language, path in programs(top):
        if language == "python" and path.name != "prose_lint.py" and "tests" not in path.relative_to(top).parts:
            yield from messages(path)
        elif path == top / "pmem":
            yield from (("tools", path, number, text) for number, text in enumerate(path.read_text(encoding="utf-8").split("\n"), 1)
                        if not text.lstrip().startswith("#"))
    for path, (number, texts) in of_programs:
        yield from (("code", path, number + at, text) for at, text in enumerate(texts))


def paragraphs(page: Path) -> Iterator[Tuple[int, str]]:
    """The running text of a page, a paragraph or an item of a list at a time, with the number of its first line."""
    begun = 0
    kept: List[str] = []
    for _, _, number, text in [*prose_of_page(page), ("", page, 0, "")]:
        starts = bool(re.match(r"\s*(?:[-*] |\d+\. |#|>)", text))
        if starts or not text.strip() or text.lstrip().startswith("|"):
            if kept:
                yield begun, " ".join(kept)
            begun, kept = number, []
            if not text.strip() or text.lstrip().startswith(("|", "#")):
                continue
        if not kept:
            if text.startswith("    "):
                continue
            begun = number
        kept.append(text.strip().lstrip("-*> "))


def long_sentences(kind: str, path: Path, number: int, text: str) -> Iterator[Finding]:
    """The sentences of a text that have more than LONGEST words."""
    for sentence in END_OF_SENTENCE.split(text):
        words = len(re.findall(r"[\w'`./:_-]*\w[\w'`./:_-]*", sentence or ""))
        if words > LONGEST:
            yield kind, path, number, LONG, f"{words} words: {sentence.strip()[:70]}"


def running_text(texts: List[str]) -> Iterator[Tuple[int, str]]:
    """The paragraphs of a comment without what is indented in it, which is a table or an example; each with its first line's number."""
    depth = min((len(text) - len(text.lstrip()) for text in texts[1:] if text.strip()), default=0)
    kept: List[str] = []
    for at, text in enumerate([*texts, ""]):
        is_indented = at > 0 and len(text) - len(text.lstrip()) > depth
        if text.strip() and not is_indented:
            kept.append(text.strip())
        elif kept:
            yield at - len(kept), " ".join(kept)
            kept = []


def findings(top: Path) -> Iterator[Finding]:
    """Each place that a rule speaks of, in the order of the kinds and files."""
    of_programs = list(comments(top))
    for kind, path, number, text in lines(top, of_programs):
        plain = QUOTED.sub("``", text) if path.suffix == ".md" or kind == "code" else text
        if kind == "code" and PLACE_COMMENT.match(plain):
            plain = plain[len("Where "):]
        for it in RULES:
            for _ in it.pattern.findall(plain) if kind == "tools" or it.name not in OF_TOOLS else ():
                yield kind, path, number, it.name, f"-> {it.instead}: {text.strip()[:90]}"
    for path in pages(top):
        if path.suffix == ".md":
            for number, text in paragraphs(path):
                yield from long_sentences("pages", path, number, text)
    for path, (number, texts) in of_programs:
        for at, text in running_text(texts):
            yield from long_sentences("code", path, number + at, text)


def counts(found: List[Finding]) -> Dict[str, Dict[str, int]]:
    """How often each rule is broken, by kind of text."""
    counted = {name: dict.fromkeys(KINDS, 0) for name in NAMES}
    for kind, _, _, name, _ in found:
        counted[name][kind] += 1
    return counted


def main(arguments: List[str]) -> int:
    options = [it for it in arguments if it.startswith("-")]
    folders = [it for it in arguments if not it.startswith("-")]
    if options in (["--help"], ["-h"]):
        print((__doc__ or "").strip())
        return 0
    if options not in ([], ["--list"], ["--limits"]) or len(folders) > 1 or not all(Path(it).is_dir() for it in folders):
        print("prose_lint: expected --list or --limits and a folder at most: tools/prose_lint.py --help", file=sys.stderr)
        return 2
    top = Path(folders[0]) if folders else TOP
    found = list(findings(top))
    if options == ["--list"]:
        for _, path, number, name, what in found:
            print(f"{path.relative_to(top)}:{number}: {name}: {what}")
    if options != ["--limits"]:
        print(f"{'pattern':20s}" + "".join(f"{kind:>10s}" for kind in KINDS))
    for name, counted in counts(found).items():
        print(f"{name:20s}" + "".join(f"{counted[kind]:10d}" for kind in KINDS))
    return 0


if __name__ == "__main__":
    sys.exit(main(sys.argv[1:]))

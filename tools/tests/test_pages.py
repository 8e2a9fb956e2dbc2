"""Every page's links resolve, and the names that it quotes are in the repository."""
import re
import subprocess
import unittest
from collections import Counter
from functools import lru_cache
from pathlib import Path
from typing import Dict, Iterator, List, Optional, Set, Tuple

TOP = Path(__file__).resolve().parents[2]

FENCE = re.compile(r"^ *```")
LINK = re.compile(r"!?\[(?:[^][]|\[[^][]*\])*\]\(([^()\s]+)\)")
SPAN = re.compile(r"`([^`\n]+)`")
OUTSIDE = re.compile(r"^[a-z]+:")

# What in backquotes is a path: words between slashes, or a file's name with an end that the repository has.
ENDS = "rt|antt|py|md|sh|txt|trace|out|svg|html|edit|sql|toml|h|c"
PATH = re.compile(rf"^\.?[\w.-]*(/[\w.{{}}, *-]+)+/?$|^[\w.-]+\.({ENDS})$")
# What in backquotes is a name of the code: parts between :: or a dot, or one word with a capital within or an underscore.
NAME = re.compile(r"^([A-Za-z_]\w*)((::|\.)[A-Za-z_]\w*)*(\(\))?$")
CODE_WORD = re.compile(r"^[A-Z][a-z0-9]+[A-Z]\w*$|^[A-Za-z]\w*_\w+$")
# Names of other programs that pages speak of.
ELSEWHERE = {"SimObject", "MemoryRegionOps", "meson", "build", "ctypes", "c_bool", "c_void_p"}
# How a page says for whom it is, and what to read before.
FOR_WHOM = re.compile(r"\b[Ff]or (?:every|any|those|readers|architects|students|teachers|people|newcomers|users)"
                      r"|(?:students|people|anyone|everyone|everybody) (?:and|who)")
BEFORE = re.compile(r"\b[Rr]ead\b|\bnothing (?:must|has to) be read|[Nn]othing must be read")
# A part of a name that stands for others, for example in `write_X`.
HOLE = re.compile(r"_[A-Z](?:_|$)")
PLACEHOLDERS = {"NAME", "FILE", "FUNCTION", "TYPE", "PATH", "TRACE", "CMD", "TEXT", "FOLDER"}


def pages() -> List[Path]:
    """The pages of the repository as git knows them, and those that it would add."""
    listed = subprocess.run(["git", "ls-files", "-co", "--exclude-standard", "*.md"], cwd=TOP, capture_output=True, text=True)
    if listed.returncode == 0:
        return sorted(path for path in (TOP / name for name in listed.stdout.splitlines()) if path.is_file())
    return sorted(path for path in TOP.rglob("*.md") if "out" not in path.parts)


def parted(text: str) -> Tuple[str, str]:
    """A page without its blocks of code and its comments, line by line, and those blocks."""
    lines, code, inside = [], [], False
    for line in re.sub(r"<!--.*?-->", lambda found: "\n" * found[0].count("\n"), text, flags=re.S).split("\n"):
        fence = bool(FENCE.match(line))
        lines.append("" if inside or fence else line)
        code.append(line if inside and not fence else "")
        inside ^= fence
    return "\n".join(lines), "\n".join(code)


def prose(text: str) -> str:
    return parted(text)[0]


def line_of(text: str, at: int) -> int:
    return text.count("\n", 0, at) + 1


@lru_cache(maxsize=None)
def anchors(page: Path) -> Set[str]:
    """The anchors of a page's headings, as forges make them."""
    found: "Counter[str]" = Counter()
    made = set()
    for line in prose(page.read_text(encoding="utf-8")).split("\n"):
        heading = re.match(r"#{1,6} +(.*?) *#*$", line)
        if heading:
            words = re.sub(r"\[([^]]*)\]\([^)]*\)", r"\1", heading[1]).lower()
            anchor = re.sub(r"[^\w\- ]", "", words).replace(" ", "-")
            made.add(f"{anchor}-{found[anchor]}" if found[anchor] else anchor)
            found[anchor] += 1
    return made


def targets(text: str) -> Iterator[Tuple[int, str]]:
    """The targets of a page's links, with their lines."""
    text = SPAN.sub(lambda found: " " * len(found[0]) if "](" in found[0] else found[0], prose(text))
    for found in LINK.finditer(text):
        yield line_of(text, found.start()), found[1]


def broken_link(page: Path, target: str) -> Optional[str]:
    """Why a link of a page leads nowhere, or None."""
    if OUTSIDE.match(target):
        return None
    name, _, anchor = target.partition("#")
    to = (page.parent / name).resolve() if name else page
    if not to.exists():
        return "there is no such file"
    if TOP not in to.parents and to != TOP:
        return "it is outside the repository"
    if anchor and to.suffix == ".md" and anchor not in anchors(to):
        return "there is no such heading"
    return None


@lru_cache(maxsize=1)
def files() -> Tuple[Set[str], Set[str]]:
    """The paths of the repository's files and folders below its top, and their last parts."""
    listed = subprocess.run(["git", "ls-files", "-co", "--exclude-standard"], cwd=TOP, capture_output=True, text=True)
    names = listed.stdout.splitlines() if listed.returncode == 0 else [str(path.relative_to(TOP)) for path in TOP.rglob("*")]
    paths = set()
    for name in names:
        parts = name.split("/")
        paths |= {"/".join(parts[:end]) for end in range(1, len(parts) + 1)}
    return paths, {path.rsplit("/", 1)[-1] for path in paths}


def alternatives(path: str) -> List[str]:
    """`a/{B, C}` is `a/B` and `a/C`."""
    found = re.match(r"^(.*)\{(.*)\}(.*)$", path)
    if not found:
        return [path]
    return [found[1] + middle.strip() + found[3] for middle in found[2].split(",")]


def is_path(path: str, page: Path) -> bool:
    """Whether a quoted path is that of a file: from the top, from the page, within some crate, or without its end."""
    paths, lasts = files()
    path = path.rstrip("/")
    if path.startswith("./"):
        path = path[2:]
    if "/" not in path:
        return path in lasts
    if "*" in path or PLACEHOLDERS & set(re.split(r"[/.]", path)) or "/out" in f"/{path}":
        return True
    here = str(page.parent.relative_to(TOP))
    tried = [path] if here == "." else [path, f"{here}/{path}"]
    tried += [f"{name}.antt" for name in tried] + [f"{name}.rt" for name in tried]
    return any(name in paths or any(have.endswith("/" + name) for have in paths) for name in tried)


@lru_cache(maxsize=1)
def words() -> Set[str]:
    """Every word of the sources, definitions and edits of crates, tools, package, library and page."""
    found: Set[str] = set()
    sources = [*TOP.glob("crates/*/*/**/*.rt"), *TOP.glob("crates/*/src/*.rt"), *TOP.glob("crates/*/specs/**/*.antt"),
               *TOP.glob("crates/*/proofs/**/*.antt"), *TOP.glob("tools/**/*.py"), TOP / "tools" / "bench",
               *TOP.glob("python/**/*.py"), *TOP.glob("include/*.h"), *TOP.glob("library/*.c"),
               *TOP.glob("page/src/**/*.js")]
    sources.remove(Path(__file__).resolve())
    for path in sources:
        found.update(re.findall(r"\w+", path.read_text(encoding="utf-8")))
    found.update(path.stem for path in TOP.glob("*/**/*.edit"))
    found.update(path.name for path in TOP.glob("crates/*"))
    return found


def missing_paths(page: Path, text: str) -> Iterator[Tuple[int, str]]:
    """The quoted paths that aren't files, and aren't named in a block of code of the page, as a user's own files are."""
    text, code = parted(text)
    for found in SPAN.finditer(text):
        word = found[1].split(" ")[0] if found[1].startswith(("tools/", "./", "lessons/")) else found[1]
        if PATH.match(word) and word not in code and not all(is_path(path, page) for path in alternatives(word)):
            yield line_of(text, found.start()), word


@lru_cache(maxsize=1)
def fields() -> Dict[str, Set[str]]:
    """The fields of each record of the definitions."""
    found: Dict[str, Set[str]] = {}
    for path in TOP.glob("crates/*/specs/**/*.antt"):
        for record in re.finditer(r"^pub record (\w+)\b(.*\n(?:(?: .*)?\n)*)", path.read_text(encoding="utf-8"), re.M):
            found.setdefault(record[1], set()).update(re.findall(r"^  pub (\w+)", record[2], re.M))
    return found


def is_known(parts: List[str]) -> bool:
    """Whether each part is a word of the sources, and what stands behind a record is a field of it."""
    if len(parts) > 1 and parts[0] in fields() and parts[1] not in fields()[parts[0]]:
        return False
    return all(part in words() or part in ELSEWHERE for part in parts)


def unknown_names(text: str) -> Iterator[Tuple[int, str]]:
    """The quoted names of the code that the sources don't have, with their lines."""
    for found in SPAN.finditer(text):
        span = found[1]
        if not NAME.match(span) or PLACEHOLDERS & set(re.split(r"\W+", span)) or HOLE.search(span) or PATH.match(span):
            continue
        parts = re.findall(r"\w+", span)
        if len(parts) == 1 and not CODE_WORD.match(span):
            continue
        if not is_known(parts):
            yield line_of(text, found.start()), span


class PagesTest(unittest.TestCase):
    def each_page(self) -> Iterator[Tuple[Path, str, str]]:
        found = pages()
        self.assertGreater(len(found), 10)
        for page in found:
            yield page, str(page.relative_to(TOP)), page.read_text(encoding="utf-8")

    def told(self, wrong: List[str]) -> None:
        self.assertEqual(wrong, [], "\n" + "\n".join(wrong))

    def test_links_lead_somewhere(self) -> None:
        self.told([f"{name}:{line}: {target}: {why}" for page, name, text in self.each_page()
                   for line, target in targets(text) for why in [broken_link(page, target)] if why])

    def test_quoted_files_are_there(self) -> None:
        self.told([f"{name}:{line}: `{path}` is no file" for page, name, text in self.each_page()
                   for line, path in missing_paths(page, text)])

    def test_quoted_names_are_in_the_sources(self) -> None:
        self.told([f"{name}:{line}: `{span}` is in no source" for _, name, text in self.each_page()
                   for line, span in unknown_names(prose(text))])

    def test_the_readme_is_read_on_a_screen_and_a_bit(self) -> None:
        """It has under 120 lines, of 120 columns unless they are rows of a table or lines of code."""
        text = (TOP / "README.md").read_text(encoding="utf-8")
        self.assertLess(len(text.splitlines()), 120)
        self.told([f"README.md:{number}: {len(line)} columns" for number, line in enumerate(prose(text).split("\n"), 1)
                   if len(line) > 120 and not line.startswith(("|", "!["))])

    def test_each_page_begins_with_what_it_is(self) -> None:
        """A page begins with its title and a paragraph, before any table, list, code or further heading; parts of page/pmem.html don't."""
        self.told([f"{name}: no paragraph after the title" for _, name, text in self.each_page()
                   if not name.startswith("page/src/") and not re.match(r"# [^\n]+\n+(?:!?\[|\*\*|`|[A-Za-z(])", text)])

    def test_each_page_says_for_whom_it_is_and_what_to_read_before(self) -> None:
        wrong = []
        for page in [*TOP.glob("*.md"), *TOP.glob("docs/*.md"), *(TOP / name / "README.md" for name in ("lessons", "python", "examples"))]:
            text = page.read_text(encoding="utf-8")
            if page.name == "CHANGELOG.md" or text.startswith("# Changes"):
                continue
            head = " ".join(text.split("\n## ")[0][:1500].split())
            if not FOR_WHOM.search(head):
                wrong.append(f"{page.relative_to(TOP)}: it doesn't say for whom it is")
            if page.name != "README.md" and not BEFORE.search(head):
                wrong.append(f"{page.relative_to(TOP)}: it doesn't say what to read before")
        self.told(wrong)

    def test_every_page_is_in_the_contents(self) -> None:
        contents = TOP / "docs" / "README.md"
        linked = {(contents.parent / target.partition("#")[0]).resolve() for _, target in targets(contents.read_text(encoding="utf-8"))}
        self.told([page.name for page in sorted(contents.parent.glob("*.md")) if page != contents and page not in linked])


class CheckTest(unittest.TestCase):
    """What the checks themselves find."""

    PAGE = TOP / "docs" / "PARTS.md"

    def broken(self, text: str) -> List[str]:
        return [target for _, target in targets(text) if broken_link(self.PAGE, target)]

    def test_broken_links_are_found(self) -> None:
        self.assertEqual(self.broken("[a](WORLD.md) [b](WORLD.md#calls) [c](#the-device) [d](https://example.org)\n`[x](nowhere)`"), [])
        self.assertEqual(self.broken("```\n[a](nowhere.md)\n```\n<!-- [b](nowhere.md) -->"), [])
        wrong = ["nowhere.md", "WORLD.md#nothing", "#nothing", "../../outside.md", "nowhere.svg"]
        self.assertEqual(self.broken(" ".join(f"[a]({target})" for target in wrong)), wrong)

    def test_missing_files_are_found(self) -> None:
        text = ("`crates/board/src/lib.rt` `pmem_engine/specs/{Steps, Calls}` `proofs/Laws` `README.md` `crates/NAME/src` `mine.csv` "
                "`crates/board/src/gone.rt` `pmem_engine/specs/{Steps, Gone}` `Gone.antt` `tools/gone --help`\n```\nless mine.csv\n```")
        self.assertEqual([path for _, path in missing_paths(self.PAGE, text)],
                         ["crates/board/src/gone.rt", "pmem_engine/specs/{Steps, Gone}", "Gone.antt", "tools/gone"])

    def test_unknown_names_are_found(self) -> None:
        wrong = ["IsNoSuchThing", "pmem_cli::no_such_call", "no_such_law", "HasWrittenLine.idle"]
        text = "`IsLegal` `pmem_cli::run` `HasWrittenLine.work` `cut kept` `on`\n" + " ".join(f"`{name}`" for name in wrong)
        self.assertEqual(list(unknown_names(text)), [(2, name) for name in wrong])

    def test_anchors_are_those_of_forges(self) -> None:
        self.assertLessEqual({"the-board-in-memory-power-and-the-fuse", "the-tree-over-the-counters-seals-and-tag-lines"}, anchors(self.PAGE))


if __name__ == "__main__":
    unittest.main()

"""A folder that any web server can serve: the page that runs the program, the lessons, and the pages of the repository as HTML,
with the pictures, traces and sources that they link to. Nothing in it is fetched from elsewhere."""
import html
import os
import posixpath
import re
import shutil
from typing import Dict, List, Optional, Set, Tuple

from .assemble import PageError
from .markdown import How, html_of
from .sources import PREFIXES, SOURCES, TOP, read

START = "README.md"
PAGE = "page/pmem.html"
LESSONS, CONTENTS = "lessons/README.md", "docs/README.md"
MOST_BYTES = 2_000_000
# Files that a browser shows as they are.
SHOWN = (".html", ".svg", ".png", ".css", ".txt")

POLICY = "default-src 'none'; style-src 'unsafe-inline'; img-src 'self' file: data:; base-uri 'none'; form-action 'none'"
FRAME = """<!doctype html>
<html lang="en">
<head>
<meta charset="utf-8">
<meta name="viewport" content="width=device-width, initial-scale=1">
<meta http-equiv="Content-Security-Policy" content="{policy}">
<title>{title}</title>
<link rel="icon" href="data:,">
<style>
{style}
</style>
</head>
<body>
<header><a class="name" href="{start}">pmem</a><nav aria-label="Site"><a href="{page}">Run it</a> <a href="{lessons}">Lessons</a>
<a href="{contents}">Pages</a></nav></header>
<main>
{text}
</main>
</body>
</html>
"""


def address_of(path: str) -> str:
    """The address of a file of the repository on the site: a page is HTML, and one that is its folder's first is index.html."""
    if path.endswith(".md"):
        folder, name = posixpath.split(path)
        return posixpath.join(folder, "index.html" if name == "README.md" else name[:-3] + ".html")
    return path if path.endswith(SHOWN) else path + ".html"


def relative(path: str, source: str) -> str:
    """The way from the place of one file on the site to another one."""
    return posixpath.relpath(path, posixpath.dirname(source) or ".")


class Site:
    """What is on the site, found by following links from the first page."""

    def __init__(self, has_answers: bool) -> None:
        self.has_answers = has_answers
        self.texts: Dict[str, str] = {}
        self.copies: Set[str] = set()
        self.waiting: List[str] = [START, LESSONS, CONTENTS]
        self.style = read(f"{SOURCES}/site.css").rstrip()

    def made(self) -> Dict[str, str]:
        """All pages of the site by their addresses, except the one that runs the program."""
        seen: Set[str] = set()
        while self.waiting:
            path = self.waiting.pop()
            if path not in seen:
                seen.add(path)
                self.texts[address_of(path) if not os.path.isdir(f"{TOP}/{path}") else f"{path}/index.html"] = self.page(path)
        return self.texts

    def page(self, path: str) -> str:
        """One page: a page of the repository, the list of a folder, or the text of a file."""
        if path.endswith(".md"):
            return self.framed(address_of(path), self.title(path), self.lead(path) + self.html(path))
        if os.path.isdir(f"{TOP}/{path}"):
            return self.listed(path)
        if os.path.getsize(f"{TOP}/{path}") > MOST_BYTES:
            raise PageError(f"{path} is linked, and too large for a page")
        return self.framed(address_of(path), path, f"<h1>{html.escape(path)}</h1><pre>{html.escape(read(f'{TOP}/{path}'))}</pre>")

    def title(self, path: str) -> str:
        """The title of a page of the repository."""
        return read(f"{TOP}/{path}").split("\n", 1)[0].strip("# ").replace("`", "")

    def html(self, path: str) -> str:
        """A page's text. What a lesson links to its answer is left out if the site has none."""
        return html_of(read(f"{TOP}/{path}"), How(lambda address: self.link(address, path), lambda says, address: self.picture(says, address, path),
                                                  has_anchors=True))

    def lead(self, path: str) -> str:
        """Above a lesson's text: a link that opens its trace in the page."""
        found = re.fullmatch(r"lessons/(exercises/|first/|)(\d+)-[^/]*/README\.md", path)
        if not found:
            return ""
        name = PREFIXES[found[1]] + found[2]
        return f'<p class="lead"><a href="{relative(PAGE, path)}#lesson={name}">Open this lesson in the page that runs it</a></p>'

    def listed(self, path: str) -> str:
        """A page with the files of a folder."""
        names = sorted(name for name in os.listdir(f"{TOP}/{path}") if os.path.isfile(f"{TOP}/{path}/{name}") and not name.startswith("."))
        rows = "".join(f'<li><a href="{html.escape(self.address(f"{path}/{name}", f"{path}/index.html"))}">{html.escape(name)}</a></li>'
                       for name in names)
        return self.framed(f"{path}/index.html", path, f"<h1>{html.escape(path)}</h1><ul>{rows}</ul>")

    def framed(self, place: str, title: str, text: str) -> str:
        """A whole page, at its place on the site."""
        ways = {name: relative(address_of(path), place) for name, path in (("start", START), ("page", PAGE), ("lessons", LESSONS),
                                                                            ("contents", CONTENTS))}
        return FRAME.format(policy=POLICY, title=html.escape(title), style=self.style, text=text, **ways)

    def address(self, path: str, place: str) -> str:
        """The way from a place on the site to a file of the repository, which is then on the site too."""
        if os.path.isdir(f"{TOP}/{path}"):
            path = f"{path}/README.md" if os.path.isfile(f"{TOP}/{path}/README.md") else path
            self.waiting.append(path)
            return relative(address_of(path) if path.endswith(".md") else f"{path}/index.html", place)
        if path != PAGE:
            (self.copies.add if path.endswith(SHOWN) else self.waiting.append)(path)
        return relative(address_of(path), place)

    def link(self, address: str, source: str) -> Optional[str]:
        """The target of a link on the site; None if it leads to nothing that the repository has."""
        if re.match(r"[a-z]+:", address) or address.startswith("#"):
            return address
        name, _, anchor = address.partition("#")
        path = posixpath.normpath(posixpath.join(posixpath.dirname(source), name))
        if path.startswith("..") or not os.path.exists(f"{TOP}/{path}"):
            return None
        if not self.has_answers and f"{path}/".startswith("lessons/answers/"):
            return None
        return self.address(path, address_of(source)) + (f"#{anchor}" if anchor else "")

    def picture(self, says: str, address: str, source: str) -> str:
        """A picture, with its text for those who don't see it."""
        to = self.link(address, source)
        return html.escape(says) if to is None else f'<img src="{html.escape(to)}" alt="{html.escape(says)}">'


def write_site(folder: str, page: str, has_answers: bool = True) -> Tuple[int, int]:
    """Writes the site with this page in it into a folder that is new or empty; how many pages and files it has."""
    if os.path.isdir(folder) and os.listdir(folder):
        raise PageError(f"{folder} is not empty: name a new folder")
    site = Site(has_answers)
    texts = {**site.made(), PAGE: page}
    for place, text in texts.items():
        os.makedirs(os.path.dirname(f"{folder}/{place}") or ".", exist_ok=True)
        with open(f"{folder}/{place}", "w", encoding="utf-8") as file:
            file.write(text)
    for path in sorted(site.copies):
        os.makedirs(os.path.dirname(f"{folder}/{path}"), exist_ok=True)
        shutil.copyfile(f"{TOP}/{path}", f"{folder}/{path}")
    return len(texts), len(site.copies)

"""The website that tools/page --site makes: every link leads somewhere, nothing is fetched from elsewhere, and a server can serve it."""
import functools
import http.server
import os
import posixpath
import re
import sys
import tempfile
import threading
import unittest
from html.parser import HTMLParser
from typing import Dict, List, Optional, Set, Tuple
from urllib.parse import unquote

from . import browser
from .helpers import TOOLS

sys.path.insert(0, str(TOOLS))

from pagemaker import command_line, site  # noqa: E402
from pagemaker.assemble import PageError  # noqa: E402
from pagemaker.markdown import How, html_of  # noqa: E402


class Found(HTMLParser):
    """The links, anchors and plain text of a page."""

    def __init__(self, text: str) -> None:
        super().__init__()
        self.links: List[Tuple[str, str]] = []
        self.anchors: Set[str] = set()
        self.text: List[str] = []
        self.open: List[str] = []
        self.feed(text)

    def handle_starttag(self, tag: str, attrs: List[Tuple[str, Optional[str]]]) -> None:
        given = dict(attrs)
        self.open.append(tag)
        for name in ("href", "src"):
            if given.get(name) is not None:
                self.links.append((tag, given[name] or ""))
        if given.get("id"):
            self.anchors.add(given["id"] or "")

    def handle_endtag(self, tag: str) -> None:
        while self.open and self.open.pop() != tag:
            pass

    def handle_data(self, data: str) -> None:
        if not {"pre", "code", "script", "style"} & set(self.open):
            self.text.append(data)


class SiteTest(unittest.TestCase):
    """The site, made once."""

    folder: "tempfile.TemporaryDirectory[str]"
    found: Dict[str, Found]
    top: str
    page: str

    @classmethod
    def setUpClass(cls) -> None:
        cls.folder = tempfile.TemporaryDirectory(prefix="pmem-site-")
        cls.top = f"{cls.folder.name}/site"
        cls.page = command_line.made_page(".html")
        site.write_site(cls.top, cls.page)
        cls.found = {}
        for place, _, names in os.walk(cls.top):
            for name in names:
                if name.endswith(".html"):
                    path = os.path.join(place, name)
                    with open(path, encoding="utf-8") as file:
                        cls.found[os.path.relpath(path, cls.top)] = Found(file.read())

    @classmethod
    def tearDownClass(cls) -> None:
        cls.folder.cleanup()

    def test_has_what_it_should(self) -> None:
        for path in ("index.html", "docs/index.html", "docs/MACHINE.html", "docs/FORMATS.html", "lessons/index.html", "page/pmem.html"):
            self.assertIn(path, self.found)

    def test_every_link_leads_somewhere(self) -> None:
        for path, page in self.found.items():
            for tag, address in page.links:
                if re.match(r"https?:|mailto:|data:,$", address):
                    continue
                name, _, anchor = unquote(address).partition("#")
                target = posixpath.normpath(posixpath.join(posixpath.dirname(path), name)) if name else path
                with self.subTest(f"{path}: {address}"):
                    self.assertTrue(os.path.isfile(f"{self.top}/{target}"), f"no {target}")
                    if anchor and not anchor.startswith("lesson="):
                        self.assertIn(anchor, self.found[target].anchors)

    def test_links_of_the_lessons_in_the_page(self) -> None:
        lessons = self.page.split('id="lessons">')[1].split("</script>")[0]
        addresses = {unquote(it) for it in re.findall(r'href=\\"([^"\\]*)\\"', lessons)}
        self.assertTrue(addresses)
        for address in addresses:
            if not re.match(r"https?:|#lesson=", address):
                name, _, anchor = address.partition("#")
                with self.subTest(address):
                    target = posixpath.normpath(posixpath.join("page", name))
                    self.assertIn(target, self.found)
                    self.assertTrue(not anchor or anchor in self.found[target].anchors)

    def test_nothing_is_fetched_from_elsewhere(self) -> None:
        for path, page in self.found.items():
            for tag, address in page.links:
                if tag != "a":
                    with self.subTest(f"{path}: {tag} {address}"):
                        self.assertNotRegex(address, r"^(https?:|//)")

    def test_no_markup_is_left_in_the_text(self) -> None:
        for path, page in self.found.items():
            text = "".join(page.text)
            with self.subTest(path):
                self.assertEqual(re.findall(r"\]\([^)]*\)|\*\*|^```|\|---|\0", text, re.M), [])

    def test_answers_can_be_left_out(self) -> None:
        with tempfile.TemporaryDirectory(prefix="pmem-site-") as folder:
            site.write_site(f"{folder}/site", command_line.made_page(".html", False), has_answers=False)
            paths = [os.path.join(place, name) for place, _, names in os.walk(f"{folder}/site") for name in names]
            self.assertEqual([path for path in paths if "answer" in os.path.relpath(path, folder)], [])
            with open(f"{folder}/site/page/pmem.html", encoding="utf-8") as file:
                self.assertNotIn('"answer":{', file.read())

    def test_folder_has_to_be_empty(self) -> None:
        with self.assertRaisesRegex(PageError, "is not empty"):
            site.write_site(self.top, self.page)

    @unittest.skipUnless(browser.is_here(), "chromium or chromedriver isn't there")
    def test_served(self) -> None:
        handler = functools.partial(Quiet, directory=self.top)
        server = http.server.ThreadingHTTPServer(("127.0.0.1", 0), handler)
        threading.Thread(target=server.serve_forever, daemon=True).start()
        self.addCleanup(server.server_close)
        self.addCleanup(server.shutdown)
        with browser.Browser() as shown:
            start = f"http://127.0.0.1:{server.server_address[1]}/"
            shown.of_session("/url", {"url": f"{start}lessons/02-kept-or-lost-at-the-arming-latch/index.html"})
            self.assertEqual(shown.run("return [...document.images].filter(it => !it.naturalWidth).length"), 0)
            shown.click(".lead a")
            shown.wait("return document.body.dataset.ready", 240)
            self.assertEqual(shown.run("return [pmem.state.lesson, location.pathname]"), ["02", "/page/pmem.html"])
            self.assertEqual(shown.errors(), [])


class Quiet(http.server.SimpleHTTPRequestHandler):
    """A server that writes no log."""

    def log_message(self, format: str, *args: object) -> None:  # noqa: A002
        pass


class MarkdownTest(unittest.TestCase):
    """Pages as HTML."""

    def test_links_cannot_leave_their_attribute(self) -> None:
        made = html_of('[x](https://a"onmouseover="x) [y](https://b/?c=1&d=2)')
        self.assertIn('<a href="https://a&quot;onmouseover=&quot;x">', made)
        self.assertIn('<a href="https://b/?c=1&amp;d=2">y</a>', made)
        self.assertNotIn("<img", html_of("<img src=x onerror=alert(1)>"))

    def test_many_brackets_take_no_time(self) -> None:
        self.assertEqual(html_of("[" * 20000), "<p>" + "[" * 20000 + "</p>")

    def test_blocks(self) -> None:
        for text, made in (("1. a\n2. b\n\n   c\n", "<ol><li>a</li><li><p>b</p><p>c</p></li></ol>"),
                           ("- a\n  - b\n- c", "<ul><li>a<ul><li>b</li></ul></li><li>c</li></ul>"),
                           ("> a\n> b", "<blockquote><p>a b</p></blockquote>"), ("```sh\na  <b>\n\nc\n```", "<pre>a  &lt;b&gt;\n\nc</pre>"),
                           ("| a \\| b | `c|d` |\n|---|---|\n| 1 | 2 |", '<table><thead><tr><th scope="col">a | b</th><th scope="col"><code>c|d'
                            "</code></th></tr></thead><tbody><tr><td>1</td><td>2</td></tr></tbody></table>")):
            with self.subTest(text):
                self.assertEqual(html_of(text), made)

    def test_anchors_are_those_of_forges(self) -> None:
        made = html_of("# What isn't `x`?\n\n## A, b\n\n## A, b\n", How(has_anchors=True))
        self.assertEqual(re.findall('id="([^"]*)"', made), ["what-isnt-x", "a-b", "a-b-1"])


if __name__ == "__main__":
    unittest.main()

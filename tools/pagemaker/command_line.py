"""The words of `tools/page`."""
import argparse
import hashlib
import os
import sys
from typing import Dict, List

from portablemaker.digest import made_of, sources_digest
from portablemaker.kept import module_bytes
from portablemaker.compiler import PortableError
from portablemaker.lowered import lowered
from portablemaker.wasm import WasmError

from .assemble import PageError, assembled, element_of, kept, packed, unpacked
from .site import write_site
from .sources import PAGE, TOP
from .table import TABLE, table_differs, table_text

MOST_BYTES = 1_500_000
# What the page calls of the module.
ROOTS = ["run_main"]

HELP = """\
Makes page/pmem.html, one file that runs the proved program in a browser, of page/src, the lessons, the examples and module/pmem.wasm."""


def write_file(path: str, text: str) -> None:
    """Writes a file, whole or not at all."""
    with open(f"{path}.new", "w", encoding="utf-8") as file:
        file.write(text)
    os.replace(f"{path}.new", path)


def write(page: str) -> None:
    """Writes the page."""
    size = len(page.encode())
    if size > MOST_BYTES:
        raise PageError(f"the page has {size} bytes, more than {MOST_BYTES}")
    write_file(PAGE, page)
    print(f"page/pmem.html: {size} bytes")


def packed_module(data: bytes) -> str:
    """The 32-bit form of what the page calls of the module, packed: as the page has it, if that unpacks to the same bytes, as not every
    gzip packs alike."""
    form, page = lowered(data, ROOTS), kept()
    if page:
        standing = element_of(page, "module")
        try:
            if unpacked(standing) == form:
                return standing
        except (ValueError, OSError):
            pass
    return packed(form)


def module_made(data: bytes) -> Dict[str, str]:
    """What the page says of its module: the digests of module/pmem.wasm and of the sources that this was made of, and the toolchain."""
    return {"module": hashlib.sha256(data).hexdigest(), **made_of(data)}


def made_page(suffix: str = ".md", has_answers: bool = True) -> str:
    """The page as its sources and the module make it. Pages in docs/ are linked with this suffix."""
    data = module_bytes()
    return assembled(packed_module(data), module_made(data), suffix, has_answers)


def page_differs() -> List[str]:
    """How the page differs from what its sources and the module make."""
    page = kept()
    if page is None:
        return ["there is no page/pmem.html: run tools/page"]
    return [] if made_page() == page else ["page/pmem.html is not what its sources and module/pmem.wasm make: run tools/page"]


def module_differs() -> List[str]:
    """How the module isn't of the sources as they stand, by what it says of itself. tools/module --check compares its bytes."""
    if made_of(module_bytes())["sources"] == sources_digest(TOP):
        return []
    return ["module/pmem.wasm was made of other sources: run tools/module"]


def work(options: argparse.Namespace) -> int:
    """Does what the words say."""
    if options.check:
        found = table_differs() + page_differs() + module_differs()
        print("\n".join(found) if found else "page/pmem.html is what its sources and module/pmem.wasm make")
        return 1 if found else 0
    if options.site:
        pages, files = write_site(options.site, made_page(".html", not options.without_answers), not options.without_answers)
        print(f"{options.site}: {pages} pages, {files} other files")
        return 0
    if options.without_answers:
        raise PageError("--without-answers needs --site FOLDER: page/pmem.html has the answers")
    write_file(TABLE, table_text())
    write(made_page())
    return 0


def main(words: List[str]) -> int:
    """Runs `tools/page`."""
    parser = argparse.ArgumentParser(prog="page", description=HELP, formatter_class=argparse.RawDescriptionHelpFormatter)
    group = parser.add_mutually_exclusive_group()
    group.add_argument("--check", action="store_true", help="say whether the page is what its sources and the module make")
    group.add_argument("--site", metavar="FOLDER", help="write a website into a new folder: the page, the lessons, the pages of docs/")
    parser.add_argument("--without-answers", action="store_true", help="with --site: leave the answers out of the page and the lessons")
    try:
        return work(parser.parse_args(words))
    except (PageError, PortableError, WasmError, OSError) as error:
        sys.stderr.write(f"page: {error}\n")
        return 1

"""The repository's pages as HTML: headings, paragraphs, tables, lists, quotes, code, links and pictures."""
import html
import re
from typing import Callable, Dict, List, NamedTuple, Optional, Tuple

# The HTML of a link's address, or None if only its text is kept; the HTML of a picture.
Link = Callable[[str], Optional[str]]
Picture = Callable[[str, str], str]
# How many lines a block has, and its HTML.
Found = Tuple[int, str]

ITEM = re.compile(r"( *)([-*+]|\d+\.) +(.*)")
FENCE = re.compile(r" *(```|~~~)")


def no_link(address: str) -> Optional[str]:
    """Keeps links to other sites only."""
    return address if re.match(r"https?://", address) else None


def no_picture(says: str, address: str) -> str:
    """Leaves pictures out."""
    return ""


class How(NamedTuple):
    """How links, pictures and headings are written."""

    link: Link = no_link
    picture: Picture = no_picture
    has_anchors: bool = False


def slug(text: str, seen: Dict[str, int]) -> str:
    """The anchor of a heading, as forges make it."""
    name = re.sub(r"[^\w\- ]", "", re.sub(r"!?\[([^]]*)\]\([^)]*\)", r"\1", text).lower()).strip().replace(" ", "-")
    seen[name] = seen.get(name, 0) + 1
    return name if seen[name] == 1 else f"{name}-{seen[name] - 1}"


class Inline:
    """The HTML of text within a line. Finished pieces are kept aside, so that nothing in them is read again."""

    def __init__(self, how: How) -> None:
        self.how = how
        self.kept: List[str] = []

    def keep(self, piece: str) -> str:
        """A mark that stands for a finished piece."""
        self.kept.append(piece)
        return f"\0{len(self.kept) - 1}\0"

    def html(self, text: str) -> str:
        """The HTML of a text."""
        text = text.replace("\0", "")
        text = re.sub(r"(`+)(.+?)\1(?!`)", lambda found: self.keep(f"<code>{html.escape(found[2].strip())}</code>"), text)
        text = re.sub(r"\\([\\`*_{}\[\]()#+.!|-])", lambda found: self.keep(html.escape(found[1])), text)
        text = html.escape(text, quote=True)
        text = re.sub(r"!\[([^][]*)\]\(([^()\s]+)\)", lambda found: self.keep(self.picture(found[1], found[2])), text)
        text = re.sub(r"\[([^][]*)\]\(([^()\s]+)\)", lambda found: self.link(found[1], found[2]), text)
        text = re.sub(r"&lt;(https?://[^\s&]+)&gt;", r'<a href="\1">\1</a>', text)
        text = re.sub(r"\*\*([^*]+)\*\*", r"<b>\1</b>", text)
        text = re.sub(r"(?<![\w*])\*([^*\s][^*]*)\*(?![\w*])", r"<i>\1</i>", text)
        while "\0" in text:
            text = re.sub("\0([0-9]+)\0", lambda found: self.kept[int(found[1])], text)
        return text

    def link(self, says: str, address: str) -> str:
        """A link, or its text; both are escaped already."""
        to = self.how.link(html.unescape(address))
        return says if to is None else f'{self.keep(f"""<a href="{html.escape(to)}">""")}{says}{self.keep("</a>")}'

    def picture(self, says: str, address: str) -> str:
        """A picture, by its escaped text and address."""
        return self.how.picture(html.unescape(says), html.unescape(address))


class Blocks:
    """The HTML of a page's lines."""

    def __init__(self, how: How) -> None:
        self.how = how
        self.anchors: Dict[str, int] = {}

    def inline(self, text: str) -> str:
        """The HTML of a text within a block."""
        return Inline(self.how).html(text)

    def html(self, lines: List[str]) -> str:
        """The HTML of lines: block by block."""
        made: List[str] = []
        while lines:
            count, text = self.first(lines)
            made.append(text)
            lines = lines[count:]
        return "".join(made)

    def first(self, lines: List[str]) -> Found:
        """How many lines the first block has, and its HTML."""
        line = lines[0]
        if not line.strip():
            return 1, ""
        if FENCE.match(line):
            return self.fenced(lines)
        if line.startswith("#"):
            return 1, self.heading(line)
        if line.startswith("    "):
            return self.indented(lines)
        if line.startswith("|"):
            return self.table(lines)
        if line.startswith(">"):
            count = taken(lines, lambda it: it.startswith(">"))
            return count, f"<blockquote>{self.html([re.sub('^> ?', '', it) for it in lines[:count]])}</blockquote>"
        if ITEM.match(line):
            return self.items(lines)
        if re.fullmatch(r"(-{3,}|\*{3,})\s*", line):
            return 1, "<hr>"
        return self.paragraph(lines)

    def heading(self, line: str) -> str:
        """A heading, one level below its own, as the title of the page stands above it."""
        text = line.strip("# ")
        level = min(len(line) - len(line.lstrip("#")) + (0 if self.how.has_anchors else 1), 4)
        anchor = f' id="{html.escape(slug(text, self.anchors))}"' if self.how.has_anchors else ""
        return f"<h{level}{anchor}>{self.inline(text)}</h{level}>"

    def fenced(self, lines: List[str]) -> Found:
        """Code between fences."""
        end = next((at for at in range(1, len(lines)) if FENCE.match(lines[at])), len(lines))
        deep = len(lines[0]) - len(lines[0].lstrip())
        return end + 1, "<pre>" + html.escape("\n".join(line[deep:] for line in lines[1:end]), quote=False) + "</pre>"

    def indented(self, lines: List[str]) -> Found:
        """Code that is indented by four spaces."""
        count = taken(lines, lambda it: it.startswith("    ") or not it.strip())
        while not lines[count - 1].strip():
            count -= 1
        return count, "<pre>" + html.escape("\n".join(line[4:] for line in lines[:count]), quote=False) + "</pre>"

    def table(self, lines: List[str]) -> Found:
        """A table, whose second line is its rule. A head without any text is left out."""
        count = taken(lines, lambda it: it.startswith("|"))
        rows = [[cell.strip().replace("\\|", "|") for cell in cells_of(line)] for line in lines[:count]]
        head = "".join(f'<th scope="col">{self.inline(cell)}</th>' for cell in rows[0])
        body = "".join("<tr>" + "".join(f"<td>{self.inline(cell)}</td>" for cell in row) + "</tr>" for row in rows[2:])
        return count, "<table>" + (f"<thead><tr>{head}</tr></thead>" if any(rows[0]) else "") + f"<tbody>{body}</tbody></table>"

    def items(self, lines: List[str]) -> Found:
        """A list: what is indented below an entry belongs to it."""
        found = ITEM.match(lines[0])
        assert found
        deep, is_numbered = len(found[1]), found[2][0].isdigit()
        entries: List[List[str]] = []
        at = 0
        while at < len(lines):
            line, item = lines[at], ITEM.match(lines[at])
            if item and len(item[1]) == deep and item[2][0].isdigit() == is_numbered:
                entries.append([item[3]])
                width = item.start(3)
            elif not line.strip():
                following = next((it for it in lines[at:] if it.strip()), "")
                if len(following) - len(following.lstrip()) <= deep and not ITEM.match(following):
                    break
                entries[-1].append("")
            elif len(line) - len(line.lstrip()) > deep:
                entries[-1].append(line[min(width, len(line) - len(line.lstrip())):])
            elif item or not entries[-1][-1].strip():
                break
            else:
                entries[-1].append(line.strip())
            at += 1
        tag = "ol" if is_numbered else "ul"
        return at, f"<{tag}>" + "".join(f"<li>{self.entry(entry)}</li>" for entry in entries) + f"</{tag}>"

    def entry(self, lines: List[str]) -> str:
        """An entry of a list; if it is one paragraph it has no tags around it."""
        text = self.html(lines)
        only = re.fullmatch(r"<p>(.*?)</p>(<[uo]l>.*</[uo]l>)?", text, re.S)
        return only[1] + (only[2] or "") if only and "<p>" not in only[1] else text

    def paragraph(self, lines: List[str]) -> Found:
        """Lines up to a blank one or another block."""
        count = 1
        while count < len(lines) and lines[count].strip() and not re.match(r"\||#+ |>|```|( *)[-*+] ", lines[count]):
            count += 1
        text = self.inline(" ".join(line.strip() for line in lines[:count])).strip()
        return count, f"<p>{text}</p>" if text else ""


def cells_of(line: str) -> List[str]:
    """The cells of a row; a bar in code or behind a backslash parts nothing."""
    kept: List[str] = []

    def keep(found: "re.Match[str]") -> str:
        kept.append(found[0])
        return f"\0{len(kept) - 1}\0"

    bare = re.sub(r"`[^`]*`|\\\|", keep, line.strip())
    cells = bare[1:-1].split("|") if bare.endswith("|") else bare[1:].split("|")
    return [re.sub("\0([0-9]+)\0", lambda found: kept[int(found[1])], cell) for cell in cells]


def taken(lines: List[str], belongs: Callable[[str], bool]) -> int:
    """How many of the first lines belong to a block."""
    return next((at for at, line in enumerate(lines) if not belongs(line)), len(lines))


def html_of(text: str, how: How = How()) -> str:
    """The HTML of a page."""
    return Blocks(how).html(re.sub(r"<!--.*?-->", "", text, flags=re.S).split("\n"))

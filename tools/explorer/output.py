"""Writing what was found: tables, JSON, CSV, and files that are whole or absent."""
import csv
import io
import json
import os
import sys
import tempfile
from operator import itemgetter
from typing import Any, Iterable, Optional, Sequence

from .errors import ExploreError, reason_of
from .processes import INTERRUPTS


# What begins a formula for a spreadsheet.
FORMULAS = ("=", "+", "-", "@", "\t", "\r")

# What LaTeX would take for something else.
LATEX = {"\\": r"\textbackslash{}", "~": r"\textasciitilde{}", "^": r"\textasciicircum{}",
         **{letter: "\\" + letter for letter in "&%$#_{}"}}


def write_file(name: str, data: bytes) -> None:
    """Writes a file, first under another name in the same folder, so that it is never there by half. What isn't a plain file,
    such as a terminal, is written directly."""
    INTERRUPTS.check()
    check_writable(name)
    part = ""
    try:
        if os.path.exists(name) and not os.path.isfile(name):
            with open(name, "wb") as file:
                file.write(data)
            return
        target = os.path.realpath(name)
        handle, part = tempfile.mkstemp(prefix=f".{os.path.basename(target)}.", suffix=".part",
                                        dir=os.path.dirname(target))
        with os.fdopen(handle, "wb") as file:
            file.write(data)
        os.chmod(part, 0o666 & ~current_umask())
        os.replace(part, target)
    except OSError as error:
        remove(part)
        raise ExploreError(f"cannot write {name}: {reason_of(error)}") from error
    except BaseException:
        remove(part)
        raise


def remove(name: str) -> None:
    """Removes a file if it is there."""
    if name and os.path.exists(name):
        os.unlink(name)


def current_umask() -> int:
    """The rights that new files don't get."""
    mask = os.umask(0)
    os.umask(mask)
    return mask


def check_writable(name: Optional[str]) -> None:
    """Tells before long work that a file can't be written."""
    if name is None:
        return
    folder = os.path.dirname(os.path.realpath(name))
    if os.path.isdir(name):
        raise ExploreError(f"cannot write {name}: it is a directory")
    if os.path.exists(name) and not os.path.isfile(name):
        return
    if not os.path.isdir(folder):
        raise ExploreError(f"cannot write {name}: there is no directory {folder}")
    if not os.access(folder, os.W_OK):
        raise ExploreError(f"cannot write {name}: its directory cannot be written")


def put(text: str, name: Optional[str]) -> None:
    """Writes text to a file, or to standard output if none is named."""
    INTERRUPTS.check()
    if name is None:
        sys.stdout.write(text)
        sys.stdout.flush()
    else:
        write_file(name, text.encode())


def json_text(value: Any) -> str:
    """A value as JSON."""
    return json.dumps(value, indent=2) + "\n"


def csv_text(names: Sequence[str], rows: Iterable[Sequence[Any]]) -> str:
    """A table as CSV; what isn't there is an empty field."""
    out = io.StringIO()
    writer = csv.writer(out, lineterminator="\n")
    writer.writerow(names)
    for row in rows:
        writer.writerow(["" if value is None else plain_cell(value) for value in row])
    return out.getvalue()


def plain_cell(value: Any) -> Any:
    """A cell that no spreadsheet takes for a formula: a text that begins as one has an apostrophe in front."""
    return f"'{value}" if isinstance(value, str) and value.startswith(FORMULAS) else value


def latex_text(heads: Sequence[str], rows: Sequence[Sequence[str]], left: Sequence[int] = ()) -> str:
    """A table for LaTeX, only in its own macros; the columns in `left` begin at the left."""
    def line(row: Sequence[str]) -> str:
        return " & ".join("".join(LATEX.get(letter, letter) for letter in cell) for cell in row) + " \\\\\n"

    columns = "".join("l" if column in left else "r" for column in range(len(heads)))
    return (f"\\begin{{tabular}}{{{columns}}}\n\\hline\n{line(heads)}\\hline\n" + "".join(map(line, rows))
            + "\\hline\n\\end{tabular}\n")


def markdown_text(heads: Sequence[str], rows: Sequence[Sequence[str]], left: Sequence[int] = ()) -> str:
    """A table for a page in Markdown; the columns in `left` begin at the left."""
    def line(row: Sequence[str]) -> str:
        return "| " + " | ".join(cell.replace("|", "\\|") for cell in row) + " |\n"

    return line(heads) + "|" + "".join("---|" if column in left else "---:|" for column in range(len(heads))) + "\n" \
        + "".join(map(line, rows))


def plural(count: int, one: str, many: str = "") -> str:
    """A number with its noun, for example `1 line` or `2 lines`. `many` is the plural if it isn't `one` with an s."""
    return f"{count} {one if count == 1 else many or one + 's'}"


def table_text(heads: Sequence[Sequence[str]], rows: Sequence[Sequence[str]], left: Sequence[int]) -> str:
    """A table in columns, under one or more lines of heads; the columns in `left` begin at the left."""
    every = [*heads, *rows]
    widths = [max(map(len, map(itemgetter(column), every))) for column in range(len(heads[0]))]
    form = "  ".join(f"%{'-' if column in left else ''}{width}s" for column, width in enumerate(widths))
    return "".join((form % tuple(row)).rstrip() + "\n" for row in every)

"""Handouts of a lab, made of the lessons: a sheet for students, slides, and a key with the answers, as HTML that needs nothing else and
can be printed."""
import base64
import html
import os
import re
import sys
from typing import Dict, List, NamedTuple, Optional, Sequence

import grading
from goals import Goal, goal_of
from variants import varied_text

HERE = os.path.dirname(os.path.realpath(__file__))
sys.path.insert(0, f"{HERE}/../tools")

from pagemaker.markdown import html_of  # noqa: E402

# A lab of two hours, as lessons/README.md describes it.
TWO_HOURS = ("first-1", "first-2", "first-3", "lesson-2", "lesson-1", "lesson-4", "lesson-5", "exercise-1", "exercise-4")
LINES_FOR_AN_ANSWER = 4
POLICY = "default-src 'none'; style-src 'unsafe-inline'; img-src data:; base-uri 'none'; form-action 'none'"
FRAME = """<!doctype html>
<html lang="en">
<head>
<meta charset="utf-8">
<meta name="viewport" content="width=device-width, initial-scale=1">
<meta http-equiv="Content-Security-Policy" content="{policy}">
<title>{title}</title>
<link rel="icon" href="data:,">
<style>
{style}
</style>
</head>
<body class="{kind}">
{text}
</body>
</html>
"""
STYLE = """\
body{font:16px/1.5 system-ui,-apple-system,"Segoe UI",sans-serif;color:#1c2126;max-width:46em;margin:2em auto;padding:0 1em}
h1{font-size:1.7em;margin:0 0 .4em}h2{font-size:1.3em;margin:1.6em 0 .3em}h3{font-size:1.05em;margin:1em 0 .2em}h2,h3{break-after:avoid}
tr{break-inside:avoid}
table{border-collapse:collapse;width:100%;font-size:.92em;margin:.5em 0}
td,th{border:1px solid #b7bfc5;padding:.25em .5em;text-align:left;vertical-align:top}
code,pre{font:.88em/1.4 ui-monospace,"DejaVu Sans Mono",monospace;overflow-wrap:anywhere}
pre{white-space:pre-wrap;background:#f3f4f5;padding:.6em}
img{max-width:100%}.soft{color:#55606a}.lines{border-bottom:1px solid #7b858d;height:1.9em}
.task{border-top:3px solid #00609f;break-inside:avoid-page}
.slides{max-width:none;margin:0;padding:0}
.slides section{box-sizing:border-box;min-height:100vh;padding:5vh 6vw;font-size:1.35em;scroll-snap-align:start}
html:has(.slides){scroll-snap-type:y proximity}.slides img{display:block;max-height:68vh;margin:auto}.slides table{font-size:.8em}
.slides h2{margin-top:0}
@media print{body{margin:0;max-width:none;font-size:11pt}
.slides section{min-height:0;font-size:13pt;padding:0;break-after:page;break-inside:avoid}
.slides section:last-child{break-after:auto}.slides img{max-height:13cm}@page{margin:1.6cm}}"""


class Lesson(NamedTuple):
    """A lesson or an exercise as its page has it: the head says how long it takes; sections are by their titles."""

    task: grading.Task
    title: str
    head: str
    lead: str
    sections: Dict[str, str]

    def minutes(self) -> int:
        """How many minutes it takes."""
        found = re.search(r"\d+", self.head)
        return int(found[0]) if found else 0


def without_shell(text: str) -> str:
    """A text without what is typed in a shell, and with the page's button instead of lessons/grade."""
    text = re.sub(r"(?m)^    (?:\./pmem|lessons/|tools/)[^\n]*\n(?:    [^\n]*\n)*", "", text)
    text = re.sub(r"\s*Begin with \[trace\]\(trace\)\.", "", text)
    return re.sub(r"`lessons/grade[^`]*`", "*check my trace*, in the page,", text)


def lesson_of(task: grading.Task) -> Lesson:
    """A lesson read from its page."""
    page = without_shell(grading.read_text(f"{task.folder}/README.md"))
    lead, *rest = re.split(r"(?m)^## ", page)
    title, text = lead.split("\n", 1)
    head = re.search(r"(?m)^About \d+ minutes, .*$", text)
    lead = re.sub(r"(?m)^(About \d+ minutes, .*|!\[.*)\n", "", text).strip()
    sections = {part.split("\n", 1)[0]: part.split("\n", 1)[1].strip() for part in rest}
    return Lesson(task, title.lstrip("# "), head[0] if head else "", lead, sections)


def goal_for(task: grading.Task, seed: Optional[int]) -> Goal:
    """A task's goal, or that of its variant."""
    return goal_of(grading.read_text(f"{task.folder}/goal"), seed)


def question_of(lesson: Lesson, seed: Optional[int]) -> str:
    """The question as HTML, with the numbers of a variant."""
    text = lesson.sections.get("A question", lesson.lead)
    goal = goal_for(lesson.task, seed)
    if seed is None:
        return html_of(text)
    return html_of(varied_text(text, goal.shown, goal.given) + (f"\n\n**Variant {seed}.** {goal.says}" if goal.says else f"\n\n**Variant {seed}.**"))


def framed(kind: str, title: str, text: str) -> str:
    """A whole page."""
    return FRAME.format(policy=POLICY, title=html.escape(title), style=STYLE, kind=kind, text=text)


def address_of(page: str, lesson: Lesson, seed: Optional[int]) -> str:
    """What opens a lesson in the page."""
    task = lesson.task
    name = f"{task.number:02}" if task.kind == "lesson" else f"{task.kind}-{task.number}"
    return f"{page}#lesson={name}" + ("" if seed is None else f"&seed={seed}")


def plan_of(lessons: Sequence[Lesson], more: Sequence[str] = ()) -> str:
    """The table of tasks with their minutes, and further columns to fill in."""
    rows = [("Task", "Minutes"), *((it.title, str(it.minutes())) for it in lessons), ("All", str(sum(it.minutes() for it in lessons)))]
    head = "".join(f'<th scope="col">{html.escape(cell)}</th>' for cell in (*rows[0], *more))
    body = "".join("<tr>" + "".join(f"<td>{html.escape(cell)}</td>" for cell in row) + "<td></td>" * len(more) + "</tr>" for row in rows[1:])
    return f"<table><thead><tr>{head}</tr></thead><tbody>{body}</tbody></table>"


def sheet_task(lesson: Lesson, page: str, seed: Optional[int]) -> str:
    """One task of the sheet: what is new, the question, and room for an answer."""
    new = html_of("### New here\n\n" + lesson.sections["New here"]) if "New here" in lesson.sections else ""
    lead = "" if lesson.task.kind == "exercise" else html_of(lesson.lead)
    look = html_of("### What to look at\n\n" + lesson.sections["What to look at"]) if "What to look at" in lesson.sections else ""
    link = html.escape(address_of(page, lesson, seed))
    lines = '<div class="lines"></div>' * LINES_FOR_AN_ANSWER
    return (f'<section class="task"><h2>{html.escape(lesson.title)}</h2><p class="soft">{html.escape(lesson.head)} '
            f'<a href="{link}">Open it in the page</a></p>{lead}{new}{look}<h3>Question</h3>{question_of(lesson, seed)}{lines}</section>')


def sheet_of(lessons: Sequence[Lesson], page: str, student: str = "", seed: Optional[int] = None) -> str:
    """The sheet for students, or for one student with a variant of each question."""
    name = html.escape(student) if student else '<span style="display:inline-block;width:20em;border-bottom:1px solid">&nbsp;</span>'
    variant = "" if seed is None else f" Variant {seed}."
    start = ("<p>Open the page in a browser. Read a lesson on the left. Step through its trace with <b>▶ step</b>; every reply is explained below "
             "the trace. Then change the trace until <b>check my trace</b> says Yes. <b>Share, save as a file</b> gives the file to hand in.</p>")
    text = f"<h1>Lab sheet: secure persistent memory</h1><p>Name: {name}.{variant}</p>{start}"
    return framed("sheet", "Lab sheet", text + plan_of(lessons, ["Reached"]) + "".join(sheet_task(lesson, page, seed) for lesson in lessons))


def picture_of(lesson: Lesson) -> str:
    """A lesson's picture, in the page itself."""
    path = f"{lesson.task.folder}/picture.svg"
    if not os.path.isfile(path):
        return ""
    with open(path, "rb") as file:
        data = base64.b64encode(file.read()).decode()
    says = re.search(r"!\[([^]]*)\]\(picture\.svg\)", grading.read_text(f"{lesson.task.folder}/README.md"))
    return f'<img alt="{html.escape(says[1] if says else "")}" src="data:image/svg+xml;base64,{data}">'


def slides_for(lesson: Lesson) -> List[str]:
    """The slides of a lesson: its idea with the picture, what happens, why, and the question."""
    parts = [html_of(lesson.lead) + picture_of(lesson)] if lesson.task.kind != "exercise" else []
    parts += [html_of(f"### {name}\n\n{lesson.sections[name]}") for name in ("New here", "What happens", "Why") if name in lesson.sections]
    parts.append("<h3>Question</h3>" + question_of(lesson, None))
    return [f"<section><h2>{html.escape(lesson.title)}</h2>{part}</section>" for part in parts]


def slides_of(lessons: Sequence[Lesson]) -> str:
    """The slides of a lab."""
    first = f"<section><h1>Secure persistent memory: a lab</h1>{plan_of(lessons)}</section>"
    return framed("slides", "Slides", first + "".join(slide for lesson in lessons for slide in slides_for(lesson)))


def key_of(lessons: Sequence[Lesson]) -> str:
    """The key for teachers: each question with an answer, its trace, and answers to what to try next."""
    parts = []
    for lesson in lessons:
        folder = f"{HERE}/answers/{os.path.relpath(lesson.task.folder, HERE)}"
        text = without_shell(grading.read_text(f"{folder}/README.md")).split("\n", 1)[-1]
        text = re.sub(r"(?m)^(Back to \[the lesson\].*|The traces are `next-.*)\n?", "", text)
        trace = "\n".join(short(line) for line in grading.read_text(f"{folder}/trace").rstrip("\n").split("\n"))
        parts.append(f'<section class="task"><h2>{html.escape(lesson.title)}</h2>{question_of(lesson, None)}<h3>An answer</h3>{html_of(text)}'
                     f"<pre>{html.escape(trace)}</pre></section>")
    return framed("key", "Answers", "<h1>Answers, for teachers</h1>" + "".join(parts))


def short(line: str) -> str:
    """A command with a line of one byte as 11*64, as the page takes it."""
    return re.sub(r"\b([0-9a-f]{2})\1{63}\b", r"\1*64", line)

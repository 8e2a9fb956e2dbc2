"""Reads files of proofs as text, and rewrites bodies of their lemmas as calls of tactics. `tools/search_first` tries what this writes."""
import re
from collections import defaultdict
from typing import Dict, Iterator, List, NamedTuple, Optional, Sequence, Set, Tuple

# What a call may stand for. NAMES are the lemmas that the body cites.
CALLS = {"rules": "search (rules, NAMES)", "steps": "grind (arith, common_steps, NAMES)", "arith": "search (arith, NAMES)"}

# The files that the words of a call come from.
ORIGINS = {"rules": "Rattle.std.proofs.Common", "arith": "Rattle.std.proofs.Common", "common_steps": "Rattle.std.proofs.lemmas.Grind"}

# Words that aren't lemmas to give to a search: the language's own, and those that `rules` and `arith` know.
PLAIN = set("""absurd arith ap cc common_steps elim Err false get_or grind in inl inr let None Ok omega record refl rules rw search simp Some suc
    subst subst₂ sym transport true tt unfolding Unit where zero λ""".split())

NAME = r"[^\s(){}=:;,]+"
SIGNATURE = re.compile(rf"(?:pub )?(?P<name>{NAME})\s+:(?:\s|$)")
NO_LEMMA = ("abbrev ", "unfoldable ", "use ", "pub use ", "mod ", "pub mod ", "module ", "let ", "unfolding ")
HEADS = set("= ∙ ≡ → × , ; { ( [ in λ . + - < ≤ ⊎ ∧ ∨ : | ↦ ∷ ++ let".split())
TOKEN = re.compile(r"[(){}\[\],;]|[^\s(){}\[\],;]+")
WIDTH = 150

# What an attempt is: a call for all of a body, a call for a part of it, or the body with fewer arguments.
WHOLE, INSIDE, INFERRED = "whole", "inside", "inferred"

# Stands at the end of a trial's file and has to be refused: else the file wasn't checked to its end, and says nothing of any attempt.
WITNESS = ("checked_to_the_end : (A : Type 0) → A", "checked_to_the_end A = search rules steps 10")


class Clause(NamedTuple):
    """One equation of a lemma: its lines, from `first` up to `end`, and its text on both sides of the `=`."""

    first: int
    end: int
    head: str
    body: str


class Lemma(NamedTuple):
    """A lemma of a file: its signature begins at `first`, what it unfolds at `unfolds`, and it ends before `end`."""

    name: str
    indent: int
    first: int
    unfolds: int
    clauses: List[Clause]
    end: int


class Part(NamedTuple):
    """A part of a body that fills its lines, from `first` up to `end` of the body's lines: what stands before it and after it."""

    first: int
    end: int
    before: str
    behind: str
    body: str


class Attempt(NamedTuple):
    """A text to try: its number in the file, lemma, clause and kind, for which lines of the clause it stands, and on which lines of the trial."""

    number: int
    lemma: int
    clause: int
    kind: str
    first: int
    end: int
    lines: Tuple[str, ...]
    low: int
    high: int

    def gain(self) -> int:
        return self.end - self.first - len(self.lines)


def indent_of(line: str) -> int:
    return len(line) - len(line.lstrip())


def split_at_equals(text: str) -> Optional[Tuple[str, str]]:
    """The text before and behind the first `=` that stands in no bracket."""
    depth = 0
    for match in re.finditer(r"[(\[{]|[)\]}]|(?<=\s)=(?=\s|$)", text):
        if match[0] == "=" and depth == 0:
            return text[: match.start()].rstrip(), text[match.end():]
        depth += (match[0] in "([{") - (match[0] in ")]}")
    return None


def end_of_block(lines: Sequence[str], at: int, indent: int) -> int:
    """The end of the lines that are indented deeper than `indent`; blank lines and comments at the end aren't counted."""
    end = at
    while end < len(lines) and (not lines[end].strip() or indent_of(lines[end]) > indent or lines[end].strip()[0] in ")]}"):
        end += 1
    while end > at and (not lines[end - 1].strip() or lines[end - 1].strip().startswith("--")):
        end -= 1
    return end


def clauses_at(lines: Sequence[str], at: int, name: str, indent: int) -> List[Clause]:
    """The clauses of a lemma, which begin at a line."""
    start = re.compile(rf"{re.escape(name)}(?:\s|$)")
    clauses: List[Clause] = []
    while at < len(lines) and indent_of(lines[at]) == indent and start.match(lines[at].strip()):
        end = end_of_block(lines, at + 1, indent)
        halves = split_at_equals("\n".join(lines[at:end]))
        if halves is None:
            return []
        clauses.append(Clause(at, end, *halves))
        at = end
        while at < len(lines) and (not lines[at].strip() or lines[at].strip().startswith("--")):
            at += 1
    return clauses


def lemmas_of(lines: Sequence[str]) -> List[Lemma]:
    """The lemmas of a file with their clauses, also those in modules; no definitions, records or operators."""
    found: List[Lemma] = []
    at = 0
    while at < len(lines):
        text, indent = lines[at].strip(), indent_of(lines[at])
        signature = SIGNATURE.match(text)
        if re.match(r"(?:pub )?(?:record|data|ruleset)\b", text):
            at = end_of_block(lines, at + 1, indent)
        elif not signature or text.startswith((*NO_LEMMA, "--")):
            at += 1
        else:
            unfolds = end_of_block(lines, at + 1, indent)
            start = unfolds
            while start < len(lines) and lines[start].strip().startswith("unfolding ") and indent_of(lines[start]) >= indent:
                start += 1
            clauses = clauses_at(lines, start, signature["name"], indent)
            if clauses and "◌" not in signature["name"]:
                found.append(Lemma(signature["name"], indent, at, unfolds, clauses, clauses[-1].end))
            at = max(at + 1, clauses[-1].end if clauses else start)
    return found


def imports_of(text: str, passed_on: Optional[Dict[str, str]] = None) -> Dict[str, str]:
    """The names that a file imports, each with the module that it comes from; `passed_on` says where the names of a Common come from."""
    found: Dict[str, str] = {}
    for match in re.finditer(r"^\s*(?:pub )?use (\S+)\.\{([^}]*)\}", text, re.M):
        for word in match[2].split(","):
            name = word.strip().rpartition(" as ")[2]
            if name:
                is_passed_on = passed_on is not None and match[1].endswith(".proofs.Common") and match[1] != ORIGINS["rules"]
                found[name] = (passed_on or {}).get(name, match[1]) if is_passed_on else match[1]
    return found


def bound_in(text: str) -> Set[str]:
    """The variables that a text binds by let, λ or a pattern of a branch."""
    found = set(re.findall(r"\blet (\S+)", text))
    for match in re.finditer(r"λ (.*?)\.(?:\s|$)|\| (.*?) ↦", text, re.S):
        found |= set(re.findall(r"[^\s(),:]+", match[1] or match[2] or ""))
    return found


def lemmas_cited(body: str, imports: Dict[str, str], own: Set[str], bound: Set[str]) -> List[str]:
    """The lemmas that a body applies, in its order: those at the head of an application, of this file or of a proofs' file."""
    found: List[str] = []
    previous = "="
    for match in TOKEN.finditer(body):
        token, is_head = match[0], previous in ("=", "(", "∙", "in", ";", "{", ",", "↦", "[") or previous.endswith(".")
        previous = token
        if not is_head or token in PLAIN or token in found or token.split(".")[0] in bound or re.match(r"[(){}\[\],;0-9◌]", token):
            continue
        origin = imports.get(token, "own" if token in own else "")
        if origin == "own" or ".proofs" in origin and (origin != ORIGINS["rules"] or re.search(r"[-_]", token)):
            found.append(token)
    return found


def call_of(form: str, names: Sequence[str]) -> str:
    """A call with its names filled in, without brackets if it has one entry."""
    call = form.replace("NAMES", ", ".join(names)) if names else form.replace(", NAMES", "")
    return re.sub(r"\(([^,()]*)\)$", r"\1", call)


def parts_of(lines: Sequence[str]) -> Iterator[Part]:
    """The parts of a clause that a call can replace: fields, lets with a type and branches, of two lines and more."""
    for at, line in enumerate(lines[1:], 1):
        text, indent = line.rstrip(), indent_of(line)
        end = at + 1
        while end < len(lines) and indent_of(lines[end]) > indent:
            end += 1
        if re.match(r"\s+[\w][\w-]* =$", text) and end - at > 2 and lines[end - 1].endswith(";"):
            yield Part(at, end, text, ";", "\n".join(lines[at + 1:end])[:-1])
        elif re.match(r"\s+\w[\w-]* = record \{$", text) and lines[end:end + 1] == [" " * indent + "};"]:
            yield Part(at, end + 1, text[: -len(" record {")], ";", "\n".join(["record {", *lines[at + 1:end + 1]])[:-1])
        elif re.match(r"\s+\| .* ↦$", text) and end - at > 2:
            yield Part(at, end, text, "", "\n".join(lines[at + 1:end]))
        elif re.match(r"\s+let \S+ : .* =$", text):
            end = end_of_let(lines, at)
            if end:
                yield Part(at, end, text, " in", "\n".join(lines[at + 1:end])[: -len(" in")])


def end_of_let(lines: Sequence[str], at: int) -> int:
    """The end of a let that begins at a line, if its `in` ends a line; else 0."""
    depth = waits = 0
    for number in range(at, len(lines)):
        for token in re.findall(r"[(){}\[\]]|(?<!\S)(?:let|in)(?!\S)", lines[number]):
            depth += (token in "([{") - (token in ")]}") if token not in ("let", "in") else 0
            if depth == 0 and token in ("let", "in"):
                waits += 1 if token == "let" else -1
                if waits == 0:
                    return number + 1 if lines[number].endswith(" in") else 0
    return 0


def laid_out(before: str, call: str, behind: str, indent: int) -> Tuple[str, ...]:
    """A call after its `=`, on a separate line if one line would be too long."""
    line = f"{before} {call}{behind}"
    fits = len(line.split("\n")[-1]) <= WIDTH
    return tuple(line.split("\n")) if fits else (*before.split("\n"), " " * (indent + 4) + call + behind)


def arguments_in(body: str, imports: Dict[str, str], takes_paths: bool) -> List[Tuple[int, int]]:
    """The places of arguments in a body that may be left out: applications of definitions in brackets, and paths of arguments of a function."""
    found: List[Tuple[int, int]] = []
    opened: List[Tuple[int, bool]] = []
    # nothing is inferred in the type of a let
    typed = [match.span() for match in re.finditer(r"\blet \S+ :.*?\s=(?=\s)", body, re.S)]
    previous = "="
    for match in TOKEN.finditer(body):
        token, is_argument = match[0], previous not in HEADS and not previous.endswith(".") and previous not in PLAIN
        if token in ("(", "{", "["):
            opened.append((match.start(), is_argument and token == "("))
        elif token in (")", "}", "]") and opened:
            first, was_argument = opened.pop()
            if body.startswith("λ", first + 1):
                typed.append((first, match.end()))  # nor in what a function gives
            head = re.match(r"\(([^\s(){}\[\],;]+) ", body[first:match.end()])
            if was_argument and head and ".specs" in imports.get(head[1], "") and not re.match(r"[^\s)\]},;]", body[match.end():]):
                found.append((first, match.end()))
        elif takes_paths and is_argument and token.startswith("c.args."):
            found.append(match.span())
        previous = token
    return [it for it in found if not any(it != other and other[0] <= it[0] and it[1] <= other[1] for other in [*found, *typed])]


def joined(lines: Sequence[str]) -> List[str]:
    """Lines of a body with those joined that continue an application and fit on one line."""
    out: List[str] = []
    for line in lines:
        above, text = out[-1] if out else "", line.strip()
        is_open = re.search(r"(?:^|\s)(?:in|=|↦|→)$|[;,(\[{.]$", above) or re.match(r"\s*(?:\||\}|--)", above)
        begins = re.match(r"[}\])|∙]|let\b|module\b|where\b|--|\S+ (?:.* )?=$|[\w-]+ = ", text) or re.search(r"[(\[{.]$", text)
        is_field = above.endswith(" =") and text.endswith(";") and indent_of(line) > indent_of(above)
        fits = len(above) + 1 + len(text) <= WIDTH
        if out and fits and text and (is_field or indent_of(line) == indent_of(above) > 0 and not is_open and not begins):
            out[-1] = f"{above} {text}"
        else:
            out.append(line)
    return out


def with_inferred(shown: Sequence[str], head: str, imports: Dict[str, str]) -> Iterator[Tuple[str, ...]]:
    """A clause with arguments left to be inferred, as many as may be, and then only those in brackets."""
    text = "\n".join(shown)
    start = len(head)
    for takes_paths in (True, False):
        spans = arguments_in(text[start:], imports, takes_paths)
        less = text
        for first, end in sorted(spans, reverse=True):
            less = f"{less[:start + first]}_{less[start + end:]}"
        lines = joined(less.split("\n"))
        if spans and len(lines) < len(shown):
            yield tuple(lines)


def rewritten(text: str, forms: Sequence[str], passed_on: Dict[str, str]) -> Iterator[Tuple[int, Lemma, int, str, int, int, Tuple[str, ...]]]:
    """Each text to try in a file: the lemma and its number, clause, kind, and which lines of the clause become which."""
    lines = text.split("\n")
    lemmas, imports = lemmas_of(lines), imports_of(text, passed_on)
    own = {lemma.name for lemma in lemmas}
    for order, lemma in enumerate(lemmas):
        for number, clause in enumerate(lemma.clauses):
            shown = lines[clause.first:clause.end]
            bound = bound_in("\n".join(shown)) | set(re.findall(r"[^\s(){},]+", clause.head.strip()[len(lemma.name):]))
            body = re.sub(r"\n\s*where\b.*", "", clause.body, flags=re.S)
            names = [name for name in lemmas_cited(body, imports, own, bound) if name != lemma.name]
            names += dict.fromkeys(re.findall(rf"\({re.escape(lemma.name)} [^()]*\)", body))
            if len(shown) < 2 or re.match(r"\s*(?:search|grind|cc|omega)\b", clause.body) and len(shown) < 3:
                continue
            for form in dict.fromkeys(call_of(form, names) for form in forms):
                yield order, lemma, number, WHOLE, 0, len(shown), laid_out(f"{clause.head} =", form, "", lemma.indent)
            for part in parts_of(shown):
                if re.match(r"\s*(?:search|grind|cc|omega)\b", part.body) or re.search(rf"(?<!\S)\(?{re.escape(lemma.name)}(?!\S)", part.body):
                    continue
                call = call_of(CALLS["rules"], lemmas_cited(part.body, imports, own, bound))
                yield order, lemma, number, INSIDE, part.first, part.end, laid_out(part.before, call, part.behind, indent_of(part.before))
            if not re.search(r"\bwhere\b", clause.body):
                for less in dict.fromkeys(with_inferred(shown, clause.head, imports)):
                    yield order, lemma, number, INFERRED, 0, len(shown), less


def copy_of(lines: Sequence[str], lemma: Lemma, name: str, number: int, clause: Sequence[str]) -> List[str]:
    """A copy of a lemma under another name, not public, with other lines for one of its clauses."""
    copy = [*lines[lemma.first:lemma.unfolds], *lines[lemma.unfolds:lemma.clauses[0].first]]
    head = copy[0].lstrip()
    copy[0] = " " * lemma.indent + name + head[len("pub ") if head.startswith("pub ") else 0:][len(lemma.name):]
    for at, other in enumerate(lemma.clauses):
        shown = [*(clause if at == number else lines[other.first:other.end])]
        shown[0] = shown[0].replace(lemma.name, name, 1)
        copy += shown
    return [line for line in copy if line.strip()]


def with_imports(text: str, words: Sequence[str]) -> str:
    """A file's text with imports of these words of a call, if it has none of them."""
    known = imports_of(text)
    for word in words:
        module = ORIGINS[word]
        if word in known:
            continue
        if f"use {module}.{{" in text:
            text = text.replace(f"use {module}.{{", f"use {module}.{{{word}, ", 1)
        else:
            text = re.sub(r"^(?=use |pub use )|\Z", f"use {module}.{{{word}}}\n", text, count=1, flags=re.M)
    return text


def words_of_calls(text: str) -> List[str]:
    """The words of a call that a text mentions outside of its imports and comments."""
    body = re.sub(r"^\s*(?:(?:pub )?use|--).*$", "", text, flags=re.M)
    return [word for word in ORIGINS if re.search(rf"(?<![\w.-]){word}(?![\w-])", body)]


def without_unused(text: str) -> str:
    """A file's text without the imported names that it doesn't mention; what it passes on stays."""
    body = re.sub(r"^\s*(?:(?:pub )?use |--).*$", "", text, flags=re.M)
    mentioned = {word.rstrip(".") for word in re.findall(r"[^\s(){}\[\],;.]+(?:\.(?=\s))?", body)}

    def is_used(name: str) -> bool:
        known = name.rpartition(" as ")[2]
        # of an operator each sign has to stand somewhere
        return known in mentioned if re.match(r"\w[^◌]*$", known) else all(sign in body for sign in known.split("◌"))

    def kept(match: "re.Match[str]") -> str:
        names = [name.strip() for name in match[2].split(",") if name.strip()]
        left = [name for name in names if is_used(name)]
        return match[0] if left == names else f"use {match[1]}.{{{', '.join(left)}}}\n" if left else ""

    return re.sub(r"^use (\S+)\.\{([^}\n]*)\}\n", kept, text, flags=re.M)


def with_attempts(text: str, forms: Sequence[str], steps: int, passed_on: Dict[str, str], dropped: Set[int]) -> Tuple[str, List[Attempt]]:
    """A file's text with a copy of a lemma for each attempt but those dropped, and the attempts with the lines on which they stand."""
    if not list(rewritten(text, forms, passed_on)):
        return text, []
    lines = with_imports(text, words_of_calls("\n".join([*forms, CALLS["rules"]]))).split("\n")
    copies: Dict[int, List[Tuple[Attempt, List[str]]]] = defaultdict(list)
    for count, (order, lemma, number, kind, first, end, new) in enumerate(rewritten("\n".join(lines), forms, passed_on)):
        if count in dropped:
            continue
        shown = lines[lemma.clauses[number].first:lemma.clauses[number].end]
        limited = new if kind == INFERRED else (*new[:-1], re.sub(r"(?=(?:;| in)?$)", f" steps {steps}", new[-1], count=1))
        copy = copy_of(lines, lemma, f"{lemma.name}-try{count}", number, [*shown[:first], *limited, *shown[end:]])
        copies[lemma.end].append((Attempt(count, order, number, kind, first, end, new, 0, 0), copy))
    out: List[str] = []
    attempts: List[Attempt] = []
    for at in range(len(lines) + 1):
        for attempt, copy in copies.get(at, ()):
            attempts.append(attempt._replace(low=len(out) + 1, high=len(out) + len(copy)))
            out += copy
        out += lines[at:at + 1]
    return "\n".join([*out, *WITNESS, ""]), attempts


def picked(attempts: Sequence[Attempt]) -> List[Attempt]:
    """The accepted attempts to keep: for each clause the whole call that saves most, or else calls inside or fewer arguments,
    if these save more."""
    by_clause: Dict[Tuple[int, int], List[Attempt]] = defaultdict(list)
    for attempt in attempts:
        if attempt.gain() > 0:
            by_clause[attempt.lemma, attempt.clause].append(attempt)
    kept: List[Attempt] = []
    for found in by_clause.values():
        whole, inside, inferred = ([it for it in found if it.kind == kind] for kind in (WHOLE, INSIDE, INFERRED))
        apart: List[Attempt] = []
        for attempt in sorted(inside, key=lambda it: (it.first, -it.end)):
            if not apart or attempt.first >= apart[-1].end:
                apart.append(attempt)
        choices = [[max(them, key=Attempt.gain)] for them in (whole, inferred) if them]
        kept += choices[0] if whole else max([apart, *choices], key=lambda them: sum(it.gain() for it in them))
    return kept


def applied(text: str, picks: Sequence[Attempt]) -> str:
    """A file's text with the picked calls instead of what they replace, and with the imports that it then needs."""
    if not picks:
        return text
    lines = text.split("\n")
    lemmas = lemmas_of(lines)
    place = {pick: lemmas[pick.lemma].clauses[pick.clause].first for pick in picks}
    for pick in sorted(picks, key=lambda it: -(place[it] + it.first)):
        lines[place[pick] + pick.first:place[pick] + pick.end] = pick.lines
    text = "\n".join(lines)
    return without_unused(with_imports(text, words_of_calls(text)))

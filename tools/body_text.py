"""Reads Rattle sources as text, and makes wrong bodies of their functions. `tools/plant_random` tries what this makes."""
import difflib
import itertools
import random
import re
from typing import Dict, Iterator, List, NamedTuple, Optional, Sequence, Set, Tuple

# The kinds of wrong bodies.
OPERATOR, COMPARISON, CONSTANT, CONDITION, STATEMENT, ARGUMENTS = "operator", "comparison", "constant", "condition", "statement", "arguments"
KINDS = (OPERATOR, COMPARISON, CONSTANT, CONDITION, STATEMENT, ARGUMENTS)

OPERATORS: Dict[str, Sequence[str]] = {
    "+": ["-"], "-": ["+"], "*": ["+"], "/": ["%"], "%": ["/"], "&": ["|"], "|": ["&"], "^": ["|"],
    "<<": [">>"], ">>": ["<<"], "&&": ["||"], "||": ["&&"],
    "+=": ["-="], "-=": ["+="], "*=": ["+="], "&=": ["|="], "|=": ["&="], "^=": ["|="], "<<=": [">>="], ">>=": ["<<="]}
COMPARISONS: Dict[str, Sequence[str]] = {
    "==": ["!="], "!=": ["=="], "<": ["<=", ">="], "<=": ["<", ">"], ">": [">=", "<="], ">=": [">", "<"]}
# Words before a bracket that isn't a call's.
KEYWORDS = set("as else fn for if in let loop match move mut ref return while".split())
# Operators that are methods.
METHODS = {"min": "max", "max": "min", **{f"{how}_{one}": f"{how}_{other}" for how in ("wrapping", "checked", "saturating")
                                        for one, other in (("add", "sub"), ("sub", "add"))}}

TOKEN = re.compile(r"""
    (?P<comment>//[^\n]*|/\*.*?\*/)
  | (?P<text>b?"(?:[^"\\]|\\.)*")
  | (?P<letter>b?'(?:[^'\\]|\\[^x]|\\x[0-9a-fA-F]{2})')
  | (?P<label>'\w+)
  | (?P<number>\d\w*)
  | (?P<name>[A-Za-z_]\w*)
  | (?P<sign>\.\.=|<<=|>>=|\.\.|::|->|=>|==|!=|<=|>=|&&|\|\||<<|>>|[-+*/%&|^]=|[^\s\w])
""", re.X | re.S)
NUMBER = re.compile(r"(?P<digits>0x[0-9a-fA-F]+(?:_[0-9a-fA-F]+)*|[0-9]+(?:_[0-9]+)*)(?P<suffix>_?[ui](?:8|16|32|64|128|size))?")
HEAD = re.compile(r"(?P<indent> *)(?:pub(?:\([a-z]+\))? )?(?:const )?(?:unsafe )?(?:extern \"C\" )?fn (?P<name>\w+)")
OWNER = re.compile(r"(?:pub(?:\([a-z]+\))? )?(?:unsafe )?(?P<what>impl|trait)\b(?P<rest>[^{]*)")


class Token(NamedTuple):
    """A token of a text, from `at` up to `end`."""

    kind: str
    text: str
    at: int
    end: int


class Function(NamedTuple):
    """A function with a body: its path as a check prints it, its file, and where the body's inside begins and ends there."""

    path: str
    file: str
    at: int
    end: int
    types: Tuple[str, ...]
    is_law: bool


class Plant(NamedTuple):
    """A change of one place: what stands from `at` up to `end` of a file is replaced."""

    kind: str
    at: int
    end: int
    new: str


def tokens_of(text: str, at: int, end: int) -> List[Token]:
    """The tokens of a part of a text, without comments."""
    return [Token(str(it.lastgroup), it[0], it.start(), it.end()) for it in TOKEN.finditer(text, at, end) if it.lastgroup != "comment"]


def without_arguments(text: str) -> str:
    """A type's path without what stands in angle brackets."""
    while True:
        less = re.sub(r"<[^<>]*>", "", text)
        if less == text:
            return text
        text = less


def owner_name(line: str) -> Optional[str]:
    """The part of a path that an `impl` or a `trait` gives to its functions, or None of another line."""
    match = OWNER.match(line)
    if not match:
        return None
    rest = match["rest"].strip()
    if match["what"] == "trait":
        return re.split(r"[<: ]", rest)[0]
    if rest.startswith("<"):
        depth = 0
        for at, letter in enumerate(rest):
            depth += (letter == "<") - (letter == ">" and rest[at - 1] != "-")
            if not depth:
                rest = rest[at + 1:].strip()
                break
    of, is_trait, name = rest.partition(" for ")
    last = without_arguments(name if is_trait else of).strip().split("::")[-1]
    return last + "".join(re.findall(r"\w+", re.sub(r"'\w+|\w+::", "", of))) if is_trait else last


def parts_at(tokens: Sequence[Token], opened: int) -> Tuple[List[Tuple[int, int]], int]:
    """What stands between the commas of the bracket at a place, as first and last tokens, and the place of its end."""
    parts, depth, first = [], 0, opened + 1
    for at in range(opened, len(tokens)):
        sign = tokens[at].text if tokens[at].kind == "sign" else ""
        depth += (sign in "([{" and sign != "") - (sign in ")]}" and sign != "")
        if not depth or depth == 1 and sign == ",":
            if first < at:
                parts.append((first, at - 1))
            first = at + 1
        if not depth:
            return parts, at
    return [], opened


def types_of(head: str) -> Tuple[str, ...]:
    """The types of a function's parameters but `self`, as its head has them."""
    tokens = tokens_of(head, 0, len(head))
    opened = next((at for at, it in enumerate(tokens) if it.text == "(" and at > 1 and tokens[at - 1].text != "pub"), None)
    if opened is None:
        return ()
    found, depth, first = [], 0, opened + 1
    for at in range(opened, len(tokens)):
        text = tokens[at].text
        depth += (text in ("(", "[", "<", "{")) - (text in (")", "]", ">", "}"))
        if not depth or depth == 1 and text == ",":
            words = [it.text for it in tokens[first:at]]
            if ":" in words:
                found.append(" ".join(words[words.index(":") + 1:]))
            first = at + 1
        if not depth:
            break
    return tuple(found)


def functions_of(file: str, text: str) -> Iterator[Function]:
    """The functions of a file of src/ that have a body, in their order, but those of its tests."""
    module = [part for part in re.sub(r"^src/|\.rt$", "", file).split("/") if part not in ("lib", "main", "mod")]
    lines = text.split("\n")
    starts = [0]
    for line in lines:
        starts.append(starts[-1] + len(line) + 1)
    owner, is_test, at = "", False, 0
    while at < len(lines):
        line = lines[at]
        if line and not line.startswith((" ", "/", "#", "}")):
            owner, is_test = owner_name(line) or "", "#[cfg(test)]" in lines[max(0, at - 2):at]
        head = HEAD.match(line)
        opened = body_line(lines, at, head["indent"]) if head else None
        if head is None or opened is None:
            at += 1
            continue
        closed = next((i for i in range(opened + 1, len(lines)) if lines[i] == head["indent"] + "}"), None)
        above = lines[:at]
        comments: List[str] = []
        while above and above[-1].strip().startswith(("//", "#[")):
            comments.insert(0, above.pop().strip())
        if closed is not None and not is_test and "#[test]" not in comments:
            is_law = any(re.match(r"///? A law\b", it) for it in comments)
            path = "::".join([*module, *([owner] if owner and head["indent"] else []), head["name"]])
            yield Function(path, file, starts[opened + 1], starts[closed], types_of("\n".join(lines[at:opened + 1])), is_law)
            at = closed
        at += 1


def body_line(lines: Sequence[str], head: int, indent: str) -> Optional[int]:
    """The line that ends with the brace that opens the body of the function whose head begins at a line, or None if it has no body."""
    for at in range(head, len(lines)):
        line = lines[at]
        if line == indent + "{":
            return at
        is_outer = at == head or line.startswith((indent + ")", indent + "]", indent + ">"))
        if is_outer and line.endswith("{"):
            return at
        if not line.strip() or is_outer and line.endswith((";", "}")) or at > head and line.endswith(";") and line.startswith(indent + "    "):
            return None
    return None


def statements_of(tokens: Sequence[Token]) -> List[Tuple[int, int]]:
    """The statements of a body that end with a semicolon, as first and last tokens."""
    found: List[Tuple[int, int]] = []
    stack: List[Tuple[str, int]] = [("{", 0)]
    for at, token in enumerate(tokens):
        if token.kind != "sign":
            continue
        after = tokens[at + 1].text if at + 1 < len(tokens) else ""
        if token.text in ("(", "[", "{"):
            stack.append((token.text, at + 1))
        elif token.text in (")", "]", "}") and len(stack) > 1:
            stack.pop()
            kind, first = stack[-1]
            begins = tokens[first].text if first < len(tokens) else ""
            is_whole = begins in ("if", "match", "for", "while", "loop", "unsafe", "{") or first < len(tokens) and tokens[first].kind == "label"
            if token.text == "}" and kind == "{" and is_whole and after not in ("else", ".", "?", ")", ",", ";"):
                stack[-1] = (kind, at + 1)
        elif token.text == ";" and stack[-1][0] == "{":
            found.append((stack[-1][1], at))
            stack[-1] = ("{", at + 1)
        elif token.text in (",", "=>") and stack[-1][0] == "{":
            stack[-1] = ("{", at + 1)
    return found


def law_calls(tokens: Sequence[Token], laws: Set[str]) -> List[Tuple[int, int]]:
    """The places in the text of a body's calls of laws, which state something and do nothing: from the start of each call's statement."""
    found = []
    spans = statements_of(tokens)
    for at, token in enumerate(tokens[:-1]):
        if token.kind == "name" and token.text in laws and tokens[at + 1].text == "(":
            _, end = parts_at(tokens, at + 1)
            found.append((token.at, tokens[end].end))
            found += [(tokens[first].at, tokens[last].end) for first, last in spans if first <= at and end == last - 1]
    return found


def next_number(text: str, by: int) -> Optional[str]:
    """A literal that is one more or one less, spelled alike, or None if there is none."""
    match = NUMBER.fullmatch(text)
    if not match:
        return None
    is_hex = match["digits"].startswith("0x")
    value = int(match["digits"].replace("_", ""), 16 if is_hex else 10) + by
    return None if value < 0 else (f"{value:#x}" if is_hex else str(value)) + (match["suffix"] or "")


def constants(tokens: Sequence[Token], at: int) -> Iterator[Plant]:
    """A literal's neighbors: numbers by one, a letter's next, and the other truth."""
    token = tokens[at]
    if token.kind == "number" and (at == 0 or tokens[at - 1].text != "."):
        for by in (1, -1):
            new = next_number(token.text, by)
            if new is not None:
                yield Plant(CONSTANT, token.at, token.end, new)
    elif token.text in ("true", "false"):
        yield Plant(CONSTANT, token.at, token.end, "false" if token.text == "true" else "true")
    elif token.kind == "letter" and re.fullmatch(r"b?'[0-8a-yA-Y]'", token.text):
        yield Plant(CONSTANT, token.at, token.end, token.text[:-2] + chr(ord(token.text[-2]) + 1) + "'")
    elif token.kind == "text":
        last = max((i for i, letter in enumerate(token.text[1:], 1) if letter in "abcdefghijklmopqsuvwyz" and token.text[i - 1] != "\\"), default=0)
        if last:
            new = token.text[:last] + ("a" if token.text[last] == "z" else chr(ord(token.text[last]) + 1)) + token.text[last + 1:]
            yield Plant(CONSTANT, token.at, token.end, new)


def operators(text: str, tokens: Sequence[Token], at: int) -> Iterator[Plant]:
    """Another operator or comparison. A sign between two values has spaces around it, as `rt fmt` lays it out; a range has none."""
    token = tokens[at]
    after = tokens[at + 1] if at + 1 < len(tokens) else None
    if token.kind == "name":
        if token.text in METHODS and at and tokens[at - 1].text == "." and after and after.text == "(":
            yield Plant(OPERATOR, token.at, token.end, METHODS[token.text])
        return
    if token.kind != "sign" or not at or after is None:
        return
    is_spaced = text[token.at - 1].isspace() and text[token.end].isspace()
    if is_spaced and token.text in OPERATORS and not (token.text == "|" and (after.text[:1].isupper() or after.kind in ("letter", "number", "text"))):
        for new in OPERATORS[token.text]:
            yield Plant(OPERATOR, token.at, token.end, new)
    if is_spaced and token.text in COMPARISONS:
        for new in COMPARISONS[token.text]:
            yield Plant(COMPARISON, token.at, token.end, new)
    if token.text in ("..", "..=") and tokens[at - 1].end == token.at and after.at == token.end and after.text not in (")", "]", "}", ","):
        yield Plant(OPERATOR, token.at, token.end, "..=" if token.text == ".." else "..")


def conditions(text: str, tokens: Sequence[Token], at: int) -> Iterator[Plant]:
    """A condition of an `if`, a `while` or a guard, negated."""
    if tokens[at].text not in ("if", "while") or at + 1 >= len(tokens) or tokens[at + 1].text == "let":
        return
    depth = 0
    for end in range(at + 1, len(tokens)):
        sign = tokens[end].text if tokens[end].kind == "sign" else ""
        if not depth and sign in ("{", "=>"):
            first, last = tokens[at + 1].at, tokens[end - 1].end
            yield Plant(CONDITION, first, last, f"!({text[first:last]})")
            return
        depth += (sign in ("(", "[", "{")) - (sign in (")", "]", "}"))


def swaps(text: str, tokens: Sequence[Token], at: int, types: Dict[str, Set[Tuple[str, ...]]]) -> Iterator[Plant]:
    """Two arguments of a call swapped, unless all functions of its name have other types there."""
    name = tokens[at]
    if name.kind != "name" or name.text in KEYWORDS or at + 1 >= len(tokens) or tokens[at + 1].text != "(":
        return
    parts, _ = parts_at(tokens, at + 1)
    texts = [text[tokens[first].at:tokens[last].end] for first, last in parts]
    fits = [it for it in types.get(name.text, set()) if len(it) == len(parts)]
    for one, other in itertools.combinations(range(len(parts)), 2):
        if texts[one] == texts[other] or fits and not any(it[one] == it[other] for it in fits):
            continue
        first, last = tokens[parts[one][0]].at, tokens[parts[other][1]].end
        between = text[tokens[parts[one][1]].end:tokens[parts[other][0]].at]
        yield Plant(ARGUMENTS, first, last, texts[other] + between + texts[one])


def dropped(text: str, tokens: Sequence[Token]) -> Iterator[Plant]:
    """A statement left out, but none that gives a name or writes an item."""
    for first, last in statements_of(tokens):
        words = [it.text for it in tokens[first:first + 2]]
        if words[0] in ("use", "const", "fn", "ghost", "#") or words[0] == "let" and words[1:] != ["_"]:
            continue
        at, end = tokens[first].at, tokens[last].end
        before = text.rfind("\n", 0, at)
        if text[before:at].isspace() and text[end:end + 1] == "\n":
            at, end = before + 1, end + 1
        yield Plant(STATEMENT, at, end, "")


def plants_of(text: str, function: Function, types: Dict[str, Set[Tuple[str, ...]]], laws: Set[str]) -> List[Plant]:
    """All wrong bodies of a function that this knows to make, each once; those in calls of laws are left out."""
    tokens = tokens_of(text, function.at, function.end)
    found = list(dropped(text, tokens))
    for at in range(len(tokens)):
        found += constants(tokens, at)
        found += operators(text, tokens, at)
        found += conditions(text, tokens, at)
        found += swaps(text, tokens, at, types)
    masked = law_calls(tokens, laws)
    return sorted({it for it in found if not any(at <= it.at and it.end <= end or it.kind == STATEMENT and it.at <= at and end <= it.end
                                                 for at, end in masked)})


def drawn(plants: Sequence[Plant], seed: str) -> List[Plant]:
    """The plants in an order by chance, in which each kind that is left is as likely to be next."""
    chance = random.Random(seed)
    left = {kind: chance.sample(of, len(of)) for kind in KINDS for of in [[it for it in plants if it.kind == kind]] if of}
    order = []
    while left:
        kind = chance.choice(sorted(left))
        order.append(left[kind].pop())
        if not left[kind]:
            del left[kind]
    return order


def planted(text: str, plant: Plant) -> str:
    """The text of a file with a plant in it."""
    return text[:plant.at] + plant.new + text[plant.end:]


def difference(file: str, text: str, plant: Plant) -> str:
    """A plant as a diff without context."""
    lines = difflib.unified_diff(text.split("\n"), planted(text, plant).split("\n"), file, file, lineterm="", n=0)
    return "\n".join(lines)

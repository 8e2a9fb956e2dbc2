"""Variants of the questions, by a seed: other lines, ports and bits, so that each student has an answer of their own. The goal is the
same, with other values for its names. page/src/variants.js draws the same values; docs/PLAYGROUND.md has the rules."""
import re
from typing import Any, Dict, List, Mapping

MOST_SEED = 9999
# By these the seed is multiplied, one after the other for the values that are drawn. They are prime, so that seeds that follow one
# another give different values.
MULTIPLIERS = (617, 401, 229, 127)
LINE_BYTES = 64
# Which kind of number stands at which place of a command, by its word and how many words it has.
PLACES = {("post", 4): "port line", ("part", 5): "port line", ("read", 3): "port line", ("read", 2): "line", ("drain", 2): "port",
          ("fence", 2): "port", ("write", 3): "line", ("put", 3): "line", ("place", 2): "line", ("peek", 2): "line", ("poke", 3): "line",
          ("back", 2): "line", ("flip", 3): "line bit", ("move", 3): "line line"}
Values = Dict[str, str]


def computed(rule: str, values: Mapping[str, str]) -> int:
    """The value of a sum as `1024 + $a / 4`. Each term is read from left to right; a quotient is a whole number."""
    total = 0
    for term in rule.split(" + "):
        words = [int(values.get(word, word)) for word in re.split(r" [*/] ", term)]
        result = words[0]
        for sign, word in zip(re.findall(r" ([*/]) ", term), words[1:]):
            result = result * word if sign == "*" else result // word
        total += result
    return total


def drawn(variant: Mapping[str, Any], seed: int) -> Values:
    """The values of a variant's names for a seed from 1 on."""
    values: Values = {}
    count = 0
    for name, rule in variant.items():
        if isinstance(rule, str):
            values[name] = str(computed(rule, values))
        elif "from" in rule:
            size = rule["to"] - rule["from"] + 1
            values[name] = str(rule["from"] + seed * MULTIPLIERS[count % len(MULTIPLIERS)] % size)
            count += 1
        else:
            at, value = computed(rule["byte"], values), computed(rule["value"], values)
            values[name] = "00" * at + f"{value:02x}" + "00" * (LINE_BYTES - 1 - at)
    return values


def filled(text: str, values: Mapping[str, str]) -> str:
    """A sentence with the values of its names, as $a."""
    return re.sub(r"\$[a-z]+", lambda found: values.get(found[0], found[0]), text)


def exchanged(shown: Mapping[str, str], values: Mapping[str, str], kind: str = "") -> Dict[str, str]:
    """For each number that stands in a lesson, the one of the variant. `kind` chooses ports, bits or lines; "" takes all."""
    return {shown[name]: values[name] for name in shown if name in values and kind in ("", kind_of(name))}


def kind_of(name: str) -> str:
    """What a name stands for: $porta is a port, $bita a bit, and all others are lines."""
    return next((kind for kind in ("port", "bit") if name.startswith(f"${kind}")), "line")


def varied_text(text: str, shown: Mapping[str, str], values: Mapping[str, str]) -> str:
    """A text with the numbers of a variant instead of those that are shown."""
    other = exchanged(shown, values)
    return re.sub(r"(?<![\w.])\d+(?![\w.]\w|\w)", lambda found: other.get(found[0], found[0]), text)


def varied_trace(trace: str, shown: Mapping[str, str], values: Mapping[str, str]) -> str:
    """A trace with the lines, ports and bits of a variant, and its comments with the lines and ports that they name."""
    other = {kind: exchanged(shown, values, kind) for kind in ("port", "line", "bit")}
    return "\n".join(varied_line(line, other) for line in trace.split("\n"))


def varied_line(line: str, other: Mapping[str, Mapping[str, str]]) -> str:
    """One line of a trace with other lines, ports and bits."""
    if line.lstrip().startswith("#"):
        return re.sub(r"\b(lines?|ports?) (\d+)\b(?: and (\d+)\b)?", lambda found: varied_comment(found, other), line, flags=re.IGNORECASE)
    words: List[str] = line.split(" ")
    for at, kind in enumerate(PLACES.get((words[0], len(words)), "").split(), 1):
        words[at] = other[kind].get(words[at], words[at])
    return " ".join(words)


def varied_comment(found: "re.Match[str]", other: Mapping[str, Mapping[str, str]]) -> str:
    """A comment that names lines or ports, with others instead."""
    names = other["port" if found[1].lower().startswith("port") else "line"]
    numbers = [names.get(number, number) for number in (found[2], found[3]) if number]
    return f"{found[1]} {' and '.join(numbers)}"

"""The commands of each session: which line is one, by the program's own rules (docs/FORMATS.md). The program has the last word."""
from typing import Dict, List, Optional

from .settings import MOST_NUMBER

LONGEST_LINE = 1024
PORTS = 8

# What each word behind a command's name has to be: a port, a number, a line, or a part of one.
GRAMMAR: Dict[str, Dict[str, str]] = {
    "run": {
        "post": "port number line", "part": "port number number part", "drain": "port", "fence": "port", "read": "port number",
        "turn": "", "flush": "", "cut": "number", "off": "", "on": "", "poke": "number line", "flip": "number number",
        "move": "number number", "snap": "", "back": "number", "peek": "number", "stat": "", "loss": "number",
    },
    "wear": {"write": "number line", "read": "number", "place": "number", "cut": "number", "off": "", "on": ""},
    "txn": {
        "begin": "", "put": "number line", "commit": "", "abort": "", "read": "number", "cut": "number", "off": "", "on": "",
    },
    "tree": {
        "write": "number line", "read": "number", "cut": "number", "off": "", "on": "", "poke": "number line", "back": "number",
        "snap": "",
    },
}

WORD, COUNT, NUMBER, PORT, HEX, LONG = 1, 2, 3, 4, 5, 6
_DIGITS, _HEX = frozenset(b"0123456789"), frozenset(b"0123456789abcdefABCDEF")


def words_of(line: bytes) -> List[bytes]:
    """The words of a line without its LF: only spaces and tabs stand between them, and one CR at its end is dropped."""
    if line.endswith(b"\r"):
        line = line[:-1]
    return [word for word in line.replace(b"\t", b" ").split(b" ") if word]


def is_skipped(words: List[bytes]) -> bool:
    """Whether a line of these words is blank or a comment."""
    return not words or words[0].startswith(b"#")


def _fault_of_word(rule: str, word: bytes) -> Optional[int]:
    if rule in ("port", "number"):
        if len(word) > 20 or not _DIGITS.issuperset(word) or int(word) > MOST_NUMBER:
            return NUMBER
        return PORT if rule == "port" and int(word) >= PORTS else None
    is_fit = len(word) == 128 if rule == "line" else len(word) % 2 == 0 and len(word) <= 128
    return None if is_fit and _HEX.issuperset(word) else HEX


def fault_of(session: str, line: bytes) -> Optional[int]:
    """The kind of the fault of a line without its LF, 1 to 6; None if it is a command of this session, or skipped."""
    if len(line) > LONGEST_LINE:
        return LONG
    words = words_of(line)
    if is_skipped(words):
        return None
    rules = GRAMMAR[session].get(words[0].decode("latin-1"))
    if rules is None or b"\n" in line:
        return WORD
    if len(rules.split()) != len(words) - 1:
        return COUNT
    faults = (_fault_of_word(rule, word) for rule, word in zip(rules.split(), words[1:]))
    return next((fault for fault in faults if fault is not None), None)

"""What the program's stops mean, of the file that the script `pmem` reads too."""
import re
from pathlib import Path
from typing import Dict, List, Tuple

FILE = Path(__file__).with_name("stops.txt")


def read_stops() -> Tuple[Dict[str, str], List[Tuple[str, str, str]]]:
    """What each stop says by its word or kind, and the hints: a kind, a part of the line at fault, the hint."""
    meanings: Dict[str, str] = {}
    hints: List[Tuple[str, str, str]] = []
    for line in FILE.read_text(encoding="ascii").splitlines():
        if line.startswith("#"):
            continue
        head, _, text = line.partition(": ")
        words = head.split(" ")
        if words[0] == "hint":
            hints.append((words[1], words[2], text))
        else:
            meanings[head] = text
    return meanings, hints


MEANINGS, HINTS = read_stops()
KINDS = {kind: text for kind, text in MEANINGS.items() if re.fullmatch("[1-6]", kind)}


def hint_for(kind: str, line: str) -> str:
    """A hint about a line at fault, or nothing."""
    return next((text for of, part, text in HINTS if of == kind and part in line), "")


def line_text(kind: str, line: str, shown: str) -> str:
    """The message about a line at fault: what is wrong, the line as it is shown, a hint."""
    hint = hint_for(kind, line)
    machines = " or ".join(f"--as {name}" for name in re.findall("of (run|wear|txn|tree)", hint)) if kind == "1" else ""
    return f"{KINDS.get(kind, f'fault of kind {kind}')}: {shown}{'; ' if hint else ''}{hint}{f' ({machines})' if machines else ''}"

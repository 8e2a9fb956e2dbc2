"""Goals: conditions on a run, its commands with their answers. page/src/goal.js judges in the same way; docs/PLAYGROUND.md has
the rules."""
import json
import re
from typing import Any, Callable, Dict, Iterator, List, Mapping, NamedTuple, Optional, Sequence, Tuple

from variants import drawn, filled

ZEROS = "00" * 64
MOST_TRIES = 300_000
TOO_LONG = "the trace is too long to be judged: leave out what the task does not need"
KINDS = ("see", "one of", "any order", "different", "never", "at most")
ENTRIES = {"about", "given", "shown", "variant", "says", "fixed", "parts"}
Run = Sequence[Tuple[str, str]]
Bound = Dict[str, str]
# What is called with the place after the last command that was used and the bindings; whether all that follows is reached.
Then = Callable[[int, Bound], bool]


class Goal(NamedTuple):
    """The options that the question fixes, the parts, of which each is reached by itself, from the run's first command on, and the
    values of names that the question gives. `shown` are the values of names that stand in the lesson as it is. `says` is the sentence
    that a variant adds to the question; it is empty without a variant."""

    fixed: Dict[str, str]
    parts: List[Dict[str, Any]]
    given: Bound
    shown: Bound
    says: str


def goal_of(text: str, seed: Optional[int] = None) -> Goal:
    """Reads a goal, or its variant by a seed. ValueError: the text isn't a goal, or it has no variants."""
    read = json.loads(text)
    if not isinstance(read, dict) or not set(read) <= ENTRIES or not isinstance(read.get("parts"), list):
        raise ValueError(f"a goal has the entries {', '.join(sorted(ENTRIES))}")
    for part in read["parts"]:
        if not part.get("say") or not part.get("steps"):
            raise ValueError("each part of a goal has a sentence and steps")
        for step in part["steps"]:
            check_step(step)
    given, shown = ({name: str(value) for name, value in read.get(entry, {}).items()} for entry in ("given", "shown"))
    if seed is not None and "variant" not in read:
        raise ValueError("this goal has no variants")
    values = given if seed is None else drawn(read["variant"], seed)
    says = "" if seed is None else filled(read.get("says", ""), values)
    return Goal(dict(read.get("fixed", {})), read["parts"], values, {**shown, **given}, says)


def check_step(step: Any) -> None:
    """ValueError: this isn't a step of a goal."""
    if isinstance(step, list):
        for inner in step:
            check_step(inner)
        return
    if isinstance(step, str):
        if "->" not in step:
            raise ValueError(f"a step has a command, -> and an answer: {step}")
        return
    kinds = [kind for kind in KINDS if kind in step]
    if len(kinds) != 1 or not set(step) <= {kinds[0], "of", "say"}:
        raise ValueError(f"a step has one of the entries {', '.join(KINDS)}: {step}")
    if kinds[0] in ("see", "never", "one of", "any order"):
        check_step(step[kinds[0]])


def plain_words(text: str) -> List[str]:
    """The words of a command or an answer, numbers without leading zeros and all in lower case."""
    words = [word for word in re.split(r"[ \t\r]+", text) if word]
    return [str(int(word)) if re.fullmatch("[0-9]{1,20}", word) else word.lower() for word in words]


def fitted(pattern: str, word: str, bound: Bound) -> Optional[Bound]:
    """The bindings with this word added, or None if it doesn't fit."""
    if pattern == "*":
        return bound
    if pattern == "zeros":
        return bound if word == ZEROS else None
    named = re.fullmatch(r"(\$[a-z]+)(\+[0-9]+)?", pattern)
    if not named:
        return bound if word in pattern.lower().split("|") else None
    name, more = named.groups()
    if more is None:
        return {**bound, name: word} if name not in bound else bound if bound[name] == word else None
    if not re.fullmatch("[0-9]+", bound.get(name, "")):
        return None
    return bound if str(int(bound[name]) + int(more)) == word else None


def all_fitted(patterns: Sequence[str], words: Sequence[str], bound: Bound) -> Optional[Bound]:
    """The same for a whole text; `...` at the end of the patterns stands for any more words."""
    is_open = bool(patterns) and patterns[-1] == "..."
    count = len(patterns) - is_open
    if len(words) < count or not is_open and len(words) != count:
        return None
    found: Optional[Bound] = bound
    for pattern, word in zip(patterns[:count], words):
        found = None if found is None else fitted(pattern, word, found)
    return found


def fits_event(pattern: str, event: Tuple[List[str], List[str]], bound: Bound) -> Optional[Bound]:
    """The bindings after a command with its answer fitted a text `command -> answer`, or None."""
    command, _, answer = pattern.partition("->")
    some = all_fitted(command.split(), event[0], bound)
    return None if some is None else all_fitted(answer.split(), event[1], some)


class Search:
    """Looks for commands that reach a goal. `deepest` is the part and the step that it came to."""

    def __init__(self, goal: Goal, run: Run) -> None:
        self.goal = goal
        self.events = [(plain_words(command), plain_words(answer)) for command, answer in run]
        self.tries = 0
        self.deepest = (0, 0)

    def see(self, pattern: str, first: int, bound: Bound, then: Then) -> bool:
        """Whether a command from `first` on fits, and what follows is reached after it."""
        for at in range(first, len(self.events)):
            if self.tries >= MOST_TRIES:
                break
            self.tries += 1
            found = fits_event(pattern, self.events[at], bound)
            if found is not None and then(at + 1, found):
                return True
        return False

    def count(self, word: str) -> int:
        """How many commands have one of these words, separated by |."""
        return sum(command[0] in word.split("|") for command, _ in self.events)

    def step(self, step: Any, first: int, bound: Bound, then: Then) -> bool:
        """Whether a step and what follows it are reached from `first` on."""
        if isinstance(step, list):
            return self.steps(step, first, bound, then)
        if isinstance(step, str) or "see" in step:
            return self.see(step if isinstance(step, str) else step["see"], first, bound, then)
        if "one of" in step:
            return any(self.step(inner, first, bound, then) for inner in step["one of"])
        if "any order" in step:
            return self.any_order(step["any order"], first, first, bound, then)
        if "different" in step:
            words = [ZEROS if name == "zeros" else bound.get(name) for name in step["different"]]
            return len(set(words)) == len(words) and then(first, bound)
        if "never" in step:
            return not any(fits_event(step["never"], event, bound) is not None for event in self.events) and then(first, bound)
        return self.count(step["of"]) <= step["at most"] and then(first, bound)

    def steps(self, steps: Sequence[Any], first: int, bound: Bound, then: Then) -> bool:
        """Whether these steps, in order, and what follows them are reached."""
        if not steps:
            return then(first, bound)
        return self.step(steps[0], first, bound, lambda at, found: self.steps(steps[1:], at, found, then))

    def any_order(self, steps: Sequence[Any], first: int, last: int, bound: Bound, then: Then) -> bool:
        """The same in any order: each step begins at `first`, and what follows comes after all of them."""
        if not steps:
            return then(last, bound)
        return self.step(steps[0], first, bound,
                         lambda at, found: self.any_order(steps[1:], first, max(last, at), found, then))

    def reach(self, part: int, step: int, first: int, bound: Bound) -> bool:
        """Whether the goal is reached from a step of a part on."""
        self.deepest = max(self.deepest, (part, step))
        if part == len(self.goal.parts):
            return True
        steps = self.goal.parts[part]["steps"]
        if step == len(steps):
            return self.reach(part + 1, 0, 0, bound)
        return self.step(steps[step], first, bound, lambda at, found: self.reach(part, step + 1, at, found))

    def say(self) -> str:
        """The sentence for the student on the step that wasn't reached; with a variant, what the variant asks for comes after it."""
        part = self.goal.parts[self.deepest[0]]
        step = part["steps"][self.deepest[1]]
        said = filled(step.get("say", part["say"]) if isinstance(step, dict) else part["say"], self.goal.given)
        return f"{said} {self.goal.says}".rstrip()


def unfit_options(goal: Goal, options: Optional[Mapping[str, Any]]) -> Iterator[str]:
    """The options that the question fixes and the run doesn't have, as arguments."""
    for name, value in goal.fixed.items():
        if options is not None and str(options.get(name, "")) != value:
            yield f"--{name} {value}"


def missing(goal: Goal, run: Run, options: Optional[Mapping[str, Any]] = None) -> Optional[str]:
    """None if a run reaches the goal, or a sentence for the student on what is missing.

    `options` are those of the run, by name; without them what the question fixes isn't looked at."""
    unfit = " ".join(unfit_options(goal, options))
    if unfit:
        return f"This question is for the options {unfit}."
    search = Search(goal, run)
    if search.reach(0, 0, 0, goal.given):
        return None
    return TOO_LONG if search.tries >= MOST_TRIES else search.say()


def run_of(trace: str, replies: str) -> List[Tuple[str, str]]:
    """The commands of a trace, each with its answer; marks are left out."""
    commands = [line for line in trace.split("\n") if line.strip() and not line.strip().startswith("#")]
    answers = [line for line in replies.split("\n") if line and line.split(" ")[0] not in ("seal", "begin")]
    return list(zip(commands, answers))

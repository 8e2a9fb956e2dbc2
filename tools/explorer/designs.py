"""The designs that are compared: the machines, and persistence policies of `run` by the names of the literature. docs/DESIGNS.md has the
papers and what differs."""
import re
from dataclasses import dataclass
from typing import Callable, Dict, List, Sequence

from .errors import WRONG_WORDS, ExploreError
from .machines import MACHINE_NAMES
from .settings import Settings

# Behind the name of a policy: its write queues outlive power, as on a platform with ADR.
WITH_ADR = "+adr"
TRIAD = re.compile("triad-([0-6])")


@dataclass(frozen=True)
class Policy:
    """What a design persists with each write: `persist` answers the number of lines of a path, the lowest ones, for a tree of that many
    levels. `shadow`: whether shadow tables name the lines that may be stale."""

    persist: Callable[[int], int]
    shadow: str


POLICIES: Dict[str, Policy] = {
    "strict": Policy(lambda levels: levels + 1, "off"),
    "osiris": Policy(lambda levels: 0, "off"),
    "anubis": Policy(lambda levels: 0, "on"),
    "counters": Policy(lambda levels: 1, "on"),
}
# The names as a help text lists them.
NAMES = f"{', '.join(POLICIES)}, triad-N"
NAMES_HELP = (f"by the names of the literature {NAMES} (N levels of the tree persisted, 0 to 6), each also with {WITH_ADR} (its write "
              "queues outlive power)")


def triad(nodes: int) -> Policy:
    """Triad-NVM, which persists the counters and the lowest `nodes` levels of the tree above them."""
    return Policy(lambda levels: nodes + 1, "off")


def policy_named(name: str) -> Policy:
    """The policy of a name without `+adr`. Errors: KeyError."""
    found = TRIAD.fullmatch(name)
    return triad(int(found[1])) if found else POLICIES[name]


def is_policy(name: str) -> bool:
    """Whether a policy of `run` has this name."""
    base = name[:-len(WITH_ADR)] if name.endswith(WITH_ADR) else name
    return base in POLICIES or TRIAD.fullmatch(base) is not None


def is_design(name: str) -> bool:
    """Whether a machine or a policy has this name."""
    return name in MACHINE_NAMES or is_policy(name)


def machine_of(name: str) -> str:
    """The machine of a design."""
    return name if name in MACHINE_NAMES else "run"


def with_design(settings: Settings, name: str) -> Settings:
    """Settings of the machine of a design, with the design's policy. Errors: ExploreError if it persists more lines than a path has."""
    if name in MACHINE_NAMES:
        return settings
    base = name[:-len(WITH_ADR)] if name.endswith(WITH_ADR) else name
    policy = policy_named(base)
    persist = policy.persist(settings.levels)
    if persist > settings.levels + 1:
        raise ExploreError(f"{name} persists {persist} lines of a path, and with {settings.levels} levels a path has {settings.levels + 1}",
                           WRONG_WORDS)
    return settings.changed(design=name, persist=persist, shadow=policy.shadow, queue="durable" if name.endswith(WITH_ADR) else "volatile")


def policy_words(settings: Settings) -> List[str]:
    """The options that make a policy."""
    return [f"--persist {settings.persist}", f"--shadow {settings.shadow}", *(["--queue durable"] if settings.is_durable else [])]


def family_of(design: str) -> str:
    """What a design is drawn as: its name without its number and without `+adr`."""
    base = design[:-len(WITH_ADR)] if design.endswith(WITH_ADR) else design
    return "triad" if TRIAD.fullmatch(base) else base


def ordered(names: Sequence[str]) -> List[str]:
    """Names of designs, each once, in their order."""
    return list(dict.fromkeys(names))

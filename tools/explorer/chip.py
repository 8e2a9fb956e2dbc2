"""How many bytes a design has on the chip, by its geometry: lines, positions and registers. Bits of state (dirty, order,
masks), keys and the ciphers' own circuits aren't in it. docs/COSTS.md has the sums."""
from typing import Dict

from .layout import Layout
from .package import LINE_BYTES, PORTS
from .settings import Settings

POSITION, DIGEST, COUNTER = 4, 16, 8
QUEUE, TRANSACTION, PAGES_OPEN = 16, 15, 4
CHIP_PARTS = ("cache", "shadow", "registers", "waiting")


def chip_bytes(settings: Settings) -> Dict[str, int]:
    """The bytes of the metadata cache, of the copy of the shadow, of the registers, and of what waits to be written."""
    levels, position = settings.levels, position_bytes(settings)
    entry = LINE_BYTES + position
    if settings.machine_name == "tree":
        slots = 1 + levels * settings.sets
        height = 1
        while 4 ** height < slots:
            height += 1
        return {"cache": slots * (4 * COUNTER + position), "shadow": (4 ** (height + 1) - 1) // 3 * LINE_BYTES,
                "registers": DIGEST + (levels + 3) * entry, "waiting": 0}
    slots = settings.sets * settings.ways
    tables = len(Layout(settings).shadow_lines()) * LINE_BYTES
    waiting = {"run": PORTS * QUEUE * entry, "wear": 2 * position, "txn": TRANSACTION * entry}
    return {"cache": (levels + 1) * slots * entry, "shadow": tables,
            "registers": DIGEST + group_lines(settings) * entry + PAGES_OPEN * (entry + COUNTER) + 1,
            "waiting": waiting[settings.machine_name]}


def group_lines(settings: Settings) -> int:
    """How many lines the largest commit group of `run`, `wear` or `txn` has: a data line, its tag line, and the path lines that are
    persisted with them, or the counter block alone if none are."""
    return 2 + max(settings.persist, 1)


def kept_bytes(settings: Settings) -> int:
    """How many of a design's bytes on the chip outlive power: its registers, and durable write queues."""
    found = chip_bytes(settings)
    return found["registers"] + (found["waiting"] if settings.is_durable else 0)


def position_bytes(settings: Settings) -> int:
    """How many bytes the number of a device line takes: 4 in all memories that the program has."""
    device_lines = 4 * settings.data_lines
    return max(POSITION, (device_lines.bit_length() + 7) // 8)

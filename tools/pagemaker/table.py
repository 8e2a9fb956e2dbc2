"""The page's table of options, page/src/table.js, from that of the Python package (python/pmem/settings.py)."""
import json
from typing import Any, Dict, List

from explorer.package import OPTIONS, TAKEN, Option

from .sources import SOURCES, read_or

TABLE = f"{SOURCES}/table.js"
MACHINES = ("run", "wear", "txn", "tree")
# JavaScript has no greater numbers that are exact; they are written as texts.
MOST_EXACT = 2**53 - 1

HEAD = """\
// Made by tools/page from python/pmem/settings.py: change that, and run tools/page.

// For each option its default (`is`), and its values: a few `values`; or numbers, the least (`from`) and the `most`; or the least and the
// greatest number of hex `digits`.
"""


def values_of(option: Option) -> Dict[str, Any]:
    """An option as the page has it."""
    if option.choices:
        return {"is": option.default, "values": list(option.choices)}
    if option.sizes is not None:
        return {"is": option.default, "digits": [2 * option.sizes[0], 2 * option.sizes[-1]]}
    assert option.numbers is not None
    least, most = option.numbers.start, option.numbers.stop - 1
    if most > MOST_EXACT:
        return {"is": str(option.default), "from": str(least), "most": str(most)}
    return {"is": option.default, "from": least, "most": most}


def table_text() -> str:
    """The text of page/src/table.js."""
    rows = [f"  {json.dumps(name)}: {json.dumps(values_of(option))}," for name, option in OPTIONS.items()]
    taken = [f"  {name}: {json.dumps(list(TAKEN[name]))}," for name in MACHINES]
    return "\n".join([f"{HEAD}export const OPTION = {{", *rows, "};", "", "// The options that each machine takes.",
                      "export const OPTIONS = {", *taken, "};", ""])


def table_differs() -> List[str]:
    """How page/src/table.js differs from what the Python package's table makes of it."""
    return [] if read_or(TABLE, "") == table_text() else ["page/src/table.js is not what python/pmem/settings.py makes: run tools/page"]

"""What the explorer takes from the Python package `pmem`: the options with their values, the layouts of the devices, the ports. The package is
in python/ of a repository or a bundle; at a worker of a cluster that folder is next to the explorer's."""
import sys
from pathlib import Path

_FOUND = [folder / "python" for folder in Path(__file__).resolve().parents[1:3] if (folder / "python" / "pmem").is_dir()]
if not _FOUND:
    raise ImportError(f"the explorer in {Path(__file__).resolve().parent} needs the repository's folder python/, which has the package pmem")
PYTHON = _FOUND[0]
sys.path.insert(0, str(PYTHON))

from pmem.grammar import PORTS  # noqa: E402
from pmem.layout import COUNTER_SHADOW, LINE_BYTES, LINES_OF_PAGE, NODE_SHADOW, SLOTS, TAGS_OF_LINE, TreeLayout  # noqa: E402
from pmem.layout import COUNTERS, DATA, NODES, TAGS, Layout  # noqa: E402
from pmem.settings import OPTIONS, POLICY, QUEUES, TAKEN, Option, default_number, default_text, most_persisted  # noqa: E402

__all__ = ["COUNTERS", "COUNTER_SHADOW", "DATA", "LINES_OF_PAGE", "LINE_BYTES", "Layout", "NODES", "NODE_SHADOW", "OPTIONS", "Option",
           "POLICY", "PORTS", "PYTHON", "QUEUES", "SLOTS", "TAGS", "TAGS_OF_LINE", "TAKEN", "TreeLayout", "default_number", "default_text",
           "most_persisted"]

"""What a call from Python costs: `calls.py COUNT program FILE` sends one session under --suite weak `read 0 0` COUNT times, by a child
process; `calls.py COUNT library FILE` does so by the library, in this process."""
import sys
from pathlib import Path

sys.path.insert(0, str(Path(__file__).resolve().parents[1] / "python"))

import pmem  # noqa: E402


def main(count: int, way: str, path: str) -> int:
    through = pmem.Program(path) if way == "program" else pmem.Library(path)
    with pmem.Controller(suite="weak", through=through) as controller:
        return 0 if all(controller.read(0, 0).steps == 0 for _ in range(count)) else 1


if __name__ == "__main__":
    sys.exit(main(int(sys.argv[1]), sys.argv[2], sys.argv[3]))

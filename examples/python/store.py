"""A key-value store; power is cut at each step of an update of two keys, and both have their old values or both their new ones."""
import itertools

import pmem


class Store:
    """Keys and values of together at most 64 bytes, each pair in a line. An update is one transaction."""

    def __init__(self, memory):
        self.memory = memory

    def pair(self, line):
        return self.memory.read(line).data.rstrip(b"\0").decode().split("=") + [""]

    def line_of(self, key):
        return next(line for line in itertools.count() if self.pair(line)[0] in (key, ""))

    def __getitem__(self, key):
        return self.pair(self.line_of(key))[1]

    def update(self, **pairs):
        with self.memory.transaction():
            for key, value in pairs.items():
                self.memory.put(self.line_of(key), f"{key}={value}".encode().ljust(pmem.LINE_BYTES, b"\0"))


def main():
    store = Store(pmem.TransactionMemory())
    store.update(alice=100, bob=0)
    for steps in itertools.count():
        trial = Store(store.memory.copy())
        trial.memory.cut(steps)
        try:
            trial.update(alice=70, bob=30)
            break
        except pmem.PowerCut as cut:
            trial.memory.on()
            assert (trial["alice"], trial["bob"]) == (("70", "30") if cut.kept else ("100", "0"))
            print(f"{cut}: alice has {trial['alice']}, bob has {trial['bob']}")
    print(f"the update takes {steps} steps")


if __name__ == "__main__":
    main()

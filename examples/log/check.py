"""Checks a recovered log: as many entries as its length says must be there.

`tools/explore cuts --check` calls it with two files. The second has a row for each line that was read: its number, its
addresses in the recorded program, the variables in it, and its 64 bytes in hex, with tabs between.
"""
import sys

LENGTH, ENTRIES = 0x1000, 0x1040

lines = {}
for row in open(sys.argv[2]):
    number, address, symbol, data = row.rstrip("\n").split("\t")
    lines[int(address, 16)] = bytes.fromhex(data)
length = lines[LENGTH][0]
for entry in range(length):
    if not any(lines[ENTRIES + 64 * entry]):
        sys.exit(f"length {length}, but no entry {entry + 1}")

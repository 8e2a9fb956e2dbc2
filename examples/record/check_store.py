"""Whether the store of store.c is whole: each entry up to the length is there. The first argument names an image of its file."""
import struct
import sys

with open(sys.argv[1], "rb") as file:
    image = file.read()
(length,) = struct.unpack_from("<Q", image, 0)
for entry in range(length):
    (value,) = struct.unpack_from("<Q", image, 64 + 64 * entry)
    if value != 100 + entry:
        sys.exit(f"length {length}, but entry {entry} is missing")

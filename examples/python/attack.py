# An attack on a device, cell by cell: open it as a notebook (each `# %%` begins a cell), or run it as a script.
# %%
import pmem

controller = pmem.Controller(levels=1)
controller.post(0, 5, b"my secret".ljust(64))
print("written in", controller.fence(0).steps, "steps")
controller.marks

# %% [markdown]
# One bit of the line's cipher is turned. Its tag doesn't fit any more, and a read is refused.

# %%
before = controller.device()
controller.flip(5, 0)
print("changed:", [f"device line {place}, of the {before.layout.part_of(place)}" for place in before.differences(controller.device())])
try:
    controller.read(0, 5)
except pmem.Refused as refused:
    print("a read:", refused)

# %% [markdown]
# Turned back, the line is as it was.

# %%
controller.flip(5, 0)
print("turned back:", controller.read(0, 5).data.decode().strip())

# %% [markdown]
# The whole device is copied, the line is written again, and then, with power off, all of the old device is put back. It fits
# together, but not with the root on the chip.

# %%
controller.snap()
controller.post(0, 5, b"another secret".ljust(64))
controller.fence(0)
controller.off()
for place in range(controller.layout.lines):
    controller.back(place)
try:
    controller.on()
except pmem.Refused as refused:
    print("recovery:", type(refused.answer).__name__)
controller

# %% [markdown]
# Under a suite whose tags anyone can forge, the read is answered by evidence of the break, which anyone with the keys can check.

# %%
weak = pmem.Controller(suite="weak")
for bit in (0, 8):
    weak.flip(5, bit)
try:
    weak.read(0, 5)
except pmem.BreakShown as shown:
    print("evidence:", type(shown.exhibit).__name__, "which holds:", weak.check(shown.exhibit))

# %%
output = pmem.answer("run --suite weak", ["flip 5 0", "flip 5 8", "read 0 5"])
print(output.status.name, "after", len(output.replies), "commands")
output

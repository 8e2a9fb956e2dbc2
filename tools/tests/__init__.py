"""Tests of `tools/explore`: `python3 -m unittest discover tools`.

They ask the program that PMEM_PROGRAM names, else the repository's ./pmem."""
import signal
import sys
from pathlib import Path

# So that they find what they test.
sys.path.insert(0, str(Path(__file__).resolve().parents[1]))
# A shell that starts the tests in the background has them ignore interrupts, and so would all that they start.
signal.signal(signal.SIGINT, signal.default_int_handler)

"""examples/workloads: the traces hold what the programs stored, and make.py makes them."""
import importlib.util
import os
import re
import shutil
import sqlite3
import subprocess
import sys
from pathlib import Path
from typing import Any, Dict, Iterator, List

from .helpers import EXAMPLES, ExploreTest, program_path

FOLDER = EXAMPLES / "workloads"
MAKE = FOLDER / "make.py"
NAMES = ["log", "pmdk-btree", "pmdk-hashmap", "redis-aof", "sqlite-wal", "uniform"]
MOST_BYTES = 1_500_000
# The addresses that tools/record gives to the first files that a program writes.
FIRST, SECOND, THIRD = 0x1000000000, 0x2000000000, 0x3000000000


def maker() -> Any:
    """make.py as a module."""
    spec = importlib.util.spec_from_file_location("workloads_make", MAKE)
    assert spec is not None and spec.loader is not None
    module = importlib.util.module_from_spec(spec)
    spec.loader.exec_module(module)
    return module


def text_of(name: str) -> str:
    """A trace."""
    return (FOLDER / f"{name}.trace").read_text(encoding="ascii")


def memory_of(name: str) -> Dict[int, bytes]:
    """What memory holds in the end: each line that was posted, by its address in the program."""
    *_, last = memories_of(name)
    return last


def memories_of(name: str) -> Iterator[Dict[int, bytes]]:
    """What memory holds after each fence, and in the end."""
    memory: Dict[int, bytes] = {}
    places: Dict[int, int] = {}
    for line in text_of(name).splitlines():
        match = re.fullmatch(r"# lines? (\d+)(?: to (\d+))? (?:is|are) at (0x[0-9a-f]+)", line)
        if match:
            first, last, address = int(match[1]), int(match[2] or match[1]), int(match[3], 16)
            places.update((number, address + 64 * (number - first)) for number in range(first, last + 1))
        elif line.startswith("post "):
            _, _, number, data = line.split(" ")
            memory[places[int(number)]] = bytes.fromhex(data)
        elif line.startswith("fence "):
            yield memory
    yield memory


def file_at(memory: Dict[int, bytes], address: int) -> bytes:
    """The bytes of the file that begins at an address."""
    lines = {place - address: data for place, data in memory.items() if 0 <= place - address < 1 << 32}
    data = bytearray(max(lines) + 64)
    for place, line in lines.items():
        data[place:place + 64] = line
    return bytes(data)


class WorkloadsTest(ExploreTest):
    def test_they_are_small_and_the_program_takes_them(self) -> None:
        self.assertEqual(sorted(path.name for path in FOLDER.glob("*.trace")), [f"{name}.trace" for name in NAMES])
        self.assertLess(sum(path.stat().st_size for path in FOLDER.glob("*.trace")), MOST_BYTES)
        for name in NAMES:
            with self.subTest(name):
                ran = subprocess.run([program_path(), "run", "--levels=3", "--suite=weak"], input=text_of(name).encode(), stdout=subprocess.PIPE,
                                     check=True)
                answers = {line.split(b" ")[0] for line in ran.stdout.splitlines()}
                self.assertLessEqual(answers, {b"ok", b"seal", b"begin"})
                self.assertIn("# Made by examples/workloads/make.py", text_of(name).split("\n")[1])

    def test_the_readme_has_their_numbers(self) -> None:
        readme = (FOLDER / "README.md").read_text(encoding="utf-8")
        for name in NAMES:
            lines = [line.split(" ") for line in text_of(name).splitlines() if line and not line.startswith("#")]
            posts = [line for line in lines if line[0] == "post"]
            row = next(line for line in readme.splitlines() if line.startswith(f"| [{name}]("))
            self.assertEqual([cell.strip() for cell in row.split("|")[4:7]],
                             [f"{len(posts):,}", f"{len(lines) - len(posts):,}", f"{len({line[2] for line in posts}):,}"])

    def test_sqlite_reads_the_database(self) -> None:
        """Update n of 120 is of key 7n mod 13, so key k has the value of the last such n."""
        path = self.path("a.db")
        Path(path).write_bytes(file_at(memory_of("sqlite-wal"), FIRST))
        base = sqlite3.connect(path)
        # The file still says that it has a write-ahead log, whose entries the checkpoint has put into it.
        found = dict(base.execute("select key, value from pair").fetchall())
        base.close()
        self.assertEqual(found, {7 * number % 13: f"value {number} of a key that is updated" for number in range(108, 121)})

    def test_sqlite_recovers_each_update(self) -> None:
        """After each fence SQLite itself finds all updates up to one, by the checksums of its write-ahead log, and no update is lost later."""
        seen = [0]
        for memory in memories_of("sqlite-wal"):
            for name in self.names():
                os.unlink(self.path(name))
            for name, address in (("a.db", FIRST), ("a.db-wal", THIRD)):
                Path(self.path(name)).write_bytes(file_at(memory, address) if any(address <= place < address + FIRST for place in memory) else b"")
            base = sqlite3.connect(self.path("a.db"))
            try:
                found = dict(base.execute("select key, value from pair").fetchall())
            except sqlite3.OperationalError as error:
                self.assertEqual((str(error), seen), ("no such table: pair", [0]))
                continue
            finally:
                base.close()
            count = max((int(value.split(" ")[1]) for value in found.values()), default=0)
            self.assertEqual(found, {7 * number % 13: f"value {number} of a key that is updated" for number in range(1, count + 1)})
            self.assertIn(count - seen[-1], (0, 1))
            seen.append(count)
        self.assertEqual(seen[-1], 120)

    def test_the_append_only_file_has_all_commands(self) -> None:
        data = file_at(memory_of("redis-aof"), SECOND).rstrip(b"\0").decode()
        commands: List[List[str]] = []
        while data:
            count, _, data = data.partition("\r\n")
            self.assertEqual(count[0], "*")
            parts = data.split("\r\n", 2 * int(count[1:]))
            commands.append(parts[1:2 * int(count[1:]):2])
            data = parts[-1] if len(parts) > 2 * int(count[1:]) else ""
        self.assertEqual(commands[0][0].lower(), "select")
        self.assertEqual([command[0].lower() for command in commands[1:]], ["set", "incr", "lpush", "hset"] * 80)

    def test_the_log_has_its_entries(self) -> None:
        """The length, and behind it entries that begin with their sizes."""
        pool = file_at(memory_of("log"), FIRST)
        length, at = int.from_bytes(pool[:8], "little"), 0
        while at < length:
            size = int.from_bytes(pool[64 + at:72 + at], "little")
            self.assertTrue(16 <= size < 208)
            at += size
        self.assertEqual(at, length)
        self.assertGreater(length, 10_000)

    def test_pools_of_pmdk(self) -> None:
        for name in ("pmdk-btree", "pmdk-hashmap"):
            self.assertEqual(file_at(memory_of(name), FIRST)[:8], b"PMEMOBJ\0")

    def test_uniform_is_made_again(self) -> None:
        made = subprocess.run([sys.executable, str(MAKE), "uniform", "--out", str(self.directory)], stdout=subprocess.PIPE, universal_newlines=True,
                              check=True)
        self.assertEqual(Path(self.path("uniform.trace")).read_text(), text_of("uniform"))
        self.assertEqual(made.stdout, f"uniform: {len(text_of('uniform')):,} bytes\n")

    def test_the_log_is_made_again(self) -> None:
        if not shutil.which("gcc") or not shutil.which("dpkg-query") or not Path("/usr/include/libpmem.h").exists():
            self.skipTest("gcc or libpmem.h is missing (Debian: gcc, libpmem-dev)")
        subprocess.run([sys.executable, str(MAKE), "log", "--out", str(self.directory)], stdout=subprocess.DEVNULL, check=True)
        texts = [text.split("\n", 2) for text in (Path(self.path("log.trace")).read_text(), text_of("log"))]
        self.assertEqual((texts[0][0], texts[0][2]), (texts[1][0], texts[1][2]))

    def test_arguments(self) -> None:
        for words, status, told in ((["none"], 2, "'none' is not a workload: log, "), (["--out"], 2, "expected one argument")):
            ran = subprocess.run([sys.executable, str(MAKE), *words], stdout=subprocess.PIPE, stderr=subprocess.PIPE, universal_newlines=True,
                                 check=False)
            self.assertEqual((ran.returncode, ran.stdout), (status, ""))
            self.assertIn(told, ran.stderr)
        self.assertEqual(list(maker().WORKLOADS), NAMES)

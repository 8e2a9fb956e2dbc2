#!/usr/bin/env python3
"""Makes the traces of this folder again: real programs, recorded by tools/record and imported for a memory of 4,096 lines.

Arguments are names of workloads (all of them by default). It needs Linux, a C compiler and Debian's packages libpmemobj-dev,
libpmem-dev, sqlite3 and redis-server; one that is missing is named. A trace that is made again has the same writes in the same order;
some bytes differ (random identifiers, times).
"""
import argparse
import random
import re
import subprocess
import sys
import tempfile
import time
from pathlib import Path
from typing import Callable, Dict, List, Sequence, Tuple

FOLDER = Path(__file__).resolve().parent
TOOLS = FOLDER.parent.parent / "tools"
# Sources of the examples of Debian's libpmemobj-dev.
PMDK = Path("/usr/share/doc/libpmemobj-dev/examples")
LEVELS = 3
LINES = 64 * 4 ** LEVELS
SEED = 7


class MakeError(Exception):
    """What is missing or failed, in a line."""


def run(words: Sequence[object], text: str = "", folder: str = ".") -> "subprocess.CompletedProcess[str]":
    """Runs a program that must succeed."""
    try:
        ran = subprocess.run([str(word) for word in words], input=text, stdout=subprocess.PIPE, stderr=subprocess.PIPE, universal_newlines=True,
                             cwd=folder, check=False)
    except OSError as error:
        raise MakeError(f"cannot run {words[0]}: {error.strerror}") from error
    if ran.returncode:
        raise MakeError(f"{words[0]}: status {ran.returncode}: {(ran.stderr.strip() or ran.stdout.strip())[-400:]}")
    return ran


def version_of(packages: Sequence[str]) -> str:
    """The versions of Debian's packages."""
    listed = run(["dpkg-query", "-W", "-f", "${Package} ${Version}\\n", *packages]).stdout
    return ", ".join(listed.split("\n")[:-1])


def recorded(place: str, files: str, words: Sequence[object], text: str = "") -> str:
    """The trace of a program that is recorded: what it writes to these files."""
    table = f"{place}/recorded.csv"
    told = run([sys.executable, TOOLS / "record", "--files", files, "-o", table, *words], text, place).stderr
    return imported(table, re.findall(r"import with --image (\S+)", told))


def imported(table: str, images: Sequence[str]) -> str:
    """The trace of a recording, without the comments on single rows."""
    words = [sys.executable, TOOLS / "explore", "import", "csv", table, "--levels", LEVELS, "--commands", 1_000_000]
    trace = run([*words, *(word for image in images for word in ("--image", image))]).stdout
    return "".join(f"{line}\n" for line in trace.splitlines() if not line.startswith("# row "))


def compiled(place: str, sources: Sequence[object], *words: object) -> str:
    """A program in C."""
    run(["gcc", "-g", "-O1", "-w", "-o", f"{place}/program", *sources, *words])
    return f"{place}/program"


def map_commands(count: int) -> str:
    """Commands for PMDK's mapcli: inserts of random keys, and after each six of them a removal."""
    chosen, keys, commands = random.Random(SEED), [], []
    for number in range(1, count + 1):
        keys.append(chosen.randrange(1_000_000))
        commands.append(f"i {keys[-1]}\n")
        if number % 6 == 0:
            commands.append(f"r {keys.pop(chosen.randrange(len(keys)))}\n")
    return "".join(commands)


def pmdk_map(place: str, kind: str, count: int) -> str:
    """A map of PMDK's examples in a pool of the least size, which is made before the recording begins."""
    if not PMDK.is_dir():
        raise MakeError(f"there is no {PMDK} (Debian: libpmemobj-dev)")
    source = (PMDK / "map" / "mapcli.c").read_text(encoding="utf-8")
    small = re.sub(r"(#define PM_HASHSET_POOL_SIZE\s+)\(.*\)", r"\1PMEMOBJ_MIN_POOL", source)
    Path(f"{place}/mapcli.c").write_text(small, encoding="utf-8")
    sources = [f"{place}/mapcli.c", *sorted((PMDK / "map").glob("map*.c")), *sorted((PMDK / "tree_map").glob("*.c")),
               *sorted((PMDK / "hashmap").glob("hashmap_*.c")), PMDK / "list_map" / "skiplist_map.c"]
    folders = ["map", "tree_map", "hashmap", "list_map", ""]
    program = compiled(place, [each for each in sources if each != PMDK / "map" / "mapcli.c"], f"-I{FOLDER}",
                       *(f"-I{PMDK / name}" for name in folders), "-lpmemobj", "-lpmem", "-lpthread")
    words = [program, kind, f"{place}/pool", SEED]
    run(words, "q\n")
    return recorded(place, f"{place}/pool", words, map_commands(count))


def pmdk_btree(place: str) -> str:
    """PMDK's B-tree, each insert and removal a transaction."""
    return pmdk_map(place, "btree", 100)


def pmdk_hashmap(place: str) -> str:
    """PMDK's transactional hash map, which grows on the way."""
    return pmdk_map(place, "hashmap_tx", 90)


def sqlite_wal(place: str) -> str:
    """SQLite with a write-ahead log: 13 keys that are updated, each in a transaction, and a checkpoint at the end."""
    lines = ["pragma page_size=512; pragma locking_mode=exclusive; pragma journal_mode=wal; pragma synchronous=full;",
             "create table pair (key integer primary key, value text);"]
    lines += [f"insert or replace into pair values ({7 * number % 13}, 'value {number} of a key that is updated');" for number in range(1, 121)]
    return recorded(place, f"{place}/database", ["sqlite3", f"{place}/database/a.db"], "\n".join([*lines, "pragma wal_checkpoint;\n"]))


def redis_aof(place: str) -> str:
    """Redis with an append-only file that is synchronized after each command: strings, counters, a list and a hash."""
    chosen = random.Random(SEED)
    commands = [[f"set key:{chosen.randrange(50)} value:{chosen.randrange(10 ** 9)}", f"incr counter:{chosen.randrange(5)}",
                 f"lpush list {chosen.randrange(10 ** 6)}", f"hset hash field:{chosen.randrange(20)} {chosen.randrange(10 ** 6)}"][number % 4]
                for number in range(320)]
    socket = f"{place}/socket"
    words = ["redis-server", "--port", "0", "--unixsocket", socket, "--dir", f"{place}/database", "--save", "", "--appendonly", "yes",
             "--appendfsync", "always"]
    table = f"{place}/recorded.csv"
    with subprocess.Popen([sys.executable, TOOLS / "record", "--files", f"{place}/database", "-o", table, *words], stdout=subprocess.DEVNULL,
                          stderr=subprocess.DEVNULL) as server:
        wait_for(socket)
        run(["redis-cli", "-s", socket], "\n".join(commands) + "\n")
        subprocess.run(["redis-cli", "-s", socket, "shutdown"], stdout=subprocess.DEVNULL, check=False)
        server.wait()
    return imported(table, [])


def wait_for(socket: str) -> None:
    """Waits until Redis answers."""
    for _ in range(600):
        ran = subprocess.run(["redis-cli", "-s", socket, "ping"], stdout=subprocess.PIPE, stderr=subprocess.DEVNULL, check=False)
        if ran.stdout.startswith(b"PONG"):
            return
        time.sleep(0.1)
    raise MakeError("redis-server doesn't answer within a minute")


def log(place: str) -> str:
    """A log over libpmem: each entry is copied behind the last one, and then the log's length is stored (log.c)."""
    program = compiled(place, [FOLDER / "log.c"], "-lpmem")
    return recorded(place, f"{place}/pool", [program, f"{place}/pool", 450])


def uniform(place: str) -> str:
    """Writes of lines chosen at random among all 4,096, each made sure of at once; the worst case of a cache."""
    chosen = random.Random(SEED)
    return "".join(f"post 0 {chosen.randrange(LINES)} {chosen.getrandbits(512):0128x}\ndrain 0\n" for _ in range(1200))


# Each workload, and the packages that its programs are from.
WORKLOADS: Dict[str, Tuple[Callable[[str], str], Tuple[str, ...]]] = {
    "log": (log, ("libpmem-dev", "gcc")),
    "pmdk-btree": (pmdk_btree, ("libpmemobj-dev", "gcc")),
    "pmdk-hashmap": (pmdk_hashmap, ("libpmemobj-dev", "gcc")),
    "redis-aof": (redis_aof, ("redis-server",)),
    "sqlite-wal": (sqlite_wal, ("sqlite3",)),
    "uniform": (uniform, ()),
}


def made(name: str) -> str:
    """A workload's trace, with what it was made of as its first lines."""
    maker, packages = WORKLOADS[name]
    with tempfile.TemporaryDirectory(prefix="pmem-workload-") as place:
        (Path(place) / "database").mkdir()
        trace = maker(place)
    what = re.sub(r"\s+", " ", maker.__doc__ or "").strip()
    by = f" with {version_of(packages)}" if packages else ""
    return f"# {what}\n# Made by examples/workloads/make.py{by}.\n{trace}"


def main(arguments: List[str]) -> int:
    """Makes the traces that the arguments name."""
    parser = argparse.ArgumentParser(description=(__doc__ or "").split("\n", 1)[0])
    parser.add_argument("names", nargs="*", metavar="NAME", help=f"{', '.join(WORKLOADS)} (default: all)")
    parser.add_argument("--out", default=str(FOLDER), metavar="FOLDER", help="where the traces are written (default: this folder)")
    words = parser.parse_args(arguments)
    unknown = [name for name in words.names if name not in WORKLOADS]
    if unknown:
        parser.error(f"{unknown[0]!r} is not a workload: {', '.join(WORKLOADS)}")
    for name in words.names or WORKLOADS:
        try:
            text = made(name)
        except MakeError as error:
            sys.stderr.write(f"make.py: {name}: {error}\n")
            return 1
        Path(words.out, f"{name}.trace").write_text(text, encoding="ascii")
        print(f"{name}: {len(text):,} bytes")
    return 0


if __name__ == "__main__":
    sys.exit(main(sys.argv[1:]))

"""Recording a program: tools/record, and the header for firmware."""
import csv
import shutil
import subprocess
import sys
from pathlib import Path
from typing import Any, Dict, List

from .helpers import EXAMPLES, TOOLS, ExploreTest

INCLUDE = TOOLS.parent / "include"
WEAK = ("--suite", "weak", "--loss", "1", "--check-rows", "0")

RECORD = EXAMPLES / "record"
STORE = (RECORD / "store.c").read_text(encoding="utf-8")
FILES = r"""#define _GNU_SOURCE
#include <fcntl.h>
#include <stdio.h>
#include <string.h>
#include <sys/mman.h>
#include <sys/uio.h>
#include <sys/wait.h>
#include <unistd.h>
int main(void) {
  FILE *file = fopen("log.txt", "w+");
  fprintf(file, "hello");
  fflush(file);
  fsync(fileno(file));
  fclose(file);
  int fd = open("data.bin", O_RDWR | O_CREAT, 0600);
  if (pwrite(fd, "abcdefgh", 8, 60) != 8) return 1;
  fdatasync(fd);
  if (ftruncate(fd, 4096)) return 1;
  char *map = mmap(0, 4096, PROT_READ | PROT_WRITE, MAP_SHARED, fd, 0);
  strcpy(map + 128, "mapped");
  msync(map, 4096, MS_SYNC);
  map[5] = 1;
  munmap(map, 4096);
  close(fd);
  fd = open("sync.bin", O_RDWR | O_CREAT | O_DSYNC, 0600);
  struct iovec parts[2] = {{"ab", 2}, {"cd", 2}};
  if (writev(fd, parts, 2) != 4) return 1;
  close(fd);
  if (!fork()) {
    int other = open("child.bin", O_RDWR | O_CREAT, 0600);
    _exit(write(other, "x", 1) != 1);
  }
  wait(0);
  return 0;
}
"""
FIRMWARE = """#include "pmem_record.h"
static struct { uint64_t length; char pad[56]; uint64_t entry[8]; char name[5000]; } pm __attribute__((aligned(64)));
int main(void) {
  PMEM_RECORD_HEAD();
  PMEM_MARK("insert, 1");
  PMEM_STORE(&pm.entry[0], 7);
  PMEM_FLUSH(&pm.entry[0], 8);
  PMEM_SFENCE();
  PMEM_STORE(&pm.length, 1);
  PMEM_CLWB(&pm.length);
  PMEM_MFENCE();
  PMEM_NTSTORE(&pm.entry[1], 8);
  PMEM_COPY(pm.name, "abcdefghij", 10);
  PMEM_SET(pm.name, 1, sizeof pm.name);
  PMEM_LOAD(&pm.length, 8);
  PMEM_CLFLUSHOPT(&pm.length);
  PMEM_CLFLUSH(&pm.length);
  return pm.length == 1 && pm.name[4999] == 1 ? 0 : 1;
}
"""


class RecordTest(ExploreTest):
    def compiled(self, name: str, text: str, *words: str) -> str:
        """A program in C, which needs a compiler."""
        if not shutil.which("gcc"):
            self.skipTest("there is no gcc (Debian: gcc)")
        source = self.file(f"{name}.c", text)
        subprocess.run(["gcc", "-g", "-O1", "-w", "-o", self.path(name), source, *words], check=True)
        return self.path(name)

    def record(self, *words: str) -> "subprocess.CompletedProcess[str]":
        """Runs tools/record in the test's directory."""
        return subprocess.run([sys.executable, str(TOOLS / "record"), *words], stdout=subprocess.PIPE, stderr=subprocess.PIPE,
                              stdin=subprocess.DEVNULL, universal_newlines=True, cwd=self.directory, check=False)

    def rows(self, name: str) -> List[Dict[str, str]]:
        """The rows of a CSV."""
        lines = [line for line in Path(self.path(name)).read_text().splitlines() if not line.startswith("#")]
        return list(csv.DictReader(lines))

    def brief(self, name: str) -> List[Any]:
        """The rows with their word, address, bytes and line of the source."""
        return [(row["op"], int(row["address"], 16) & 0xfffffffff if row["address"] else None, row["data"] or row["size"],
                 row["source"].rpartition(":")[2]) for row in self.rows(name)]

    def need_libpmem(self) -> None:
        """Skips a test if libpmem is missing."""
        if not Path("/usr/include/libpmem.h").exists():
            self.skipTest("there is no libpmem.h (Debian: libpmem-dev)")

    def line_of(self, text: str) -> str:
        """The line of the example that has a text."""
        return str(next(number for number, line in enumerate(STORE.splitlines(), 1) if text in line))

    def test_a_program_over_libpmem(self) -> None:
        self.need_libpmem()
        result = self.record("--files", "pool", "-o", "good.csv", self.compiled("good", STORE, "-lpmem"), "pool")
        self.assertEqual((result.returncode, result.stdout), (0, ""), result.stderr)
        self.assertIn("record: good.csv: 27 rows\n", result.stderr)
        entry, length, copy, drain = map(self.line_of, ("pmem_persist(&store->entry", "pmem_persist(&store->length", "pmem_memcpy_nodrain",
                                                        "pmem_drain"))
        self.assertEqual(self.brief("good.csv"), [
            *(row for i in range(4) for row in (
                ("changed", 64 + 64 * i, f"{100 + i:02x}", entry), ("clwb", 64 + 64 * i, "64", entry), ("sfence", None, "", entry),
                ("changed", 0, f"0{i + 1}", length), ("clwb", 0, "64", length), ("sfence", None, "", length))),
            ("changed", 320, b"written\0".hex(), copy), ("clwb", 320, "8", copy), ("sfence", None, "", drain)])

    def test_copies_of_libpmem(self) -> None:
        self.need_libpmem()
        program = self.compiled("copies", """#include <libpmem.h>
            int main(int count, char **words) {
              char *map = pmem_map_file(words[count - 1], 1 << 16, PMEM_FILE_CREATE, 0600, 0, 0);
              pmem_memcpy(map + 4096, "0123456789", 10, PMEM_F_MEM_NODRAIN | PMEM_F_MEM_NONTEMPORAL);
              pmem_memset_nodrain(map + 8192, 'x', 300);
              map[5] = 1;
              pmem_memmove(map + 100, "moved", 5, PMEM_F_MEM_NOFLUSH);
              pmem_drain();
              pmem_memset_persist(map, 'y', 4);
              return !map; }""", "-lpmem")
        self.assertEqual(self.record("--files", "pool", "-o", "a.csv", program, "pool").returncode, 0)
        self.assertEqual([row[:3] for row in self.brief("a.csv")], [
            ("ntstore", 4096, b"0123456789".hex()), *(("ntstore", 8192 + at, "78" * min(64, 300 - at)) for at in range(0, 300, 64)),
            ("changed", 5, "01"), ("changed", 100, b"moved".hex()), ("sfence", None, ""),
            ("changed", 0, "79797979"), ("clwb", 0, "4"), ("sfence", None, "")])

    def test_the_path_of_a_firmware_author(self) -> None:
        """Record, import, find the bug, and see its line."""
        self.need_libpmem()
        check = f"{sys.executable} {RECORD / 'check_store.py'}"
        for name, words, status in (("good", (), 0), ("bug", ("-DBUG",), 3)):
            self.record("--files", f"{name}.pool", "-o", f"{name}.csv", self.compiled(name, STORE, *words, "-lpmem"), f"{name}.pool")
            trace = self.explore("import", "csv", self.path(f"{name}.csv"), "-o", self.path(f"{name}.trace"))
            self.assertEqual((trace.returncode, trace.stderr), (0, ""))
            result = self.explore("cuts", self.path(f"{name}.trace"), *WEAK, "--check", check, "--check-addresses", "0x1000000000-0x1000000fff",
                                  "--orders", "100", "--junit", self.path("junit.xml"))
            self.assertEqual(result.returncode, status, result.stdout)
            self.assertIn("18 of 18 states tried, early evictions included\n", result.stdout)
        line = self.line_of("pmem_persist(&store->entry")
        self.assertIn(f"bug.c:{line} (sfence): memory has row 3 (0x1000000000 seen at bug.c:{line}), misses row 4 "
                      f"(0x1000000040 seen at bug.c:{line}): length 1, but entry 0 is missing", result.stdout)

    def test_files_and_mappings(self) -> None:
        result = self.record("--files", ".", "-o", "files.csv", self.compiled("files", FILES))
        self.assertEqual(result.returncode, 0, result.stderr)
        self.assertEqual([row[:3] for row in self.brief("files.csv")], [
            ("changed", 0, b"hello".hex()), ("clwb", 0, "5"), ("sfence", None, ""),
            ("store", 60, b"abcd".hex()), ("store", 64, b"efgh".hex()), ("clwb", 60, "8"), ("sfence", None, ""),
            ("changed", 128, b"mapped".hex()), ("clwb", 0, "4096"), ("sfence", None, ""), ("changed", 5, "01"),
            ("store", 0, b"ab".hex()), ("store", 2, b"cd".hex()), ("clwb", 0, "4"), ("sfence", None, "")])
        self.assertTrue(all(row["source"].startswith("files.c:") for row in self.rows("files.csv")))
        self.assertIn("not recorded, as another process is: ", result.stderr)
        self.assertIn("child.bin", result.stderr)

    def test_what_a_file_held_before(self) -> None:
        self.file("data.bin", "old bytes")
        result = self.record("--files", "data.bin", "-o", "files.csv", self.compiled("files", FILES))
        self.assertIn("import with --image 0x1000000000=files.csv.image0", result.stderr)
        self.assertEqual(Path(self.path("files.csv.image0")).read_bytes(), b"old bytes")
        made = self.explore("import", "csv", self.path("files.csv"), "--image", f"0x1000000000={self.path('files.csv.image0')}").stdout
        self.assertIn("\npost 0 0 " + b"old bytes".hex() + "00", made)

    def test_statuses(self) -> None:
        for words, status, told in ((("sh", "-c", "exit 7"), 7, "stored nothing"), (("sh", "-c", "kill -9 $$"), 137, "stored nothing"),
                                    (("no-such-program",), 1, "no such program"), ((), 2, "PROGRAM"),
                                    (("-o", "no/folder/a.csv", "true"), 1, "cannot write")):
            with self.subTest(words):
                result = self.record(*words)
                self.assertEqual(result.returncode, status, result.stderr)
                self.assertIn(told, result.stderr)
                self.assertNotIn("Traceback", result.stderr)
        self.assertEqual(self.record("sh", "-c", "cat; echo out; exit 0").stdout, "out\n")


class HeaderTest(ExploreTest):
    def build(self, *words: str) -> str:
        """The firmware, by one compiler without a warning."""
        if not shutil.which(words[0]):
            self.skipTest(f"there is no {words[0]}")
        source = self.file("firmware.c", FIRMWARE)
        made = subprocess.run([*words, "-Wall", "-Wextra", "-Werror", "-I", str(INCLUDE), "-o", self.path("firmware"), source],
                              stdout=subprocess.PIPE, stderr=subprocess.STDOUT, universal_newlines=True, check=False)
        self.assertEqual((made.returncode, made.stdout), (0, ""))
        return self.path("firmware")

    def test_rows_of_a_firmware(self) -> None:
        lines = {word: str(number) for number, line in enumerate(FIRMWARE.splitlines(), 1) for word in [line.strip().split("(")[0]]}
        for words in (("gcc", "-std=c99", "-Wpedantic"), ("clang", "-std=c11"), ("g++", "-std=c++11", "-x", "c++")):
            with self.subTest(words):
                result = subprocess.run([self.build(*words, "-DPMEM_RECORD")], stderr=subprocess.PIPE, universal_newlines=True, check=True)
                rows = list(csv.DictReader(result.stderr.splitlines()))
                base = int(rows[4]["address"], 16)
                self.assertEqual([(row["op"], int(row["address"], 16) - base if row["address"].startswith("0x") else None, row["size"])
                                  for row in rows], [
                    ("mark", None, ""), ("store", 64, "8"), ("clwb", 64, "8"), ("sfence", None, ""), ("store", 0, "8"), ("clwb", 0, "1"),
                    ("mfence", None, ""), ("ntstore", 72, "8"), ("changed", 128, "10"), ("changed", 128, "4096"), ("changed", 4224, "904"),
                    ("load", 0, "8"), ("clflushopt", 0, "1"), ("clflush", 0, "1")])
                self.assertEqual((rows[1]["data"], rows[8]["data"]), ((7).to_bytes(8, sys.byteorder).hex(), b"abcdefghij".hex()))
                self.assertEqual((rows[0]["data"], rows[1]["source"], rows[7]["source"]),
                                 ("insert  1", "firmware.c:6", f"firmware.c:{lines['PMEM_NTSTORE']}"))
                trace = self.explore("import", "csv", "-", text=result.stderr)
                self.assertEqual(trace.returncode, 0, trace.stderr)
                self.assertIn(": ntstore ", trace.stdout)

    def test_without_recording_it_stores_only(self) -> None:
        result = subprocess.run([self.build("gcc", "-std=c99", "-Wpedantic")], stdout=subprocess.PIPE, stderr=subprocess.PIPE, check=False)
        self.assertEqual((result.returncode, result.stdout, result.stderr), (0, b"", b""))

    def test_letters_and_addresses_are_those_of_the_firmware(self) -> None:
        if not shutil.which("gcc"):
            self.skipTest("there is no gcc")
        head = ("#include <stdint.h>\n#include <unistd.h>\nextern char pm_start[];\n"
                "static void serial(char letter) { if (write(1, &letter, 1) != 1) _exit(9); }\n"
                "#define PMEM_RECORD\n#define PMEM_RECORD_PUT(letter) serial((char)(letter))\n"
                "#define PMEM_RECORD_ADDRESS(pointer) ((uintptr_t)(pointer) - (uintptr_t)pm_start + 0x8000)\n")
        body = ('#include "pmem_record.h"\nchar pm_start[128] __attribute__((aligned(64)));\n'
                "int main(void) { PMEM_STORE((uint16_t *)(pm_start + 64), 0x1111); PMEM_SFENCE(); return 0; }\n")
        source = self.file("serial.c", head + body)
        subprocess.run(["gcc", "-Wall", "-Werror", "-I", str(INCLUDE), "-o", self.path("serial"), source], check=True)
        told = subprocess.run([self.path("serial")], stdout=subprocess.PIPE, universal_newlines=True, check=True).stdout
        self.assertEqual(told, "store,0x8040,2,1111,serial.c:10\nsfence,,,,serial.c:10\n")

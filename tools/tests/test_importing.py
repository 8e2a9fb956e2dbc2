"""`explore import`: traces of what other programs wrote down."""
import re
import resource
import subprocess
import sys
import time
from typing import List

from .helpers import EXPLORE, ExploreTest

from explorer.readers import Access

LACKEY = """==7== Lackey, an example Valgrind tool
==7==
I  00401000,3
 S 1fff000778,8
I  00401003,5
 L 1fff00077e,4
 M 00601040,4
 S 0060107c,8
what the program itself prints
I  00401010,1
 S 00602000,64
==7== Exit code: 0
"""


def commands(text: str) -> List[str]:
    """The lines of a trace without its comments."""
    return [line for line in text.splitlines() if not line.startswith("#")]


class LackeyTest(ExploreTest):
    def test_stores_loads_and_modifies(self) -> None:
        text = self.output("import", "lackey", "-", text=LACKEY)
        self.assertEqual(commands(text), [
            "part 0 29 56 0000000100000001",
            "read 0 29", "read 0 30",
            "read 0 65", "part 0 65 0 00000002",
            "part 0 65 60 00000003", "part 0 66 0 00000003",
            "post 0 128 " + "00000004" * 16,
            "fence 0"])
        self.assertIn("page address / 4096 modulo 16, or the next free one.\n", text)

    def test_what_is_made_is_a_trace(self) -> None:
        trace = self.file("made.trace", self.output("import", "lackey", "-", "--levels", "1", text=LACKEY))
        answers = [command["answer"].split(" ")[0] for command in self.json("steps", trace, "--levels", "1")]
        self.assertEqual(answers, ["ok", "line", "line", "line", "ok", "ok", "ok", "ok", "ok"])

    def test_folded_onto_the_lines_of_the_geometry(self) -> None:
        text = self.output("import", "lackey", "-", "--levels", "1", "--port", "7", text=LACKEY)
        self.assertEqual(commands(text)[0], "part 7 29 56 0000000100000001")
        self.assertEqual(commands(text)[-2], "post 7 128 " + "00000004" * 16)
        self.assertTrue(all(int(line.split(" ")[2]) < 256 for line in commands(text)[:-1]))

    def test_fences(self) -> None:
        text = self.output("import", "lackey", "-", "--fence-every", "1", text=LACKEY)
        self.assertEqual([line.split(" ")[0] for line in commands(text)],
                         ["part", "fence", "read", "read", "read", "part", "fence", "part", "part", "fence", "post",
                          "fence"])
        text = self.output("import", "lackey", "-", "--fence-every", "0", "--fence-at", "0x401010,0x601040",
                           text=LACKEY)
        self.assertEqual([line.split(" ")[0] for line in commands(text)],
                         ["part", "read", "read", "read", "fence", "part", "fence", "part", "part", "fence", "post",
                          "fence"])

    def test_fences_at_addresses_that_are_named_apart(self) -> None:
        words = ("import", "lackey", "-", "--fence-every", "0", "--fence-at")
        self.assertEqual(self.output(*words, "0x401010", "--fence-at", "0x601040", text=LACKEY),
                         self.output(*words, "0x401010,0x601040", text=LACKEY))

    def test_an_address_where_no_fence_can_be_is_told(self) -> None:
        ran = self.explore("import", "lackey", "-", "--fence-at", "0x401003,401010", "--fence-at", "0x401011", text=LACKEY)
        self.assertEqual((ran.returncode, ran.stderr), (0, "".join(
            f"explore: no fence at {address}, as nothing that is looked at begins there (an address that does not begin with 0x "
            "is decimal)\n" for address in ("0x61e72", "0x401011"))))
        ran = self.explore("import", "lackey", "-", "--fence-at", "0x602000", "--commands", "3", text=LACKEY)
        self.assertIn("no fence at 0x602000, as nothing that is looked at begins there up to the trace's end", ran.stderr)

    def test_a_full_queue_is_drained(self) -> None:
        text = self.output("import", "lackey", "-", "--fence-every", "0",
                           text="".join(f" S {64 * number:08x},4\n" for number in range(18)))
        self.assertEqual([line.split(" ")[0] for line in commands(text)],
                         ["part"] * 16 + ["drain", "part", "drain", "part", "fence"])
        answers = self.json("steps", "-", "--levels", "1", "--lines", "1-17", text="\n".join(commands(text)))
        self.assertTrue(all(command["answer"] == "ok" for command in answers[:16]))

    def test_a_number_of_commands(self) -> None:
        for number in range(2, 10):
            made = commands(self.output("import", "lackey", "-", "--commands", str(number), text=LACKEY))
            self.assertLessEqual(len(made), number)
            if any(line.startswith("p") for line in made):
                self.assertEqual(made[-1], "fence 0")
        self.assertEqual(len(commands(self.output("import", "lackey", "-", "--commands", "4", text=LACKEY))), 4)

    def test_only_some_addresses_and_some_skipped(self) -> None:
        text = self.output("import", "lackey", "-", "--within", "0x601000-0x601fff", text=LACKEY)
        self.assertEqual(len(commands(text)), 5)
        text = self.output("import", "lackey", "-", "--skip", "2", text=LACKEY)
        self.assertEqual(commands(text)[0], "read 0 65")

    def test_a_log_that_ends_early(self) -> None:
        for text, told in ((LACKEY.replace("==7== Exit code: 0\n", ""), "no line \"Exit code:\""),
                           (LACKEY.replace("==7== Exit code: 0\n", "\nLackey: lk_main.c:529 (addEvent_Ir): Assertion 'isize' failed.\n"),
                            "lackey failed: Lackey: lk_main.c:529")):
            file = self.file("torn.txt", text)
            self.assert_fails(self.explore("import", "lackey", file), 1, "ends early", told)
            self.assert_fails(self.explore("import", "lackey", file, "--commands", "2"), 1, "ends early", told)
            self.assert_fails(self.explore("import", "lackey", "-", text=text), 1, "ends early", told)

    def test_ranges_of_a_file_are_those_of_its_accesses(self) -> None:
        file = self.file("whole.txt", LACKEY)
        self.assertEqual(self.output("import", "lackey", file, "--top", "9"), self.output("import", "lackey", "-", "--top", "9", text=LACKEY))

    def test_what_is_no_output_of_lackey(self) -> None:
        self.assert_fails(self.explore("import", "lackey", "-", text="op,address\n"), 1, "line 1", "lackey")
        self.assert_fails(self.explore("import", "lackey", "-", text="==7== nothing\n"), 1, "no store or load")
        self.assert_fails(self.explore("import", "lackey", "-", text=" S 00601040,0\n"), 1, "line 1", "bytes")
        self.assert_fails(self.explore("import", "lackey", "-", "--within", "10-20", text=LACKEY), 1, "within 0xa-0x14 (an address")


class LargeLogTest(ExploreTest):
    def seconds(self, name: str, *words: str) -> float:
        """The processor time of an import."""
        before = resource.getrusage(resource.RUSAGE_CHILDREN)
        subprocess.run([sys.executable, str(EXPLORE), "import", "lackey", name, *words], stdout=subprocess.DEVNULL, check=True)
        after = resource.getrusage(resource.RUSAGE_CHILDREN)
        return after.ru_utime + after.ru_stime - before.ru_utime - before.ru_stime

    def test_a_large_log_is_read_fast(self) -> None:
        """Seven of ten lines are instructions, as in a log of SQLite: 117 MB of it are to take less than 8 seconds of processor time. A loop
        that makes an object of each line takes three times as long on any machine, so that it is the yardstick."""
        lines = "".join(f"I  {0x4000000 + 4 * number:08x},4\n" + (f" L {0x1ffe000000 + 8 * (number % 4096):08x},8\n" if number % 3 == 0 else "")
                        for number in range(120_000))
        text = LACKEY.replace("==7== Exit", 4 * lines + "==7== Exit")
        small, large = self.file("small.txt", LACKEY), self.file("large.txt", text)
        begun = time.process_time()
        found = [Access(match[1].strip() or "I", int(match[2], 16), int(match[3])) for line in text.splitlines()
                 for match in [re.match(r"(I | S| L| M) +([0-9a-f]+),([0-9]+)$", line)] if match]
        loop = time.process_time() - begun
        self.assertEqual(len(found), 4 * 160_000 + 8)
        for words in (("--top", "3"), ("--within", "0x601000-0x602fff", "--commands", "100000")):
            taken = (self.seconds(large, *words) - self.seconds(small, *words) for _ in range(4))
            self.assertTrue(any(seconds < loop / 3 for seconds in taken), words)


class FrontTest(ExploreTest):
    """What stands between stores and memory."""

    TEXT = "".join(f"{row}\n" for row in ("store,0x1000,4,01020304", "store,0x1008,2,0506", "load,0x1000,4",
                                          "store,0x1040,1,07", "load,0x1080,4", "fence", "store,0x1000,1,08", "load,0x1040,1",
                                          "fence", "fence"))

    def words(self, *words: str, text: str = "") -> List[str]:
        """The commands that are made, with lines of memory from 64 on and the bytes' first ones."""
        made = commands(self.output("import", "csv", "-", *words, text=text or self.TEXT))
        return [line if line.split(" ")[0] != "post" else " ".join(line.split(" ")[:3]) + " " + line.split(" ")[3][:20]
                for line in made]

    def test_stores_are_combined_until_the_fence(self) -> None:
        self.assertEqual(self.words("--combine"), [
            "read 0 66", "post 0 64 01020304000000000506", "post 0 65 07000000000000000000", "fence 0", "read 0 65",
            "post 0 64 08020304000000000506", "fence 0"])

    def test_a_cache_reads_what_it_has_not_and_writes_back(self) -> None:
        self.assertEqual(self.words("--cache", "4k,2"), [
            "read 0 64", "read 0 65", "read 0 66", "post 0 64 01020304000000000506", "post 0 65 07000000000000000000",
            "fence 0", "post 0 64 08020304000000000506", "fence 0"])

    def test_a_line_that_gives_way_is_written(self) -> None:
        self.assertEqual(self.words("--cache", "64,1"), [
            "read 0 64", "post 0 64 01020304000000000506", "read 0 65", "post 0 65 07000000000000000000", "read 0 66",
            "fence 0", "read 0 64", "post 0 64 08020304000000000506", "read 0 65", "fence 0"])

    def test_a_whole_line_that_is_stored_is_not_read(self) -> None:
        self.assertEqual(self.words("--cache", "4k,2", text=f"store,0,64,{'ab' * 64}\nfence\n"),
                         ["post 0 0 " + "ab" * 10, "fence 0"])

    def test_flushes_say_when_a_store_is_written(self) -> None:
        text = "store,0,4,01020304\nstore,64,1,05\nstore,128,1,06\nflush,0,65\nfence\nstore,0,1,09\n"
        ran = self.explore("import", "csv", "-", text=text)
        self.assertEqual((ran.returncode, ran.stderr), (0, "explore: never flushed: 2 lines: 0x80 (row 3), 0x0 (row 6)\n"))
        made = ran.stdout
        self.assertEqual([line[:18] for line in commands(made)], ["post 0 0 010203040", "post 0 1 050000000", "fence 0"])
        self.assertIn("# Lines stored to and never flushed after that: 2. Those stores are in no command.\n", made)
        ran = self.explore("import", "csv", "-", text="store,0,4,01020304\nclwb,0,64\n")
        self.assertEqual((len(commands(ran.stdout)), ran.stderr), (1, "explore: flushed, but with no fence after that: 1 line: 0x0 (row 1)\n"))

    def test_sizes_that_are_none(self) -> None:
        for size in ("0,1", "64", "100,1", "64,2", "64,0", "x,1"):
            self.assert_fails(self.explore("import", "csv", "-", "--cache", size, text=self.TEXT), 2, "--cache")

    def test_addresses_are_told(self) -> None:
        made = self.output("import", "csv", "-", text="store,0x1000,4,\nstore,0x1040,4,\nstore,0x9000,4,\nload,0x11000,1\n")
        self.assertIn("\n# lines 64 to 65 are at 0x1000\n# line 576 is at 0x9000\n# line 128 is at 0x11000\n", made)

    def test_a_trace_that_goes_on_says_so(self) -> None:
        self.assertIn("# It goes on after these 3 commands", self.output("import", "csv", "-", "--commands", "3", text=self.TEXT))
        self.assertNotIn("It goes on", self.output("import", "csv", "-", text=self.TEXT))

    def test_the_hottest_ranges(self) -> None:
        text = self.output("import", "lackey", "-", "--top", "2", text=LACKEY)
        self.assertEqual(text.splitlines(), ["addresses                  stores  loads", "0x601000-0x601fff               2      1",
                                             "0x1fff000000-0x1fff000fff       1      1"])
        self.assert_fails(self.explore("import", "csv", "-", "--top", "1", text="fence\n"), 1, "no store or load")


class FindingsTest(ExploreTest):
    """What the import says of flushes and fences."""

    def notes(self, *rows: str) -> List[str]:
        """What standard error says of these rows."""
        ran = self.explore("import", "csv", "-", text="".join(row + "\n" for row in rows))
        self.assertEqual(ran.returncode, 0)
        return ran.stderr.replace("explore: ", "").splitlines()

    def test_flushes_and_fences_that_are_missing_or_redundant(self) -> None:
        rows = ("store,0x40,8,0101010101010101,a.c:1", "clwb,0x40,8,,a.c:2", "sfence,,,,a.c:3")
        self.assertEqual(self.notes(*rows), [])
        self.assertEqual(self.notes(*rows, "clwb,0x40,8,,a.c:4"),
                         ["redundant: 1 flush of lines with no store since their last flush: 0x40 (row 4, a.c:4)"])
        self.assertEqual(self.notes(*rows, "sfence,,,,a.c:5"), ["redundant: 1 fence with nothing to wait for: row 4, a.c:5"])
        self.assertEqual(self.notes(*rows, *rows[:1]), ["never flushed: 1 line: 0x40 (row 4, a.c:1)"])
        self.assertEqual(self.notes(*rows, *rows[:2]), ["flushed, but with no fence after that: 1 line: 0x40 (row 4, a.c:1)"])
        many = self.notes(*(f"store,{64 * line},8,0101010101010101" for line in range(7)), "sfence")
        self.assertTrue(many[0].endswith("0x100 (row 5) and 2 more"), many)

    def test_a_flush_of_a_large_range_takes_its_stored_lines_only(self) -> None:
        text = self.explore("import", "csv", "-", text="store,0x40,8,0101010101010101\nflush,0x0,0xffffffffffffffff\nfence\n").stdout
        self.assertEqual([line[:18] for line in commands(text)], ["post 0 1 010101010", "fence 0"])
        log = "START|STORE;0x0;0x1;0x1|FLUSH;0x0;0xffffffffffffffffffffffff|FENCE|STOP\n"
        self.assertEqual(len(commands(self.output("import", "pmemcheck", "-", text=log))), 2)

    def test_words_of_x86(self) -> None:
        rows = "store,0,8,0101010101010101\nntstore,64,8,0202020202020202\nmark,a section\nclflushopt,0,8\nmfence\nclflush,0,8\nload,0,8\n"
        ran = self.explore("import", "csv", "-", text=rows)
        self.assertEqual([line for line in ran.stdout.splitlines() if line.startswith("# row")],
                         ["# row 1: store 0 0 0101010101010101", "# row 2: ntstore 1 0 0202020202020202", "# row 3: mark a section",
                          "# row 4: clflushopt 0", "# row 5: mfence", "# row 7: load"])
        self.assertEqual([line[:20] for line in commands(ran.stdout)], ["part 0 1 0 020202020", "post 0 0 01010101010", "fence 0", "read 0 0"])


class PagesTest(ExploreTest):
    """Which line of memory an address is."""

    def test_pages_that_would_meet_have_one_each(self) -> None:
        stores = "".join(f"store,{0x10000 * page:#x},8,\n" for page in range(16))
        lines = [line.split(" ")[2] for line in commands(self.output("import", "csv", "-", text=stores)) if line.startswith("part")]
        self.assertEqual(lines, [str(64 * page) for page in range(16)])

    def test_more_pages_than_memory_has(self) -> None:
        stores = "".join(f"store,{0x1000 * page:#x},8,\n" for page in range(17))
        self.assert_fails(self.explore("import", "csv", "-", text=stores), 1, "more than the 16 pages", "--levels 3", "--fold")
        made = self.output("import", "csv", "-", "--fold", text=stores)
        self.assertIn("; 1 page folded onto pages that others have.\n", made)
        self.assertEqual([line.split(" ")[2] for line in commands(made) if line.startswith("part")][-1], "0")
        self.assertNotIn("folded", self.output("import", "csv", "-", "--levels", "3", text=stores))

    def test_an_image_is_what_memory_holds_before(self) -> None:
        image = self.directory / "pool"
        image.write_bytes(b"\x11" * 64 + bytes(64) + b"\x33" * 8)
        rows = "store,0x1048,8,0202020202020202\nclwb,0x1040,64\nsfence\n"
        made = self.output("import", "csv", "-", "--image", f"0x1000={image}", text=rows)
        self.assertEqual([line[:30] for line in commands(made)], [
            "post 0 64 " + "11" * 10, "post 0 66 3333333333333333" + "0000", "fence 0", "post 0 65 0000000000000000" + "0202", "fence 0"])
        self.assert_fails(self.explore("import", "csv", "-", "--image", "0x1000=nowhere", text=rows), 2, "cannot read nowhere")
        rows = "store,0x1088,8,0202020202020202\nclwb,0x1080,64\nsfence\n"
        made = self.output("import", "csv", "-", "--image", f"0x1000={image}", text=rows)
        self.assertIn("post 0 66 33333333333333330202020202020202", made)


class PmemcheckTest(ExploreTest):
    LOG = ("==7== pmemcheck-1.0, a simple persistent store checker\n"
           "START|REGISTER_FILE;/pool;0x4000000;0x1000;0x0|STORE;0x4000000;0x1122334455667788;0x8|STORE;0x4000050;0x1;0x4|"
           "FLUSH;0x4000000;0x40|FENCE|FLUSH;0x4000040;0x40|FENCE|STORE;0x4000000;0xff;0x1|STOP\n")

    def test_values_flushes_and_fences(self) -> None:
        ran = self.explore("import", "pmemcheck", "-", text=self.LOG)
        self.assertEqual((ran.returncode, ran.stderr), (0, "explore: never flushed: 1 line: 0x4000000 (row 10)\n"))
        made = ran.stdout
        self.assertEqual([line.rstrip("0") for line in commands(made)],
                         ["post 0 0 8877665544332211", "fence ", "post 0 1 " + "00" * 16 + "01", "fence "])
        self.assertIn("Lines stored to and never flushed after that: 1.", made)

    def test_what_is_no_log(self) -> None:
        for text, told in (("", "no START"), ("STORE;0x1;0x1;0x1\n", "begin with START"), ("START|STORE;1;2;3\n", "in hex after 0x"),
                           ("START|STORE;0x1;0x100;0x1\n", "does not fit"), ("START|STOP\n", "no store or load"),
                           ("START|FLUSH;0x1\n", "in hex after 0x")):
            with self.subTest(text):
                self.assert_fails(self.explore("import", "pmemcheck", "-", text=text), 1, told)


class CsvTest(ExploreTest):
    def test_rows(self) -> None:
        text = self.output("import", "csv", "-", text="op,address,size,data\r\n"
                           "store,0x1000,4,0a0b0c0d\r\n# a comment\r\n\r\nload, 4096 ,8\nW,60,,0x" + "ab" * 8
                           + "\nf\nr,0,1,\nstore,5,2,\n")
        self.assertEqual(commands(text), [
            "part 0 64 0 0a0b0c0d", "read 0 64", "part 0 0 60 abababab", "part 0 1 0 abababab", "fence 0", "read 0 0",
            "part 0 0 5 0000", "fence 0"])

    def test_faults_name_the_row(self) -> None:
        for row, told in (("move,1,2", "store, load, flush or fence"), ("flush,0,0", "bytes"),
                          ("flush,0,1,ff", "1 bytes of data"), ("store,x,2", "address"), ("store,1,y", "size"),
                          ("store,1,2,0", "hex"), ("store,1,2,zz", "hex"), ("store,1,3,0a0b", "2 bytes of data"),
                          ("load,1,2,0a0b", "2 bytes of data"), ("store,1", "bytes"), ("store", "address"),
                          ("store,1,5000", "bytes")):
            with self.subTest(row):
                self.assert_fails(self.explore("import", "csv", "-", text=f"fence\n{row}\n"), 1, "line 2", told)

    def test_nothing_to_import(self) -> None:
        self.assert_fails(self.explore("import", "csv", "-", text="op,address,size,data\n"), 1, "no store or load")

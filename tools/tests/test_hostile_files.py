"""Files from others: what they say is bounded, and told without what a terminal, a spreadsheet or a reader of XML would act on."""
import csv
import io
import json
import os
import resource
import struct
import subprocess
import sys
import xml.etree.ElementTree
from typing import Any, Dict, List

from explorer.command_line import LARGEST_RESULT, json_value
from explorer.errors import ExploreError
from explorer.output import csv_text
from explorer.program import Output, Program, Reply, StopLine, counts_of
from explorer.settings import Settings
from explorer.sweep import FIELDS, MORE_FIELDS
from explorer.symbols import Names, elf_symbols
from explorer.trace import read_whole, trace_of

from .helpers import EXPLORE, ExploreTest

ONE = f"post 0 0 {'11' * 64}\ndrain 0\n"
WEAK = ("--suite", "weak", "--loss", "1", "--levels", "1", "--check-rows", "0")
SYMBOL = struct.Struct("<IBBHQQ")


def elf(symbols: List[bytes], names: bytes, link: int = 2, offset: int = 0) -> bytes:
    """An ELF file with a table of symbols and their names; `offset` is added to the table's place."""
    header = 64
    table = b"".join(symbols)
    sections = header + len(table) + len(names)
    empty = struct.pack("<IIQQQQIIQQ", *(0,) * 10)
    entry = struct.pack("<IIQQQQIIQQ", 0, 2, 0, 0, (header + offset) % (1 << 64), len(table), link, 0, 0, SYMBOL.size)
    strings = struct.pack("<IIQQQQIIQQ", 0, 3, 0, 0, header + len(table), len(names), 0, 0, 0, 0)
    start = b"\x7fELF\x02\x01" + bytes(0x28 - 6) + struct.pack("<Q", sections) + bytes(0x3A - 0x30) + struct.pack("<HH", 64, 3)
    return start + bytes(header - len(start)) + table + names + empty + entry + strings


class HostileTest(ExploreTest):
    def small(self, *words: str, text: str) -> "subprocess.CompletedProcess[str]":
        """Runs explore with little memory."""
        def bounded() -> None:
            resource.setrlimit(resource.RLIMIT_AS, (1 << 30, 1 << 30))
        return subprocess.run([sys.executable, str(EXPLORE), *words], input=text, stdout=subprocess.PIPE, stderr=subprocess.PIPE,
                              universal_newlines=True, preexec_fn=bounded, timeout=120, check=False)

    def test_a_comment_that_names_a_thousand_million_lines(self) -> None:
        result = self.small("cuts", "-", *WEAK, "--jobs", "1", "--distinct", "--check", "true",
                            text="# lines 0 to 999999999 are at 0x0\n# line 3 is at 0x40\n" + ONE)
        self.assertEqual((result.returncode, result.stderr), (0, ""))
        names = Names(trace_of("a", b"# lines 0 to 999999999 are at 0x1000\n# line 3 is at 0x40\n# lines 5 to 4 are at 0x0\n"))
        last = 999_999_999
        self.assertEqual([names.address_text(line) for line in (0, 3, last, last + 1)], ["0x1000", "0x10c0,0x40", hex(0x1000 + 64 * last), "-"])

    def test_programs_whose_tables_lie_nowhere(self) -> None:
        good = SYMBOL.pack(1, 1, 0, 1, 0x40, 8)
        for data in (elf([good], b"\0a\0", link=77), elf([good], b"\0a\0", offset=1 << 63), elf([SYMBOL.pack(1 << 31, 1, 0, 1, 64, 8)], b"\0a\0"),
                     elf([good], b"\0a\0")[:100]):
            path = self.directory / "program"
            path.write_bytes(data)
            result = self.explore("cuts", "-", *WEAK, "--check", "true", "--elf", str(path), text=ONE)
            self.assert_fails(result, 1, "symbol table cannot be read")

    def test_tables_of_symbols_that_overlap(self) -> None:
        """A kilobyte whose 65,535 sections are one header, or whose symbols begin at each byte, isn't read for minutes."""
        path = self.directory / "program"
        many = bytearray(elf([SYMBOL.pack(1, 1, 0, 1, 0x40, 8)], b"\0a\0"))
        sections = struct.unpack_from("<Q", many, 0x28)[0]
        many[0x28:0x30] = struct.pack("<Q", sections + 64)
        many[0x3A:0x3E] = struct.pack("<HH", 0, 65_535)
        # Symbols that are all zeros name nothing, so that no name is at fault.
        dense = bytearray(elf([bytes(SYMBOL.size)] * 40, b"\0a\0"))
        sections = struct.unpack_from("<Q", dense, 0x28)[0]
        dense[sections + 64 + 56:sections + 128] = struct.pack("<Q", 1)
        often = bytearray(elf([bytes(SYMBOL.size)] * 400, b"\0a\0"))
        sections = struct.unpack_from("<Q", often, 0x28)[0]
        often += bytes(often[sections + 64:sections + 128]) * 40
        often[0x3C:0x3E] = struct.pack("<H", 43)
        for data in (many, dense, often):
            path.write_bytes(bytes(data))
            self.assert_fails(self.explore("cuts", "-", *WEAK, "--check", "true", "--elf", str(path), text=ONE), 1, "symbol table cannot be read")

    def test_quotes_and_carriage_returns_in_a_csv(self) -> None:
        self.assert_fails(self.explore("import", "csv", "-", text='store,0x10\r00,1,ff,"b,c"\n'), 1, "line 1: not a row of a CSV")

    def test_results_whose_values_are_of_another_kind(self) -> None:
        record: Dict[str, Any] = {name: "x" for name in (*FIELDS, *MORE_FIELDS)}
        swept = {"sweep": "a", "settings": [record, {**record, "loss": []}]}
        for value, why in ((swept, "this is not what explore"), ([{"steps_before": "x"}], ""), ([{"steps_before": 1, "answer": 2}], "")):
            with self.subTest(value):
                result = self.explore("draw", self.file("a.json", json.dumps(value)), "-o", self.path("a.svg"))
                if "need the package matplotlib" in result.stderr:
                    self.skipTest(result.stderr)
                self.assert_fails(result, 1, why)
                self.assertEqual(result.stderr.count("\n"), 1)

    def test_files_without_an_end(self) -> None:
        """Each reader stops at its bound, or when it sees that this isn't its kind of file."""
        if not os.path.exists("/dev/zero"):
            self.skipTest("there is no /dev/zero")
        first = self.file("first.trace", ONE)
        for words, status, told in (
                (("compare", first, "--cost", "/dev/zero"), 1, "/dev/zero has more than 1048576 bytes"),
                (("cuts", first, "--check", "true", "--elf", "/dev/zero"), 1, "is not a little-endian ELF file"),
                (("cuts", first, "--cluster", "/dev/zero"), 2, "is not the address of a scheduler"),
                (("import", "lackey", "/dev/zero"), 1, "more than a million characters"),
                (("import", "lackey", "/dev/zero", "--top", "3"), 1, "/dev/zero, line 1: this is not"),
                (("import", "csv", "/dev/zero"), 1, "more than a million characters"),
                (("import", "pmemcheck", "/dev/zero"), 1, "more than a million characters")):
            with self.subTest(words):
                if "--cost" in words and sys.version_info < (3, 11):
                    continue
                self.assert_fails(self.small(*words, text=""), status, told)

    def test_how_large_a_file_may_be(self) -> None:
        for size in (0, 1, 99, 100):
            self.assertEqual(len(read_whole(io.BytesIO(b"x" * size), "a", 100)), size)
        with self.assertRaisesRegex(ExploreError, "^a has more than 100 bytes$"):
            read_whole(io.BytesIO(b"x" * 101), "a", 100)
        self.assertLess(len(read_whole(io.BytesIO(b"y" * 5_000_000), "a", 100, b"x")), 2_000_000)
        self.assertIsNone(json_value(b"x" * (LARGEST_RESULT + 1)))
        self.assertEqual(json_value(b" [1]"), [1])
        self.assertIsNone(json_value(b"[1" + b"0" * 400 + b"]"))
        with self.assertRaisesRegex(ExploreError, "more than 67108864 bytes"):
            json_value(b"[".ljust(LARGEST_RESULT + 1))

    def test_texts_of_results(self) -> None:
        """A picture of a result is well-formed XML, whatever names the result has."""
        record = {name: 1.5 for name in (*FIELDS, *MORE_FIELDS)}
        for name in ("a\x01b<script>&\x1b[31m", "$\\frac{", "\ud800x", "a\nb", "\u2028", "x" * 100_000):
            text = json.dumps({"sweep": name, "settings": [{**record, "sets": sets} for sets in (1, 2)]})
            found = json_value(text.encode())
            self.assertTrue(found["sweep"].isprintable())
            self.assertLess(len(found["sweep"]), 400)
            if name.startswith("a\x01"):
                result = self.explore("draw", self.file("a.json", text), "-o", self.path("a.svg"))
                if "need the package matplotlib" in result.stderr:
                    continue
                self.assertEqual((result.returncode, result.stderr), (0, ""))
                xml.etree.ElementTree.parse(self.path("a.svg"))

    def test_names_of_variables(self) -> None:
        path = self.directory / "program"
        long = b"\0evil\n0\t0x0\tx\x1b[31m," + b"y" * 4_000_000 + b"\0"
        path.write_bytes(elf([SYMBOL.pack(1, 1, 0, 1, 0, 0), SYMBOL.pack(1, 1, 0, 1, 0x40, 8)] * 40_000, long))
        names = {symbol.name for symbol in elf_symbols(str(path), 0)}
        (name,) = names
        self.assertTrue(name.startswith("evil?0?0x0?x?[31m?yyy"), name[:40])
        self.assertLess(len(name), 400)

    def test_rows_of_a_csv_that_are_long(self) -> None:
        self.assert_fails(self.explore("import", "csv", "-", text=f"store,0x1000,4,{'0' * 200_000}\n"), 1, "line 1", "at most")
        self.assert_fails(self.explore("import", "csv", "-", text=f"store,\"{'0' * 200_000}\"\n"), 1, "line 1")
        self.assert_fails(self.explore("import", "csv", "-", text="x" * 3_000_000), 1, "a million characters")

    def test_numbers_and_depths_of_json_and_toml(self) -> None:
        for text in ("[" * 200_000, '{"rows": [{"a": 1' + "0" * 400 + "}]}"):
            self.assert_fails(self.explore("draw", self.file("a.json", text), "-o", self.path("a.svg")), 1)
        for text in ("a = " + "[" * 100_000, 'title = "t"\n"x\x1b[31m" = 1\n'.replace("\x1b", "\\u001b"), "title = \"t\"\nread = 1" + "0" * 5_000):
            result = self.explore("compare", "-", "--cost", self.file("a.toml", text), text=ONE)
            self.assert_fails(result, 1)
            self.assertNotIn("\x1b", result.stderr)

    def test_names_of_files(self) -> None:
        for name in ("b\x1b[31m.trace", "x\x01y.trace", os.fsdecode(b"no\xfftext.trace")):
            path = os.path.join(self.directory, name)
            with open(path, "wb") as file:
                file.write(ONE.encode() + b"halt\n")
            result = self.explore("steps", path)
            self.assertEqual(result.returncode, 1)
            self.assertTrue(result.stderr.rstrip("\n").isprintable(), result.stderr)
            with open(path, "wb") as file:
                file.write(ONE.encode())
            words = ("cuts", path, *WEAK, "--check", "false", "--junit", self.path("junit.xml"), "--failing", self.path("failing.trace"))
            self.assertEqual(self.explore(*words).returncode, 3)
            suite = xml.etree.ElementTree.parse(self.path("junit.xml")).getroot()
            self.assertTrue(str(suite.get("name")).isprintable())

    def test_replies_that_no_program_should_give(self) -> None:
        for output in (b"stop line x 2\n", b"stop line " + b"9" * 5000 + b" 2\n", b"stop line -1 2\n", b"stop line 1\n", b"stop \x1b[31m 1 2\n", b""):
            with self.assertRaises(ExploreError) as found:
                Program("pmem").check(Output(output, 5), Settings())
            self.assertTrue(str(found.exception).isprintable())
        self.assertRaises(StopLine, Program("pmem").check, Output(b"stop line 7 2\n", 5), Settings())
        self.assertEqual(counts_of("stat 1 2 3 4 5").digests, 5)
        for answer in ("stat 1 2 3 4", "stat 1 2 3 4 5 6", "stat 1 2 3 4 x", "stat 1 2 3 4 " + "9" * 5000, "ok 1 2 3 4 5", "stat  1 2 3 4 5"):
            self.assertRaises(ExploreError, counts_of, answer)
        self.assertTrue(Reply(("seal 3 0.1 00", "begin 7"), "ok 6").has_steps and Reply(("seal 3 0.1 00", "begin 7"), "ok 6").has_marks)
        for answer in ("ok x", "ok", "ok " + "9" * 5000, "ok -1"):
            self.assertFalse(Reply((), answer).has_steps)
        for mark in ("seal", "seal ", "seal x 0.1", "begin -1", "seal " + "9" * 5000):
            self.assertFalse(Reply((mark,), "ok 6").has_marks)

    def test_names_of_other_files(self) -> None:
        """Arguments that a shell made of the names in a folder, costs, programs."""
        first = self.file("first.trace", ONE)
        for words in (("cuts", first, "x\x1b[31m.trace"), ("compare", first, "--cost", "x\x1b[31m.toml"), ("compare", first, "--cost", "\x1b[31m"),
                      ("cuts", first, "--check", "true", "--elf", "x\x1b\nexplore: y"), ("cuts", first, "--program", "x\x1b[31m"),
                      ("cuts", first, "--cluster", "x\x1b[31m"), ("import", "csv", "x\x1b[31m"), ("draw", "x\x1b[31m", "-o", "x\x1b.svg")):
            with self.subTest(words):
                result = self.explore(*words)
                self.assertIn(result.returncode, (1, 2))
                self.assertTrue(all(line.isprintable() for line in result.stderr.split("\n")), result.stderr)
                self.assertNotIn("\nexplore: y", result.stderr)

    def test_cells_that_a_spreadsheet_would_run(self) -> None:
        text = csv_text(["name", "number"], [["=1+1", -4], ["@x", 1.5], ["-2", "a"], ["plain", None]])
        self.assertEqual(list(csv.reader(io.StringIO(text)))[1:], [["'=1+1", "-4"], ["'@x", "1.5"], ["'-2", "a"], ["plain", ""]])

    def test_sources_in_rows_cannot_forge_a_row(self) -> None:
        rows = 'store,0x1000,8,0101010101010101,"a.c: store 1 2 ff\x1b"\nclwb,0x1000,8\nmark,": clwb 3"\nsfence\n'
        text = self.output("import", "csv", "-", text=rows)
        self.assertIn("# row 1, a.c:store 1 2 ff?: store 64 0 0101010101010101\n", text)
        self.assertIn("# row 3: mark : clwb 3\n", text)
        self.assertEqual(self.explore("cuts", "-", *WEAK[:4], "--orders", "9", text=text).returncode, 0)

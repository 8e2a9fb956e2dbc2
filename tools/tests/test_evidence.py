"""Stored traces and sessions are what the program answers, tools/evidence makes them again, and typed traces of them."""
import os
import re
import subprocess
import sys
import tempfile
import unittest
from pathlib import Path
from typing import Any, Dict

from .helpers import program_path
from .test_outputs import SESSIONS, read_session, spelled

EVIDENCE = Path(__file__).resolve().parents[1] / "evidence"
TRACES = Path(__file__).resolve().parent / "traces"
SPECS = Path(__file__).resolve().parents[2] / "crates" / "evidence" / "specs"


class EvidenceTest(unittest.TestCase):
    def run_evidence(self, *words: str, given: str = "", program: str = "") -> "subprocess.CompletedProcess[str]":
        return subprocess.run([sys.executable, str(EVIDENCE), *words], input=given, stdout=subprocess.PIPE, stderr=subprocess.PIPE,
                              universal_newlines=True, check=False, env={**os.environ, "PMEM_PROGRAM": program or program_path()})

    def test_stored_traces_are_answered_so(self) -> None:
        result = self.run_evidence()
        *rows, last = result.stdout.splitlines()
        self.assertEqual([row for row in rows if not row.endswith("as stored")], [], result.stderr)
        self.assertEqual(sorted(row.split(":")[0] for row in rows), sorted(path.stem for path in TRACES.glob("*.txt")))
        self.assertEqual((last, result.returncode), ("34 passed, 0 failed", 0))

    def test_typed_traces_are_what_is_made_of_stored_ones(self) -> None:
        for name in ("Random.antt", "Rare.antt"):
            with self.subTest(name):
                result = self.run_evidence("--make", name)
                self.assertEqual((result.returncode, result.stderr), (0, ""))
                self.assertEqual(result.stdout, (SPECS / name).read_text(encoding="utf-8"))

    def test_policies_are_typed(self) -> None:
        """The setups of the traces under policies have their options, and a write that a cut left in a durable queue is sealed later."""
        result = self.run_evidence("--make", "Policies.antt")
        self.assertEqual((result.returncode, result.stderr), (0, ""))
        shapes = dict(re.findall(r"^abbrev pub policy_(\w+)_setup : Setup\n.*\n.*\n +shape = record \{ (.*) \};$", result.stdout, re.M))
        self.assertEqual(len(shapes), 15)
        self.assertEqual(shapes["two_triad"], "levels = 2; sets = 1; ways = 1; loss = 1; major = 0; persist = 2; shadow = false; "
                                              "durable = false; combines = false")
        self.assertTrue(shapes["durable_combining"].endswith("persist = 0; shadow = true; durable = true; combines = true"))

    def test_seals_of_typed_traces(self) -> None:
        """Under the weak suite a cipher is the line with (line + major + minor + place) added to each byte by exclusive or."""
        rows = ["post 0 0 [11]: ok", "post 0 0 [22]: ok", "cut 1: ok", "drain 0: cut lost 1", "on: on 0 1 0",
                "drain 0: seal 0 0.1 00000000000000000000000000000000 | ok 4"]
        for queue, combine, byte in (("durable", "off", 0x11), ("durable", "on", 0x22)):
            with tempfile.TemporaryDirectory() as folder:
                traces = Path(folder, "traces")
                traces.mkdir()
                (traces / "policy_durable.txt").write_text(
                    f"# run --levels=1 --sets=1 --ways=1 --loss=1 --major=0 --suite=weak --queue={queue} --combine={combine}: status 0\n# A trace\n"
                    + "\n".join(rows) + "\n")
                code = EVIDENCE.read_text().replace('TRACES = TOP / "tools" / "tests" / "traces"', f"TRACES = Path({str(traces)!r})")
                given: Dict[str, Any] = {"__file__": str(EVIDENCE), "__name__": "evidence"}
                exec(compile(code, str(EVIDENCE), "exec"), given)  # pylint: disable=exec-used
                given["FILES"]["Policies.antt"] = ("One.", ["policy_durable"])
                made = given["made"]("Policies.antt")
            cipher = [byte ^ (1 + place) for place in range(64)]
            self.assertIn(f"Seal 0 (ctr 0 1) {given['line_text'](cipher)} ", made)

    def test_other_replies_are_told(self) -> None:
        with tempfile.TemporaryDirectory() as folder:
            other = Path(folder) / "other"
            other.write_text(f"#!/bin/sh\n'{program_path()}' \"$@\" | sed '0,/ok/s//OK/'\n")
            other.chmod(0o755)
            result = self.run_evidence("calm_one", "rare_1", program=str(other))
        self.assertEqual(result.stdout.splitlines()[-1], "0 passed, 2 failed")
        self.assertEqual(result.returncode, 1)

    def test_a_stored_trace_is_shown(self) -> None:
        result = self.run_evidence("--show", "blurred")
        first, *rows = result.stdout.splitlines()
        self.assertEqual(first, "# blurred: ./pmem run --levels=1 --sets=1 --ways=1 --loss=4 --major=0 --suite=blur")
        self.assertEqual(rows[0], f"post 1 0 {'db' * 64}")
        self.assertEqual(self.run_evidence("--show", "nowhere").returncode, 2)

    def test_sessions_are_stored_as_they_stand(self) -> None:
        for name in ("wear-1", "txn-1", "tree-1", "tree-old-lines"):
            with self.subTest(name):
                text = (SESSIONS / f"{name}.txt").read_text()
                words, _, trace, _ = read_session(text)
                result = self.run_evidence("--store", " ".join(words), given=trace)
                self.assertEqual((result.stdout, result.stderr), (text, ""))

    def test_traces_are_stored_as_they_stand(self) -> None:
        for name in ("calm_pages", "rare_5"):
            with self.subTest(name):
                first, _, *rows = (TRACES / f"{name}.txt").read_text().splitlines()
                rows = [row for row in rows if not row.startswith("#")]
                trace = spelled("".join(row.split(": ")[0] + "\n" for row in rows))
                result = self.run_evidence("--store", first[2:].split(":")[0], given=trace)
                self.assertEqual((result.stdout.splitlines(), result.stderr), ([first, *rows], ""))

    def test_a_trace_that_ends_early_is_not_stored(self) -> None:
        result = self.run_evidence("--store", "wear", given="read 0\nnothing\nread 1\n")
        self.assertEqual((result.returncode, result.stdout), (2, ""))
        self.assertIn("stop line 2 1", result.stderr)


if __name__ == "__main__":
    unittest.main()

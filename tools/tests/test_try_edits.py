"""Tests of tools/try_edits, with a stand-in for the toolchain's rt."""
import os
import re
import shutil
import signal
import subprocess
import sys
import tempfile
import time
import unittest
from pathlib import Path

TOOLS = Path(__file__).resolve().parents[1]

# It says of each edit what stands in it, and which source is tried; an edit `waits` keeps it at work.
RT = r"""#!/usr/bin/env bash
echo "$*: $(cat "crates/$2/src/lib.rt")" >>"$STATE/calls"
(cd crates && find . -path '*/out/*' -type f | sort) >"$STATE/begun"
echo "rt: $2: begins with what a check kept"
status=0
for edit in crates/"$2"/must-fail/*.edit; do
    case "$(basename "$edit")" in
        waits.edit) echo "$PWD" >"$STATE/place"; sleep 60 & echo $! >"$STATE/pid"; wait ;;
        silent.edit) continue ;;
    esac
    echo "must-fail $2/$(basename "$edit"): $(cat "$edit")"
    if ! grep -q '^refused' "$edit"; then status=1; fi
done
exit "$status"
"""


class TryEditsTest(unittest.TestCase):
    """A small repository with the script, and an rt that proves nothing."""

    def setUp(self) -> None:
        directory = tempfile.TemporaryDirectory()
        self.addCleanup(directory.cleanup)
        self.root = Path(directory.name) / "repository"
        self.state = Path(directory.name) / "state"
        self.bin = Path(directory.name) / "bin"
        self.rooms = Path(directory.name) / "rooms"
        for path in (self.state, self.bin, self.rooms, self.root / "tools"):
            path.mkdir(parents=True)
        for crate in ("high", "low"):
            self.write(f"crates/{crate}/src/lib.rt", f"{crate} as it stands\n")
            for kept in ("kept", "rlib/stamp", f"rlib/{crate}.rlib/format", "incremental/one"):
                self.write(f"crates/{crate}/out/{kept}", "what was built\n")
        self.write("crates.txt", "high: low\nlow:\n")
        self.write("HANDLES", "Handles allowed: none.\n")
        shutil.copy(TOOLS / "try_edits", self.root / "tools" / "try_edits")
        (self.bin / "rt").write_text(RT)
        (self.bin / "rt").chmod(0o755)
        self.environment = {**os.environ, "PATH": f"{self.bin}:{os.environ['PATH']}", "STATE": str(self.state),
                            "TMPDIR": str(self.rooms)}

    def write(self, name: str, text: str) -> None:
        path = self.root / name
        path.parent.mkdir(parents=True, exist_ok=True)
        path.write_text(text)

    def words(self, *words: str) -> "list[str]":
        return [sys.executable, str(self.root / "tools" / "try_edits"), *words]

    def tried(self, *words: str) -> "subprocess.CompletedProcess[str]":
        """Runs the script; it leaves nothing behind."""
        result = subprocess.run(self.words(*words), env=self.environment, stdin=subprocess.DEVNULL, stdout=subprocess.PIPE,
                                stderr=subprocess.PIPE, universal_newlines=True, check=False)
        self.assertEqual(os.listdir(self.rooms), [])
        return result

    def edits_told(self, text: str) -> "list[str]":
        return [line for line in text.splitlines() if line.startswith("must-fail ")]

    def test_second_tier_in_place_of_the_first(self) -> None:
        self.write("crates/low/must-fail/first.edit", "refused, as it must be: a\n")
        self.write("edits/low/one.edit", "refused, as it must be: b\n")
        self.write("edits/low/two.edit", "refused, as it must be (only by a limit): c\n")
        self.write("edits/low/note.md", "no edit\n")
        self.write("edits/high/three.edit", "refused, as it must be: d\n")
        result = self.tried("low")
        self.assertEqual((result.returncode, result.stderr), (0, ""))
        self.assertEqual(self.edits_told(result.stdout), ["must-fail low/one.edit: refused, as it must be: b",
                                                          "must-fail low/two.edit: refused, as it must be (only by a limit): c"])
        self.assertEqual(result.stdout.splitlines()[-1], "2 passed, 0 failed")
        self.assertEqual((self.state / "calls").read_text(), "must-fail low: low as it stands\n")
        kept = ("incremental/one", "rlib/{}.rlib/format", "rlib/stamp")
        self.assertEqual((self.state / "begun").read_text().split(),
                         [f"./{crate}/out/{name.format(crate)}" for crate in ("high", "low") for name in kept])

    def test_all_crates_where_none_is_named(self) -> None:
        self.write("edits/low/one.edit", "refused, as it must be: b\n")
        self.write("edits/high/three.edit", "refused, as it must be: d\n")
        result = self.tried()
        self.assertEqual(result.stdout.splitlines()[-1], "2 passed, 0 failed")
        self.assertEqual((self.state / "calls").read_text(), "must-fail high: high as it stands\nmust-fail low: low as it stands\n")

    def test_both_tiers(self) -> None:
        self.write("crates/low/must-fail/first.edit", "refused, as it must be: a\n")
        self.write("edits/low/one.edit", "refused, as it must be: b\n")
        result = self.tried("--both", "low")
        self.assertEqual(len(self.edits_told(result.stdout)), 2)
        self.assertEqual((result.returncode, result.stdout.splitlines()[-1]), (0, "2 passed, 0 failed"))

    def test_what_is_not_refused_fails(self) -> None:
        for number, text in enumerate(("NOT REFUSED: the crate is still proved", "BAD EDIT: it cannot be applied",
                                       "NOT TRIED: its check was killed", "refused, as it must be: a")):
            self.write(f"edits/low/edit{number}.edit", f"{text}\n")
        self.write("edits/low/silent.edit", "nothing is said of it\n")
        result = self.tried("low")
        self.assertEqual((result.returncode, result.stdout.splitlines()[-1]), (1, "1 passed, 4 failed"))
        self.assertIn("must-fail low/silent.edit: NOT TRIED", result.stdout)

    def test_what_ends_badly_fails(self) -> None:
        self.write("edits/low/one.edit", "refused, as it must be: b\n")
        (self.bin / "rt").write_text(RT.replace('exit "$status"', "exit 1"))
        result = self.tried("low")
        self.assertEqual((result.returncode, result.stdout.splitlines()[-1]), (1, "1 passed, 1 failed"))

    def test_what_it_needs(self) -> None:
        self.write("edits/low/one.edit", "refused, as it must be: b\n")
        result = self.tried("other")
        self.assertEqual((result.returncode, result.stdout), (2, ""))
        self.assertIn("no crate other", result.stderr)
        self.write("crates/low/must-fail/one.edit", "refused, as it must be: b\n")
        result = self.tried("low")
        self.assertEqual((result.returncode, result.stdout), (2, ""))
        self.assertIn("an edit one in both tiers", result.stderr)
        self.environment["PATH"] = str(self.state)
        result = self.tried("low")
        self.assertEqual((result.returncode, result.stdout), (2, ""))
        self.assertIn("rt is not on the PATH", result.stderr)

    def test_crate_with_no_edit(self) -> None:
        result = self.tried("low")
        self.assertEqual((result.returncode, result.stdout), (0, "low: no edit in its second tier\n0 passed, 0 failed\n"))

    def test_whether_an_edit_can_be_applied(self) -> None:
        self.write("crates/low/src/lib.rt", "one\ntwo\ntwo\nthree\n")
        self.write("crates/low/src/other.rt", "four\n")
        bad = {"other": "file: src/nothing.rt\nold: one\nnew: two\n", "twice": "file: src/lib.rt\nold: two\nnew: one\n",
               "gone": "file: src/lib.rt\nold: five\nnew: one\n", "same": "file: src/lib.rt\nold: one\nnew: one\n",
               "empty": "file: src/lib.rt\n", "first": "old: one\nnew: two\n", "clause": "file: specs/Low.antt\nold: a\nnew: b\n"}
        good = {"one": "file: src/lib.rt\nold: one\nnew: 1\n", "away": "file: src/lib.rt\nold: one\nnew: \n",
                "two": "file: src/lib.rt\nold: one\nnew: 1\nold: 1\nnew: one\nfile: src/other.rt\nold: four\nnew: 4\n"}
        for name, text in {**bad, **good}.items():
            self.write(f"edits/low/{name}.edit", text)
        self.environment["PATH"] = str(self.state)
        result = self.tried("--dry", "low")
        self.assertEqual((result.returncode, result.stderr), (1, ""))
        told = {line.split(":")[0][len("must-fail low/"):-len(".edit")]: line for line in self.edits_told(result.stdout)}
        self.assertEqual({name for name, line in told.items() if "BAD EDIT: " in line}, set(bad))
        self.assertEqual({name for name, line in told.items() if line.endswith(": can be applied")}, set(good))
        self.assertEqual(result.stdout.splitlines()[-1], "3 passed, 7 failed")

    def test_every_edit_of_this_repository_can_be_applied(self) -> None:
        result = subprocess.run([sys.executable, str(TOOLS / "try_edits"), "--both", "--dry"], stdin=subprocess.DEVNULL,
                                stdout=subprocess.PIPE, stderr=subprocess.PIPE, universal_newlines=True, check=False)
        bad = [line for line in result.stdout.splitlines() if "BAD EDIT" in line]
        self.assertEqual((result.returncode, result.stderr, bad), (0, "", []))
        root = TOOLS.parent
        files = [*root.glob("crates/*/must-fail/*.edit"), *root.glob("edits/*/*.edit")]
        self.assertEqual(len(self.edits_told(result.stdout)), len(files))

    def test_pages_count_both_tiers(self) -> None:
        top = TOOLS.parent
        first, second = (len(list(top.glob(files))) for files in ("crates/*/must-fail/*.edit", "edits/*/*.edit"))
        for page in ("README.md", "docs/PROMISES.md"):
            with self.subTest(page):
                text = " ".join((top / page).read_text(encoding="utf-8").split())
                counted = re.search(r"(\d+) edits in .*?(\d+) (?:more|edits in `edits/NAME/`)", text)
                assert counted
                self.assertEqual((int(counted[1]), int(counted[2])), (first, second))

    def test_interrupted(self) -> None:
        self.write("edits/low/waits.edit", "refused, as it must be: b\n")
        child = subprocess.Popen(self.words("low"), env=self.environment, stdin=subprocess.DEVNULL, stdout=subprocess.PIPE,
                                 stderr=subprocess.PIPE, universal_newlines=True, start_new_session=True)
        self.addCleanup(child.kill)
        until = time.monotonic() + 240
        while not (self.state / "pid").exists() or not (self.state / "pid").read_text().strip():
            self.assertLess(time.monotonic(), until)
            time.sleep(0.05)
        place = Path((self.state / "place").read_text().strip())
        self.assertTrue((place / "crates.txt").exists())
        self.assertFalse((place / "crates" / "low" / "out" / "kept").exists())
        os.killpg(child.pid, signal.SIGINT)
        _, complained = child.communicate(timeout=240)
        self.assertEqual(child.returncode, 130)
        self.assertIn("interrupted", complained)
        self.assertEqual(os.listdir(self.rooms), [])
        with self.assertRaises(ProcessLookupError):
            for _ in range(200):
                os.kill(int((self.state / "pid").read_text()), 0)
                time.sleep(0.05)

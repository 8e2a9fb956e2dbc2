"""The translation of WebAssembly into C, and into its 32-bit form, against another engine (node) on generated modules. They need wat2wasm
(Debian's wabt), node and a C compiler."""
import json
import shutil
import subprocess
import sys
import tempfile
import unittest
from pathlib import Path
from typing import List, Optional, Tuple

from .helpers import TOOLS
from .wasm_samples import Maker, Sample

sys.path.insert(0, str(TOOLS))

from portablemaker.lowered import lowered  # noqa: E402
from portablemaker.module import marked  # noqa: E402
from portablemaker.source import amalgamated  # noqa: E402
from portablemaker.wasm import Module, WasmError  # noqa: E402

SEEDS = (1, 2)
FLAGS: Tuple[Tuple[str, List[str]], ...] = (
    ("gcc", ["-O2"]), ("clang", ["-O2"]), ("gcc", ["-O1", "-DPMEM_CHECKED", "-fsanitize=undefined", "-fno-sanitize-recover=undefined"]))
SCRIPT = """
import {readFileSync} from 'node:fs';
const its = new WebAssembly.Instance(new WebAssembly.Module(readFileSync(process.argv[2])), {}).exports, out = [];
for (const [name, kind] of NAMES) for (const [a, b, c, d] of ARGUMENTS) {
  const found = its[name](Number(a), Number(b), BigInt(c), BigInt(d));
  out.push(kind === 'i64' ? BigInt.asUintN(64, found).toString() : (found >>> 0).toString());
}
let hash = 0n;
for (const byte of new Uint8Array(its.memory.buffer)) hash = BigInt.asUintN(64, (hash ^ BigInt(byte)) * 1099511628211n);
console.log([...out, hash].join('\\n'));
"""
DEEP = """(module (memory (export "memory") i64 1) (global $sp (mut i64) (i64.const 4096))
(func $deep (export "deep") (param i64) (result i64) (local $at i64)
 (global.set $sp (local.tee $at (i64.sub (global.get $sp) (i64.const 64)))) (i64.store (local.get $at) (local.get 0))
 (if (result i64) (i64.eqz (local.get 0)) (then (i64.const 0)) (else (call $deep (i64.sub (local.get 0) (i64.const 1)))))
 (global.set $sp (i64.add (local.get $at) (i64.const 64)))))"""
OUTSIDE = """(module (memory (export "memory") i64 1) (global $sp (mut i64) (i64.const 4096))
(func (export "outside") (param i64) (result i64) (i64.load offset=8 (local.get 0))))"""


@unittest.skipUnless(shutil.which("wat2wasm"), "wat2wasm (Debian's wabt) isn't there")
class TranslationTest(unittest.TestCase):
    def setUp(self) -> None:
        folder = tempfile.TemporaryDirectory()
        self.addCleanup(folder.cleanup)
        self.folder = Path(folder.name)

    def module(self, text: str) -> bytes:
        """A module of its text."""
        (self.folder / "m.wat").write_text(text)
        subprocess.run(["wat2wasm", "--enable-memory64", str(self.folder / "m.wat"), "-o", str(self.folder / "m.wasm")], check=True)
        return marked((self.folder / "m.wasm").read_bytes(), {"sources": "none", "toolchain": "none"})

    def compiled(self, source: str, compiler: str, flags: List[str]) -> str:
        """A program of C."""
        (self.folder / "m.c").write_text(source)
        subprocess.run([compiler, "-std=c11", "-w", *flags, str(self.folder / "m.c"), "-o", str(self.folder / "m")], check=True)
        return str(self.folder / "m")

    @staticmethod
    def main_of(sample: Sample) -> str:
        """C that prints what node prints."""
        rows = ",".join("{" + ",".join(f"{value}ull" for value in row) + "}" for row in sample.arguments)
        calls = "\n".join(f' for (int i = 0; i < {len(sample.arguments)}; i++) printf("%llu\\n", (unsigned long long)in_{name}(m, (u32)rows[i][0], '
                          "(u32)rows[i][1], rows[i][2], rows[i][3]));" for name, _ in sample.functions)
        return (f"static const u64 rows[][4] = {{{rows}}};\nint main(void) {{\n u8 *m = new_instance(1 << 20);\n u64 hash = 0;\n{calls}\n"
                " for (u64 i = 0; i < instance_bytes(m); i++) hash = (hash ^ m[i]) * 1099511628211ull;\n"
                ' printf("%llu\\n", (unsigned long long)hash);\n return 0;\n}\n')

    def node(self, data: bytes, sample: Sample) -> Optional[List[str]]:
        """What node prints; None if it doesn't take the module."""
        (self.folder / "n.wasm").write_bytes(data)
        names = json.dumps(sample.functions)
        arguments = json.dumps([[str(value) for value in row] for row in sample.arguments])
        (self.folder / "n.mjs").write_text(SCRIPT.replace("NAMES", names).replace("ARGUMENTS", arguments))
        flags = [] if not Module(data).is_long else ["--experimental-wasm-memory64"]
        ran = subprocess.run(["node", *flags, str(self.folder / "n.mjs"), str(self.folder / "n.wasm")], stdout=subprocess.PIPE,
                             stderr=subprocess.DEVNULL, universal_newlines=True, check=False)
        return ran.stdout.split() if ran.returncode == 0 else None

    @unittest.skipUnless(shutil.which("node"), "node isn't there")
    def test_made_up_modules_as_node_has_them(self) -> None:
        for seed in SEEDS:
            sample = Maker(seed).sample(60, 30)
            data, names = self.module(sample.text), [name for name, _ in sample.functions]
            form = lowered(data, names)
            expected = self.node(form, sample)
            assert expected
            self.assertEqual(len(expected), len(names) * 30 + 1)
            with self.subTest(seed=seed, form="of 64 bits, by node"):
                self.assertIn(self.node(data, sample), (expected, None))
            for compiler, flags in FLAGS:
                if shutil.which(compiler):
                    with self.subTest(seed=seed, compiler=compiler, flags=flags):
                        path = self.compiled(amalgamated(data, "/* A sample.", names, self.main_of(sample)), compiler, flags)
                        said = subprocess.run([path], stdout=subprocess.PIPE, universal_newlines=True, check=True).stdout.split()
                        self.assertEqual(said, expected)

    def ended(self, text: str, name: str, value: int, flags: List[str]) -> Tuple[int, str]:
        """How a call of an export ends, and what it says."""
        main = f'int main(void) {{ u8 *m = new_instance(1 << 20); printf("%llu\\n", (unsigned long long)in_{name}(m, {value}ull)); return 0; }}\n'
        path = self.compiled(amalgamated(self.module(text), "/* A sample.", [name], main), "cc", ["-O1", *flags])
        ran = subprocess.run([path], stdout=subprocess.PIPE, stderr=subprocess.STDOUT, universal_newlines=True, check=False)
        return ran.returncode, ran.stdout

    @unittest.skipUnless(shutil.which("cc"), "there is no C compiler")
    def test_a_stack_that_is_too_deep(self) -> None:
        """62 frames of 64 bytes fit in 4,096 bytes, of which 128 stay free."""
        self.assertEqual(self.ended(DEEP, "deep", 61, []), (0, "0\n"))
        status, said = self.ended(DEEP, "deep", 62, [])
        self.assertNotEqual(status, 0)
        self.assertEqual(said, "pmem: the stack is too deep\n")

    @unittest.skipUnless(shutil.which("cc"), "there is no C compiler")
    def test_an_access_outside_of_the_memory_is_seen_if_checked(self) -> None:
        self.assertEqual(self.ended(OUTSIDE, "outside", 65520, ["-DPMEM_CHECKED"]), (0, "0\n"))
        for value in (65521, 1 << 40, (1 << 64) - 4):
            status, said = self.ended(OUTSIDE, "outside", value, ["-DPMEM_CHECKED"])
            self.assertNotEqual(status, 0)
            self.assertEqual(said, "pmem: an access outside of the memory\n")

    def test_what_is_not_known_is_named(self) -> None:
        float_ = '(module (memory i64 1) (global (mut i64) (i64.const 0)) (func (export "f") (drop (f32.const 1))))'
        with self.assertRaisesRegex(WasmError, "an unknown instruction 0x43"):
            amalgamated(self.module(float_), "/* A sample.", ["f"], "")
        with self.assertRaisesRegex(WasmError, "is not of 64 bits"):
            amalgamated(self.module('(module (memory 1) (func (export "f")))'), "/* A sample.", ["f"], "")
        with self.assertRaisesRegex(WasmError, "has no export g"):
            amalgamated(self.module('(module (memory i64 1) (func (export "f")))'), "/* A sample.", ["g"], "")
        with self.assertRaisesRegex(WasmError, "ends too early"):
            Module(self.module(DEEP)[:40])
        with self.assertRaisesRegex(WasmError, "is not a WebAssembly module"):
            Module(b"MZ" + bytes(20))


if __name__ == "__main__":
    unittest.main()

"""Made-up WebAssembly modules: each instruction on values at the edges, and random expressions, jumps, loops, loads and stores."""
import random
from typing import Callable, Dict, List, NamedTuple, Tuple

EDGES = [0, 1, 2, 31, 32, 33, 63, 64, 127, 128, 255, 256, 0x7FFF, 0x8000, 0xFFFF, 0x7FFFFFFF, 0x80000000, 0xFFFFFFFF, 1 << 32, (1 << 63) - 1,
         1 << 63, (1 << 64) - 1]
TYPES = ("i32", "i64")
BINARY = {kind: [f"{kind}.{name}" for name in "add sub mul and or xor shl shr_s shr_u rotl rotr".split()] for kind in TYPES}
TESTS = {kind: [f"{kind}.{name}" for name in "eq ne lt_s lt_u gt_s gt_u le_s le_u ge_s ge_u".split()] for kind in TYPES}
QUOTIENTS = {kind: [f"{kind}.{name}" for name in "div_u rem_u rem_s".split()] for kind in TYPES}
UNARY = {kind: [f"{kind}.{name}" for name in "clz ctz popcnt extend8_s extend16_s".split()] for kind in TYPES}
UNARY["i64"].append("i64.extend32_s")
LOADS = {"i32": "load8_u load8_s load16_u load16_s load".split(), "i64": "load8_u load8_s load16_u load16_s load32_u load32_s load".split()}
STORES = {"i32": "store8 store16 store".split(), "i64": "store8 store16 store32 store".split()}
PARAMETERS = "(param $i320 i32) (param $i321 i32) (param $i640 i64) (param $i641 i64)"
LOCALS = "(local $i322 i32) (local $i323 i32) (local $i642 i64) (local $i643 i64) (local $n i32)"
HEAD = """(module (memory (export "memory") i64 2) (table funcref (elem $h0 $h1))
(type $both (func (param i32) (result i32)))
(global $sp (mut i64) (i64.const 65536)) (global $gi32 (mut i32) (i32.const 7)) (global $gi64 (mut i64) (i64.const -9))
(data (i64.const 65600) "\\00\\ff\\5c\\22\\3f\\3f\\2fabc")
(func $h0 (param i32) (result i32) (global.set $gi32 (i32.add (global.get $gi32) (i32.const 3))) (i64.store8 (i64.const 65777) (i64.const 200))
 (i32.xor (local.get 0) (global.get $gi32)))
(func $h1 (param i32) (result i32) (i32.rotl (local.get 0) (i32.const 5)))
(func $hi64 (param i64) (result i64) (global.set $gi64 (i64.add (global.get $gi64) (local.get 0))) (i64.mul (local.get 0) (global.get $gi64)))
"""


class Sample(NamedTuple):
    """A module as text, its functions with the type of each one's result, and what they are called with."""

    text: str
    functions: List[Tuple[str, str]]
    arguments: List[Tuple[int, int, int, int]]


class Maker:
    """Makes a module, the same one for the same seed."""

    def __init__(self, seed: int) -> None:
        self.random = random.Random(seed)
        self.functions: Dict[str, Tuple[str, str]] = {}

    def sample(self, count: int, calls: int) -> Sample:
        """A module with a function for each instruction, and `count` random ones."""
        self.instructions()
        for _ in range(count):
            kind = self.random.choice(TYPES)
            statements = " ".join(self.statement(self.random.randrange(1, 5)) for _ in range(self.random.randrange(1, 5)))
            self.add(statements + self.expression(kind, self.random.randrange(2, 6)), kind)
        choose, edges = self.random.choice, [*EDGES, self.random.getrandbits(64)]
        arguments = [(choose(EDGES) & 0xFFFFFFFF, choose(EDGES) & 0xFFFFFFFF, choose(edges), choose(EDGES)) for _ in range(calls)]
        texts = [f'(func (export "{name}") {PARAMETERS} (result {kind}) {LOCALS} {text})' for name, (text, kind) in self.functions.items()]
        return Sample(HEAD + "\n".join(texts) + ")", [(name, kind) for name, (_, kind) in self.functions.items()], arguments)

    def add(self, text: str, kind: str) -> None:
        """One function more."""
        self.functions[f"f{len(self.functions)}"] = text, kind

    def instructions(self) -> None:
        """A function for each instruction."""
        for kind in TYPES:
            first, second = f"(local.get ${kind}0)", f"(local.get ${kind}1)"
            for name in BINARY[kind] + TESTS[kind]:
                self.add(f"({name} {first} {second})", "i32" if name in TESTS[kind] else kind)
            for name in [*UNARY[kind], f"{kind}.eqz"]:
                self.add(f"({name} {first})", "i32" if "eqz" in name else kind)
            for name in QUOTIENTS[kind]:
                self.add(f"({name} {first} ({kind}.or {second} ({kind}.const 1)))", kind)

    def constant(self, kind: str) -> str:
        """A constant."""
        return f"({kind}.const {self.random.choice([*EDGES, self.random.getrandbits(64)]) % (1 << int(kind[1:]))})"

    def local(self, kind: str) -> str:
        """A parameter or a local variable."""
        return f"${kind}{self.random.randrange(4)}"

    def address(self, depth: int) -> str:
        """An address in the memory, after its stack."""
        return f"(i64.add (i64.const 65536) (i64.and {self.expression('i64', depth - 1)} (i64.const 1023)))"

    def expression(self, kind: str, depth: int) -> str:
        """A random expression."""
        if depth <= 0:
            return self.random.choice([self.constant(kind), f"(local.get {self.local(kind)})", f"(local.get {self.local(kind)})"])
        other = self.random.choice(TYPES)

        def one() -> str:
            return self.expression(kind, depth - 1)

        def test() -> str:
            return self.expression("i32", depth - 1)

        forms: Dict[str, Callable[[], str]] = {
            "binary": lambda: f"({self.random.choice(BINARY[kind])} {one()} {one()})",
            "test": lambda: self.widened(kind, f"({self.random.choice(TESTS[other])} {self.expression(other, depth - 1)} "
                                               f"{self.expression(other, depth - 1)})"),
            "unary": lambda: f"({self.random.choice(UNARY[kind])} {one()})",
            "quotient": lambda: f"({self.random.choice(QUOTIENTS[kind])} {one()} ({kind}.or {one()} ({kind}.const 1)))",
            "select": lambda: f"(select {one()} {one()} {test()})",
            "tee": lambda: f"(local.tee {self.local(kind)} {one()})",
            "load": lambda: f"({kind}.{self.random.choice(LOADS[kind])} offset={self.random.randrange(64)} {self.address(depth)})",
            "convert": lambda: f"(i32.wrap_i64 {self.expression('i64', depth - 1)})" if kind == "i32"
            else f"(i64.extend_i32_{self.random.choice('su')} {test()})",
            "zero": lambda: self.widened(kind, f"({other}.eqz {self.expression(other, depth - 1)})"),
            "block": lambda: f"(block (result {kind}) {self.statement(depth - 1)} (drop (br_if 0 {one()} {test()})) {one()})",
            "if": lambda: f"(if (result {kind}) {test()} (then {self.statement(depth - 1)} {one()}) (else {one()}))",
            "call": lambda: f"(call $hi64 {one()})" if kind == "i64"
            else f"(call_indirect (type $both) {one()} (i32.and {test()} (i32.const 1)))",
            "global": lambda: f"(global.get $g{kind})"}
        weights = (40, 10, 5, 5, 6, 6, 10, 4, 3, 4, 3, 3, 2)
        return forms[self.random.choices(list(forms), weights)[0]]()

    @staticmethod
    def widened(kind: str, test: str) -> str:
        """A test as a number of this type."""
        return test if kind == "i32" else f"(i64.extend_i32_u {test})"

    def statement(self, depth: int) -> str:
        """A random statement."""
        kind = self.random.choice(TYPES)
        if depth <= 0:
            return f"(local.set {self.local(kind)} {self.expression(kind, 0)})"

        def one() -> str:
            return self.statement(depth - 1)

        def test() -> str:
            return self.expression("i32", depth - 1)

        forms: Dict[str, Callable[[], str]] = {
            "set": lambda: f"(local.set {self.local(kind)} {self.expression(kind, depth)})",
            "store": lambda: f"({kind}.{self.random.choice(STORES[kind])} offset={self.random.randrange(64)} {self.address(depth)} "
                             f"{self.expression(kind, depth)})",
            "block": lambda: f"(block {one()} (br_if 0 {test()}) {one()})",
            "table": lambda: f"(block (block (block (br_table 0 1 2 1 {test()})) {one()}) {one()})",
            "loop": lambda: f"(local.set $n (i32.const {self.random.randrange(1, 5)})) (loop {one()} (local.set $n (i32.sub (local.get $n) "
                            "(i32.const 1))) (br_if 0 (i32.gt_s (local.get $n) (i32.const 0))))",
            "if": lambda: f"(if {test()} (then {one()}) (else {one()}))",
            "fill": lambda: f"(memory.fill {self.address(depth)} {test()} (i64.const {self.random.randrange(40)}))",
            "copy": lambda: f"(memory.copy {self.address(depth)} {self.address(depth)} (i64.const {self.random.randrange(90)}))",
            "global": lambda: f"(global.set $g{kind} {self.expression(kind, depth)})",
            "dead": lambda: f"(block (br 0) {one()}) (drop {test()})"}
        weights = (30, 20, 10, 8, 8, 6, 5, 5, 4, 4)
        return forms[self.random.choices(list(forms), weights)[0]]()

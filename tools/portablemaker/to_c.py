"""Translates the functions of a WebAssembly module into C, to the same bytes each time.

Each function becomes one of C, whose first parameter `m` is the first byte of the memory. The operand stack is undone: an expression is
put together again, and what would be changed before it is used is kept in a variable. Blocks and loops become labels and jumps.
runtime.h has what the text calls.
"""
import re
from collections import Counter
from typing import Callable, Dict, FrozenSet, List, NamedTuple, Optional, Sequence, Set, Tuple

from .operators import BINARY, C_TYPES, LOADS, STORES, UNARY, number
from .wasm import BLOCKS, COPY, Instruction, Module, WasmError

# A longer expression gets its own variable.
LONGEST = 160
# C promises that a string may have 4,095 bytes.
LONGEST_STRING = 4000
# Variables that stand for entries of the operand stack; parameters and local variables; what sets the former, and what declares the latter.
VARIABLE = re.compile(r"\b[bt]\d+\b")
NAMED = re.compile(r"\b(?:m|l\d+)\b")
SET = re.compile(r"^ *(l\d+) = ", re.M)
DECLARED = re.compile(r"^( *)u(?:32|64) (t\d+) = (.*);$", re.M)


class Value(NamedTuple):
    """An entry of the operand stack: its C, and what it reads. A `is_plain` text needs no parentheses; a `is_test` one is an int, 0 or 1."""

    text: str
    type: str
    locals: FrozenSet[int] = frozenset()
    of_memory: bool = False
    of_globals: bool = False
    is_plain: bool = True
    is_test: bool = False

    @property
    def inner(self) -> str:
        """The text as a part of a greater one."""
        return self.text if self.is_plain else f"({self.text})"

    @property
    def operand(self) -> str:
        """The text as an operand, if an int of C would make the arithmetic signed."""
        return f"(u32)({self.text})" if self.is_test else self.inner


class Frame(NamedTuple):
    """An open block: the variable for its value, and how high the operand stack was."""

    kind: str
    label: int
    result: Optional[str]
    type: Optional[str]
    height: int


class Names:
    """What the functions of a module are called in C: exports by their names behind a prefix, others by what the module says."""

    def __init__(self, module: Module, prefix: str) -> None:
        self.module = module
        self.names: Dict[int, str] = {place: f"host_{it.name}" for place, it in enumerate(module.imports)}
        for name, place in module.exports.items():
            self.names.setdefault(place, prefix + name)
        for place in range(len(module.imports), len(module.imports) + len(module.functions)):
            self.names.setdefault(place, f"{readable(module.names.get(place, ''))}_{place}")

    def head(self, place: int, with_names: bool) -> str:
        """The head of a function in C."""
        takes, gives = self.module.signature(place)
        parts = ["u8 *m", *(C_TYPES[kind] + (f" l{i}" if with_names else "") for i, kind in enumerate(takes))]
        return f"{C_TYPES[gives[0]] if gives else 'void'} {self.names[place]}({', '.join(parts)})"


def readable(name: str) -> str:
    """A name of the module as one of C, cut if it is long."""
    words = re.sub(r"\W+", "_", name, flags=re.ASCII).strip("_")
    return words[:60].strip("_") or "function"


def without_unread(text: str) -> str:
    """Statements without the variables that are set and never read: of those what they are set to stays, as it may be a call."""
    counts = Counter(VARIABLE.findall(text))
    return DECLARED.sub(lambda found: found.group() if counts[found.group(2)] > 1 else f"{found.group(1)}(void){found.group(3)};", text)


class Function:
    """A function on its way into C."""

    def __init__(self, module: Module, names: Names, place: int) -> None:
        self.module, self.names, self.place = module, names, place
        self.signature = module.signature(place)
        self.kinds = [C_TYPES[kind] for kind in (*self.signature.takes, *module.body(place).locals)]
        self.stack: List[Value] = []
        self.frames: List[Frame] = []
        self.lines: List[Tuple[Optional[int], str]] = []  # a label's number, or a line
        self.variables = self.labels = 0
        self.depth = 1
        self.is_dead = False
        self.used_labels: Set[int] = set()
        self.indirect: Set[int] = set()

    def text(self) -> str:
        """The function in C."""
        skipped = 0
        for it in self.module.code(self.place):
            if self.is_dead:
                skipped = self.skip(it, skipped)
            else:
                self.step(it)
        lines = [f" L{label}:;" if label is not None else line for label, line in self.lines if label is None or label in self.used_labels]
        body = without_unread("\n".join(lines))
        return "\n".join(["OF_MODULE " + self.names.head(self.place, True) + " {", *self.declarations(body), body, "}"])

    def declarations(self, body: str) -> List[str]:
        """The variables of the function. What is never read is named once, so that no compiler warns of it."""
        first, lines = len(self.signature.takes), []
        for kind in ("u32", "u64"):
            mine = [f"l{i} = 0" for i in range(first, len(self.kinds)) if self.kinds[i] == kind]
            lines += [f" {kind} {', '.join(mine[start:start + 20])};" for start in range(0, len(mine), 20)]
        named = Counter(NAMED.findall(body)) - Counter(SET.findall(body))
        unread = [f"(void){name};" for name in ("m", *(f"l{i}" for i in range(len(self.kinds)))) if not named[name]]
        return lines + ([" " + " ".join(unread)] if unread else [])

    # ---- what is written

    def put(self, line: str) -> None:
        """Writes a line."""
        self.lines.append((None, " " * self.depth + line))

    def push(self, value: Value) -> None:
        """Puts a value on the operand stack."""
        self.stack.append(self.kept(value) if len(value.text) > LONGEST else value)

    def push_made(self, text: str, kind: str, parts: Sequence[Value], of_memory: bool = False, is_plain: bool = False,
                  is_test: bool = False) -> None:
        """Puts a value on the operand stack that is made of others."""
        reads: FrozenSet[int] = frozenset().union(*(part.locals for part in parts))
        self.push(Value(text, kind, reads, of_memory or any(part.of_memory for part in parts), any(part.of_globals for part in parts),
                        is_plain, is_test))

    def kept(self, value: Value) -> Value:
        """The value in its own variable."""
        self.variables += 1
        self.put(f"{value.type} t{self.variables} = {value.text};")
        return Value(f"t{self.variables}", value.type)

    def keep(self, is_changed: Callable[[Value], bool]) -> None:
        """Keeps what stands on the operand stack and would change."""
        for place, value in enumerate(self.stack):
            if is_changed(value):
                self.stack[place] = self.kept(value)

    def keep_memory(self) -> None:
        """Keeps what was read from memory."""
        self.keep(lambda value: value.of_memory)

    # ---- blocks

    def open(self, kind: str, type_byte: int) -> None:
        """Opens a block."""
        self.keep(lambda value: bool(value.locals) or value.of_memory or value.of_globals)
        if type_byte not in (0x40, 0x7F, 0x7E):
            raise WasmError("a block with parameters or several results")
        type_ = {0x40: None, 0x7F: "u32", 0x7E: "u64"}[type_byte]
        self.labels += 1
        result = f"b{self.labels}" if type_ else None
        if result:
            self.put(f"{type_} {result} = 0;")
        self.frames.append(Frame(kind, self.labels, result, type_, len(self.stack)))

    def put_label(self, label: int) -> None:
        """Writes a label, which stands there if something jumps to it."""
        self.lines.append((label, ""))

    def indent(self, line: str) -> None:
        """Writes the first line of what is indented."""
        self.put(line)
        self.depth += 1

    def close(self, line: str) -> None:
        """Writes the line behind what is indented."""
        self.depth -= 1
        self.put(line)

    def jump(self, depth: int, value: Optional[Value]) -> str:
        """The C that leaves a block, with its value if it has one."""
        if depth == len(self.frames):
            return f"return {value.text};" if value else "return;"
        frame = self.frames[-1 - depth]
        self.used_labels.add(frame.label)
        return (f"{frame.result} = {value.text}; " if value else "") + f"goto L{frame.label};"

    def has_value(self, depth: int) -> bool:
        """Whether a jump takes a value along."""
        if depth == len(self.frames):
            return bool(self.signature.gives)
        frame = self.frames[-1 - depth]
        return frame.kind != "loop" and frame.result is not None

    def die(self) -> None:
        """What follows in this block isn't reached."""
        del self.stack[self.frames[-1].height if self.frames else 0:]
        self.is_dead = True

    def skip(self, it: Instruction, depth: int) -> int:
        """Passes over an instruction that isn't reached. `depth` counts the blocks that were opened since, and is answered again."""
        if it.code in BLOCKS:
            return depth + 1
        if depth == 0 and it.code in (0x05, 0x0B):
            self.step(it)
        return depth - (it.code == 0x0B and depth > 0)

    def end_value(self, frame: Frame) -> None:
        """The value with which a block ends goes into the block's variable."""
        if not self.is_dead and frame.result:
            self.put(f"{frame.result} = {self.stack.pop().text};")
        del self.stack[frame.height:]

    def end(self) -> None:
        """The end of a block, or of the function."""
        if not self.frames:
            if not self.is_dead and self.signature.gives:
                self.put(f"return {self.stack.pop().text};")
            return
        frame = self.frames.pop()
        self.end_value(frame)
        if frame.kind != "block":
            self.close("}")
        if frame.kind != "loop":
            self.put_label(frame.label)
        self.is_dead = False
        if frame.result and frame.type:
            self.push(Value(frame.result, frame.type))

    def otherwise(self) -> None:
        """The second part of an `if`."""
        frame = self.frames.pop()
        self.end_value(frame)
        self.depth -= 1
        self.indent("} else {")
        self.is_dead = False
        self.frames.append(frame)

    # ---- instructions

    def step(self, it: Instruction) -> None:
        """Translates an instruction."""
        if it.code in BINARY:
            self.binary(it.code)
        elif it.code in UNARY:
            self.unary(it.code)
        elif it.code in LOADS:
            self.load(it)
        elif it.code in STORES:
            self.store(it)
        elif it.code in (0x41, 0x42):
            kind = "u32" if it.code == 0x41 else "u64"
            self.push(Value(number(it.given[0], kind), kind))
        elif it.code in STEPS:
            STEPS[it.code](self, it)
        elif it.code != 0x01:
            raise WasmError(f"an unknown instruction {it.code:#x}")

    def binary(self, code: int) -> None:
        """An instruction with two operands."""
        second, first = self.stack.pop(), self.stack.pop()
        operator = BINARY[code]
        parts = (first.text, second.text) if operator.is_call else (first.operand, second.operand)
        self.push_made(operator.text.format(*parts), operator.gives, (first, second), is_plain=operator.is_call, is_test=operator.is_test)

    def unary(self, code: int) -> None:
        """An instruction with one operand."""
        value, operator = self.stack.pop(), UNARY[code]
        text = operator.text.format(value.text if operator.is_call else value.inner)
        self.push_made(text, operator.gives, (value,), is_plain=operator.is_call, is_test=operator.is_test)

    @staticmethod
    def address(base: Value, offset: int) -> str:
        """The address of a load or store."""
        return f"at({base.text}, {offset})" if offset else base.text

    def load(self, it: Instruction) -> None:
        """Reads memory."""
        kind, name, cast = LOADS[it.code]
        base = self.stack.pop()
        assert kind
        self.push_made(f"{cast}{name}(m, {self.address(base, it.given[1])})", kind, (base,), of_memory=True, is_plain=not cast)

    def store(self, it: Instruction) -> None:
        """Writes memory."""
        _, name, cast = STORES[it.code]
        value, base = self.stack.pop(), self.stack.pop()
        self.keep_memory()
        self.put(f"{name}(m, {self.address(base, it.given[1])}, {cast + value.inner if cast else value.text});")

    def if_(self, it: Instruction) -> None:
        """Opens an `if`."""
        condition = self.stack.pop()
        self.open("if", it.given[0])
        self.indent(f"if ({condition.text}) {{")

    def loop(self, it: Instruction) -> None:
        """Opens a loop."""
        self.open("loop", it.given[0])
        self.put_label(self.frames[-1].label)
        self.indent("{")

    def branch(self, it: Instruction) -> None:
        """A jump."""
        depth = it.given[0]
        self.put(self.jump(depth, self.stack.pop() if self.has_value(depth) else None))
        self.die()

    def branch_if(self, it: Instruction) -> None:
        """A jump under a condition."""
        depth, condition = it.given[0], self.stack.pop()
        if not self.has_value(depth):
            self.put(f"if ({condition.text}) {self.jump(depth, None)}")
            return
        if not self.stack[-1].is_plain:
            condition = self.kept(condition)
            self.stack[-1] = self.kept(self.stack[-1])
        self.put(f"if ({condition.text}) {{ {self.jump(depth, self.stack[-1])} }}")

    def branch_table(self, it: Instruction) -> None:
        """A jump to one of several blocks."""
        *places, last = it.given
        index, value = self.stack.pop(), None
        if self.has_value(last):
            index = self.kept(index)
            value = self.stack.pop() if self.stack[-1].is_plain else self.kept(self.stack.pop())
        groups: Dict[int, List[int]] = {}
        for place, depth in enumerate(places):
            groups.setdefault(depth, []).append(place)
        self.put(f"switch ({index.text}) {{")
        for depth, group in groups.items():
            if depth != last:
                self.put(" ".join(f"case {place}:" for place in group) + " " + self.jump(depth, value))
        self.put(f"default: {self.jump(last, value)}")
        self.put("}")
        self.die()

    def return_(self, it: Instruction) -> None:
        """Leaves the function."""
        del it
        self.put(f"return {self.stack.pop().text};" if self.signature.gives else "return;")
        self.die()

    def unreachable(self, it: Instruction) -> None:
        """Ends the program."""
        del it
        self.put('pmem_trap("a step that is never taken was taken");')
        self.die()

    def call(self, it: Instruction) -> None:
        """Calls a function."""
        self.call_as(self.names.names[it.given[0]], *self.module.signature(it.given[0]))

    def call_indirect(self, it: Instruction) -> None:
        """Calls a function of the table; its place in the table is the last operand."""
        takes, gives = self.module.types[it.given[0]]
        self.indirect.add(it.given[0])
        place = self.stack[-1].type
        self.call_as(f"indirect{it.given[0]}", (*takes, "i64" if place == "u64" else "i32"), gives)

    def call_as(self, name: str, takes: Sequence[str], gives: Sequence[str]) -> None:
        """Calls a function of C."""
        given = [self.stack.pop().text for _ in takes][::-1]
        self.keep(lambda value: value.of_memory or value.of_globals)
        call = f"{name}({', '.join(['m', *given])})"
        if gives:
            self.stack.append(self.kept(Value(call, C_TYPES[gives[0]])))
        else:
            self.put(call + ";")

    def select(self, it: Instruction) -> None:
        """One of two values."""
        del it
        condition, second, first = self.stack.pop(), self.stack.pop(), self.stack.pop()
        self.push_made(f"{condition.inner} ? {first.inner} : {second.inner}", first.type, (condition, first, second),
                       is_test=first.is_test and second.is_test)

    def drop(self, it: Instruction) -> None:
        """Forgets a value."""
        del it
        self.stack.pop()

    def get_local(self, it: Instruction) -> None:
        """A local variable's value."""
        place = it.given[0]
        self.push(Value(f"l{place}", self.kinds[place], frozenset({place})))

    def set_local(self, it: Instruction) -> None:
        """Sets a local variable; 0x22 leaves its value on the operand stack."""
        place, value = it.given[0], self.stack.pop()
        self.keep(lambda other: place in other.locals)
        self.put(f"l{place} = {value.text};")
        if it.code == 0x22:
            self.get_local(it)

    def get_global(self, it: Instruction) -> None:
        """A global's value."""
        place = it.given[0]
        self.push(Value(f"global{place}(m)", C_TYPES[self.module.globals[place][0]], of_globals=True))

    def set_global(self, it: Instruction) -> None:
        """Sets a global."""
        value = self.stack.pop()
        self.keep(lambda other: other.of_globals)
        self.put(f"set_global{it.given[0]}(m, {value.text});")

    def memory_size(self, it: Instruction) -> None:
        """How many pages the memory has."""
        del it
        self.push(Value("pages_of(m)", "u64", of_memory=True))

    def memory_grow(self, it: Instruction) -> None:
        """Grows the memory."""
        del it
        value = self.stack.pop()
        self.keep_memory()
        self.push(self.kept(Value(f"grown(m, {value.text})", "u64")))

    def bulk(self, it: Instruction) -> None:
        """Copies or fills memory."""
        third, second, first = self.stack.pop(), self.stack.pop(), self.stack.pop()
        self.keep_memory()
        self.put(f"{'copy' if it.code == COPY else 'fill'}(m, {first.text}, {second.text}, {third.text});")


STEPS: Dict[int, Callable[[Function, Instruction], None]] = {
    0x00: Function.unreachable, 0x02: lambda its, it: its.open("block", it.given[0]), 0x03: Function.loop, 0x04: Function.if_,
    0x05: lambda its, it: its.otherwise(), 0x0B: lambda its, it: its.end(), 0x0C: Function.branch, 0x0D: Function.branch_if,
    0x0E: Function.branch_table, 0x0F: Function.return_, 0x10: Function.call, 0x11: Function.call_indirect, 0x1A: Function.drop,
    0x1B: Function.select, 0x20: Function.get_local, 0x21: Function.set_local, 0x22: Function.set_local, 0x23: Function.get_global,
    0x24: Function.set_global, 0x3F: Function.memory_size, 0x40: Function.memory_grow, 0xFC0A: Function.bulk, 0xFC0B: Function.bulk}


def bytes_text(data: bytes) -> str:
    """Bytes as strings of C."""
    lines = []
    for start in range(0, len(data), 40):
        part = "".join(f"\\{byte:03o}" if byte < 32 or byte > 126 or byte in b'"\\?' else chr(byte) for byte in data[start:start + 40])
        lines.append(f'  "{part}"')
    return "\n".join(lines) or '  ""'


def indirect(module: Module, names: Names, kind: int) -> str:
    """A call through the table, of functions of one signature."""
    takes, gives = module.types[kind]
    head = ", ".join(["u8 *m", *(f"{C_TYPES[it]} a{i}" for i, it in enumerate(takes))])
    given = ", ".join(["m", *(f"a{i}" for i in range(len(takes)))])
    lines = [f"LOCAL {C_TYPES[gives[0]] if gives else 'void'} indirect{kind}({head}, u64 at) {{", " switch (at) {"]
    for at, place in sorted(module.table.items()):
        if module.signature(place) == module.types[kind]:
            call = f"{names.names[place]}({given});"
            lines.append(f" case {at}: " + (f"return {call}" if gives else f"{call} return;"))
    return "\n".join([*lines, ' default: pmem_trap("a call of no function");', " }", "}"])


def globals_text(module: Module) -> str:
    """The globals, each with a function that reads and one that sets it. The first one is the stack's pointer, which is watched."""
    lines = []
    for place, (kind, _) in enumerate(module.globals):
        name = C_TYPES[kind]
        check = " check_stack(v);" if place == 0 else ""
        lines += [f"LOCAL {name} global{place}(u8 *m) {{ return ({name})head_of(m)->globals[{place}]; }}",
                  f"LOCAL void set_global{place}(u8 *m, {name} v) {{{check} head_of(m)->globals[{place}] = v; }}"]
    return "\n".join(lines)


def start_text(module: Module) -> str:
    """The function that puts the module's data into a memory."""
    lines = ["LOCAL void start_memory(u8 *m) {"]
    lines += [f" head_of(m)->globals[{place}] = {number(value, 'u64')};" for place, (_, value) in enumerate(module.globals)]
    for start, content in module.data:
        for at in range(0, len(content), LONGEST_STRING):
            piece = content[at:at + LONGEST_STRING]
            lines.append(f" copy_in(m, {start + at:#x}, {len(piece)},\n{bytes_text(piece)});")
    return "\n".join([*lines, "}"])


def parts_of(texts: List[str], count: int) -> List[List[str]]:
    """The functions in as many parts of about the same length, in their order within each."""
    sizes, parts = [0] * count, [[] for _ in range(count)]  # type: Tuple[List[int], List[List[int]]]
    for place in sorted(range(len(texts)), key=lambda it: (-len(texts[it]), it)):
        part = sizes.index(min(sizes))
        sizes[part] += len(texts[place])
        parts[part].append(place)
    return [[texts[place] for place in sorted(part)] for part in parts]


class Translation(NamedTuple):
    """A module in C: numbers that runtime.h needs, the heads of all functions with what comes before their texts, and those texts in parts."""

    numbers: str
    heads: str
    start: str
    parts: List[List[str]]


def stack_bytes(module: Module) -> int:
    """The bytes of the stack, which stands first in the memory: so a stack that is too deep has an address below 0."""
    if not module.globals or not module.is_long:
        raise WasmError("the module has no stack pointer, or its memory is not of 64 bits")
    top = module.globals[0][1]
    if any(start < top for start, _ in module.data):
        raise WasmError("the module has data below the end of the stack")
    return top


def translated(module: Module, roots: Sequence[str], prefix: str, parts: int) -> Translation:
    """What these exports reach, in C."""
    missing = [name for name in roots if name not in module.exports]
    if missing:
        raise WasmError(f"the module has no export {missing[0]}")
    names, imported = Names(module, prefix), len(module.imports)
    places = module.reached([module.exports[name] for name in roots])
    functions = [Function(module, names, place) for place in places if place >= imported]
    texts = [function.text() for function in functions]
    kinds = sorted(set().union(*(function.indirect for function in functions)))
    heads = [f"OF_MODULE {names.head(place, False)};" for place in places]
    numbers = f"enum {{ FIRST_PAGES = {module.pages}, STACK_BYTES = {stack_bytes(module)}, GLOBALS = {len(module.globals)} }};"
    return Translation(numbers, "\n".join([globals_text(module), *heads, *(indirect(module, names, kind) for kind in kinds)]),
                       start_text(module), parts_of(texts, parts))

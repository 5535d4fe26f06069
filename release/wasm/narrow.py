#!/usr/bin/env python3
"""Rewrite the LLVM module of the program for WebAssembly with 32-bit addresses: `narrow.py < WIDE.ll > NARROW.ll`.

rattle makes the module for a machine whose pointers have 64 bits, and decides the place of each value in memory, in bytes. These
places stay as they are: a pointer in memory keeps its eight bytes, of which the upper four are zeros. So it is stored as a number
of 64 bits, and loaded as one; a pair that a function returns has such a number instead of each pointer; and a constant has four
more bytes after each pointer. Everything else means the same with pointers of either size, because each line must have one of the
forms below: any other is an error, which names it."""
import re
import sys
from collections.abc import Iterable, Iterator
from typing import Optional

WIDE_TARGET = {
    'target datalayout = "e-m:e-p270:32:32-p271:32:32-p272:64:64-i64:64-i128:128-f80:128-n8:16:32:64-S128"\n':
    'target datalayout = "e-m:e-p:32:32-p10:8:8-p20:8:8-i64:64-i128:128-n32:64-S128-ni:1:10:20"\n',
    'target triple = "x86_64-unknown-linux-gnu"\n':
    'target triple = "wasm32-unknown-unknown"\n',
}

# Names, types and values, as they are in these modules.
NAME = r'(?:"[^"\\]*"|[\w.$-]+)'
LOCAL, GLOBAL = f"%{NAME}", f"@{NAME}"
VECTOR = r"<\d+ x i\d+>"
PLAIN = rf"(?:i\d+|double|{VECTOR})"
TYPE = rf"(?:{PLAIN}|ptr)"
PAIR = rf"\{{ {TYPE}, {TYPE} \}}"
RETURNED = rf"(?:{TYPE}|{PAIR})"
NUMBER = r"(?:-?\d+(?:\.\d+e[+-]\d+)?|0x[0-9A-F]+|true|false|zeroinitializer|splat \(i\d+ -?\d+\))"
OFFSET = rf"getelementptr (?:inbounds |nuw )*\(i8, ptr {GLOBAL}, i64 \d+\)"
POINTER = rf"(?:{LOCAL}|{GLOBAL}|null|{OFFSET})"
VALUE = rf"(?:{LOCAL}|{NUMBER})"
ATTRIBUTES = r"(?: (?:noundef|zeroext|signext|captures\(none\)|readonly|writeonly|immarg))*"
ARGUMENT = rf"(?:{PLAIN}{ATTRIBUTES} {VALUE}|ptr{ATTRIBUTES} {POINTER})"
ARGUMENTS = rf"\((?:{ARGUMENT}(?:, {ARGUMENT})*)?\)"
PARAMETER = rf"{TYPE}{ATTRIBUTES}(?: {LOCAL})?"
PARAMETERS = rf"\((?:{PARAMETER}(?:, {PARAMETER})*)?(?:, \.\.\.)?\)"
# Facts about a value. A fact about a pointer is dropped, because it does not hold of the number that replaces the pointer.
FACTS = r"(?:, !(?:noundef|range|nonnull|dereferenceable|align) !\d+)*"
LANES = r"<\d+ x i32> (?:zeroinitializer|<i32 \d+(?:, i32 \d+)*>)"

# Lines with the same meaning for pointers of either size.
SAME = [
    # Around the instructions: a comment, a label, an end, a fact, a constant of bytes, the values of a switch.
    r"(?:;.*)?", rf"{NAME}:(?: +;.*)?", r"\}", r'source_filename = "rattle"', r"![\w.]+ = .*",
    rf"{GLOBAL} = private (?:unnamed_addr )?(?:constant|global) \[\d+ x i8\] (?:c\"[^\"]*\"|zeroinitializer), align \d+",
    rf"    i\d+ -?\d+, label {LOCAL}", r"  \]",
    # Memory, except for pointers.
    rf"  {LOCAL} = alloca (?:{PLAIN}|\[\d+ x i8\]), align \d+",
    rf"  {LOCAL} = load (?:volatile )?{PLAIN}, ptr {POINTER}, align \d+{FACTS}",
    rf"  store {PLAIN} {VALUE}, ptr {POINTER}, align \d+",
    rf"  {LOCAL} = load atomic i\d+, ptr {POINTER} seq_cst, align \d+",
    rf"  store atomic i\d+ {VALUE}, ptr {POINTER} seq_cst, align \d+",
    rf"  {LOCAL} = atomicrmw (?:add|sub|xchg|and|or) ptr {POINTER}, i\d+ {VALUE} seq_cst, align \d+",
    rf"  {LOCAL} = cmpxchg ptr {POINTER}, i\d+ {VALUE}, i\d+ {VALUE} seq_cst seq_cst, align \d+",
    rf"  {LOCAL} = getelementptr (?:inbounds |nuw )*i8, ptr {POINTER}, i64 {VALUE}",
    # A barrier for the compiler, without an instruction.
    r'  call void asm sideeffect "", "~\{memory\}"\(\)',
    # Numbers.
    rf"  {LOCAL} = (?:add|sub|mul|[us]div|[us]rem|shl|lshr|ashr|and|or|xor) {PLAIN} {VALUE}, {VALUE}",
    rf"  {LOCAL} = (?:fadd|fsub|fmul|fdiv) double {VALUE}, {VALUE}", rf"  {LOCAL} = fneg double {VALUE}",
    rf"  {LOCAL} = icmp [a-z]+ {PLAIN} {VALUE}, {VALUE}", rf"  {LOCAL} = fcmp [a-z]+ double {VALUE}, {VALUE}",
    rf"  {LOCAL} = icmp (?:eq|ne) ptr {POINTER}, {POINTER}",
    rf"  {LOCAL} = (?:zext|sext|trunc|bitcast|uitofp|sitofp) {PLAIN} {VALUE} to {PLAIN}",
    rf"  {LOCAL} = extractelement {VECTOR} {VALUE}, i32 \d+",
    rf"  {LOCAL} = insertelement {VECTOR} {VALUE}, i\d+ {VALUE}, i32 \d+",
    rf"  {LOCAL} = shufflevector {VECTOR} {VALUE}, {VECTOR} {VALUE}, {LANES}",
    rf"  {LOCAL} = select {PLAIN} {VALUE}, {PLAIN} {VALUE}, {PLAIN} {VALUE}",
    # The path of a function.
    rf"  br label {LOCAL}", rf"  br i1 {VALUE}, label {LOCAL}, label {LOCAL}", rf"  switch i\d+ {VALUE}, label {LOCAL} \[",
    r"  ret void", rf"  ret {PLAIN} {VALUE}", rf"  ret ptr {POINTER}", "  unreachable",
]
# Lines in which each pointer of a pair becomes a number.
WITH_PAIRS = [
    rf"define (?:internal )?(?:noundef )?(?:zeroext )?(?:{RETURNED}|void) {GLOBAL}{PARAMETERS} (?:unnamed_addr )?#\d+ \{{",
    rf"declare (?:noundef )?(?:zeroext )?(?:{RETURNED}|void) {GLOBAL}{PARAMETERS} #\d+",
    rf"  (?:{LOCAL} = )?call (?:{RETURNED}|void) (?:\({TYPE}(?:, {TYPE})*, \.\.\.\) )?(?:{LOCAL}|{GLOBAL}){ARGUMENTS}(?: #\d+)?",
    rf"  {LOCAL} = load {PAIR}, ptr {POINTER}, align \d+",
    rf"  store {PAIR} {LOCAL}, ptr {POINTER}, align \d+",
    rf"  ret {PAIR} {LOCAL}",
]
IS_SAME, HAS_PAIRS = (re.compile("|".join(forms)) for forms in (SAME, WITH_PAIRS))

# Lines that are rewritten.
LOAD = re.compile(rf"  ({LOCAL}) = load ptr, ptr ({POINTER}), align (\d+){FACTS}")
STORE = re.compile(rf"  store ptr ({POINTER}), ptr ({POINTER}), align (\d+)")
ALLOCA = re.compile(rf"  ({LOCAL}) = alloca ptr, align (\d+)")
ADDRESS = re.compile(rf"  ({LOCAL}) = (?:ptrtoaddr|ptrtoint) ptr ({POINTER}) to i64")
OF_PAIR = re.compile(rf"  ({LOCAL}) = extractvalue \{{ ({TYPE}), ({TYPE}) \}} ({LOCAL}), ([01])")
CONSTANT = re.compile(rf"({GLOBAL} = private constant) <\{{ (.*?) \}}> <\{{ (.*) \}}>, align (\d+)")
IN_CONSTANT = re.compile(rf"(ptr) ({POINTER})|(\[\d+ x i8\]) (c\"[^\"]*\"|zeroinitializer)")
TYPES_IN_CONSTANT = re.compile(r"(?:ptr|\[\d+ x i8\])(?:, (?:ptr|\[\d+ x i8\]))*")
ATTRIBUTE_LINE = re.compile(r"attributes (#\d+) = \{ (.*) \}")
# Attributes of the processor and its stack, which WebAssembly has in its own way, and one that only rattle reads.
OF_PROCESSOR = re.compile(r'"(?:probe-stack|stack-probe-size|target-cpu|rattle-sig)"="[^"]*"')
OF_FUNCTION = re.compile(
    r"(?:nounwind|alwaysinline|inlinehint|noinline|cold|noreturn|nobuiltin|nocallback|nofree|nosync|speculatable|willreturn"
    r"|nocreateundeforpoison|memory\([\w: ,]*\))"
)
# A hint for the processor, without meaning.
PAUSE = "  call void @llvm.x86.sse2.pause()"
OF_OTHER_PROCESSORS = re.compile(r"@llvm\.(?:x86|aarch64)\.")


class UnknownForm(Exception):
    """A line of an unknown form, whose meaning for pointers of 32 bits is therefore unknown."""


def with_numbers(text: str) -> str:
    """The pairs of a line, with a number for each pointer."""
    return re.sub(PAIR, lambda pair: re.sub(r"\bptr\b", "i64", pair[0]), text)


def without_processor(words: str) -> str:
    """The attributes of a function, without those of the processor."""
    kept = OF_PROCESSOR.sub("", words).split()
    # The words of one attribute may have spaces in its brackets.
    if not re.fullmatch(rf"(?:{OF_FUNCTION.pattern}(?: |$))*", " ".join(kept)):
        raise UnknownForm(words)
    return " ".join(kept)


def constant(head: str, types: str, values: str, alignment: str) -> str:
    """A constant in which four zero bytes follow each pointer."""
    items: list[tuple[str, str]] = []
    end = 0
    while item := IN_CONSTANT.match(values, end):
        items.append((item[1] or item[3], item[2] or item[4]))
        end = item.end() + len(", ")
    if [kind for kind, _ in items] != types.split(", ") or end != len(values) + len(", "):
        raise UnknownForm(values)
    narrow_items: list[tuple[str, str]] = []
    for kind, value in items:
        narrow_items.append((kind, value))
        if kind == "ptr":
            narrow_items.append(("i32", "0"))
    narrow_types = ", ".join(kind for kind, _ in narrow_items)
    narrow_values = ", ".join(f"{kind} {value}" for kind, value in narrow_items)
    return f"{head} <{{ {narrow_types} }}> <{{ {narrow_values} }}>, align {alignment}"


class Narrowing:
    """Rewrites the lines of one module in their order."""

    def __init__(self) -> None:
        self.count = 0

    def new(self) -> str:
        """An unused name for a number that was a pointer or becomes one."""
        self.count += 1
        return f"%wide.{self.count}"

    def line(self, line: str) -> Optional[str]:
        """The line or lines for a line without its end; None for a hint that is dropped."""
        if line == PAUSE:
            return None
        if OF_OTHER_PROCESSORS.search(line) and not line.startswith("declare"):
            raise UnknownForm(line)
        if IS_SAME.fullmatch(line):
            return line
        if HAS_PAIRS.fullmatch(line):
            return with_numbers(line)
        return self.rewritten(line)

    def rewritten(self, line: str) -> str:
        """The line or lines for a line that loads, stores or makes a pointer, or that lists attributes or values."""
        if match := LOAD.fullmatch(line):
            name, place, alignment = match.groups()
            number = self.new()
            return f"  {number} = load i64, ptr {place}, align {alignment}\n  {name} = inttoptr i64 {number} to ptr"
        if match := STORE.fullmatch(line):
            value, place, alignment = match.groups()
            number = self.new()
            return f"  {number} = ptrtoint ptr {value} to i64\n  store i64 {number}, ptr {place}, align {alignment}"
        if match := ALLOCA.fullmatch(line):
            return f"  {match[1]} = alloca i64, align {match[2]}"
        if match := ADDRESS.fullmatch(line):
            return f"  {match[1]} = ptrtoint ptr {match[2]} to i64"
        if match := OF_PAIR.fullmatch(line):
            return self.part(*match.groups())
        if match := ATTRIBUTE_LINE.fullmatch(line):
            return f"attributes {match[1]} = {{ {without_processor(match[2])} }}"
        if (match := CONSTANT.fullmatch(line)) and TYPES_IN_CONSTANT.fullmatch(match[2]):
            return constant(*match.groups())
        raise UnknownForm(line)

    def part(self, name: str, first: str, second: str, pair: str, index: str) -> str:
        """One of the values of a pair; a pointer is made from the number in its place."""
        kinds = with_numbers(f"{{ {first}, {second} }}")
        if (first, second)[int(index)] != "ptr":
            return f"  {name} = extractvalue {kinds} {pair}, {index}"
        number = self.new()
        return f"  {number} = extractvalue {kinds} {pair}, {index}\n  {name} = inttoptr i64 {number} to ptr"


def narrowed(lines: Iterable[str]) -> Iterator[str]:
    """The lines of a module, rewritten. Raises `UnknownForm` with the first line that has another form."""
    narrowing, seen = Narrowing(), set[str]()
    for line in lines:
        if line.startswith("target "):
            if line not in WIDE_TARGET:
                raise UnknownForm(line)
            seen.add(line)
            yield WIDE_TARGET[line]
        else:
            new = narrowing.line(line.removesuffix("\n"))
            if new is not None:
                yield new + "\n"
    if seen != set(WIDE_TARGET):
        raise UnknownForm("the module names no target")


if __name__ == "__main__":
    try:
        sys.stdout.writelines(narrowed(sys.stdin))
    except UnknownForm as fault:
        sys.exit(f"narrow.py: this line of the module has another form than those it knows:\n{fault}")

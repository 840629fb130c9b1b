"""Retargets an LLVM module that the Rattle kit made for x86-64 to wasm32.

The kit writes bitcode whose memory layout is fixed: structs are addressed by byte offsets, and a pointer takes 8 bytes. wasm32 has pointers
of 4 bytes. So the result stores each pointer in a slot of 8 bytes: a store widens it, a load narrows it, and in a constant 4 bytes of zeros
follow it. Pointers in registers need no change. A line that depends on the size of a pointer in another way raises Unsupported.

Asyncify rewrites the functions that can reach the function `read`, and takes minutes for one that the interpreter of instructions is
inlined into. So all other functions that these call are marked `noinline`.
"""

import re
from collections.abc import Iterator, Sequence
from typing import NoReturn

LAYOUT = "e-m:e-p:32:32-p10:8:8-p20:8:8-i64:64-i128:128-n32:64-S128-ni:1:10:20"
TRIPLE = "wasm32-unknown-unknown"
NAME = r'@("[^"]*"|[\w.$]+)\('
DEFINITION = re.compile(rf"^define .*?{NAME}")
CALL = re.compile(rf"^ .*\bcall [^@]*{NAME}")
LOAD = re.compile(r"^(\s*)(%\S+) = load (volatile )?ptr, (.*)$")
PAIR = re.compile(r"^(\s*)(%\S+) = load (\{ (?:ptr, \w+|\w+, ptr) \}), ptr (%[^,]+)(?:, align \d+)?.*$")
STORE = re.compile(r"^(\s*)store (volatile )?ptr (.*), (ptr .*)$")
GLOBAL = re.compile(r'^(@(?:"[^"]*"|[^\s"]+) = .*?\b(?:constant|global) )(.*)$')
PACKED = re.compile(r"^<\{ (.*?) \}> <\{ (.*) \}>(, align \d+)?$")
ATTRIBUTES = re.compile(r"( #\d+)? \{$", re.MULTILINE)  # of a definition; a group may have `alwaysinline`
PROCESSOR = re.compile(r' "(?:frame-pointer|probe-stack|stack-probe-size|target-cpu)"="[^"]*"')
POINTER_FACTS = re.compile(r", !(nonnull|align|dereferenceable|dereferenceable_or_null) !\d+")
# A line whose size is that of the type that it names.
SIZED = re.compile(r"^\s*(?:%\S+ = )?(?:load|store|getelementptr|alloca)\b(.*?)(?:, ptr [^}\]>].*)?$")
STRING = re.compile(r'"[^"]*"')
POINTER = re.compile(r'(?<![(\w.:"])ptr\b(?!:)')


class Unsupported(Exception):
    """A line whose meaning would change with the size of pointers."""


def retarget(lines: Sequence[str]) -> Iterator[str]:
    """Return the lines of the module for wasm32. Raises Unsupported."""
    barriers = callees_of_readers(lines)
    for number, line in enumerate(lines):
        definition = DEFINITION.match(line) if line.startswith("define ") else None
        if definition and definition[1] in barriers:
            line = ATTRIBUTES.sub(" nounwind noinline {", line)
        yield from _retarget_line(line, number)


def callees_of_readers(lines: Sequence[str]) -> set[str]:
    """Return the names of the functions that don't reach `read`, but are called by some that do."""
    calls = call_graph(lines)
    readers = {"read"}
    while more := {name for name, callees in calls.items() if name not in readers and callees & readers}:
        readers |= more
    return {callee for name in readers & calls.keys() for callee in calls[name]} - readers


def call_graph(lines: Sequence[str]) -> dict[str, set[str]]:
    """Return the names of the functions that each function calls, by its name."""
    calls, callees = dict[str, set[str]](), set[str]()
    for line in lines:
        if line.startswith("define "):
            definition = DEFINITION.match(line)
            assert definition
            callees = calls[definition[1]] = set()
        elif " call " in line and (call := CALL.match(line)):
            callees.add(call[1])
    return calls


def _retarget_line(line: str, number: int) -> list[str]:
    """Return the lines that replace one line of the module; `number` makes the names of new values unique."""
    if line.startswith("  ") and "ptr" not in line:
        return [line]
    if line.startswith("target datalayout"):
        return [f'target datalayout = "{LAYOUT}"\n']
    if line.startswith("target triple"):
        return [f'target triple = "{TRIPLE}"\n']
    if line.startswith("attributes #"):
        return [PROCESSOR.sub("", line).replace("{ }", "{ nounwind }")]
    if line.startswith("@"):
        return [_widened_constant(line)]
    if pair := PAIR.match(line):
        return _loaded_pair(pair, number)
    if load := LOAD.match(line):
        space, name, volatile, rest = load.groups()
        rest = POINTER_FACTS.sub("", rest)
        return [
            f"{space}%slot.{number} = load {volatile or ''}i64, {rest}\n",
            f"{space}{name} = inttoptr i64 %slot.{number} to ptr\n",
        ]
    if store := STORE.match(line):
        space, volatile, value, rest = store.groups()
        return [
            f"{space}%slot.{number} = ptrtoint ptr {value} to i64\n",
            f"{space}store {volatile or ''}i64 %slot.{number}, {rest}\n",
        ]
    line = line.replace(" = alloca ptr,", " = alloca i64,").replace(" = ptrtoaddr ptr ", " = ptrtoint ptr ")
    sized = SIZED.match(line)
    if sized and POINTER.search(sized[1]):
        _unsupported(line)
    return [line]


def _unsupported(line: str) -> NoReturn:
    raise Unsupported(f"tools/building/retarget.py doesn't support pointers in: {line.strip()}")


def _loaded_pair(pair: re.Match[str], number: int) -> list[str]:
    """Return the lines that load a pair of a pointer and another value from two slots."""
    space, name, kind, address = pair.groups()
    place, lines, kinds = f"%pair.{number}", list[str](), kind.strip("{ }").split(", ")
    lines.append(f"{place}.second = getelementptr i8, ptr {address}, i64 {16 if 'i128' in kinds else 8}\n")
    lines.append(f"{place}.none = freeze {kind} poison\n")
    for of, at in zip(kinds, (address, f"{place}.second")):
        which = f"{place}.{len(lines)}"
        lines.append(f"{which} = load {'i64' if of == 'ptr' else of}, ptr {at}\n")
        lines.append(f"{which}.value = {f'inttoptr i64 {which} to ptr' if of == 'ptr' else f'freeze {of} {which}'}\n")
    lines.append(f"{place}.half = insertvalue {kind} {place}.none, {kinds[0]} {place}.2.value, 0\n")
    lines.append(f"{name} = insertvalue {kind} {place}.half, {kinds[1]} {place}.4.value, 1\n")
    return [space + line for line in lines]


def _widened_constant(line: str) -> str:
    """Return a constant in which 4 bytes of zeros follow each pointer."""
    found = GLOBAL.match(line.rstrip("\n"))
    if not found or line.startswith("@llvm.") or not POINTER.search(STRING.sub("", found[2])):
        return line
    packed = PACKED.match(found[2])
    if not packed or any(POINTER.search(kind) for kind in _parts(packed[1]) if kind != "ptr"):
        _unsupported(line)
    types = [part for kind in _parts(packed[1]) for part in ([kind, "[4 x i8]"] if kind == "ptr" else [kind])]
    values = [
        part
        for value in _parts(packed[2])
        for part in ([value, "[4 x i8] zeroinitializer"] if value.startswith("ptr ") else [value])
    ]
    return f"{found[1]}<{{ {', '.join(types)} }}> <{{ {', '.join(values)} }}>{packed[3] or ''}\n"


def _parts(text: str) -> list[str]:
    """Return the parts of a list at its outermost level, which commas separate."""
    parts, depth, is_quoted, start = list[str](), 0, False, 0
    for at, character in enumerate(text):
        if character == '"':
            is_quoted = not is_quoted
        elif not is_quoted:
            depth += (character in "([{<") - (character in ")]}>")
            if character == "," and depth == 0:
                parts.append(text[start:at].strip())
                start = at + 1
    return [*parts, text[start:].strip()]

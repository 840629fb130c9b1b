"""Checks which functions of a program call which, in its LLVM module: tools/checks/check_calls MODULE...

A MODULE is the text that `tools/building/unproved_build --module CRATE MODULE` writes, or a proved program, whose module
tools/building/keep_modules stored. Rattle's compiler puts all code of a program into one module, so this sees each call but those inside of
the C library. It fails, with status 1, if

- a function is called by its address, or its address is taken: then the calls that it sees wouldn't be all;
- code that runs after `Machine::new` can allocate memory: `Machine::answer` and `Machine::operator`, which do all lines of a script, and
  `hart::instruction_cycle::step`, which the recorder calls;
- a function can call itself, directly or by others, and RECURSIONS doesn't name it with its greatest depth.

It prints a line for each module. Status 2, with one line, if a module can't be read.
"""

import hashlib
import re
import subprocess
import sys
import tempfile
from collections.abc import Iterable, Iterator
from graphlib import CycleError, TopologicalSorter

from tools.building.linked_kit import cache, installed_kit, write_text

Calls = dict[str, set[str]]
"""The functions that each function calls, by their names; functions that the module only declares call none."""

ALLOCATORS = {"rattle_alloc", "rattle_realloc"}
WITHOUT_MEMORY = (
    "monitor_machine::machine::Machine::answer",
    "monitor_machine::machine::Machine::operator",
    "hart::instruction_cycle::step",
)
RECURSIONS = {
    "rv_asm::print::put_hex_digits": "9 frames at most: one for each of 8 digits, and one for none",
    "clap::": "two levels of commands at most, as the programs have no subcommand",
    "vec_monitor::clap++": "clap's arguments that are dropped: of one level",
    "vec_recorder::clap++": "the same",
    "std_collections::btree::node::Node::": "the height of a tree of clap's arguments",
    "core::slice::sort::": "twice the binary logarithm of the number of rows, 34; then it sorts by a heap. The choice of a pivot: log8 of it",
}
ELF = b"\x7fELF"
NAME = r'@("(?:[^"\\]|\\.)*"|[\w.$-]+)'
NAMES = re.compile(NAME)
CALL = re.compile(rf"\bcall\b[^@%]*?(?:{NAME}|%[\w.]+)\(")


class Refusal(Exception):
    """Why a module isn't accepted: one line."""


def base_name(function: str) -> str:
    """The name of a function without the hash of its type arguments."""
    return function.strip('"').split("::<#")[0]


def read_calls(lines: Iterable[str]) -> Calls:
    """Return the calls of a module. Raises Refusal if a function's address is used otherwise than to call it."""
    calls: Calls = {}
    used = set[str]()
    caller = ""
    for line in lines:
        if line.startswith(("define ", "declare ")):
            named = NAMES.search(line)
            if named is None:
                raise Refusal(f"a function without a name: {line.strip()}")
            caller = named[1]
            calls[caller] = set()
        elif line.startswith("  "):
            used |= _use(line, calls[caller])
        else:
            used |= set(NAMES.findall(line)[1:])  # a global and its value
    if taken := sorted(used & calls.keys()):
        raise Refusal(f"the address of {taken[0]} is taken")
    return calls


def _use(line: str, called: set[str]) -> set[str]:
    """Add the function that an instruction calls, and return the names that it uses in another way. Raises Refusal."""
    names = NAMES.findall(line)
    if " call " not in line and not line.startswith("  call "):
        return set(names)
    found = CALL.search(line)
    if found is None or found[1] is None:
        raise Refusal(f"a call of no name: {line.strip()}")
    called.add(found[1])
    names.remove(found[1])
    return set(names)


def reached(calls: Calls, roots: Iterable[str]) -> dict[str, str | None]:
    """Return the functions that can run once one of the roots is called, each with a function that calls it; a root with None."""
    callers: dict[str, str | None] = dict.fromkeys(roots)
    waiting = list(callers)
    while waiting:
        caller = waiting.pop()
        for called in calls.get(caller, set()) - callers.keys():
            callers[called] = caller
            waiting.append(called)
    return callers


def path_to(function: str, callers: dict[str, str | None]) -> str:
    """The calls that lead from a root to a function."""
    path = [function]
    while (caller := callers[path[-1]]) is not None:
        path.append(caller)
    return " > ".join(base_name(each) for each in reversed(path))


def check_allocations(calls: Calls) -> int:
    """Check that no function after `Machine::new` can allocate, and return how many functions can run then. Raises Refusal."""
    callers = reached(calls, (it for it in calls if base_name(it) in WITHOUT_MEMORY))
    if not callers:
        raise Refusal(f"it has none of {', '.join(WITHOUT_MEMORY)}")
    for allocator in sorted(ALLOCATORS & callers.keys()):
        raise Refusal(f"memory can be allocated after Machine::new: {path_to(allocator, callers)}")
    return len(callers)


def check_recursions(calls: Calls) -> None:
    """Check that without the functions of RECURSIONS none can call itself. Raises Refusal."""
    others = {
        caller: {each for each in called if not _is_recursive(each)}
        for caller, called in calls.items()
        if not _is_recursive(caller)
    }
    try:
        TopologicalSorter(others).prepare()
    except CycleError as error:
        cycle: list[str] = error.args[1]
        raise Refusal(f"a function calls itself: {' < '.join(base_name(each) for each in cycle)}") from None


def _is_recursive(function: str) -> bool:
    """Whether RECURSIONS has the function."""
    return base_name(function).startswith(tuple(RECURSIONS))


def text_of(module: str) -> Iterator[str]:
    """Yield the lines of a module. module: the file of its text, or of the proved program"""
    with open(module, "rb") as file:
        content = file.read(len(ELF))
        stored = f"{cache()}/modules/{hashlib.sha256(content + file.read()).hexdigest()}.bc" if content == ELF else ""
    if not stored:
        with open(module, encoding="utf-8") as lines:
            yield from lines
        return
    with tempfile.NamedTemporaryFile(suffix=".ll") as text:
        write_text(installed_kit(), stored, text.name, "-Xclang", "-disable-llvm-passes")
        with open(text.name, encoding="utf-8") as lines:
            yield from lines


def check(module: str) -> str:
    """Check a module, and return what was seen. Raises Refusal."""
    calls = read_calls(text_of(module))
    check_recursions(calls)
    return f"{len(calls)} functions, and {check_allocations(calls)} that can run after Machine::new, without allocating memory"


def main(modules: list[str]) -> None:
    if not modules or modules[0].startswith("-"):
        sys.exit(__doc__)
    for module in modules:
        try:
            print(f"{module}: {check(module)}")
        except Refusal as refusal:
            sys.exit(f"{module}: {refusal}")
        except (OSError, UnicodeDecodeError, subprocess.CalledProcessError) as error:
            print(f"{module}: can't be read: {error}", file=sys.stderr)
            sys.exit(2)


if __name__ == "__main__":
    main(sys.argv[1:])

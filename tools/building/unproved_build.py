"""Builds a program without its proofs, at the top of the repository.

    tools/building/unproved_build CRATE OUT [MODULE]          builds the optimized program OUT
    tools/building/unproved_build --module CRATE MODULE       only writes the LLVM module that is compiled
    tools/building/unproved_build --compile MODULE OUT [-O0]  compiles such a module: with -O0 in a fifth of the time, to a much slower
                                                              program

So a change is measured before it is proved. The kit's front end (tools/building/front_end.py) makes a module with checks of its own; this
drops the checks, marks the functions that have `#[inline(..)]`, and compiles the rest at -O3. Counts of machine instructions lay within 3 %
of the proved program's where both took the same functions in line; the compiler of the proved one drops some of those marks, and then they
differ much. Nothing else may be concluded from it: the program that counts is the proved one.

MODULE is text whose first line names the kit (tools/building/programs). The same sources give the same bytes.
"""

import glob
import os
import re
import subprocess
import sys
import tempfile
from collections.abc import Mapping, Sequence

from tools.building.front_end import make_module
from tools.building.linked_kit import TARGET, installed_kit, kit_identity, link_program, write_text

FLAGS = (
    "-march=x86-64-v2 -mllvm -no-trap-after-noreturn -ffunction-sections -fdata-sections -mllvm -trap-unreachable "
    "-mllvm -no-x86-call-frame-opt -mllvm -disable-machine-licm -mllvm -disable-postra-machine-licm "
    "-mllvm -sink-common-insts=false --no-default-config -no-canonical-prefixes -fno-crash-diagnostics -fPIE"
).split()
FILE_NAME = re.compile(r"\A; ModuleID = .*\n")  # a temporary file
# Each begins with a line's end, which a search through 46 MB finds much faster than a line's beginning.
CHECK = re.compile(
    r'\n +call void @(?:"rattle-llvm-checks::|llvm\.trap\(\)|llvm\.memset\.p0\.i64\(ptr %r\d+, i8 -86,).*'
)
DEFINED = re.compile(r'(\ndefine internal .*?@"([^"]*)"\(.*\)) #0 \{')
ATTRIBUTES = re.compile(r"\nattributes #0 = .*")
COMMON = 'nounwind "frame-pointer"="all" "probe-stack"="inline-asm" "stack-probe-size"="3072" "target-cpu"="x86-64-v2"'


Marks = Mapping[tuple[str, str, str], str]


def inlined(crates: str) -> Marks:
    """The functions under `#[inline(always)]` and `#[inline(never)]`, by crate and name."""
    found = dict[tuple[str, str, str], str]()
    for file in glob.glob(f"{crates}/*/src/**/*.rt", recursive=True):
        crate, lines = os.path.relpath(file, crates).split("/")[0], open(file, encoding="utf-8").read().split("\n")
        own = os.path.relpath(file, f"{crates}/{crate}/src")[:-3].replace("/", "::")
        # A method is named by its type's module, which may be another file's.
        homes = {it[2]: it[1] for it in (re.match(r"use crate::([\w:]+)::(\w+);", line) for line in lines) if it}
        module = own
        for at, line in enumerate(lines):
            block = re.match(r"impl(?:<[^>]*>)? (\w+)(?:<[^>]*>)? \{", line)
            module = homes.get(block[1], own) if block else own if line == "}" else module
            kind = re.fullmatch(r"\s*#\[inline\((always|never)\)\]", line)
            names = (re.match(r"\s*(?:pub(?:\(\w+\))? )?fn (\w+)", it) for it in lines[at + 1 : at + 6])
            name = next((it for it in names if it), None)
            if kind and name:
                found[crate, module, name[1]] = kind[1]
    return found


def without_checks(module: str, marks: Marks) -> str:
    """The text of the module without its checks and the name of its file, and with the marks."""

    def marked(found: re.Match[str]) -> str:
        path = found[2].split("::<")[0].split("::")
        kinds = (marks.get((path[0], "::".join(path[1:end]), path[-1])) for end in range(1, len(path)))
        group = {"always": "#90", "never": "#91", None: "#0"}[next((it for it in kinds if it), None)]
        return f"{found[1]} {group} {{"

    groups = (f"\nattributes {group} {COMMON} }}" for group in ("#0 = {", "#90 = { alwaysinline", "#91 = { noinline"))
    text = DEFINED.sub(marked, CHECK.sub("", FILE_NAME.sub("", module)))
    return ATTRIBUTES.sub("".join(groups), text).replace("sanitize_address ", "")


def write_module(crate: str, out: str) -> None:
    """Writes the LLVM module of a crate's program as text, without its checks and with the marks."""
    kit, crates = installed_kit(), os.path.abspath("crates")
    if not os.path.isdir(f"{crates}/{crate}"):
        sys.exit(f"{crate} isn't a crate in {crates}: give the name of its folder, as vecmon_record")
    make_folder(out)
    with tempfile.TemporaryDirectory() as room:
        made, text = f"{room}/made.bc", f"{room}/made.ll"
        make_module(kit, f"{crates}/{crate}", made)
        write_text(kit, made, text)
        with open(text, encoding="utf-8") as module, open(out, "w", encoding="utf-8") as it:
            it.write(f"; {kit_identity()}\n{without_checks(module.read(), inlined(crates))}")


def compile_module(module: str, out: str, level: str = "-O3") -> None:
    """Compiles the text of a module, and links it to a program."""
    kit = installed_kit()
    make_folder(out)
    with tempfile.TemporaryDirectory() as room:
        compiled = f"{room}/compiled.o"
        passes = (
            ["-Xclang", "-disable-llvm-passes"] if level == "-O0" else []
        )  # else it takes functions in line, a fifth of its time
        clang = [f"{kit}/toolchain/bin/clang", f"--target={TARGET}", *FLAGS, level, *passes, "-c", "-x", "ir"]
        subprocess.run([*clang, module, "-o", compiled], check=True)
        link_program(kit, compiled, out)


def build(crate: str, out: str, module: str | None = None) -> None:
    """Builds a crate's optimized program, and keeps its module if a file is named."""
    make_folder(out)  # a build takes minutes before it links
    with tempfile.TemporaryDirectory() as room:
        module = module or f"{room}/module.ll"
        write_module(crate, module)
        compile_module(module, out)


def make_folder(file: str) -> None:
    """Makes the folder of a file."""
    os.makedirs(os.path.dirname(os.path.abspath(file)), exist_ok=True)


def main(words: Sequence[str]) -> None:
    match words:
        case ["--module", crate, module]:
            write_module(crate, module)
        case ["--compile", module, out] | ["--compile", module, out, "-O0"]:
            compile_module(module, out, *words[3:])
        case [crate, out, *module] if not crate.startswith("-") and len(module) <= 1:
            build(crate, out, *module)
        case _:
            sys.exit(__doc__)


if __name__ == "__main__":
    main(sys.argv[1:])

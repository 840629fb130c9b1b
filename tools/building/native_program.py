"""Builds a program for Linux on any of three processors, which needs no C library of the system, or for Windows.

All targets are little-endian and have 64-bit integers and pointers, as x86-64 has, and the kit addresses memory by byte offsets. So the LLVM
module gets another triple, data layout and processor, and for Windows other probes of the stack. Nothing else changes.
"""

import os
import re
from collections.abc import Iterable, Iterator, Sequence
from dataclasses import dataclass
from pathlib import Path

from tools.building.build_steps import Refusal, find_tool, run
from tools.building.linked_kit import installed_kit
from tools.building.program_modules import TOP

SOURCES = TOP / "targets"
PROCESSOR = re.compile(r' "(?:target-cpu|target-features|tune-cpu)"="[^"]*"')
STACK_PROBES = re.compile(
    r' "probe-stack"="[^"]*"'
)  # on Windows LLVM has its own, and takes this for a function's name
CLANG = "-ffunction-sections -fdata-sections -mllvm -trap-unreachable --no-default-config -no-canonical-prefixes -fno-crash-diagnostics".split()
COMPILE = "-std=c11 -O2 -Wall -Wextra -Werror -ffunction-sections -fdata-sections -c".split()
LINUX_LINK = "-static -fuse-ld=lld -Wl,--build-id=none,--gc-sections,--strip-all".split()
STACK_BYTES = 8_388_608  # as on Linux
WINDOWS_LINK = f"-static -s -Wl,--gc-sections,--no-insert-timestamp,--stack,{STACK_BYTES}".split()
WINDOWS_COMPILER = "x86_64-w64-mingw32-gcc"
LINUX_COMPILER = "clang-19"
NATIVE = "x86_64"  # of the kit itself: Debian's own C library, and not one for another processor


@dataclass(frozen=True)
class Target:
    """A system and its processor.

    triple, layout: of LLVM; processor: options of clang; packages: the kind of tools/building/debian_packages with the tools; suffix: of a
    program
    """

    name: str
    triple: str
    layout: str
    processor: Sequence[str]
    packages: str
    suffix: str = ""

    @property
    def is_windows(self) -> bool:
        """Whether the system is Windows, else it is Linux."""
        return self.name == "windows"

    @property
    def gcc_folders(self) -> Path:
        """The folder that has GCC's library for Linux, in a folder for each version."""
        return Path("/usr/lib/gcc" if self.name == NATIVE else "/usr/lib/gcc-cross") / self.triple


TARGETS = {
    each.name: each
    for each in (
        Target(
            NATIVE,
            "x86_64-linux-gnu",
            "e-m:e-p270:32:32-p271:32:32-p272:64:64-i64:64-i128:128-f80:128-n8:16:32:64-S128",
            ("-march=x86-64-v2",),
            "x86_64",
        ),
        Target(
            "aarch64",
            "aarch64-linux-gnu",
            "e-m:e-p270:32:32-p271:32:32-p272:64:64-i8:8:32-i16:16:32-i64:64-i128:128-n32:64-S128-Fn32",
            ("-march=armv8-a",),
            "aarch64",
        ),
        Target(
            "riscv64",
            "riscv64-linux-gnu",
            "e-m:e-p:64:64-i64:64-i128:128-n32:64-S128",
            ("-march=rv64gc", "-mabi=lp64d"),
            "riscv64",
        ),
        Target(
            "windows",
            "x86_64-w64-windows-gnu",
            "e-m:w-p270:32:32-p271:32:32-p272:64:64-i64:64-i128:128-f80:128-n8:16:32:64-S128",
            ("-march=x86-64-v2",),
            "windows",
            ".exe",
        ),
    )
}


def check_tools(target: Target) -> None:
    """Raises Refusal if a tool is missing."""
    if target.is_windows:
        find_tool(WINDOWS_COMPILER, target.packages)
    else:
        find_tool(LINUX_COMPILER, target.packages)
        find_tool("ld.lld-19", target.packages)
        _gcc_folder(target)


def retarget(lines: Iterable[str], target: Target) -> Iterator[str]:
    """Return the lines of a module of x86-64 for a target. Raises Refusal unless it has one triple and one data layout."""
    replaced = {"target datalayout": target.layout, "target triple": target.triple}
    for line in lines:
        head = line.partition(" = ")[0]
        if line.startswith("attributes #"):
            line = STACK_PROBES.sub("", line) if target.is_windows else line
            yield PROCESSOR.sub("", line).replace("{ }", "{ nounwind }")
        elif head in replaced:
            yield f'{head} = "{replaced.pop(head)}"\n'
        else:
            yield line
    if replaced:
        raise Refusal(f"the module has no {' and no '.join(replaced)}")


def build(name: str, text: Path, folder: Path, target: Target, origin: str) -> bytes:
    """Return the bytes of a program. Raises Refusal.

    text: the file that has the LLVM module as text; folder: for files of the steps; origin: a sentence about the module
    """
    module, compiled, program = (f"{folder}/{name}.{target.name}{suffix}" for suffix in (".ll", ".o", target.suffix))
    with open(text, encoding="utf-8") as lines, open(module, "w", encoding="utf-8") as it:
        it.writelines(retarget(lines, target))
    clang = [f"{installed_kit()}/toolchain/bin/clang", f"--target={target.triple}"]
    run(
        [*clang, *target.processor, *CLANG, "-O3", "-c", "-x", "ir", module, "-o", compiled],
        f"{name} for {target.name}",
    )
    about = f'-DORIGIN="{name} for {target.name}. {origin}."'
    parts = folder / f"{name}.parts"
    parts.mkdir()
    link = _link_for_windows if target.is_windows else _link_for_linux
    link(target, compiled, parts, about, program)
    return Path(program).read_bytes()


def _link_for_linux(target: Target, compiled: str, folder: Path, about: str, program: str) -> None:
    """Link an object file of the kit to a static program, with Debian's C library: the kit's links to that of the system.

    folder: for object files; about: the definition of ORIGIN for targets/process.c"""
    clang = [find_tool(LINUX_COMPILER, target.packages), f"--target={target.triple}", *target.processor]
    headers, places = list[str](), [f"--gcc-install-dir={_gcc_folder(target)}"]
    if target.name != NATIVE:
        library = f"/usr/{target.triple}"
        headers = ["-isystem", f"{library}/include"]
        places += [f"-B{library}/lib", f"-L{library}/lib"]
    parts = _compile([*clang, *headers], ("process.c", "linux.c"), folder, about)
    run([*clang, *LINUX_LINK, *places, compiled, *parts, "-o", program], os.path.basename(program), "targets/linux.c")


def _link_for_windows(target: Target, compiled: str, folder: Path, about: str, program: str) -> None:
    """Link an object file of the kit to a program for Windows, with the C library of MinGW.

    folder: for object files; about: the definition of ORIGIN for targets/process.c"""
    gcc, heap = find_tool(WINDOWS_COMPILER, target.packages), f"{folder}/windows_heap.o"
    # MinGW's headers declare `open` and others with other types.
    parts = _compile([gcc, "-D_NO_OLDNAMES", "-DNO_OLDNAMES"], ("process.c", "windows.c"), folder, about)
    clang = [f"{installed_kit()}/toolchain/bin/clang", f"--target={target.triple}"]
    run([*clang, *CLANG, "-O2", "-c", "-x", "ir", SOURCES / "windows_heap.ll", "-o", heap], "windows_heap.ll")
    run(
        [gcc, *WINDOWS_LINK, compiled, *parts, heap, "-lshell32", "-o", program],
        os.path.basename(program),
        "targets/windows.c",
    )


def _compile(compiler: Sequence[str], sources: Sequence[str], folder: Path, about: str) -> list[str]:
    """Compile sources of targets/ into a folder, and return the object files."""
    objects = [f"{folder}/{source}.o" for source in sources]
    for source, compiled in zip(sources, objects, strict=True):
        run([*compiler, *COMPILE, about, SOURCES / source, "-o", compiled], f"targets/{source}")
    return objects


def _gcc_folder(target: Target) -> Path:
    """Return the folder of GCC's library for a target with Linux. Raises Refusal if it is missing."""
    folders = sorted(target.gcc_folders.glob("[0-9]*"))
    if not folders:
        raise Refusal(
            f"GCC's library for {target.name} not found: run tools/building/debian_packages {target.packages}"
        )
    return folders[-1]

"""Builds a program as a WebAssembly module for wasm32, with the command that runs it under node."""

import functools
import re
import resource
import shutil
from collections.abc import Sequence
from pathlib import Path

from tools.building.build_steps import PROCESSOR_SECONDS, Refusal, find_tool, run
from tools.building.linked_kit import installed_kit
from tools.building.program_modules import TOP, digest_of
from tools.building.retarget import Unsupported, retarget
from tools.building.wasm_binary import with_bodies, without_names

PACKAGES = "webassembly"  # of tools/building/debian_packages
RUNTIME_SOURCE = "webassembly/runtime.c"
LINKER, OPTIMIZER = "wasm-ld-19", "wasm-opt"
STACK_BYTES = 4_194_304  # 1 MB is too little for some scripts
CLANG = "--target=wasm32-unknown-unknown -mcpu=lime1 -mbulk-memory --no-default-config -no-canonical-prefixes -fno-crash-diagnostics".split()
PROGRAM = "-mllvm -expand-div-rem-bits=64 -mllvm -expand-fp-convert-bits=64 -ffunction-sections -O3 -c -x ir".split()
RUNTIME = "-O2 -ffreestanding -fno-builtin -c".split()
LINK = f"--no-entry --gc-sections --stack-first -z stack-size={STACK_BYTES} --export=run".split()
FEATURES = "bulk-memory mutable-globals sign-ext nontrapping-float-to-int multivalue".split()
ASYNCIFY = [
    "-g",
    "--asyncify",
    *(f"--pass-arg=asyncify-{it}" for it in ("imports@host.read", "ignore-indirect", "verbose")),
]
CHANGED = re.compile(r"^\[asyncify\] (.*) can change the state due to .*$", re.MULTILINE)
ESCAPED = re.compile(r"\\([0-9a-f]{2})")  # a character of a name, as the optimizer prints it
LAUNCHER = """#!/bin/sh
# {name} as WebAssembly under node: {name}.wasm, SHA-256 {digest}.
# {origin}.
here=$(dirname "$(readlink -f "$0")")
command -v node > /dev/null || {{ echo "{name} needs node 18 or later on PATH: install nodejs" >&2; exit 69; }}
exec node "$here/host.mjs" "$here/{name}.wasm" "$@"
"""


def check_tools() -> None:
    """Raises Refusal if a tool is missing."""
    find_tool(LINKER, PACKAGES)
    find_tool(OPTIMIZER, PACKAGES)


def build(name: str, text: Path, folder: Path) -> bytes:
    """Return the bytes of NAME.wasm. Raises Refusal.

    text: the file that has the LLVM module as text; folder: for files of the steps"""
    clang = f"{installed_kit()}/toolchain/bin/clang"
    suffixes = (".wasm32.ll", ".o", ".runtime.o", ".linked.wasm", ".wasm")
    target, program, runtime, linked, changed = (f"{folder}/{name}{suffix}" for suffix in suffixes)
    try:
        with open(text, encoding="utf-8") as lines, open(target, "w", encoding="utf-8") as it:
            it.writelines(retarget(lines.readlines()))
    except Unsupported as error:
        raise Refusal(f"{name} for wasm32: {error}") from None
    run([clang, *CLANG, *PROGRAM, target, "-o", program], f"{name} for wasm32")
    run([clang, *CLANG, *RUNTIME, str(TOP / RUNTIME_SOURCE), "-o", runtime], RUNTIME_SOURCE)
    run([find_tool(LINKER, PACKAGES), *LINK, "-o", linked, program, runtime], f"{name}.wasm", RUNTIME_SOURCE)
    limit = functools.partial(resource.setrlimit, resource.RLIMIT_CPU, (PROCESSOR_SECONDS, PROCESSOR_SECONDS))
    command = [find_tool(OPTIMIZER, PACKAGES), *(f"--enable-{it}" for it in FEATURES), linked, *ASYNCIFY, "-o", changed]
    functions = [
        ESCAPED.sub(lambda it: chr(int(it[1], 16)), it)
        for it in CHANGED.findall(run(command, f"{name}.wasm", preexec_fn=limit))
    ]
    return _with_asyncify(name, Path(linked).read_bytes(), Path(changed).read_bytes(), functions)


def _with_asyncify(name: str, linked: bytes, changed: bytes, functions: Sequence[str]) -> bytes:
    """Return the module with Asyncify in these functions only: it gives all others new code, with more locals than engines accept."""
    try:
        return without_names(with_bodies(changed, linked, functions))
    except ValueError as error:
        raise Refusal(f"{name}.wasm: {error}") from None


def write_launcher(out: Path, name: str, content: bytes, origin: str) -> None:
    """Write the command that runs NAME.wasm with these bytes, and the host for node."""
    launcher = out / name
    launcher.write_text(LAUNCHER.format(name=name, digest=digest_of(content), origin=origin), "utf-8")
    launcher.chmod(0o755)
    shutil.copy(TOP / "webassembly/host.mjs", out)

"""Builds vecmon and vecmon-record for a target from the LLVM modules of these programs: tools/building/programs --target TARGET [OPTION]...
OUT

    --target TARGET     x86_64, aarch64 or riscv64 (Linux, static), windows (x86-64), or wasm32 (WebAssembly)
    --modules FOLDER    from the modules FOLDER/NAME.bc or FOLDER/NAME.ll
    --unproved          from modules without proofs, which it makes first (tools/building/unproved_build)
    --program NAME      only vecmon, or only vecmon-record; with --unproved or --modules also test_kernels or test_step

Without --modules and --unproved it takes the modules of the proved programs in crates/*/out, which tools/building/keep_modules saved.

OUT gets the programs, NAME or NAME.exe; for wasm32 NAME.wasm, the command NAME, which runs it under node, and host.mjs. PROVENANCE records the
target, and for each program its SHA-256, the module that it was built from, and whether that module was proved. The same modules give the
same bytes. docs/TARGETS.md describes the targets.

Exit status: 2, with one line, if a tool or a module is missing or refused.
"""

import argparse
import gzip
import pathlib
import sys
import tempfile
from collections.abc import Mapping, Sequence
from concurrent.futures import ThreadPoolExecutor

from tools.building import native_program, wasm_program
from tools.building.build_steps import Refusal
from tools.building.linked_kit import kit_identity
from tools.building.program_modules import copy_as_text, digest_of, find_modules, find_proved, make_unproved, origin_of

NAMES = ("vecmon", "vecmon-record")
TESTS = ("test_kernels", "test_step")  # tools/building/keep_modules saves no modules of these
WASM = "wasm32"


def check_tools(target: str) -> None:
    """Raises Refusal if a tool for the target is missing: before minutes of work."""
    if target == WASM:
        wasm_program.check_tools()
    else:
        native_program.check_tools(native_program.TARGETS[target])


def modules_of(options: argparse.Namespace, names: Sequence[str], folder: pathlib.Path) -> Mapping[str, pathlib.Path]:
    """Return the modules of the programs by their names; those that are made first are in the folder."""
    if options.unproved:
        return make_unproved(names, folder)
    if options.modules:
        return find_modules(names, options.modules)
    if options.program in TESTS:
        raise Refusal(f"no module of {options.program} is saved: use --unproved")
    return find_proved(names)


def build(target: str, name: str, text: pathlib.Path, folder: pathlib.Path, origin: str) -> bytes:
    """Return the bytes of a program for a target, from its module in a text file."""
    if target == WASM:
        return wasm_program.build(name, text, folder)
    return native_program.build(name, text, folder, native_program.TARGETS[target], origin)


def write(options: argparse.Namespace, name: str, content: bytes, origin: str) -> str:
    """Write a program, and return its lines of PROVENANCE."""
    suffix = ".wasm" if options.target == WASM else native_program.TARGETS[options.target].suffix
    file = options.out / f"{name}{suffix}"
    file.write_bytes(content)
    if options.target == WASM:
        wasm_program.write_launcher(options.out, name, content, origin)
    else:
        file.chmod(0o755)
    size = f"{len(content):,} bytes, {len(gzip.compress(content, 9)):,} with gzip"
    print(f"tools/building/programs: {file.name} for {options.target}: {size}. {origin}.")
    return f"{file.name}: SHA-256 {digest_of(content)}, {size}.\n{origin}.\n"


def main(options: argparse.Namespace) -> None:
    names = (options.program,) if options.program else NAMES
    check_tools(options.target)
    with tempfile.TemporaryDirectory() as name_of_folder, ThreadPoolExecutor() as pool:
        folder = pathlib.Path(name_of_folder)
        texts = {name: folder / f"{name}.x86.ll" for name in names}
        modules = modules_of(options, names, folder)
        list(pool.map(lambda name: copy_as_text(modules[name], texts[name]), names))
        origins = {name: origin_of(modules[name], texts[name]) for name in names}
        contents = dict(
            zip(names, pool.map(lambda name: build(options.target, name, texts[name], folder, origins[name]), names))
        )
    options.out.mkdir(parents=True, exist_ok=True)
    lines = [write(options, name, contents[name], origins[name]) for name in names]
    (options.out / "PROVENANCE").write_text(
        f"Kit: {kit_identity()}.\nTarget: {options.target}.\n{''.join(lines)}", "utf-8"
    )


def read_arguments() -> argparse.Namespace:
    usage = "tools/building/programs --target TARGET [--modules FOLDER | --unproved] [--program NAME] OUT"
    parser = argparse.ArgumentParser(
        usage=usage, description=__doc__, formatter_class=argparse.RawDescriptionHelpFormatter
    )
    parser.add_argument("--target", required=True, choices=(*native_program.TARGETS, WASM), help=argparse.SUPPRESS)
    choice = parser.add_mutually_exclusive_group()
    choice.add_argument("--modules", type=pathlib.Path, metavar="FOLDER", help=argparse.SUPPRESS)
    choice.add_argument("--unproved", action="store_true", help=argparse.SUPPRESS)
    parser.add_argument("--program", choices=(*NAMES, *TESTS), help=argparse.SUPPRESS)
    parser.add_argument("out", type=pathlib.Path, metavar="OUT", help=argparse.SUPPRESS)
    return parser.parse_args()


if __name__ == "__main__":
    try:
        main(read_arguments())
    except Refusal as refusal:
        print(f"tools/building/programs: {refusal}", file=sys.stderr)
        sys.exit(2)

"""Proves crates by `rt ci`, and keeps the LLVM modules of vecmon and vecmon-record: tools/building/keep_modules [--kit | CRATE...]

It runs the `rt` of a copy of the kit (tools/building/linked_kit.py) whose clang saves each module (keep_module.c). Arguments, output and
exit status are those of `rt ci`; without arguments that is the whole gate. `rt` stores passed checks in the folder of its kit. The copy is
always in the same place, so that later runs, of any clone on this machine, use the stored checks; those that another kit's `rt ci` stored
don't count. With --kit it only prints the folder of the copy, for other commands that use what is stored.

In ~/.cache/vecmon/KIT, or $XDG_CACHE_HOME/vecmon/KIT:

    kit/, rattle-kept/   the copy of the kit, and what its `rt ci` stores
    captured/            modules and the objects compiled from them, during a run
    modules/PROGRAM.bc   the module of the program with this SHA-256: the object of this module, linked as the kit does, gives this program

A run that proves nothing compiles nothing: it takes the programs from what `rt` stored, even if a proof in a library below has changed.
So a module is found by its program's bytes, and not by the sources.
"""

import fcntl
import glob
import hashlib
import os
import subprocess
import sys
from collections.abc import Callable

from tools.building.linked_kit import cache, installed_kit, link_kit, link_program

TOP = os.path.dirname(os.path.dirname(os.path.dirname(os.path.realpath(__file__))))
PROGRAMS = {
    "vecmon": f"{TOP}/crates/vecmon/out/vecmon",
    "vecmon-record": f"{TOP}/crates/vecmon_record/out/vecmon_record",
}
ENTRIES = (b"vecmon::main", b"vecmon_record::main")  # functions of only these programs


def digest(file: str) -> str:
    with open(file, "rb") as it:
        return hashlib.sha256(it.read()).hexdigest()


def kept_module(program: str) -> str:
    """The file of the module from which the kit compiled the program in a file, whether or not it is there."""
    return f"{cache()}/modules/{digest(program)}.bc"


def advice(name: str) -> str:
    """How to get the module of a program that was proved without it."""
    return f"run rm -rf {cache()}/rattle-kept/proof-{name.replace('-', '_')}-*, and then tools/building/keep_modules"


def link_this_kit(kit: str) -> None:
    """Makes the copy of the kit, or updates it."""
    for folder in ("captured", "modules"):
        os.makedirs(f"{cache()}/{folder}", exist_ok=True)
    built = f"{cache()}/clang.{os.getpid()}"
    names = [f'-DCLANG="{kit}/toolchain/bin/clang"', f'-DFOLDER="{cache()}/captured"']
    subprocess.run(["cc", "-O2", *names, f"{TOP}/tools/building/keep_module.c", "-o", built], check=True)
    link_kit(kit, f"{cache()}/kit", built)
    os.remove(built)


def store(kit: str) -> None:
    """Names the captured modules of the two programs by what their objects link to, and removes the others."""
    for compiled in glob.glob(f"{cache()}/captured/*.o"):
        module = f"{compiled.removesuffix('.o')}.bc"
        with open(module, "rb") as it:
            content = it.read()
        if any(entry in content for entry in ENTRIES):
            link_program(kit, compiled, f"{compiled}.program")
            os.replace(module, kept_module(f"{compiled}.program"))
            os.remove(f"{compiled}.program")
        else:
            os.remove(module)
        os.remove(compiled)


def alone(step: Callable[[str], None], kit: str) -> None:
    """Does a step while no other run of this tool does one."""
    os.makedirs(cache(), exist_ok=True)
    with open(f"{cache()}/lock", "w", encoding="utf-8") as lock:
        fcntl.flock(lock, fcntl.LOCK_EX)
        step(kit)


def main(words: list[str]) -> int:
    kit = installed_kit()
    alone(link_this_kit, kit)
    if words == ["--kit"]:
        print(f"{cache()}/kit")
        return 0
    status = subprocess.run([f"{cache()}/kit/bin/rt", "ci", *words], cwd=TOP).returncode
    alone(store, kit)
    for name, program in PROGRAMS.items():
        if status == 0 and not words and os.path.isfile(program) and not os.path.isfile(kept_module(program)):
            print(f"tools/building/keep_modules: no module of {name} is kept: {advice(name)}", file=sys.stderr)
    return status


if __name__ == "__main__":
    sys.exit(main(sys.argv[1:]))

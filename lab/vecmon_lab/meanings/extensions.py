"""The extensions of RISC-V to which instructions belong, and the tools that lack them (`tables/instruction_extensions.txt`)."""

import functools
from collections.abc import Mapping
from dataclasses import dataclass

from ..instructions.table import instruction_table
from ..tables.table import read_table
from .record import record_of


@dataclass(frozen=True)
class Extension:
    """An extension of RISC-V.

    arch: its name in `-march` and after `.option arch`; empty if all images are compiled for it
    lacked_by: the tools of Debian 12 that don't support it: `as`, `qemu`
    manual: the manual that its records' sections refer to; empty for the Unprivileged ISA and the V extension
    """

    name: str
    arch: str
    lacked_by: frozenset[str]
    manual: str


@functools.cache
def extensions() -> Mapping[str, Extension]:
    """Return all extensions by name, in the order of the list of instructions."""
    found = dict[str, Extension]()
    for name, *cells in read_table("instruction_extensions"):
        arch, lacked_by, manual = ("" if cell == "-" else cell for cell in cells)
        found[name] = Extension(name, arch, frozenset(lacked_by.split()), manual)
    return found


def extension_of(name: str) -> Extension:
    """Return the extension of a mnemonic. Raises LabError if there is no such instruction."""
    return extensions()[record_of(name).extension]


@functools.cache
def names_lacked_by(tool: str) -> frozenset[str]:
    """Return the mnemonics of the instructions whose extension a tool doesn't support. tool: `as` or `qemu`"""
    return frozenset(name for name in instruction_table() if tool in extension_of(name).lacked_by)


@functools.cache
def added_archs(tool: str = "") -> tuple[str, ...]:
    """Return the `-march` names of the machine's extensions, except those for which all images are compiled.

    tool: `as` or `qemu`, to omit the extensions that this tool doesn't support; empty to include all
    """
    used = {extension_of(name).name for name in instruction_table()}
    return tuple(it.arch for it in extensions().values() if it.name in used and it.arch and tool not in it.lacked_by)

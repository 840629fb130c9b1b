"""The instruction set that an image is compiled for, from its section .riscv.attributes (RISC-V ELF psABI, "Attributes")."""

import os
import pathlib
import re
import struct
import sys
from collections.abc import Iterable, Iterator
from typing import Literal

from .. import LabError, mistakes_in
from ..tables.table import read_table
from .image import MARCH

VLEN = 256  # bits of a vector register
_MACHINE, _OBJECT_FILE = 243, 1  # EM_RISCV of e_machine, and ET_REL of e_type
_FLAGS = {1: "compressed instructions", 6: "a floating-point ABI"}  # the features that bits of e_flags require
# The usual names of other machines.
_MACHINES = {"EM_386": "x86", "EM_X86_64": "x86-64", "EM_ARM": "Arm", "EM_AARCH64": "AArch64"}
_FORMAT, _VENDOR = b"A", b"riscv"  # the format of the section, and the vendor of the attributes that the psABI defines
_SCOPE_FILE, _ARCH = 1, 5  # Tag_File, and Tag_RISCV_arch
_SINGLE_LETTERS, _OTHER = re.compile(r"rv(?:32|64)((?:[a-z](?:\d+p\d+)?)+)"), re.compile(r"([a-z]\w*?)(?:\d+p\d+)?")
_TITLES = {"v": "the floating point of V"}  # names for warnings; the machine has the rest of V
_LEAST_VLEN = re.compile(r"zvl(\d+)b")


HEADER_BYTES = 64  # size of the header of an ELF file, and of a section header


class _BadSectionHeaders(Exception):
    """The table of section headers can't be read."""


def check_kind(image: pathlib.Path) -> None:
    """Raise LabError for an ELF file that isn't a RISC-V program, because it is for another machine, or isn't linked.

    Raises OSError if it can't be read.
    """
    with image.open("rb") as file:
        header = file.read(20)
    if header[:4] != b"\x7fELF" or len(header) < 20:
        return
    order: Literal["little", "big"] = "big" if header[5] == 2 else "little"
    kind, machine = (int.from_bytes(header[at : at + 2], order) for at in (16, 18))
    if machine != _MACHINE and (name := _machine_name(machine)):
        raise LabError(f"it is for {name}, and not for RISC-V: compile with {MARCH} -mabi=lp64")
    if machine == _MACHINE and kind == _OBJECT_FILE:
        raise LabError("it is an object file, and no program: link it with -nostdlib -static -no-pie")


def _machine_name(number: int) -> str:
    """Return the name of a machine by its number in e_machine; "" for 0 and for unknown numbers."""
    from elftools.elf.enums import ENUM_E_MACHINE  # not needed for an image for RISC-V

    names = [str(name) for name, value in ENUM_E_MACHINE.items() if value == number != 0]
    return next((_MACHINES.get(name) or name.removeprefix("EM_") for name in names), "")


def check_flags(image: pathlib.Path) -> None:
    """Raise LabError if e_flags show that an image needs features that the machine lacks. Raises OSError if it can't be read."""
    with image.open("rb") as file:
        header = file.read(64)
    is_riscv = header[:6] == b"\x7fELF\2\1" and header[18:20] == _MACHINE.to_bytes(2, "little")
    kinds = [kind for bits, kind in _FLAGS.items() if is_riscv and int.from_bytes(header[48:52], "little") & bits]
    if kinds:
        message = f"it is compiled for {' and '.join(kinds)}, and the machine has none"
        raise LabError(f"{message}: compile with {MARCH} -mabi=lp64")


def report_target(image: pathlib.Path, any_vlen: bool = False, name: object = None) -> None:
    """Print warnings about an image's instruction set on standard error.

    any_vlen: whether to accept an image for longer vector registers
    name: the image's name in messages; by default its path

    Raises LabError as `target_warnings` and `check_flags` do, and OSError if the image can't be read.
    """
    with mistakes_in(name or image):
        check_flags(image)
        warnings = target_warnings(image, any_vlen, ", or run it as it is with --any-vlen")
    sys.stderr.writelines(f"vecmon-lab: warning: {name or image}: {warning}\n" for warning in warnings)


def target_warnings(image: pathlib.Path, any_vlen: bool = False, override: str = "") -> list[str]:
    """Return warnings, as clauses, about features that an image's instruction set has and the machine lacks.

    There are none for a file without the section .riscv.attributes.

    any_vlen: whether to accept an image for longer vector registers
    override: the end of the error message, which names the option that sets any_vlen; "" if there is no such option

    Raises LabError if the image is for longer vector registers, unless any_vlen is set. Raises OSError if it can't be read.
    """
    try:
        arch = _arch_of(image)
        names = [] if arch is None else extensions_of(arch)
    except _BadSectionHeaders:
        return ["its section headers are damaged, so the instruction set that it is compiled for is unknown"]
    except ValueError:
        return ["its section .riscv.attributes is damaged, so the instruction set that it is compiled for is unknown"]
    vlen = max((int(found[1]) for name in names if (found := _LEAST_VLEN.fullmatch(name))), default=0)
    needs = f"it is compiled for vector registers of at least {vlen} bits (zvl{vlen}b), and the machine's have {VLEN}"
    if vlen > VLEN and not any_vlen:
        raise LabError(f"{needs}: compile with {MARCH}{override}")
    warnings = [f"{needs}: its results may be wrong"] if vlen > VLEN else []
    if missing := [_TITLES.get(name, name.capitalize()) for name in _lacking(names)]:
        *others, last = missing
        lacking = f"{', '.join(others)} and {last}" if others else last
        warnings.append(f"it is compiled for {lacking}, which the machine lacks: compile with {MARCH}")
    return warnings


def extensions_of(arch: str) -> list[str]:
    """Return the names of the extensions in an arch string such as `rv64i2p1_m2p0_zve64x1p0`, without their versions.

    Raises ValueError if the string has another form.
    """
    first, *others = arch.lower().split("_")
    letters, names = _SINGLE_LETTERS.fullmatch(first), [_OTHER.fullmatch(other) for other in others]
    if letters is None or None in names:
        raise ValueError(f"{arch} is no instruction set of RISC-V")
    return [*re.findall(r"([a-z])(?:\d+p\d+)?", letters[1]), *(name[1] for name in names if name)]


def _lacking(names: Iterable[str]) -> Iterator[str]:
    """Yield those of the extensions that the machine lacks, except extensions that another missing extension implies."""
    kinds, implied = {}, {}
    for name, kind, *others in read_table("extensions"):
        kinds[name], implied[name] = kind, " ".join(others).split()
    lacking = [name for name in names if kinds.get(name, "lacks") == "lacks" and not _LEAST_VLEN.fullmatch(name)]
    left_out = {each for name in lacking for each in implied.get(name, ())}
    yield from (name for name in lacking if name not in left_out)


def _arch_of(image: pathlib.Path) -> str | None:
    """Return the arch string of an image; None if it has none.

    Raises _BadSectionHeaders if the table can't be read, ValueError if the section is damaged, and OSError if the file can't be read.
    """
    from elftools.elf.elffile import ELFFile  # imported only when an image is read

    with image.open("rb") as file:
        header = file.read(HEADER_BYTES)
        if header[:6] != b"\x7fELF\2\1" or len(header) < HEADER_BYTES:  # `load` refuses such a file
            return None
        _check_section_headers(header, file.seek(0, os.SEEK_END))
        try:
            elf = ELFFile(file)
            found = [each for each in elf.iter_sections() if each.name == ".riscv.attributes"]
        except Exception as error:  # pylint: disable=broad-except  # pyelftools raises what its parts do
            raise _BadSectionHeaders from error
        try:
            content = found[0].data() if found else b""
        except Exception as error:  # pylint: disable=broad-except  # pyelftools raises what its parts do
            raise ValueError("the section is outside the file") from error
    if not found:
        return None
    values = [value for vendor, value in _subsections(content) if vendor == _VENDOR]
    return next((arch for value in values for arch in _archs(value)), None)


def _check_section_headers(header: bytes, size: int) -> None:
    """Raise _BadSectionHeaders if the section headers of an ELF file have an unusual size, or are outside the file.

    header: the first bytes of the file; size: its number of bytes
    """
    (table,), (entry_bytes, number) = struct.unpack_from("<Q", header, 40), struct.unpack_from("<2H", header, 58)
    if table and (
        entry_bytes != HEADER_BYTES or table + entry_bytes * max(number, 1) > size
    ):  # if the number is 0, the first section header has it
        raise _BadSectionHeaders


def _subsections(content: bytes) -> Iterator[tuple[bytes, bytes]]:
    """Yield the vendor and the content of each subsection of a section of attributes. Raises ValueError."""
    if content[:1] != _FORMAT:
        raise ValueError("another format")
    at = 1
    while at < len(content):
        length = int.from_bytes(content[at : at + 4], "little")
        vendor, ending, value = content[at + 4 : at + length].partition(b"\0")
        if not ending or at + length > len(content):
            raise ValueError("a subsection is cut off")
        yield vendor, value
        at += length


def _archs(value: bytes) -> Iterator[str]:
    """Yield the arch strings in the attributes of the whole file. Raises ValueError if they are damaged. value: of a subsection"""
    at = 0
    while at < len(value):
        scope, length = value[at], int.from_bytes(value[at + 1 : at + 5], "little")
        if length < 5 or at + length > len(value):
            raise ValueError("attributes are cut off")
        if scope == _SCOPE_FILE:
            yield from _values_of(_ARCH, value[at + 5 : at + length])
        at += length


def _values_of(wanted: int, attributes: bytes) -> Iterator[str]:
    """Yield the texts of a tag among attributes. Raises ValueError if they are damaged. wanted: the tag, an odd number

    The value of an even tag is a number (ULEB128). The value of an odd tag is a text that ends with a zero byte.
    """
    rest = attributes
    while rest:
        tag, rest = _number(rest)
        if tag % 2 == 0:
            _, rest = _number(rest)
            continue
        text, ending, rest = rest.partition(b"\0")
        if not ending:
            raise ValueError("a text is cut off")
        if tag == wanted:
            yield text.decode("ascii")


def _number(data: bytes) -> tuple[int, bytes]:
    """Return a number in ULEB128, and the bytes after it. Raises ValueError if it is incomplete."""
    number = 0
    for at, byte in enumerate(data):
        number |= (byte & 0x7F) << 7 * at
        if byte < 0x80:
            return number, data[at + 1 :]
    raise ValueError("a number is cut off")

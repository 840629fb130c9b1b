"""Sections and functions of a WebAssembly module in its binary format (WebAssembly Core Specification 2.0, chapter 5)."""

from collections.abc import Collection, Iterable

HEADER = 8  # bytes
CUSTOM, IMPORT, CODE = 0, 2, 10  # sections
FUNCTION = 0  # a kind of import
FUNCTION_NAMES = 1  # a subsection of the section "name"


def with_bodies(module: bytes, original: bytes, changed: Collection[str]) -> bytes:
    """Return the module with the function bodies of the original, except those of the functions named in `changed`.

    The module is a tool's version of the original: it has the same functions in the same order, and perhaps more after them. Both have a
    section "name". Raises ValueError if a function has another name or another index, or if no function has a name in `changed`.
    """
    names, first = function_names(original), len(import_entries(original))
    new, old = bodies(module), bodies(original)
    new_names, unknown = function_names(module), [name for name in changed if name not in names.values()]
    renamed = [name for index, name in names.items() if new_names.get(index) != name] + unknown
    if renamed or first != len(import_entries(module)) or len(new) < len(old):
        raise ValueError(f"functions have other indices: {', '.join(renamed[:3])}")
    kept = [
        body if names[first + index] in changed else old[index] for index, body in enumerate(new[: len(old)])
    ] + new[len(old) :]
    code = encoded(len(kept)) + b"".join(encoded(len(body)) + body for body in kept)
    return _joined(module, ((kind, code if kind == CODE else content) for kind, content in sections(module)))


def without_names(module: bytes) -> bytes:
    """Return the module without its custom sections."""
    return _joined(module, ((kind, content) for kind, content in sections(module) if kind != CUSTOM))


def _joined(module: bytes, parts: Iterable[tuple[int, bytes]]) -> bytes:
    return module[:HEADER] + b"".join(bytes([kind]) + encoded(len(content)) + content for kind, content in parts)


def sections(module: bytes) -> list[tuple[int, bytes]]:
    """Return the sections in their order: each a kind and its content."""
    found, at = list[tuple[int, bytes]](), HEADER
    while at < len(module):
        size, start = number(module, at + 1)
        found.append((module[at], module[start : start + size]))
        at = start + size
    return found


def section(module: bytes, kind: int) -> bytes:
    """Return the content of the only section of a kind; without one, that of an empty list."""
    return next((content for found, content in sections(module) if found == kind), encoded(0))


def bodies(module: bytes) -> list[bytes]:
    """Return the body of each function that the module defines."""
    content = section(module, CODE)
    count, at = number(content, 0)
    found = list[bytes]()
    for _ in range(count):
        size, start = number(content, at)
        found.append(content[start : start + size])
        at = start + size
    return found


def import_entries(module: bytes) -> list[tuple[str, str]]:
    """Return module and name of each import. Raises ValueError for an import that isn't a function."""
    content = section(module, IMPORT)
    count, at = number(content, 0)
    found = list[tuple[str, str]]()
    for _ in range(count):
        home, at = text(content, at)
        name, at = text(content, at)
        if content[at] != FUNCTION:
            raise ValueError(f"the import {home}.{name} isn't a function")
        _, at = number(content, at + 1)
        found.append((home, name))
    return found


def function_names(module: bytes) -> dict[int, str]:
    """Return the name of each function by its index, which counts imports first. Raises ValueError without a section "name"."""
    for kind, content in sections(module):
        if kind == CUSTOM and text(content, 0)[0] == "name":
            at = text(content, 0)[1]
            while content[at] != FUNCTION_NAMES:
                size, at = number(content, at + 1)
                at += size
            return _names(content, number(content, at + 1)[1])
    raise ValueError("the module has no names")


def _names(content: bytes, at: int) -> dict[int, str]:
    count, at = number(content, at)
    found = dict[int, str]()
    for _ in range(count):
        index, at = number(content, at)
        found[index], at = text(content, at)
    return found


def text(content: bytes, at: int) -> tuple[str, int]:
    """Return the text at an offset, and the offset after it."""
    size, at = number(content, at)
    return content[at : at + size].decode(), at + size


def number(content: bytes, at: int) -> tuple[int, int]:
    """Return the unsigned number (LEB128) at an offset, and the offset after it."""
    value = shift = 0
    while True:
        byte = content[at]
        at += 1
        value |= (byte & 0x7F) << shift
        shift += 7
        if byte < 0x80:
            return value, at


def encoded(value: int) -> bytes:
    """Return an unsigned number as LEB128."""
    found = bytearray()
    while value >= 0x80:
        found.append(value & 0x7F | 0x80)
        value >>= 7
    return bytes([*found, value])

"""A WebAssembly module written byte by byte: it imports host.read, and defines two functions, f and g."""

import pytest

from tests.webassembly.tools import load

BINARY = load("wasm_binary")
EMPTY, NOP = "02 00 0b", "03 00 01 0b"  # bodies with their sizes: no locals, no instruction or one, end
START = "00 61 73 6d 01 00 00 00 01 04 01 60 00 00 02 0d 01 04 68 6f 73 74 04 72 65 61 64 00 00"


def module(functions: str, code: str, names: str) -> bytes:
    """A module of these sections; it begins with one type, that of all functions, and the import."""
    return bytes.fromhex(f"{START} {functions} {code} {names}")


TWO = "03 03 02 00 00"
NAMES = "00 14 04 6e 61 6d 65 01 0d 03 00 04 72 65 61 64 01 01 66 02 01 67"
OTHER_NAMES = "00 14 04 6e 61 6d 65 01 0d 03 00 04 72 65 61 64 01 01 67 02 01 66"
ORIGINAL = module(TWO, f"0a 07 02 {EMPTY} {EMPTY}", NAMES)


def test_leb128_numbers_are_encoded() -> None:
    """The example of the DWARF 5 standard, section 7.6: 128 is 80 01 and 12857 is b9 64."""
    for value, content in ((2, "02"), (127, "7f"), (128, "80 01"), (12857, "b9 64")):
        assert BINARY.encoded(value) == bytes.fromhex(content)
        assert BINARY.number(bytes.fromhex(f"ff {content} 07"), 1) == (value, 1 + len(bytes.fromhex(content)))


def test_imports_and_names_are_read() -> None:
    assert BINARY.import_entries(ORIGINAL) == [("host", "read")]
    assert BINARY.function_names(ORIGINAL) == {0: "read", 1: "f", 2: "g"}
    assert BINARY.without_names(ORIGINAL) == module(TWO, f"0a 07 02 {EMPTY} {EMPTY}", "")


def test_only_changed_functions_get_new_bodies() -> None:
    """g gets its new body, and the function after it is unchanged."""
    changed = module("03 04 03 00 00 00", f"0a 0d 03 {NOP} {NOP} {NOP}", NAMES)
    expected = module("03 04 03 00 00 00", f"0a 0c 03 {EMPTY} {NOP} {NOP}", NAMES)
    assert BINARY.with_bodies(changed, ORIGINAL, ["g"]) == expected


@pytest.mark.parametrize(
    "changed",
    [module(TWO, f"0a 07 02 {EMPTY} {EMPTY}", OTHER_NAMES), module("03 02 01 00", f"0a 04 01 {EMPTY}", NAMES)],
)
def test_changed_function_order_is_refused(changed: bytes) -> None:
    with pytest.raises(ValueError, match="functions have other indices"):
        BINARY.with_bodies(changed, ORIGINAL, [])


def test_unknown_function_is_refused() -> None:
    with pytest.raises(ValueError, match="functions have other indices: h"):
        BINARY.with_bodies(ORIGINAL, ORIGINAL, ["g", "h"])

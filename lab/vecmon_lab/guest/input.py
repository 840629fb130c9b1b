"""A file as the input of a program, which reads it from its memory, since the machine has no call that reads."""

import pathlib

from .. import LabError
from .symbols import Symbols

SIZE_BYTES = 8
MEMORY_BYTES = 1 << 20  # the most memory that a user can have


def input_of(image: pathlib.Path, file: pathlib.Path) -> dict[int, bytes]:
    """Return the bytes to write to memory, by address: the file at the symbol `input`, and its size in 8 bytes at `input_size`.

    Raises LabError if the image lacks one of these symbols or has too little room there, and OSError if a file can't be read.
    """
    symbols = Symbols.read(image)
    place, size_place = map(symbols.addresses.get, ("input", "input_size"))
    if place is None or size_place is None:
        missing = "input_size" if size_place is None and place is not None else "input"
        raise LabError(f"symbol {missing} not found; a program needs input and input_size to get a file")
    room = min(symbols.room("input"), MEMORY_BYTES)
    with file.open("rb") as opened:
        data = opened.read(room + 1)
    if len(data) > room:
        raise LabError(f"{file} has more than the {room:,} bytes of the symbol input")
    if symbols.room("input_size") < SIZE_BYTES:
        raise LabError(f"symbol input_size has fewer than {SIZE_BYTES} bytes; make it a size_t")
    return {place: data, size_place: len(data).to_bytes(SIZE_BYTES, "little")}

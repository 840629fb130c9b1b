"""The state in which an image of the lab's assembler starts: its return address, and the end of its instructions."""

import pathlib
import struct
from typing import NamedTuple

from ..machine.program import segments_of
from ..machine.start_state import RETURN
from .symbols import Symbols

END_SYMBOL = "etext"
"""The linkers' name for the address after the last instruction. The lab's images have an ebreak there."""


class ImageStart(NamedTuple):
    """The start of an image.

    commands: the commands to send after `load`, without the user's digit
    end: the address after the last instruction, where the ebreak is; 0 if it is unknown
    """

    commands: tuple[str, ...] = ()
    end: int = 0


def image_start(path: pathlib.Path) -> ImageStart:
    """Return the start of an image. It is empty if the image can't be read, or if the lab didn't assemble it."""
    try:
        pages = {address: rights for address, rights, _, _ in segments_of(path.read_bytes())}
    except (OSError, struct.error):  # the machine refuses it as well
        return ImageStart()
    if "x" not in pages.get(RETURN, ""):
        return ImageStart()
    return ImageStart((f"set x1 {RETURN:x}",), Symbols.read(path).addresses.get(END_SYMBOL, 0))

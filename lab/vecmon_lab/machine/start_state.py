"""The state in which a program starts that monitor lines load: its stack, its return address, and its global pointer.

The lab adds these lines to each assembler or C source that it loads, so that programs start in the same way everywhere. The commands
`enter` and `load`, and scripts, don't have them.
"""

from collections.abc import Mapping

from .image import STACK_PAGES

_PAGE_BYTES = 4096
STACK_END, STACK_BYTES = STACK_PAGES.stop, len(STACK_PAGES)
STACK_POINTER = STACK_END - 64
"""x2 at the start, as `load` leaves it."""

RETURN = STACK_END
"""The address to which a program returns, the value of x1 at the start. An ebreak is there, in a page of its own."""

EBREAK = bytes.fromhex("73001000")
GLOBAL_POINTER = "__global_pointer$"
"""The symbol whose address x3 has at the start, as linkers call it."""

STACK = (f"map {STACK_PAGES.start:x} {STACK_BYTES // _PAGE_BYTES} rw", f"set x2 {STACK_POINTER:x}")
RETURN_PAGE = (f"map {RETURN:x} 1 rx", f"poke {RETURN:x} {EBREAK.hex()}", f"set x1 {RETURN:x}")
START = (*STACK, *RETURN_PAGE)
"""The lines of every start, without the user's digit."""

START_PAGES = STACK_BYTES // _PAGE_BYTES + 1
"""The number of pages that the start state needs. A user has 256 pages."""


def start_lines(labels: Mapping[str, int]) -> list[str]:
    """Return the lines that set up the start state, without the user's digit. Send them after the lines that load the program.

    labels: the addresses of the program's labels, by name
    """
    pointer = [f"set x3 {labels[GLOBAL_POINTER]:x}"] if GLOBAL_POINTER in labels else []
    return [*START, *pointer]

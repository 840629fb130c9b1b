"""The compiler's option for the machine's instruction set, the pages of the stack, and the permissions of segments."""

MARCH = "-march=rv64im_zicsr_zve64x_zvl256b"
"""The compiler's option for the machine's instruction set, as docs/COMPILING.md has it."""

STACK_PAGES = range(0x7FFF_B000, 0x7FFF_F000)
"""The addresses of the stack that `load` maps, and that compiled sources have."""

RIGHTS = {"r": 4, "w": 2, "x": 1}  # the bit of p_flags for each permission


def rights_of(flags: int) -> str:
    """Return the permissions in p_flags of a segment, such as `rx`."""
    return "".join(letter for letter, bit in RIGHTS.items() if flags & bit)

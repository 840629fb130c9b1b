"""Where a part of a function is entered, by its branches and jumps (Unprivileged ISA 20191213, sections 2.3 and 2.5).

A compiler may rotate a loop, so that its first instruction comes after its last one. So an inlined copy isn't always entered at
its lowest address.
"""

from collections.abc import Iterator, Sequence
from typing import TYPE_CHECKING

if TYPE_CHECKING:
    from elftools.elf.elffile import ELFFile

Ranges = Sequence[tuple[int, int]]
"""Address ranges: the first address of each range, and the address after its last one."""

_CODE = 4  # SHF_EXECINSTR: the section has instructions
_ADDRESSES = (1 << 64) - 1
_BRANCH, _JUMP, _JUMP_TO_REGISTER, _SYSTEM = 0x63, 0x6F, 0x67, 0x73  # opcodes
_LINKS = (1, 5)  # registers with return addresses


class Code:
    """The 32-bit instructions of an ELF file."""

    def __init__(self, elf: "ELFFile") -> None:
        sections = [
            each for each in elf.iter_sections() if each["sh_flags"] & _CODE and each["sh_type"] != "SHT_NOBITS"
        ]
        self._sections = [(each["sh_addr"], each.data()) for each in sections]

    def word(self, address: int) -> int:
        """Return the word at an address; if there is none, 0, which isn't an instruction."""
        for start, data in self._sections:
            if start <= address < start + len(data):
                return int.from_bytes(data[address - start : address - start + 4], "little")
        return 0

    def entries(self, part: Ranges, whole: Ranges) -> list[int]:
        """Return the addresses where paths from a function's first instruction first reach a part of the function, in rising order.

        A path isn't followed after it has reached the part, so an address where it would come back to the part isn't among them.
        There are no addresses if only a jump to an address in a register enters the part.

        part, whole: the address ranges of the part and of the function
        """
        waiting, seen, found = [whole[0][0]], set[int](), set[int]()
        while waiting:
            address = waiting.pop()
            if _is_in(part, address):
                found.add(address)
            elif address not in seen and _is_in(whole, address) and (word := self.word(address)):
                seen.add(address)
                waiting += _targets(address, word)
        return sorted(found)


def _is_in(ranges: Ranges, address: int) -> bool:
    """Return whether an address is in one of the ranges."""
    return any(first <= address < end for first, end in ranges)


def is_call(word: int) -> bool:
    """Return whether an instruction is a jump that saves a return address."""
    return word & 0x7F in (_JUMP, _JUMP_TO_REGISTER) and word >> 7 & 31 in _LINKS


def may_jump(word: int) -> bool:
    """Return whether another word than the next one may be executed after an instruction: a branch, a jump, a call or `ebreak`."""
    return word & 0x7F in (_BRANCH, _JUMP, _JUMP_TO_REGISTER, _SYSTEM)


def is_return(word: int) -> bool:
    """Return whether an instruction is a jump to a return address."""
    return word & 0x7F == _JUMP_TO_REGISTER and word >> 7 & 31 == 0 and word >> 15 & 31 in _LINKS


def jump_target(address: int, word: int) -> int | None:
    """Return the address to which a branch or `jal` at an address may go; None for another instruction."""
    opcode, sign = word & 0x7F, -(word >> 31)
    if opcode == _BRANCH:
        offset = sign << 12 | (word >> 7 & 1) << 11 | (word >> 25 & 0x3F) << 5 | (word >> 8 & 15) << 1
    elif opcode == _JUMP:
        offset = sign << 20 | (word >> 12 & 0xFF) << 12 | (word >> 20 & 1) << 11 | (word >> 21 & 0x3FF) << 1
    else:
        return None
    return address + offset & _ADDRESSES


def _targets(address: int, word: int) -> Iterator[int]:
    """Yield the addresses of instructions that may be executed after an instruction. A call is also followed by the next word.

    address, word: the address and the word of the instruction
    """
    opcode, rd, target = word & 0x7F, word >> 7 & 31, jump_target(address, word)
    if target is not None:
        yield target
    if opcode not in (_JUMP, _JUMP_TO_REGISTER) or rd:
        yield address + 4

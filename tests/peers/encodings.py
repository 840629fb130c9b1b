"""Words and texts of instructions: `vecmon`'s assembler and disassembler compared with those of GNU binutils and LLVM."""

import random
import re
from collections.abc import Callable, Mapping, Sequence

from tests.peers.tally import Tally
from tests.peers.tools import (
    assembled,
    disassembled,
    gnu_assembled,
    gnu_disassembled,
    llvm_assembled,
    llvm_disassembled,
)
from vecmon_lab.instructions.table import instruction_table
from vecmon_lab.meanings.extensions import added_archs, names_lacked_by

Assembler = Callable[[Sequence[str]], tuple[list[int], Mapping[int, str]]]
Disassembler = Callable[[Sequence[int]], list[str]]

FENCE = 0x0F
FENCE_IORW = 0x0FF0000F
OPCODES = sorted({row.opcode for row in instruction_table().values()})
JUMPS = ("jal ", "beq ", "bne ", "blt ", "bge ", "bltu ", "bgeu ")

OVERLAP = "llvm-mc refuses operands that overlap, which vecmon refuses when it executes them"
OTHER_FENCE = "a fence other than fence iorw, iorw is .word in vecmon"
ODD_REGISTERS = "llvm-mc takes whole-register loads, stores and moves only of aligned registers"
LACKED = "binutils 2.40 lacks the extension of the instruction"
NO_INSTRUCTION = "another instruction of an extension that vecmon has in part"
OTHER_NAME = "the name of a control register that vecmon takes only by its number"
_OVERLAPS = re.compile(r"the destination vector register group cannot (overlap|be V0)")
_WHOLE = re.compile(r"v(?:l|s|mv)([248])r")
_VECTOR_CONTROL = ("vstart", "vxsat", "vxrm", "vcsr", "vl", "vtype", "vlenb")


def words_of_names(count: int, seed: int) -> list[int]:
    """A number of words of each name, with random operands."""
    draws = random.Random(f"names {seed}")
    return [row.word(draws.getrandbits(32)) for row in instruction_table().values() for _ in range(count)]


def random_words(count: int, seed: int) -> list[int]:
    """Words of 32 bits by their lowest two: most with an opcode of an instruction, vector ones more often."""
    draws, vector = random.Random(f"words {seed}"), [0x57, 0x07, 0x27]
    words = [draws.getrandbits(25) << 7 | draws.choice([*OPCODES, *vector * 3]) for _ in range(count - count // 5)]
    others = (draws.getrandbits(32) | 3 for _ in range(2 * count))
    return words + [word for word in others if word & 0x1C != 0x1C][: count // 5]


def compare_assembler(name: str, assembler: Assembler, words: Sequence[int]) -> Tally:
    """Passes `vecmon`'s text of each word to an assembler, which should give the word.

    Words of instructions that `as` lacks are left out.
    """
    tally = Tally(f"texts of vecmon, assembled by {name}")
    known = [(word, text) for word, text in zip(words, disassembled(words), strict=True) if not _is_lacked(name, text)]
    if len(known) < len(words):
        tally.left_out[LACKED] += len(words) - len(known)
    words, texts = [word for word, _ in known], [text for _, text in known]
    given, refused = assembler([dotted(text) if name == "as" else text for text in texts])
    results = iter(given)
    for at, (word, text) in enumerate(zip(words, texts, strict=True)):
        if at not in refused:
            found = next(results)
            _count(tally, found == word, f"{word:08x} {text}: {found:08x}")
        elif _OVERLAPS.search(refused[at]):
            tally.left_out[OVERLAP] += 1
        elif _has_odd_registers(text):
            tally.left_out[ODD_REGISTERS] += 1
        else:
            tally.differing.append(f"{word:08x} {text}: {refused[at]}")
    return tally


def compare_disassembler(name: str, disassembler: Disassembler, words: Sequence[int]) -> Tally:
    """Compares names of words, and assembles the other disassembler's texts by `vecmon`, which should give the words."""
    tally = Tally(f"words, disassembled by {name}: names, and its texts assembled by vecmon")
    mine, theirs = disassembled(words), disassembler(words)
    again = iter(assembled([plain(text, name == "objdump", 4 * at) for at, text in enumerate(theirs) if text]))
    for word, text, other in zip(words, mine, theirs, strict=True):
        told, back = f"{word:08x} {text}: {other or 'no instruction'}", next(again) if other else None
        if word & 0x7F == FENCE and word != FENCE_IORW and other:
            tally.left_out[OTHER_FENCE] += 1
        elif not other and _has_odd_registers(text):
            tally.left_out[ODD_REGISTERS] += 1
        elif not other and _is_lacked(name, text):
            tally.left_out[LACKED] += 1
        elif text.startswith(".word") and _is_of_added_extension(other):
            tally.left_out[NO_INSTRUCTION] += 1
        elif not other or text.startswith(".word"):
            _count(tally, not other and text.startswith(".word"), told)
        elif text.split()[0] == other.split()[0] and back is None and _has_other_control_register(other):
            tally.left_out[OTHER_NAME] += 1
        else:
            _count(tally, text.split()[0] == other.split()[0] and back == word, told)
    return tally


def dotted(text: str) -> str:
    """A text with the distance of a branch as `as` takes it, from the place of the instruction."""
    if not text.startswith(JUMPS):
        return text
    registers, _, distance = text.rpartition(" ")
    return f"{registers} .{int(distance):+d}"


def plain(text: str, has_addresses: bool, address: int) -> str:
    """A text of another disassembler as `vecmon` takes it: no comment, and the distance of a branch."""
    text = re.sub(r"\s+", " ", re.sub(r" *[#<].*", "", text)).strip()
    if has_addresses and text.startswith(JUMPS):
        first, _, target = text.rpartition(",")
        return f"{first}, {_signed(int(target, 16) - address)}"
    return "fence" if text in ("fence iorw, iorw", "fence iorw,iorw") else text


def compare(names: int, count: int, seed: int) -> list[Tally]:
    """All comparisons, of a number of words of each name, and of a number of random words."""
    words = words_of_names(names, seed)
    both = words + random_words(count, seed)
    tallies = [compare_assembler("as", gnu_assembled, words), compare_assembler("llvm-mc", llvm_assembled, words)]
    tallies += [compare_disassembler("objdump", gnu_disassembled, both)]
    return [*tallies, compare_disassembler("llvm-mc", llvm_disassembled, both)]


def _is_lacked(tool: str, text: str) -> bool:
    """Whether the tool is of GNU binutils, and these lack the extension of an instruction."""
    return tool in ("as", "objdump") and text.split()[0] in names_lacked_by("as")


def _is_of_added_extension(text: str) -> bool:
    """Whether a text of another disassembler has a name that `vecmon` lacks, while it has a part of added extensions."""
    return bool(text) and bool(added_archs()) and text.split()[0] not in instruction_table()


def _signed(distance: int) -> int:
    """A distance between addresses of 64 bits."""
    return (distance + (1 << 63)) % (1 << 64) - (1 << 63)


def _has_other_control_register(text: str) -> bool:
    """Whether a text names a control register by a name that `vecmon` doesn't have."""
    names = re.split(r"[\s,]+", text)
    return names[0].startswith("csrr") and not names[2][0].isdigit() and names[2] not in _VECTOR_CONTROL


def _has_odd_registers(text: str) -> bool:
    """Whether an instruction of 2, 4 or 8 whole registers names a register whose number isn't a multiple of that."""
    whole = _WHOLE.match(text)
    return whole is not None and any(int(number) % int(whole[1]) for number in re.findall(r"\bv(\d+)\b", text))


def _count(tally: Tally, agrees: bool, told: str) -> None:
    if agrees:
        tally.agreeing += 1
    else:
        tally.differing.append(told)

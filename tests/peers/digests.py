"""Names of random words: the counts and digests that `test_assembler` stores, derived from other disassemblers."""

import re
from collections.abc import Iterator, Sequence
from pathlib import Path

from tests.isolation.draws import Draws
from tests.peers.encodings import FENCE, FENCE_IORW
from tests.peers.tally import Tally
from tests.peers.tools import gnu_disassembled, llvm_disassembled
from vecmon_lab.instructions.table import instruction_table

STORED = Path(__file__).parents[2] / "crates/test_assembler/stdout"
_LINE = re.compile(r"^(?:opcode (\w\w)|any opcode): (\d+) words, (.*), 0 wrong$", re.MULTILINE)
_SEED = 1  # of the words, as in `test_assembler`


def drawn() -> Iterator[tuple[str, list[int], str]]:
    """The words of each stored line, in its order: the opcode in hexadecimal or `any`, the words, and the stored result."""
    draws = Draws(_SEED)
    for opcode, count, stored in _LINE.findall(STORED.read_bytes().decode("latin-1")):
        words = [draws.word() for _ in range(int(count))]
        yield opcode or "any", [word & ~0x7F | int(opcode, 16) for word in words] if opcode else words, stored


def names_of(words: Sequence[int]) -> list[str]:
    """The name of each word by `objdump`, else by `llvm-mc`, which knows more extensions; `.word` for other words.

    All fences except `fence iorw, iorw` have the name `.word`, and so has a name that docs/INSTRUCTIONS.md doesn't list.
    """
    wide = [word for word in words if word & 3 == 3 and word & 0x1C != 0x1C]  # instructions of 32 bits
    texts = zip(wide, gnu_disassembled(wide), llvm_disassembled(wide), strict=True)
    named = {word: gnu or llvm for word, gnu, llvm in texts if word & 0x7F != FENCE or word == FENCE_IORW}
    names = ((named.get(word) or ".word").split()[0] for word in words)
    return [name if name in instruction_table() else ".word" for name in names]


def result_of(words: Sequence[int]) -> str:
    """The number of instructions, and the 32-bit FNV-1a digest of the words' names, each followed by a byte 0A."""
    names, digest = names_of(words), 0x811C9DC5
    for byte in "".join(f"{name}\n" for name in names).encode("ascii"):
        digest = (digest ^ byte) * 0x01000193 % (1 << 32)
    count = sum(name != ".word" or word & 0x707F == FENCE for word, name in zip(words, names, strict=True))
    return f"{count} instructions, names {digest:08x}"


def compare(*opcodes: str) -> Tally:
    """Compares the stored lines of these opcodes, by default all, with derived ones."""
    tally = Tally("names of random words in test_assembler/stdout, derived from objdump and llvm-mc")
    for opcode, words, stored in drawn():
        if not opcodes or opcode in opcodes:
            derived = result_of(words)
            if derived == stored:
                tally.agreeing += 1
            else:
                tally.differing.append(f"opcode {opcode}: derived {derived}, stored {stored}")
    return tally

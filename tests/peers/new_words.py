"""Adds words and texts of new instructions to the crate `test_assembler`: `python -m tests.peers.new_words`.

Run it at the top of the repository, after `tools/instructions`. The names are those of the list of instructions that the crate's
`data/spellings` lacks. Words are drawn; `llvm-mc` gives the text of each, and has to assemble it to the same word. The program writes
`data/encodings`, `data/spellings` and their lines in `stdout`, with the counts and digests of opcodes (`digests.py`), and prints the words and
texts. No result is `vecmon`'s. Compare them with the manual before you commit them.
"""

import random
import shutil
import sys
from collections import defaultdict
from collections.abc import Iterator, Sequence

from tests.peers import digests
from tests.peers.encodings import plain
from tests.peers.tools import llvm_assembled, llvm_disassembled
from vecmon_lab.instructions.table import Row, instruction_table

DATA = digests.STORED.parent / "data"
WORDS, TRIES = 8, 64  # of a name: the stored words, at most, and the drawn ones
OPCODE = 0x7F
LAST_OF_LIST = "| `.word number` |"


def is_installed(tool: str) -> bool:
    """Whether a tool is there."""
    return shutil.which(tool) is not None


def drawn_words(row: Row) -> list[tuple[int, str]]:
    """Return encodings of a name with their texts, half of them masked if it may be masked. They depend only on the name."""
    draws = random.Random(f"words of {row.name}")
    words = [row.word(draws.getrandbits(32)) for _ in range(TRIES)]
    texts = [plain(text, False, 0) for text in llvm_disassembled(words)]
    named = [(word, text) for word, text in zip(words, texts, strict=True) if text.split()[:1] == [row.name]]
    again, refused = llvm_assembled([text for _, text in named])
    results = iter(again)
    equal = [pair for at, pair in enumerate(named) if at not in refused and next(results) == pair[0]]
    masked = [pair for pair in equal if pair[1].endswith("v0.t")]
    plain_ones = [pair for pair in equal if not pair[1].endswith("v0.t")]
    count = WORDS // 2 if masked else WORDS
    return sorted(plain_ones[:count]) + sorted(masked[: WORDS - count])


class StoredWords:
    """The stored words and texts of `test_assembler`, and the lines that it prints for them."""

    def __init__(self) -> None:
        self.words = (DATA / "encodings").read_text("ascii").splitlines()
        self.texts = (DATA / "spellings").read_text("latin-1").split("\n")
        self.output = digests.STORED.read_bytes().decode("latin-1").split("\n")
        last = next(at for at, line in enumerate(self.output) if line.startswith(LAST_OF_LIST))
        self._first_word = last + 1
        self._fixed = defaultdict[int, list[tuple[str, int, int]]](list)
        for row in instruction_table().values():
            mask, bits = row.bits.replace("0", "1").replace("-", "0"), row.bits.replace("-", "0")
            self._fixed[row.opcode].append((row.name, int(mask, 2), int(bits, 2)))

    @property
    def _first_text(self) -> int:
        """The printed line of the first text, after those of the words and the count of generated words."""
        return self._first_word + len(self.words) + 1

    def missing(self) -> list[str]:
        """The names of the list of instructions without a text."""
        found = {name for line in self.texts for name in line.split()[1:2]}
        return [name for name in instruction_table() if name not in found]

    def add(self, name: str, found: Sequence[tuple[int, str]]) -> None:
        """Add words and texts of a name after those of the names before it in the list of instructions."""
        names = list(instruction_table())
        before = names[: names.index(name)][::-1]
        place = _end_of_run([(line.split() + ["", ""])[1] for line in self.texts], before)
        texts = [f"{word:08x} {text}" for word, text in found]
        self.output[self._first_text + place : self._first_text + place] = texts
        self.texts[place:place] = texts
        self._print_instruction(name)
        place = _end_of_run([self._name_of(int(word, 16)) for word in self.words], before)
        words = [f"{word:08x}" for word, _ in found]
        self.output[self._first_word + place : self._first_word + place] = [f"{word} yes {word}" for word in words]
        self.words[place:place] = words

    def _print_instruction(self, name: str) -> None:
        """Store encodings of a name as instructions that were stored as none."""
        for at, word in enumerate(self.words):
            if self._name_of(int(word, 16)) == name:
                self.output[self._first_word + at] = f"{word} yes {word}"

    def _name_of(self, word: int) -> str:
        """The name of a word; empty if it is no instruction."""
        return next((name for name, mask, bits in self._fixed[word & OPCODE] if not (word ^ bits) & mask), "")

    def write(self) -> None:
        """Write the three files."""
        (DATA / "encodings").write_text("".join(f"{word}\n" for word in self.words), "ascii")
        (DATA / "spellings").write_bytes("\n".join(self.texts).encode("latin-1"))
        digests.STORED.write_bytes("\n".join(self.output).encode("latin-1"))


def _end_of_run(found: Sequence[str], names: Sequence[str]) -> int:
    """The place after the first run of lines of the first of these names that is there; `found` has the name of each line."""
    name = next(name for name in names if name in found)
    place = found.index(name)
    while found[place : place + 1] == [name]:
        place += 1
    return place


def digest_changes(opcodes: set[int]) -> Iterator[tuple[str, str]]:
    """The stored results of random words of these opcodes, and of any opcode, each with the derived one."""
    for opcode, words, stored in digests.drawn():
        if opcode == "any" or int(opcode, 16) in opcodes:
            yield stored, digests.result_of(words)


def main() -> int:
    stored, opcodes = StoredWords(), set[int]()
    for name in stored.missing():
        found = drawn_words(instruction_table()[name])
        if not found:
            print(f"llvm-mc has no word of {name}: is its extension in instruction_extensions.txt?")
            return 1
        stored.add(name, found)
        opcodes.add(instruction_table()[name].opcode)
        print(*(f"{word:08x} {text}" for word, text in found), sep="\n")
    if opcodes:
        stored.write()
        text = digests.STORED.read_bytes().decode("latin-1")
        for old, new in digest_changes(opcodes):
            text = text.replace(f" {old}, 0 wrong", f" {new}, 0 wrong")
        digests.STORED.write_bytes(text.encode("latin-1"))
    return 0


if __name__ == "__main__":
    sys.exit(main())

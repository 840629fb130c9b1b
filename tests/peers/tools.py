"""Assemblers and disassemblers: `vecmon`'s, GNU binutils' and LLVM's. All texts have registers by number, and no aliases."""

import pathlib
import re
import subprocess
import tempfile
from collections.abc import Mapping, Sequence

from tests.program import built, lines_of, run
from vecmon_lab.meanings.extensions import added_archs

GNU = "riscv64-linux-gnu-"
GNU_FLAGS = (
    "_".join(("-march=rv64im_zicsr_zifencei_zve64x_zvl256b", *added_archs("as"))),
    *("-mabi=lp64", "-mno-relax"),
)
LLVM_MC = (
    *("llvm-mc-19", "--triple=riscv64"),
    ",+".join(("--mattr=+m", "zve64x", "zicsr", "zifencei", "zvl256b", *added_archs())),
)
_TOGETHER = 16  # the most that one `dis` lists


def disassembled(words: Sequence[int]) -> list[str]:
    """The canonical text of each word, by `vecmon`'s `dis`."""
    lines = ["1 enter", "1 map 0 1 rw"]
    for at in range(0, len(words), _TOGETHER):
        part = words[at : at + _TOGETHER]
        lines += [f"1 poke 0 {b''.join(word.to_bytes(4, 'little') for word in part).hex()}", f"1 dis 0 {len(part)}"]
    listed = [answer.split(" ", 3) for answer in _answers(lines)[2:] if answer != "1 ok"]
    if [int(word, 16) for _, _, word, _ in listed] != list(words):
        raise ValueError("vecmon doesn't list the words that were written")
    return [text for _, _, _, text in listed]


def assembled(texts: Sequence[str]) -> list[int | None]:
    """The word of each text, by `vecmon`'s `asm`; None for a text that it refuses."""
    answers = _answers(["1 enter", "1 map 0 1 rw", *(f"1 asm 0 {text}" for text in texts)])[2:]
    return [None if answer.startswith("1 E") else int(answer.split(" ")[2], 16) for answer in answers]


def gnu_assembled(lines: Sequence[str]) -> tuple[list[int], Mapping[int, str]]:
    """The words that `as` makes of a text a line; and the messages for lines that it refuses, by their index."""
    return _by_line([f"{GNU}as", *GNU_FLAGS], lines, r"^[^ :]+:(\d+): Error: (.*)$")


def llvm_assembled(lines: Sequence[str]) -> tuple[list[int], Mapping[int, str]]:
    """The same by `llvm-mc`."""
    return _by_line([*LLVM_MC, "--filetype=obj"], lines, r"^[^ :]+:(\d+):\d+: error: (.*)$")


def gnu_disassembled(words: Sequence[int]) -> list[str]:
    """The text of each word by `objdump`; empty for a word that is no instruction. All words have the form of 32 bits."""
    with tempfile.TemporaryDirectory() as folder:
        source, made = pathlib.Path(folder, "words.s"), pathlib.Path(folder, "words.o")
        source.write_text("".join(f".insn 4, {word:#x}\n" for word in words), "ascii")
        subprocess.run([f"{GNU}as", *GNU_FLAGS, source, "-o", made], check=True)
        listing = _output([f"{GNU}objdump", "-d", "-M", "no-aliases,numeric", made])
    listed = re.findall(r"^ *[0-9a-f]+:\t([0-9a-f]{8}) +\t(.*)$", listing, re.MULTILINE)
    if [int(word, 16) for word, _ in listed] != list(words):
        raise ValueError("objdump doesn't list the words that were assembled")
    return ["" if re.match(r"unimp|0x|\.", text) else text for _, text in listed]


def llvm_disassembled(words: Sequence[int]) -> list[str]:
    """The text of each word by `llvm-mc --disassemble`; empty for a word that is no instruction."""
    feed = "".join(" ".join(f"0x{byte:02x}" for byte in word.to_bytes(4, "little")) + "\n" for word in words)
    command = [*LLVM_MC, "--disassemble", "-M", "no-aliases", "-M", "numeric"]
    done = subprocess.run(command, input=feed, capture_output=True, text=True, check=True)
    refused = set(map(int, re.findall(r"^<stdin>:(\d+):1: warning: invalid", done.stderr, re.MULTILINE)))
    texts = iter([re.sub(r"\s+", " ", line.strip()) for line in done.stdout.splitlines() if line != "\t.text"])
    listed = ["" if number in refused else next(texts) for number in range(1, len(words) + 1)]
    if next(texts, None) is not None:
        raise ValueError("llvm-mc lists more words than it was given")
    return listed


def _answers(lines: Sequence[str]) -> list[str]:
    """What `vecmon` prints for a script, line by line."""
    return lines_of(run(built(), ["/dev/stdin"], "".join(f"{line}\n" for line in lines), pathlib.Path("/")).stdout)


def _by_line(command: Sequence[str], lines: Sequence[str], error: str) -> tuple[list[int], Mapping[int, str]]:
    """Assembles all lines, and those that aren't refused again if one is. A pattern has the number and the message of an error."""
    with tempfile.TemporaryDirectory() as folder:
        source, made, code = (pathlib.Path(folder, f"texts.{end}") for end in ("s", "o", "bin"))
        source.write_text("".join(f"{line}\n" for line in lines), "ascii")
        done = subprocess.run([*command, source, "-o", made], capture_output=True, text=True)
        found = re.findall(error, done.stderr, re.MULTILINE)
        refused = {int(number) - 1: message for number, message in found}
        if done.returncode:
            taken = "".join("\n" if at in refused else f"{line}\n" for at, line in enumerate(lines))
            source.write_text(taken, "ascii")
            _output([*command, source, "-o", made])
        subprocess.run([f"{GNU}objcopy", "-O", "binary", "-j", ".text", made, code], check=True)
        data = code.read_bytes()
    return [int.from_bytes(data[at : at + 4], "little") for at in range(0, len(data), 4)], refused


def _output(command: Sequence[str | pathlib.Path]) -> str:
    return subprocess.run(command, capture_output=True, text=True, check=True).stdout

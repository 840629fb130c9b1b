"""Golden vectors as self-checking programs: ELF files and assembler sources (docs/GOLDEN_VECTORS.md)."""

import json
import pathlib
import struct
from collections import Counter
from collections.abc import Iterator, Sequence

from ..guest.changes import runs
from ..harness.environments import BLOCK_BYTES, CODE, ENVIRONMENTS, LIST, MEMORY, SPARE, Environment, Harness, digest
from ..harness.environments import harness, signature_text
from ..instructions.accesses import PAGE_BYTES
from ..instructions.left_open import Executed, open_result
from ..machine.answers import ControlRegisters
from ..machine.image import MARCH
from .on_qemu import LAYOUT, Case, expected, object_in, state

CASES_OF_A_PROGRAM = 200
_HAS_MEMORY = 16
_RELATIVE = (0x63, 0x6F)  # opcodes of jumps whose targets stock assemblers read in two ways
_SECTIONS = pathlib.Path(__file__).with_name("sections.s").read_text("ascii")


class Writer:
    """Writes cases as self-checking programs into folders, and counts the cases and programs."""

    def __init__(
        self, elf: pathlib.Path | None, asm: pathlib.Path | None, environment: str, has_choices: bool = False
    ) -> None:
        """Create the folders if they don't exist.

        elf, asm: the folders for ELF files and for assembler sources; None to write no ELF files, or no sources
        environment: the name of the environment in which the programs run, a key of ENVIRONMENTS
        has_choices: whether to write cases whose results the standard leaves open
        """
        self._folders, self._environment = {".elf": elf, ".s": asm}, ENVIRONMENTS[environment]
        self._has_choices = has_choices
        self._programs, self._cases, self._left_out = 0, 0, Counter[str]()
        for folder in filter(None, self._folders.values()):
            folder.mkdir(parents=True, exist_ok=True)

    def write(self, name: str, goldens: Sequence[Case]) -> None:
        """Write programs with an instruction's cases, and next to each program a file with its cases and one with its signature.

        name: of the instruction; goldens: its cases with the machine's results
        """
        reasons = [self._reason_to_leave_out(golden) for golden in goldens]
        shown = [golden for golden, reason in zip(goldens, reasons) if not reason]
        self._left_out.update(filter(None, reasons))
        self._cases += len(shown)
        for first in range(0, len(shown), CASES_OF_A_PROGRAM):
            part = shown[first : first + CASES_OF_A_PROGRAM]
            self._write_part(f"{name}_{first // CASES_OF_A_PROGRAM + 1}" if first else name, part)

    def summary(self) -> Iterator[str]:
        """Yield lines about the written files, and about the cases that can't run in the environment."""
        counts = [(self._cases, "case"), (self._programs, "program")]
        yield " in ".join(f"{number:,} {unit}{'s' * (number != 1)}" for number, unit in counts)
        yield from (f"left out: {count:,} {reason}" for reason, count in sorted(self._left_out.items()))

    def _reason_to_leave_out(self, golden: Case) -> str:
        """Return the reason for which a case isn't written, as the end of a line of the summary; "" if the case is written."""
        kind = kind_of(golden, self._environment.base)
        if kind not in self._environment.ends:
            return f"of {kind}"
        choice = None if self._has_choices else open_result(executed(golden))
        return f"since the standard leaves the result open: {choice}" if choice else ""

    def _write_part(self, name: str, part: Sequence[Case]) -> None:
        self._programs += 1
        code = harness(self._environment, "cases", CASES_OF_A_PROGRAM)
        cases = [case_words(golden, self._environment) for golden in part]
        words = [word for listed, _ in cases for word in listed] + [0]
        source = source_lines(name, part, [listed for listed, _ in cases], code)
        texts = {".elf": code.image(struct.pack(f"<{len(words)}Q", *words)), ".s": "".join(source).encode()}
        signature = [value for _, value in cases] + [0] * (CASES_OF_A_PROGRAM - len(part))
        lines = "".join(f"{json.dumps(golden, separators=(',', ':'))}\n" for golden in part)
        for suffix, folder in self._folders.items():
            if folder:
                path = folder / f"{name}{suffix}"
                path.write_bytes(texts[suffix])
                path.chmod(0o755 if suffix == ".elf" else 0o644)
                (folder / f"{name}.reference").write_text(signature_text(signature), "ascii")
                (folder / f"{name}.jsonl").write_text(lines, "ascii")


def kind_of(golden: Case, base: int) -> str:
    """Return how a case ends, in the terms of `Environment.ends`. base: the number that was added to all addresses of the case"""
    after = object_in(golden, "after")
    pc = int(str(after.get("pc", golden["pc"])), 16)
    if golden["name"] == "ecall":
        return "call"
    if golden["end"] == "fault":
        is_refused = golden["cause"] == 2 and str(golden["name"]).startswith("csr")
        return "refused control register" if is_refused else f"fault {golden['cause']}"
    if golden["end"] == "ran" and pc == int(str(golden["pc"]), 16):
        return "jump to itself"
    if golden["end"] == "ran" and not 0 <= pc - base - CODE < PAGE_BYTES:
        return "jump to another page"
    if str(golden["name"]).endswith("ff.v") and "vl" in after:
        return "shortened load"
    return str(golden["end"])


def executed(golden: Case) -> Executed:
    """Return the instruction of a case, with the state before it and its fault, as `open_result` takes it."""
    before, after = state(golden), object_in(golden, "after")
    v = before["v"]
    assert isinstance(v, bytes)
    control = ControlRegisters(*(int(before[name]) for name in vars(ControlRegisters())))
    x = [0, *(int(before[f"x{number}"]) for number in range(1, 32))]
    cause = int(str(golden["cause"])) if golden["end"] == "fault" else None
    element = int(str(after.get("vstart", golden["vstart"])))
    word, text = int(str(golden["word"]), 16), str(golden["text"])
    return Executed(word, text, x, control, v, cause, element)


def case_words(golden: Case, environment: Environment) -> tuple[list[int], int]:
    """Return the 64-bit words from which a program sets up and executes a case, and the digest of the state after the case."""
    word, has_memory = int(str(golden["word"]), 16), f"{environment.base + MEMORY:x}" in object_in(golden, "pages")
    named = {word >> 7 & 31, word >> 15 & 31, word >> 20 & 31}
    spare = next(number for number in SPARE if not {number, number - 1} & named)
    end = environment.ends[kind_of(golden, environment.base)]
    old, new = (LAYOUT.pack(*values.values()) for values in (state(golden), expected(golden) | {"end": end}))
    back = 0x67 | spare << 7 | spare << 15 | _HAS_MEMORY * has_memory  # jalr xS, 0(xS)
    words = [word | back << 32, *_runs(bytes(LAYOUT.size), old), *_runs(old, new)]
    return words, digest(new if has_memory else new[:BLOCK_BYTES])


def _runs(old: bytes, new: bytes) -> Iterator[int]:
    """Yield the 64-bit words of `new` that differ from those of `old`, in runs of consecutive words, followed by 0.

    Before each run there is a word with the number of words in its lower half, and the offset of the first one in bytes in its
    upper half.
    """
    one, other = (struct.unpack(f"<{len(data) // 8}Q", data) for data in (old, new))
    for first, last in runs(one, other):
        yield last - first | 8 * first << 32
        yield from other[first:last]
    yield 0


def source_lines(name: str, part: Sequence[Case], cases: Sequence[Sequence[int]], around: Harness) -> Iterator[str]:
    """Yield the source of a program for stock assemblers, with a comment that says how to link it.

    name: of the instruction; part: the program's cases; cases: the words of each case, from `case_words`
    around: the code that executes the cases
    """
    base, code = around.environment.base, around.environment.code
    places = {".cases": code + LIST, ".instruction": base + CODE, ".memory": base + MEMORY}
    yield f"# {len(part)} cases of {name}, made by vecmon-lab. gcc or clang makes a program of them with\n"
    yield f"# {MARCH} -mabi=lp64 -nostdlib -static -no-pie -Wl,--no-relax,--build-id=none,-Ttext={code:#x}"
    yield "".join(f",--section-start={section}={address:#x}" for section, address in places.items()) + "\n"
    yield f"{'':24}.option norvc\n{'':24}.option norelax\n"
    yield around.source + _SECTIONS
    for number, (golden, words) in enumerate(zip(part, cases), 1):
        text, word = str(golden["text"]), int(str(golden["word"]), 16)
        yield f"# {number}: {text}: {golden['end']}\n"
        has_name = golden["end"] == "ran" and word & 0x7F not in _RELATIVE and not text.startswith(".word")
        yield f"{'':24}{text if has_name else f'.word {word:#010x}'}\n{'':24}.word {words[0] >> 32}\n"
        for at in range(1, len(words), 4):
            yield f"{'':24}.dword {', '.join(f'{each:#x}' for each in words[at : at + 4])}\n"
    yield f"{'':24}.dword 0\n"

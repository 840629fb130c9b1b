"""The golden vectors that the crate `test_definitions` states as theorems, and which of them are proved in the gate.

A vector is one instruction with the state before it and the result that QEMU gave, by the keys of
lab/tests/data/golden_vectors/README.md. A vector is clean if all versions of QEMU gave its result, and no part of it was corrected.
"""

import hashlib
import json
import lzma
import re
from collections import defaultdict
from collections.abc import Sequence
from dataclasses import dataclass
from functools import cache
from pathlib import Path
from typing import Any

from vecmon_lab.instructions.reasons import illegal_reasons
from vecmon_lab.machine.answers import ControlRegisters

FOLDER = Path("lab/tests/data/golden_vectors")
LOAD_FP, OP_V, STORE_FP, LOAD, STORE = 0x07, 0x57, 0x27, 0x03, 0x23  # major opcodes
VSET = 7  # funct3 of the instructions that set the vector type

FAMILIES = {
    "control_registers": r"csrr[wsc]i?",
    "vector_types": r"vset\w+",
    "reductions": r"vw?red\w+",
    "permutations": r"vrgather\w*|vslide\w+|vcompress|vmv\.x|vmv\.s|vmv[1248]r",
    "masks": r"vm(?:and|nand|andn|xor|or|nor|orn|xnor)|vcpop|vfirst|vms[bio]f|viota|vid|vms\w+|vmadc|vmsbc",
    "fixed_point": r"vs(?:add|sub)u?|va(?:add|sub)u?|vsmul|vssr[la]|vnclipu?",
    "two_widths": r"vw\w+|vnsr[la]|v[zs]ext",
    "one_width": r"v[\w.]+",
    "branches": r"b\w+|jalr?|ebreak|fence|auipc",
    "scalars": r"\w+",
}
"""The families of instructions without memory, by their mnemonics up to the last dot; the first that fits counts."""


@dataclass(frozen=True)
class Vector:
    """A golden vector: its policy for agnostic elements, its line in the file of that policy, from 1 on, and its keys."""

    policy: str
    line: int
    keys: dict[str, Any]

    @property
    def name(self) -> str:
        return str(self.keys["name"])

    @property
    def word(self) -> int:
        return int(self.keys["word"], 16)

    @property
    def after(self) -> dict[str, Any]:
        after: dict[str, Any] = self.keys["after"]
        return after

    @property
    def end(self) -> str:
        return str(self.after["end"])

    @property
    def is_clean(self) -> bool:
        return not {"corrected", "versions", "qemu_value"} & self.keys.keys()

    @property
    def accesses_memory(self) -> bool:
        """Whether it is a legal load or store."""
        return self.word & 0x7F in (LOAD, STORE, LOAD_FP, STORE_FP) and self.end != "ill"

    @property
    def is_masked(self) -> bool:
        opcode = self.word & 0x7F
        is_vset = opcode == OP_V and self.word >> 12 & 7 == VSET
        return opcode in (LOAD_FP, STORE_FP, OP_V) and not is_vset and not self.word >> 25 & 1

    @property
    def active(self) -> int:
        """The number of elements from vstart up to vl that the mask enables; 0 for a scalar instruction."""
        if self.word & 0x7F not in (LOAD_FP, STORE_FP, OP_V):
            return 0
        mask = (
            bytes.fromhex(v0)
            if (v0 := self.keys.get("v", {}).get("0"))
            else bytes((64 + 7 * k) % 256 for k in range(32))
        )
        body = range(self.keys["vstart"], self.keys["vl"])
        return sum(not self.is_masked or mask[i // 8] >> i % 8 & 1 for i in body)

    @property
    def registers(self) -> int:
        """The number of registers and runs of bytes that the states name, the measure of a case's size."""
        memory = sum(1 + len(digits) // 64 for digits in self.after.get("memory", {}).values())
        return len(self.keys.get("v", {})) + len(self.after.get("v", {})) + memory

    @property
    def order(self) -> str:
        """A fixed order of the vectors, which depends on nothing but their keys."""
        return hashlib.sha256(json.dumps([self.policy, self.keys]).encode()).hexdigest()


@cache
def golden_vectors() -> Sequence[Vector]:
    """All golden vectors."""
    found = list[Vector]()
    for policy in ("keep", "ones"):
        with lzma.open(FOLDER / f"{policy}.jsonl.xz", "rt", encoding="ascii") as file:
            found += (Vector(policy, number, json.loads(line)) for number, line in enumerate(file, 1))
    return found


def changed_files(folder: Path = FOLDER) -> list[Path]:
    """The files of vectors in a folder whose lines don't have the SHA-256 that its README.md names, or can't be read."""
    digests = (folder / "README.md").read_text(encoding="utf-8")
    found = list[Path]()
    for path in (folder / "keep.jsonl.xz", folder / "ones.jsonl.xz"):
        try:
            digest = hashlib.sha256(lzma.decompress(path.read_bytes())).hexdigest()
        except (OSError, lzma.LZMAError):
            digest = "unreadable"
        if f"| `{path.name}` | {digest} |" not in digests:
            found.append(path)
    return found


def family_of(vector: Vector) -> str:
    """The module of a vector's theorem."""
    if vector.end == "ill":
        return "legality"
    if vector.end in ("load", "store"):
        return "faults"
    if vector.accesses_memory and vector.word & 0x7F in (LOAD, STORE):
        return "scalar_accesses"
    if vector.accesses_memory:
        return "stores" if vector.word & 0x20 else "loads"
    stem = vector.name.rpartition(".")[0] or vector.name
    return next(family for family, names in FAMILIES.items() if re.fullmatch(names, stem))


def kind_of(vector: Vector) -> str:
    """The operation that a vector's instruction has, and the choice that its result shows, if it shows one."""
    operation, choice = operation_of(vector), _choice_of(vector)
    return f"{operation} {choice}" if choice else operation


def _choice_of(vector: Vector) -> str:
    """Return the place in a result where the standard lets a machine choose or resume; "" without one."""
    if vector.end == "ran" and vector.accesses_memory and "ff.v" in vector.name and "vl" in vector.after:
        return "shortened"
    if vector.end in ("load", "store") and vector.after.get("vstart", 0) > 0:
        return "above index 0"
    if vector.end == "ran" and vector.policy == "ones" and _writes_mask(vector):
        return "under ones"
    return ""


def _writes_mask(vector: Vector) -> bool:
    """Whether the destination of a vector operation is a mask."""
    stem = vector.name.rpartition(".")[0]
    return (
        re.fullmatch(r"vm(?:and|nand|andn|xor|or|nor|orn|xnor|s(?:eq|ne|lt|le|gt)u?|[as][db]c|s[bio]f)", stem)
        is not None
    )


def rows_without_case(vectors: Sequence[Vector]) -> list[str]:
    """The rows of a table of the operations and accesses that no clean vector has, by what their results would show."""
    missing = {kind_of(it) for it in vectors} - {kind_of(it) for it in vectors if it.is_clean}
    rows: dict[str, set[str]] = defaultdict(set)
    for words in (kind.split() for kind in missing):
        if words[0] in ("load", "store"):
            rows["a fault above index 0" if len(words) > 2 else "a fault"].add(words[1])
        elif words[0] == "ran":
            rows["a vector length that it shortens"].add(words[1])
        else:
            rows["bits of a mask under `ones`" if words[-1] == "ones" else "saturation"].add(words[0])
    return [f"| {what} | {', '.join(f'`{it}`' for it in sorted(names))} |" for what, names in sorted(rows.items())]


def operation_of(vector: Vector) -> str:
    """The operation that a vector's instruction has: mnemonics of one operation differ only in their second source."""
    name = vector.name
    if vector.end == "ill":
        return f"{rule_of(vector)} {vector.word & 0x7F:#x}"
    if name.startswith("vset"):
        return f"{name} {_length_of(vector)} {'vill' if 'vtype' in vector.after and int(vector.after['vtype'], 16) >> 63 else ''}"
    if vector.accesses_memory:
        return f"ran {access_of(name)}" if vector.end == "ran" else f"{vector.end} {re.sub(r'[0-9]+', '', name)}"
    if vector.end != "ran" or re.match(r"v[zs]ext|vmv[.1248][xsr]|v?[^v]\w*$", name):
        return f"{vector.end} {name}"
    stem, _, form = name.partition(".")
    carries = "m" if re.fullmatch(r"v[vxi]m", form) and stem.startswith("vm") and stem != "vmerge" else ""
    saturates = "saturates" if "vxsat" in vector.after else ""
    return f"{stem} {saturates} {'w' if form.startswith('w') and stem.startswith('vw') else ''}{carries}"


def _length_of(vector: Vector) -> str:
    """The kind of length that a vset instruction requests by its registers."""
    if vector.name == "vsetivli" or vector.word >> 15 & 31:
        return "elements"
    return "maximum" if vector.word >> 7 & 31 else "keep"


def access_of(name: str) -> str:
    """Return the kind of a load or store. Its width is part of the kind only if it has unit stride or indices."""
    if "seg" in name or re.match(r"v[ls]se", name):
        return re.sub(r"\d+", "", name)
    return re.sub(r"re\d+", "re", name)


RULES = {
    "read_only": r"can only be read",
    "no_control_register": r"There is no control register",
    "vill": r"The vector type is vill",
    "sew_64": r"Zve64x has no",
    "vstart": r"vstart is",
    "wide_elements": r"would have elements of \d+ bits",
    "narrow_elements": r"would have elements of .*8 is the least",
    "multiplier": r"EMUL is 1/8 to 8",
    "fields": r"fields of \d+ registers each",
    "whole_registers": r"It names \d+ whole registers",
    "group_of_another_multiplier": r"has EMUL .*register groups begin",
    "group": r"has LMUL .*register groups begin",
    "last_register": r"v31 is the last",
    "mask_destination": r"reads a mask from v0",
    "apart": r"may not overlap its",
    "narrower_destination": r"overlap only where both begin",
    "fractional_source": r"they may not overlap",
    "wider_destination": r"overlap only where both end",
}
"""The rules of legality, by the lab's sentence for each."""


@cache
def _sentences(word: int, vtype: int, vl: int, vstart: int) -> Sequence[str]:
    """Why a word is illegal, in the lab's sentences."""
    return illegal_reasons(word, ControlRegisters(vl, vtype, vstart, 0, 0))


def reasons_of(vector: Vector) -> Sequence[str]:
    """Why a vector's word is illegal."""
    keys = vector.keys
    return _sentences(vector.word, int(keys["vtype"], 16), keys["vl"], keys["vstart"])


def rule_of(vector: Vector) -> str:
    """The rule that makes a word illegal, if it is the only one."""
    rules = {rule for it in reasons_of(vector) for rule, form in RULES.items() if re.search(form, it)}
    return rules.pop() if len(rules) == 1 else "several"


# ---- the cases of the gate


def _lacks(vector: Vector, turn: int) -> int:
    """How many of the properties that a case of this turn is to have it lacks."""
    wanted = {
        "mask": vector.is_masked == (turn % 2 == 0),
        "ones": (vector.policy == "ones") == (turn % 3 == 1),
        "vstart": (vector.keys["vstart"] > 0) == (turn % 5 == 3),
        "form": vector.name.rpartition(".")[2][-1:] == "vxi"[turn % 3],
    }
    return sum(not has for has in wanted.values())


def _is_idle(vector: Vector) -> bool:
    """Whether nothing shows what the instruction computed."""
    return vector.end == "ran" and not vector.after.keys() & {"x", "v", "memory", "vl", "vtype", "vxrm", "vxsat"}


def gate_cases(vectors: Sequence[Vector]) -> dict[str, list[Vector]]:
    """A clean vector for each kind of operation, access, fault and rule, by family: small ones, and in each family masked and others."""
    kinds: dict[str, dict[str, list[Vector]]] = defaultdict(lambda: defaultdict(list))
    for vector in vectors:
        if vector.is_clean:
            kinds[family_of(vector)][kind_of(vector)].append(vector)
    found = dict[str, list[Vector]]()
    for family, operations in sorted(kinds.items()):
        chosen = list[Vector]()
        for turn, (_, those) in enumerate(sorted(operations.items())):
            chosen.append(
                min(those, key=lambda it: (_is_idle(it), it.active < 3, it.registers > 6, _lacks(it, turn), it.order))
            )
        found[family] = chosen
    return found

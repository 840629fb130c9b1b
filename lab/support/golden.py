"""The golden vectors of lab/tests/data/golden_vectors: single instructions with QEMU's results, as states of the formulas."""

import functools
import json
import lzma
from collections.abc import Callable, Iterator, Sequence
from typing import Any

from support.places import DATA
from vecmon_lab.instructions.accesses import PAGE_BYTES, REGISTER_BYTES
from vecmon_lab.machine.answers import ControlRegisters
from vecmon_lab.meanings.executed import WORD, After, Before

FOLDER = DATA / "golden_vectors"
CODE = 0x1000_0800  # where the instruction is
PAGES = {0x20000: "rw", 0x21000: "rw", 0x23000: "r", 0x24000: "rw"}

Vector = dict[str, Any]
"""A vector, by the keys of the folder's README.md."""


@functools.cache
def golden_vectors() -> Sequence[tuple[str, Vector]]:
    """All vectors, each behind its policy."""
    return [(policy, json.loads(line)) for policy in ("keep", "ones") for line in _lines(policy)]


def _lines(policy: str) -> Iterator[str]:
    with lzma.open(FOLDER / f"{policy}.jsonl.xz", "rt", encoding="ascii") as file:
        yield from file


def start_byte(address: int) -> int:
    """The byte of memory at an address, before the instruction."""
    return (address * 37 + (address >> 8) * 101 + (address >> 5) * 11 + 7) & 255


@functools.cache
def _start_scalars() -> Sequence[int]:
    return [0, *(number * 0x0123456789ABCDEF + 0x5A5A & WORD for number in range(1, 32))]


@functools.cache
def _start_vectors() -> bytes:
    return bytes((64 + 29 * r + 7 * k + (k >> 3) * r) & 255 for r in range(32) for k in range(REGISTER_BYTES))


def _permits(address: int, length: int, letter: str) -> bool:
    pages = range(address // PAGE_BYTES, (address + length - 1) // PAGE_BYTES + 1)
    return all(letter in PAGES.get(page * PAGE_BYTES, "") for page in pages)


def _read(address: int, length: int) -> bytes | None:
    return bytes(map(start_byte, range(address, address + length))) if _permits(address, length, "r") else None


def before_of(policy: str, vector: Vector) -> Before:
    """The state before a vector's instruction."""
    x, v = list(_start_scalars()), bytearray(_start_vectors())
    for number, digits in vector.get("x", {}).items():
        x[int(number)] = int(digits, 16)
    _write_vectors(v, vector.get("v", {}))
    control = ControlRegisters(
        vector["vl"], int(vector["vtype"], 16), vector["vstart"], vector["vxrm"], vector["vxsat"]
    )
    has_ones, word = policy == "ones", int(vector["word"], 16)
    return Before(CODE, word, x, control, bytes(v), has_ones, _read, lambda at, length: _permits(at, length, "w"))


def drawn_before(drawn: Vector) -> Before:
    """The state before a case of `vecmon-lab vectors`, in which all that isn't named is 0."""
    x, v, control = [0] * 32, bytearray(32 * REGISTER_BYTES), [drawn[name] for name in ("vstart", "vxrm", "vxsat")]
    for number, digits in drawn["x"].items():
        x[int(number)] = int(digits, 16)
    _write_vectors(v, drawn["v"])
    pages = {int(page, 16): letters for page, letters in drawn["pages"].items()}
    memory = _bytes_of(drawn["memory"])

    def permits(address: int, length: int, letter: str) -> bool:
        numbers = range(address // PAGE_BYTES, (address + length - 1) // PAGE_BYTES + 1)
        return all(letter in pages.get(page * PAGE_BYTES, "") for page in numbers)

    def read(address: int, length: int) -> bytes | None:
        data = bytes(memory.get(at, 0) for at in range(address, address + length))
        return data if permits(address, length, "r") else None

    registers = ControlRegisters(drawn["vl"], int(drawn["vtype"], 16), *control)
    has_ones, word, pc = drawn["policy"] == "ones", int(drawn["word"], 16), int(drawn["pc"], 16)
    return Before(pc, word, x, registers, bytes(v), has_ones, read, lambda at, length: permits(at, length, "w"))


def drawn_as_vector(drawn: Vector) -> Vector:
    """A case of `vecmon-lab vectors` with its result as golden vectors have it: the last pc, and the address of a fault."""
    after = {"pc": drawn["pc"], **drawn["after"]}
    return {**drawn, "after": after | ({"value": drawn["value"]} if drawn["end"] == "fault" else {})}


def _bytes_of(runs: dict[str, str]) -> dict[int, int]:
    return {int(at, 16) + k: byte for at, run in runs.items() for k, byte in enumerate(bytes.fromhex(run))}


def _write_vectors(v: bytearray, registers: dict[str, str]) -> None:
    for number, digits in registers.items():
        v[int(number) * REGISTER_BYTES : (int(number) + 1) * REGISTER_BYTES] = bytes.fromhex(digits)


def differences(vector: Vector, before: Before, after: After, old: Callable[[int], int] = start_byte) -> Iterator[str]:
    """The differences between the result of a vector and that of a formula, by name. old: the bytes of memory before it."""
    expected, control = vector["after"], dict(vars(before.control))
    control |= {name: expected[name] for name in ("vl", "vstart", "vxrm", "vxsat") if name in expected}
    control |= {"vtype": int(expected["vtype"], 16)} if "vtype" in expected else {}
    v = bytearray(before.v)
    _write_vectors(v, expected.get("v", {}))
    memory = _bytes_of(expected.get("memory", {}))
    x = {int(number): int(digits, 16) for number, digits in expected.get("x", {}).items()}
    pairs = {
        "control registers": (control, vars(after.control)),
        "pc": (int(expected["pc"], 16), after.pc),
        "fault": (int(expected["value"], 16) if "value" in expected else None, after.fault),
        "scalar registers": (x, {at: value for at, value in after.x.items() if value != before.x[at]}),
        "vector registers": (v, after.v),
        "memory": tuple({at: it for at, it in each.items() if it != old(at)} for each in (memory, after.memory)),
    }
    yield from (name for name, (expected_value, found) in pairs.items() if expected_value != found)


def has_formula(vector: Vector) -> bool:
    """Whether an instruction ended, or faulted at an access or a jump: illegal ones, `ebreak` and `fence` are no formula's."""
    return vector["after"]["end"] in ("ran", "load", "store", "target") and vector["name"] != "fence"

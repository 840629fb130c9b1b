"""Run golden vectors (docs/GOLDEN_VECTORS.md) on QEMU's user mode, and print the differences: on_qemu.py FILE

QEMU runs a program whose machine code is in on_qemu.txt. For each case, this program reads the state before the case from standard
input, loads it into the registers and the memory, and executes the case's instruction. Then a signal returns control to the
program, and it writes the state to standard output. One QEMU process executes all cases. If a case ends QEMU itself, another
process executes the cases after it.
"""

import argparse
import functools
import itertools
import json
import pathlib
import re
import shutil
import struct
import subprocess
import sys
import tempfile
from collections.abc import Iterator, Mapping, Sequence

QEMU = ["qemu-riscv64", "-cpu", "rv64,Zve64f=true,vext_spec=v1.0,vlen=256,elen=64"]
"""The command of QEMU 7.2."""

POLICIES = {"keep": "", "ones": ",rvv_ta_all_1s=true,rvv_ma_all_1s=true"}
"""The text to append to the last argument in QEMU for each policy for agnostic elements."""

CODE, DATA, PROGRAM, BLOCK, STACK = 0x10000, 0x20000, 0x60000000, 0x60010000, 0x60020000
CONTROL = ("vl", "vtype", "vxrm", "vxsat", "vstart")
NAMES = ("end", *CONTROL, "value", "v", "pc", *(f"x{number}" for number in range(1, 32)), "memory")
LAYOUT = struct.Struct(
    "<7Q8x1024s32Q8192s"
)  # the values of NAMES; `end` is the word to execute, and after it the signal
EBREAKS = b"\x73\0\x10\0" * 1024
"""A page of code full of ebreaks. After an instruction that causes no signal itself, one of them ends the case."""
Case = Mapping[str, object]
State = dict[str, int | bytes | str]
SIGNALS = {4: "fault 2", 5: "ebreak", 7: "fault {}", 11: "fault {}"}


def program() -> list[int]:
    """Return the 32-bit words of the program that QEMU runs: it loads, executes and reports each case. They are read from on_qemu.txt."""
    listing = pathlib.Path(__file__).with_name("on_qemu.txt")
    return [int(line.split()[0], 16) for line in listing.read_text("ascii").splitlines() if not line.startswith("#")]


def image(words: Sequence[int], mapped: Mapping[int, bytes]) -> bytes:
    """Return an ELF image with the program that executes cases, the block and the stack that it uses, and the memory of the cases.

    words: the machine code of the program, from `program`
    mapped: the initial bytes of the cases' code and data pages, by the address of the first byte
    """
    block = bytes(0x700) + struct.pack("<QQQ8xQQQ", STACK, 0, 0x10000, PROGRAM + 18 * 4, 0x08000004, 0)
    parts = {**mapped, PROGRAM: struct.pack(f"<{len(words)}I", *words)}
    parts |= {BLOCK: block.ljust(4096, b"\0"), STACK: bytes(0x10000)}
    head = struct.pack("<16s2HI3QI6H", b"\x7fELF\2\1\1", 2, 243, 1, PROGRAM, 64, 0, 0, 64, 56, len(parts), 0, 0, 0)
    body = b""
    for address, data in parts.items():
        head += struct.pack("<2I6Q", 1, 7, 4096 + len(body), address, address, len(data), len(data), 4096)
        body += data.ljust(-(-len(data) // 4096) * 4096, b"\0")
    return head.ljust(4096, b"\0") + body


def object_in(case: Case, name: str) -> dict[str, str]:
    """Return the object under a key of a case, such as `x` or `after`; an empty dictionary if the case has no object there.

    name: the key
    """
    value = case.get(name)
    return value if isinstance(value, dict) else {}


def state(*named: Case) -> State:
    """Return the state before or after a case: the values of NAMES, by name. Registers and bytes that aren't listed are 0.

    named: the case, for the state before it; or the case and then its object `after`, for the state after it
    """
    v, memory, values = bytearray(1024), bytearray(8192), dict[str, int].fromkeys(NAMES, 0)
    for part in named:
        values |= {name: int(str(part[name]), 16) for name in ("pc", "vtype") if name in part}
        values |= {name: int(str(part[name])) for name in ("vl", "vxrm", "vxsat", "vstart") if name in part}
        values |= {f"x{number}": int(digits, 16) for number, digits in object_in(part, "x").items()}
        pieces = [(v, 32 * int(number), digits) for number, digits in object_in(part, "v").items()]
        pieces += [
            (memory, int(address, 16) % 0x10000, digits) for address, digits in object_in(part, "memory").items()
        ]
        for room, place, digits in pieces:
            room[place : place + len(digits) // 2] = bytes.fromhex(digits)
    return {**values, "v": bytes(v), "memory": bytes(memory)}


def can_run(case: Case) -> bool:
    """Return whether QEMU can run a case.

    QEMU passes a system call to the host's kernel, and ends at a jump to a misaligned address. Such cases can't be run.
    """
    return case["name"] != "ecall" and case.get("cause") != 0


def expected(case: Case) -> State:
    """Return the state after a case, as the golden vector has it, in the form of `state`.

    The entry `end` says how the case ends, such as `ran` or `fault 2`. The entry `value` is the address of an access fault, or 0.
    """
    value = int(str(case["value"]), 16) if case.get("cause") in (5, 7) else 0
    end = f"fault {case['cause']}" if case["end"] == "fault" else str(case["end"])
    return {**state(case, object_in(case, "after")), "end": end, "value": value}


def found(case: Case, result: bytes | None) -> State:
    """Return the state after a case, as QEMU left it, in the form of `expected`.

    If the signal came from another address than that of the case's instruction, the instruction ran.

    result: the state that QEMU wrote, in the form of LAYOUT; None if QEMU itself ended. Then `end` says so, and all other entries
        are the expected ones
    """
    if result is None:
        return {**expected(case), "end": "QEMU ended"}
    values = dict(zip(NAMES, LAYOUT.unpack(result)))
    cause = 7 if int(str(case["word"]), 16) & 0x20 else 5
    end = SIGNALS[values["end"]].format(cause) if values["pc"] == int(str(case["pc"]), 16) else "ran"
    return values | {"end": end, "value": values["value"] if end == f"fault {cause}" else 0}


def differences(cases: Sequence[Case]) -> list[dict[str, tuple[object, object]]]:
    """Run cases on QEMU. For each case, return the expected and the found value of each entry of the state that differs, by name.

    All cases must have the same policy.
    """
    befores = [LAYOUT.pack(*(state(case) | {"end": int(str(case["word"]), 16)}).values()) for case in cases]
    left = results(befores, str(cases[0]["policy"]) if cases else "keep")
    pairs = [(expected(case), found(case, result)) for case, result in zip(cases, left, strict=True)]
    return [{name: (one[name], other[name]) for name in NAMES if one[name] != other[name]} for one, other in pairs]


def results(befores: Sequence[bytes], policy: str = "keep") -> Iterator[bytes | None]:
    """Run cases on QEMU. For each case, yield the state after it in the form of LAYOUT, or None if the case ended QEMU itself.

    Raises CalledProcessError if QEMU doesn't start.

    befores: the state before each case in the form of LAYOUT, where `end` is the word to execute
    policy: `keep` or `ones`, for agnostic elements
    """
    done = 0
    while done < len(befores):
        output = _run(b"".join(before[-8192:] + before[:-8192] for before in befores[done:]), policy)
        ends = range(2 * LAYOUT.size, len(output) + 1, LAYOUT.size)  # the first state is that before all cases
        yield from (output[end - LAYOUT.size : end] for end in ends)
        done += len(ends)
        if done < len(befores):
            yield None
            done += 1


def _run(cases: bytes, policy: str) -> bytes:
    """Run the program of `program` in QEMU, and return its output. Raises CalledProcessError if QEMU doesn't start.

    The output has the state at the program's start, and then the state after each case, up to a case that ends QEMU itself.

    cases: the states before the cases, one after the other, each with its memory first. The program reads them from a file, since
        a read from a pipe may return fewer bytes than requested
    """
    with tempfile.TemporaryDirectory() as folder, tempfile.TemporaryFile() as feed:
        elf = pathlib.Path(folder, "image")
        elf.write_bytes(image(program(), {CODE: EBREAKS, DATA: bytes(8192)}))
        elf.chmod(0o700)
        feed.write(cases)
        feed.seek(0)
        done = subprocess.run([*qemu(policy), elf], stdin=feed, stdout=subprocess.PIPE)
    if len(done.stdout) < LAYOUT.size:
        raise subprocess.CalledProcessError(done.returncode, done.args)
    return done.stdout


@functools.cache
def version() -> tuple[int, int]:
    """Return the first two numbers of the installed QEMU's version; zeros if it prints none."""
    printed = subprocess.run([QEMU[0], "--version"], stdout=subprocess.PIPE, text=True, check=True).stdout
    numbers = re.search(r"version (\d+)\.(\d+)", printed)
    return (int(numbers[1]), int(numbers[2])) if numbers else (0, 0)


def qemu(policy: str = "keep") -> list[str]:
    """Return the command and arguments that start the installed QEMU with a policy, `keep` or `ones`, for agnostic elements.

    QEMU accepts the names of extensions only in lower case since version 8.2.
    """
    extensions = QEMU[2].replace("Zve", "zve") if version() >= (8, 2) else QEMU[2]
    return [*QEMU[:2], extensions + POLICIES[policy]]


def main() -> None:
    """Print the word, the text and the differing parts of each case in a file for which QEMU's result differs."""
    description = "Run golden vectors on QEMU's user mode, and print each case that it leaves otherwise, with the differing parts."
    parser = argparse.ArgumentParser(prog="on_qemu.py", description=description)
    parser.add_argument("file", metavar="FILE", type=pathlib.Path, help="golden vectors, a line of JSON each")
    file: pathlib.Path = parser.parse_args().file
    if not shutil.which(QEMU[0]):
        sys.exit(f"on_qemu.py: {QEMU[0]} not found: sudo apt install qemu-user")
    try:
        shown = [case for line in file.read_text("utf-8").splitlines() if can_run(case := json.loads(line))]
    except OSError as error:
        parser.error(f"{file}: {error.strerror}")
    for _, group in itertools.groupby(shown, key=lambda case: str(case["policy"])):
        while part := list(itertools.islice(group, 1000)):
            for case, differing in zip(part, differences(part)):
                if differing:
                    print(case["word"], case["text"], *differing)


if __name__ == "__main__":
    main()

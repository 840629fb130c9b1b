"""Write random programs with the machine's results (docs/GOLDEN_VECTORS.md)."""

import argparse
import concurrent.futures
import functools
import json
import os
import pathlib
import random
import struct
from collections import Counter
from collections.abc import Iterator, Sequence
from dataclasses import replace
from signal import SIGSEGV

from .. import LabError
from ..arguments import between
from ..guest.changes import Stepper, vtype_text
from ..guest.guest import Guest, started
from ..harness.environments import BLOCK_BYTES, ENVIRONMENTS, LIST, MEMORY, MEMORY_BYTES, Environment, Harness, digest
from ..harness.environments import harness, signature_text
from ..instructions.accesses import PAGE_BYTES
from ..instructions.table import instruction_table
from ..machine.answers import Stop
from ..tables.table import table_lines
from ..vectors.on_qemu import LAYOUT, NAMES
from .draw import draw_program
from .emitter import CHECKPOINT, DONE, FIRST, Drawn
from .scalar_draws import jump_bits

_SIGNATURES = 256  # 64-bit words: the size of a signature is a multiple of this
Coverage = Counter[tuple[str, int, bool, str]]
"""The number of occurrences of instructions in programs, by name, vector type, whether they are masked, and tail."""


def add_arguments(parser: argparse.ArgumentParser) -> None:
    """Add the arguments of `vecmon-lab programs`."""
    parser.add_argument(
        "folder", metavar="DIR", type=pathlib.Path, help="the folder of the programs, created if necessary"
    )
    parser.add_argument(
        "--seed", metavar="S", type=int, default=0, help="another seed gives other programs; by default 0"
    )
    parser.add_argument(
        "--length",
        metavar="N",
        type=between(10, 20_000),
        default=1000,
        help="instructions of a program; by default 1000",
    )
    parser.add_argument(
        "--count", metavar="K", type=between(1, 100_000), default=1, help="the number of programs; by default 1"
    )
    parser.add_argument("--choices", action="store_true", help="also draw what the standard leaves open")
    parser.add_argument("--faults", action="store_true", help="end each program with a fault")
    parser.add_argument(
        "--environment",
        choices=ENVIRONMENTS,
        default="linux",
        help="the environment of the programs; by default %(default)s",
    )
    parser.add_argument("--coverage", action="store_true", help="print how often each instruction occurs")


def run(arguments: argparse.Namespace) -> int:
    """Write the programs, on all cores. Raises LabError and OSError for bad input."""
    if arguments.faults and arguments.environment != "linux":
        raise LabError("programs that fault want a handler of signals: --environment linux has one")
    arguments.folder.mkdir(parents=True, exist_ok=True)
    numbers = range(arguments.seed, arguments.seed + arguments.count)
    with concurrent.futures.ProcessPoolExecutor(os.cpu_count()) as pool:
        drawn = list(pool.map(functools.partial(_write, arguments), numbers, chunksize=4))
    print(f"{len(drawn):,} programs, {sum(executed for executed, _ in drawn):,} instructions")
    if arguments.coverage:
        print("\n".join(_table(sum((coverage for _, coverage in drawn), Coverage()))))
    return 0


def _write(arguments: argparse.Namespace, seed: int) -> tuple[int, Coverage]:
    """Write a program, its signature and the state at its end. Return the number of executed instructions, and the coverage."""
    environment = ENVIRONMENTS[arguments.environment]
    runner = replace(ENVIRONMENTS["vecmon"], code=environment.code, base=environment.base)  # at the same addresses
    drawn = draw_program(f"{seed}", arguments.length, arguments.choices, arguments.faults)
    path, state = arguments.folder / f"program_{seed}.elf", _first_state(random.Random(seed), environment.base)
    code = _write_image(path, runner, drawn, state)
    with started(path) as guest:
        stop = guest.go()
        if stop is None or stop.kind != ("fault" if arguments.faults else "exit") or stop.number:
            raise LabError(f"{path} doesn't end as it should: {guest.describe(stop)}")
        left, size = _state(guest, code, stop), code.labels["end_signature"] - code.labels["begin_signature"]
        digests = [word for (word,) in struct.iter_unpack("<Q", guest.peek(code.labels["begin_signature"], size))]
    if arguments.faults:  # the part of the state that the signal handler receives
        digests[drawn.digests - 1] = digest(left[:56] + left[1096:1328] + left[64:1088])
        digests[drawn.digests] = digest(left[BLOCK_BYTES:])
    _write_image(path, environment, drawn, state)
    path.with_suffix(".reference").write_text(signature_text(digests), "ascii")
    path.with_suffix(".state").write_text(f"{json.dumps(_state_json(left, environment.base), indent=1)}\n", "ascii")
    return drawn.executed, drawn.coverage


def _state(guest: Guest, code: Harness, stop: Stop) -> bytes:
    """Return the state at the end of a program: after its last call, or at a fault, with the signal's number."""
    base = code.environment.base
    memory, block = guest.peek(base + MEMORY, MEMORY_BYTES), guest.peek(code.labels["found"], BLOCK_BYTES)
    if stop.kind != "fault":
        return block + memory
    registers = Stepper(guest).registers
    values: dict[str, object] = {**dict.fromkeys(NAMES, 0), **vars(registers.control), "v": bytes(registers.v)}
    values |= {"end": SIGSEGV, "value": stop.value, "pc": stop.pc, "memory": memory}
    values |= {f"x{number}": registers.x[number] for number in range(1, 30)}
    return LAYOUT.pack(*values.values())


def _first_state(draws: random.Random, base: int) -> bytes:
    """Return the state before a program: x29 is the middle of memory, and all other registers and memory are random."""
    values: dict[str, object] = {**dict.fromkeys(NAMES, 0), **vars(FIRST), "x29": base + MEMORY + MEMORY_BYTES // 2}
    values |= {f"x{number}": draws.getrandbits(64) for number in range(1, 29)}
    values |= {"v": draws.randbytes(1024), "memory": draws.randbytes(MEMORY_BYTES)}
    return LAYOUT.pack(*values.values())


def _write_image(path: pathlib.Path, environment: Environment, drawn: Drawn, state: bytes) -> Harness:
    """Write the ELF file of a program, and return the code around the program.

    The program's signature has one more digest, of memory at the end. state: the state before the program
    """
    code = harness(environment, "walk", -(-(drawn.digests + 1) // _SIGNATURES) * _SIGNATURES)
    body = bytearray()
    for word in drawn.words:
        here = environment.code + LIST + PAGE_BYTES + len(body)
        if word == CHECKPOINT:
            word = 0x6F | 31 << 7 | jump_bits(code.labels["checkpoint"] - here)
        elif word == DONE:
            word = 0x6F | jump_bits(code.labels["done"] - here)
        body += word.to_bytes(4, "little")
    path.write_bytes(code.image(state[:BLOCK_BYTES].ljust(PAGE_BYTES, b"\0") + body, state[BLOCK_BYTES:]))
    path.chmod(0o755)
    return code


def _state_json(block: bytes, base: int) -> dict[str, object]:
    """Return a state with the keys of golden vectors."""
    values = dict(zip(NAMES, LAYOUT.unpack(block)))
    state: dict[str, object] = {name: values[name] for name in ("vl", "vstart", "vxrm", "vxsat")}
    v, memory = values["v"], values["memory"].hex()
    state |= {
        "vtype": f"{values['vtype']:x}",
        "x": {number: f"{values[f'x{number}']:x}" for number in range(1, 30)},
    }
    return state | {
        "v": {n: v[32 * n : 32 * n + 32].hex() for n in range(32)},
        "memory": {f"{base + MEMORY:x}": memory},
    }


def _table(coverage: Coverage) -> Iterator[str]:
    """Yield a line for each instruction, vector type, mask and tail in programs; and the instructions that occur in none."""
    rows: list[Sequence[object]] = [("instruction", "type", "mask", "tail", "times")]
    for (name, vtype, is_masked, tail), count in sorted(coverage.items()):
        rows.append((name, vtype_text(vtype).partition(",t")[0], "masked" if is_masked else "-", tail, count))
    yield from table_lines(rows, 4)
    covered = {name for name, *_ in coverage}
    yield f"not met: {' '.join(name for name in instruction_table() if name not in covered) or 'none'}"

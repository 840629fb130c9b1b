"""Scripts of up to eight users that are drawn, with what no look shows; and lines that bring all of that out."""

import random
from collections.abc import Iterator

from vecmon_lab.checkpoints.machine_state import TOUCHING, MachineState

CODE, DATA, NEXT = 0x20000, 0x30000, 0x31000
SCALAR = ["addi x0, x0, 0", "addi x5, x5, 1", "csrrs x5, vlenb, x0", "csrrwi x0, vxsat, 0"]
ACCESSES = ["vl8re8.v v0, (x5)", "vs8r.v v0, (x5)", "vle8.v v8, (x5), v0.t", "ecall", "jal x0, -4", "jal x0, 8"]
CONTROL = ["vsetvl x0, x5, x6", "csrrw x0, vcsr, x5", "csrrw x0, vstart, x5", "vsetvli x0, x0, e32, m1, ta, ma"]
TEXTS = [*SCALAR * 2, *ACCESSES, *CONTROL * 2, "vadd.vi v8, v8, 1", TOUCHING, "ebreak"]
VALUES = {
    5: (3, 0, 17, 30, DATA, NEXT - 5, NEXT - 1, NEXT - 100, 1 << 50, CODE),
    6: (0, 0xC0, 3, 0xD0, 0xC3, 1 << 63),
    10: (1, 2),
    11: (CODE, DATA),
    12: (3, 200, 256),
    17: (64, 93, 5),
}


def drawn_class(draws: random.Random, number: int) -> list[str]:
    """About this number of lines of a class; they lead to all kinds of hidden state."""
    digits = draws.sample("12345678", draws.choice((1, 2, 3, 5, 8)))
    lines = [line for digit in digits for line in _beginning(draws, digit)]
    while len(lines) < number:
        if draws.randrange(6) == 0:
            lines.append(f"* slices {draws.choice((1, 1, 2, 3, 7))}")
            continue
        digit = draws.choice(digits)
        lines += [f"{digit} {' ' * (draws.randrange(9) == 0)}{command}" for command in _action(draws)]
        if draws.randrange(40) == 0:
            lines += [f"{digit} stop", f"{digit} leave"] + _beginning(draws, digit) * draws.randrange(2)
        if draws.randrange(4) == 0:
            lines.append(f"* run {digit}")
    return lines


def _beginning(draws: random.Random, digit: str) -> list[str]:
    """A new machine with some pages."""
    code, data = draws.choice(("rwx", "x", "rx", "wx")), draws.choice(("r", "w", "rw", "rw", "x"))
    commands = ["enter", *["load sum"] * (draws.randrange(6) == 0), f"map {CODE:x} 1 {code}"]
    commands += [f"map {DATA:x} 1 {data}"] * (draws.randrange(5) > 0)
    commands += [f"map {NEXT:x} 1 {draws.choice(['r', 'w', 'rw'])}"] * (draws.randrange(3) == 0)
    return [f"{digit} {' ' * (draws.randrange(9) == 0)}{command} " for command in commands]


def _action(draws: random.Random) -> Iterator[str]:
    """The lines of a user: mostly a program is written and runs."""
    kind = draws.randrange(8)
    if kind == 0:
        yield f"vset v{draws.choice((0, 0, 1, 8))} {draws.choice((draws.randbytes(32), bytes(32))).hex()}"
    elif kind == 1:
        yield draws.choice(
            ("policy ones", "policy ones", "policy keep", "out", "enter", "go", "stop", "step 1", "setpc 1000")
        )
    elif kind == 2:  # a call that writes
        yield from (
            "stop",
            f"asm {CODE:x} ecall",
            "set x17 40",
            "set x10 1",
            f"set x12 {draws.choice((3, 200, 256)):x}",
        )
        yield from (f"set x11 {draws.choice((CODE, DATA)):x}", f"setpc {CODE:x}", "step 1")
    elif kind == 3:  # a loop, which may have a breakpoint in it
        length = draws.randrange(1, 5)
        yield "stop"
        for place in range(length):
            yield f"asm {CODE + 4 * place:x} {draws.choice(SCALAR)}"
        yield f"asm {CODE + 4 * length:x} jal x0, -{4 * length}"
        yield from [f"break {CODE + 4 * draws.randrange(length + 1):x}"] * draws.randrange(2)
        yield from (f"setpc {CODE + 4 * draws.randrange(length + 1):x}", "go")
    else:
        yield "stop"
        for place in range(draws.randrange(1, 9)):
            yield f"asm {CODE + 4 * place:x} {draws.choice(TEXTS)}"
        for number in draws.sample(sorted(VALUES), draws.randrange(7)):
            yield f"set x{number} {draws.choice(VALUES[number]):x}"
        yield from (
            f"setpc {CODE + 4 * draws.randrange(3):x}",
            draws.choice(("go", "step 1", "step 2", "step 5", "step 20")),
        )


def outcome(machine: MachineState) -> Iterator[str]:
    """Lines that bring out all that a machine is: exemptions, permissions, policies, save areas, whose turn is next."""
    yield from (f"* run {digit}" for digit in "12345678")
    yield from ("* slices 5", "* stats")
    for digit, user in machine.users.items():
        looks = ["regs", "vcsr", "trace", "breaks", "out"] + [f"vreg v{number} 8" for number in range(32)]
        looks += [f"peek {at:x} 256" for page in user.pages for at in range(page, page + 4096, 256)]
        yield from (f"{digit} {command}" for command in ("stop", *looks))
        yield from (f"{digit} unbreak {address:x}" for address in machine.shown[digit].breakpoints)
        yield from (f"{digit} {command}" for page in user.pages for command in _accesses(page, user.first("x")))
    for _ in range(2):
        for digit, user in machine.users.items():
            if (code := user.first("x")) is not None:
                for text in ("vsetivli x0, 1, e8, m1, ta, ma", "vadd.vi v8, v8, 1", TOUCHING):
                    yield from (f"{digit} asm {code:x} {text}", f"{digit} setpc {code:x}", f"{digit} step 1")
                    yield from ("* stats", f"{digit} vreg v8 8")


def _accesses(page: int, code: int | None) -> Iterator[str]:
    """A fetch, a load and a store in a page."""
    yield from (f"asm {page + 8:x} addi x0, x0, 0", f"setpc {page + 8:x}", "step 1")
    if code is not None:
        yield from (f"asm {code + 16:x} lw x7, 0(x5)", f"asm {code + 20:x} sw x5, 0(x5)", f"set x5 {page:x}")
        yield from (f"setpc {code + 16:x}", "step 1", f"setpc {code + 20:x}", "step 1")

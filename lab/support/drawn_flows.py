"""Assembler sources with drawn branches, loops, calls and vector types, to test the flow analysis."""

import random

from vecmon_lab.programs.draw import draw_program
from vecmon_lab.programs.emitter import CHECKPOINT, DONE

_TYPES = [
    f"e{8 << sew}, {group}, {tail}, {mask}"
    for sew in range(4)
    for group in ("m1", "m2", "m4", "m8", "mf2", "mf4", "mf8")
    for tail in ("ta", "tu")
    for mask in ("ma", "mu")
]
"""All vector types that can be written, those that aren't supported too."""

_OPERATIONS = [
    "vadd.vv v8, v16, v24",
    "vmul.vx v4, v8, a0",
    "vwadd.vv v8, v16, v24",
    "vnsrl.wi v8, v16, 3",
    "vzext.vf2 v8, v16",
    "vmseq.vi v0, v8, 1",
    "vid.v v2",
    "vmv.x.s a5, v8",
    "vle8.v v8, (s0)",
    "vse16.v v8, (s0)",
    "vredsum.vs v8, v16, v24",
    "vslidedown.vi v8, v16, 1",
    "vmv1r.v v3, v5",
]


class _Drawing:
    """A source that grows statement by statement."""

    def __init__(self, seed: int) -> None:
        self.random, self.lines = random.Random(seed), list[str]()
        self._labels = 0
        self.functions = [f"function{number}" for number in range(self.random.randrange(4))]

    def label(self) -> str:
        """A new name."""
        self._labels += 1
        return f"place{self._labels}"

    def add(self, *lines: str) -> None:
        """Write statements."""
        self.lines += [f"        {line}" for line in lines]

    def vset(self) -> None:
        """An instruction that sets a vector type and length, often one of a few, so that several ways agree."""
        kind = self.random.choice(_TYPES if self.random.random() < 0.3 else _TYPES[:8])
        form = self.random.randrange(7)
        if form == 0:
            self.add(f"vsetivli {self.random.choice(('zero', 't0'))}, {self.random.randrange(32)}, {kind}")
        elif form == 1:
            self.add(f"vsetvli t0, zero, {kind}")
        elif form == 2:
            self.add(f"vsetvli zero, zero, {kind}")
        elif form == 3:
            self.add(f"li t1, {self.random.randrange(300)}", f"vsetvli zero, t1, {kind}")
        elif form == 4:
            self.add(f"li t1, {self.random.choice((0, 8, 0x50, 0xD1, 0x100, 7, 0x18))}", "vsetvl t0, a0, t1")
        elif form == 5:
            self.add("csrr t1, vtype", "vsetvl t0, a1, t1")
        else:
            self.add(f"vsetvli t0, a{self.random.randrange(2)}, {kind}")

    def block(self, depth: int, callees: list[str]) -> None:
        """Some statements, with blocks in them. callees: the functions that they may call"""
        for _ in range(self.random.randrange(1, 5)):
            form = self.random.randrange(12)
            if form < 4:
                self.vset()
            elif form < 7:
                self.add(self.random.choice(_OPERATIONS))
            elif form == 7:
                self.add(f"addi a{self.random.randrange(4)}, a0, {self.random.randrange(40)}")
            elif form == 8 and callees:
                self.call(self.random.choice(callees))
            elif form == 9 and self.random.random() < 0.3:
                self.add("vle8ff.v v8, (s1)")
            elif depth:
                self.nested(depth - 1, callees)

    def call(self, function: str) -> None:
        """A call, directly or by a register."""
        forms = [[f"call {function}"], [f"la t2, {function}", "jalr t2"], [f"jal {function}"]]
        self.add(*self.random.choice(forms))

    def nested(self, depth: int, callees: list[str]) -> None:
        """A condition with one or two branches, or a loop."""
        first, last = self.label(), self.label()
        form = self.random.randrange(3)
        if form < 2:
            name = self.random.choice(("beqz", "bnez", "bgtz"))
            self.add(f"andi t3, a{self.random.randrange(4)}, 1", f"{name} t3, {first}")
            self.block(depth, callees)
            if form:
                self.add(f"j {last}")
            self.lines.append(f"{first}:")
            if form:
                self.block(depth, callees)
                self.lines.append(f"{last}:")
            return
        counter = f"s{depth + 2}"
        self.add(f"li {counter}, {self.random.randrange(1, 4)}")
        self.lines.append(f"{first}:")
        self.block(depth, [])
        self.add(f"addi {counter}, {counter}, -1", f"bnez {counter}, {first}")


def drawn_flow(seed: int) -> str:
    """A source that ends, unless an instruction of it is illegal."""
    drawing = _Drawing(seed)
    drawing.add(
        f"li a0, {drawing.random.randrange(40)}",
        f"li a1, {drawing.random.randrange(9)}",
        "la s0, room",
        "la s1, room + 4090",
    )
    drawing.lines.insert(0, "_start:")
    for _ in range(4):
        drawing.block(2, drawing.functions)
    drawing.add("li a7, 93", "ecall")
    for number, function in enumerate(drawing.functions):
        drawing.lines.append(f"{function}:")
        inner = drawing.functions[number + 1 :]
        drawing.add("addi sp, sp, -16", "sd ra, 0(sp)")
        drawing.block(1, inner)
        if inner and drawing.random.random() < 0.2:
            drawing.add("ld ra, 0(sp)", "addi sp, sp, 16", f"tail {inner[0]}")
        else:
            drawing.add("ld ra, 0(sp)", "addi sp, sp, 16", "ret")
    return "\n".join([*drawing.lines, "        .bss", "        .align 12", "room:   .zero 4096", ""])


def drawn_words(seed: int, length: int = 100) -> str:
    """Return a source with the encodings of a drawn program, which also jumps to addresses in registers, and ends."""
    words = draw_program(f"{seed}", length, has_choices=True).words
    lines = ["_start:", "la x29, room + 2048", "li x1, 32", "vsetvli x0, x1, e8, m1, tu, mu"]
    is_left_out = [
        CHECKPOINT in pair or DONE in pair for pair in zip([0, *words], words)
    ]  # a call and the registers after it
    lines += ["nop" if left_out else f".word {word:#x}" for word, left_out in zip(words, is_left_out)]
    return "\n".join([*lines, "li a7, 93", "ecall", ".bss", ".align 4", "room: .zero 8192", ""])

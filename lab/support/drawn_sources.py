"""Assembler sources that are drawn from the forms that both stock tools and the lab's assembler take."""

import random
from collections.abc import Callable

SCALARS = "zero ra sp t0 t1 s0 s1 a0 a1 a2 a3 s11 t6 x0 x31".split()
VECTORS = [f"v{number}" for number in (0, 1, 2, 4, 8, 16, 31)]
TEXTS = [r'"a"', r'"two words"', r'"\t\"x\"\n"', r'"\101; # /* no comment */"', '""']
END_OF_SECTIONS = "".join(f"\n.section {name}\n.p2align 4" for name in (".text", ".rodata", ".data", ".sdata"))
"""Lines that end a source, so that no tool pads its sections by itself."""

_BINARY = ["+", "-", "*", "&", "|", "^", "<<", ">>"]


class Draw:
    """The state of a draw: names that are unique by a prefix, and the labels and constants so far."""

    def __init__(self, seed: int, prefix: str) -> None:
        self.random, self.prefix = random.Random(seed), prefix
        self.labels: list[str] = []
        self.constants: list[str] = []
        self._count = 0

    def one(self, *choices: Callable[[], str]) -> str:
        return self.random.choice(choices)()

    def name(self, stem: str) -> str:
        self._count += 1
        return f"{self.prefix}{stem}{self._count}"

    def small(self) -> int:
        return self.random.randrange(-9, 10)

    def literal(self, value: int) -> str:
        """A number that isn't negative, in one of its forms."""
        forms = [str(value), hex(value), bin(value), f"0X{value:X}"]
        forms += [f"'{chr(value)}'"] if 48 <= value < 91 else []
        return self.random.choice(forms)

    def expression(self, depth: int = 2) -> str:
        """A number of a few bits, of numbers, constants and operators with and without parentheses."""
        if depth == 0 or self.random.random() < 0.3:
            own = self.random.choice(self.constants) if self.constants and self.random.random() < 0.3 else ""
            return own or self.literal(self.random.randrange(1, 100))
        operator = self.random.choice(_BINARY)
        left = self.expression(depth - 1)
        right = str(self.random.randrange(4)) if operator in ("<<", ">>") else self.expression(depth - 1)
        space = self.random.choice(("", " "))
        text = f"{left}{space}{operator}{space}{right}"
        prefix = self.random.choice(("", "", "-", "~", "+"))
        return f"{prefix}({text})" if prefix or self.random.random() < 0.5 else text

    def scalar(self) -> str:
        return self.random.choice(SCALARS)

    def immediate(self) -> str:
        number = self.random.randrange(-2048, 2048)
        sign = "-" if number < 0 else ""
        return f"{sign}{self.literal(abs(number))}" if self.random.random() < 0.7 else f"({self.expression(1)}) & 0x3ff"


def drawn_source(seed: int, prefix: str) -> str:
    """A source of some dozens of statements. Its names begin with the prefix, so that several sources make one."""
    draw = Draw(seed, prefix)
    parts = [".data", ".p2align 3", *(_datum(draw) for _ in range(draw.random.randrange(2, 6))), ".text", ".p2align 2"]
    parts += [_part(draw) for _ in range(draw.random.randrange(4, 12))]
    return "\n".join(parts)


def _datum(draw: Draw) -> str:
    """A label and its data."""
    label = draw.name("data")
    draw.labels.append(label)
    widths = [
        ".byte",
        ".half",
        ".word",
        ".dword",
        ".2byte",
        ".hword",
        ".short",
        ".4byte",
        ".long",
        ".int",
        ".8byte",
        ".quad",
    ]
    width = draw.random.choice(widths)
    mask = {".byte": 127, ".half": 32767, ".hword": 32767, ".short": 32767, ".2byte": 32767}.get(width, 0x7FFFFFFF)
    numbers = ", ".join(f"({draw.expression()}) & {mask}" for _ in range(draw.random.randrange(1, 4)))
    body = draw.one(
        lambda: f"{width} {numbers}",
        lambda: f"{draw.random.choice(('.ascii', '.asciz', '.string'))} {draw.random.choice(TEXTS)}",
        lambda: f"{draw.random.choice(('.zero', '.space', '.skip'))} {draw.random.randrange(9)}",
        lambda: f".fill {draw.random.randrange(4)}, {draw.random.choice((1, 2, 4))}, {draw.random.randrange(200)}",
        lambda: f".dword {label}, {label} + {draw.random.randrange(9)}, . - {label}",
        lambda: f".{draw.random.choice(('p2align 2', 'balign 8', 'p2align 3, 7', 'balign 4, 1', 'align 2'))}\n.byte 1",
        lambda: f".uleb128 {draw.random.randrange(1000)}",
    )
    section = draw.random.choice(("", "", ".section .rodata\n", ".data\n", '.section .sdata, "aw"\n'))
    return f"{section}{label}: {body}{draw.random.choice(('', ' # comment', ' /* comment */'))}"


def _part(draw: Draw) -> str:
    """Some statements of the text."""
    return draw.one(
        lambda: _instruction(draw),
        lambda: "; ".join(_instruction(draw) for _ in range(draw.random.randrange(1, 4))),
        lambda: _loop(draw),
        lambda: _constant(draw),
        lambda: _condition(draw),
        lambda: _repetition(draw),
        lambda: _macro(draw),
        lambda: _address(draw),
    )


def _instruction(draw: Draw) -> str:
    """An instruction of one of many forms, its name in small or in capital letters."""
    register, vector = draw.scalar, lambda: draw.random.choice(VECTORS[1:])
    name = draw.random.choice("add and or xor slt sltu addw".split())
    shift = draw.random.choice("sll srl sra".split())
    load, store = draw.random.choice("lb lh lw ld lbu lhu lwu".split()), draw.random.choice("sb sh sw sd".split())
    text = draw.one(
        lambda: f"{name} {register()}, {register()}, {register()}",
        lambda: f"{name} {register()}, {register()}, {draw.immediate()}",
        lambda: f"addi {register()},{register()},{draw.immediate()}",
        lambda: f"{shift} {register()}, {register()}, {draw.random.randrange(64)}",
        lambda: f"li {register()}, {draw.random.choice(('', '-'))}{draw.literal(draw.random.getrandbits(draw.random.randrange(1, 32)))}",
        lambda: f"{load} {register()}, {draw.random.choice((draw.immediate(), ''))}({register()})",
        lambda: f"{store} {register()}, {draw.immediate()}({register()})",
        lambda: f"jalr {register()}, {draw.immediate()}({register()})",
        lambda: f"{draw.random.choice('mv not neg negw sext.w seqz snez'.split())} {register()}, {register()}",
        lambda: f"fence {draw.random.choice('rw r w iorw'.split())}, {draw.random.choice('rw r w iorw'.split())}",
        lambda: f"vsetvli {register()}, {register()}, e{draw.random.choice((8, 16, 32, 64))}, m1, ta, ma",
        lambda: f"vadd.vv {vector()}, {vector()}, {vector()}{draw.random.choice(('', ', v0.t'))}",
        lambda: f"vadd.vi {vector()}, {vector()}, {draw.small()}",
        lambda: f"vle32.v {vector()}, ({register()})",
        lambda: f"csrr {register()}, {draw.random.choice(('vl', 'vtype', 'vlenb', '0xc20'))}",
        lambda: draw.random.choice(("nop", "ret", "ecall", "unimp", "jr ra", "vneg.v v1, v2")),
    )
    mnemonic, space, operands = text.partition(" ")
    return f"{mnemonic.upper() if draw.random.random() < 0.1 else mnemonic}{space}{operands}"


def _loop(draw: Draw) -> str:
    """A loop to a label with a name or a number, and a jump over it."""
    label = draw.random.choice(("1", "2", draw.name("loop")))
    back, forward = (f"{label}b", "9f") if label.isdecimal() else (label, "9f")
    branch = draw.random.choice(("bnez a0,", "beq a0, a1,", "bgt a0, a1,", "bleu a1, a2,", "j"))
    return f"j {forward}\n{label}: {_instruction(draw)}\n{branch} {back}\n9:"


def _constant(draw: Draw) -> str:
    """A constant by one of its directives."""
    name, value = draw.name("number"), f"({draw.expression()}) & 63"
    draw.constants.append(name)
    return draw.one(lambda: f".equ {name}, {value}", lambda: f".set {name}, {value}", lambda: f"{name} = {value}")


def _condition(draw: Draw) -> str:
    """Draw an .if with two branches; one of them is assembled."""
    test = draw.one(
        lambda: f".if {draw.expression(1)} {draw.random.choice(('==', '!=', '<', '>', '<=', '>='))} {draw.expression(1)}",
        lambda: f".ifdef {draw.random.choice((*draw.labels, draw.name('unknown')))}",
        lambda: f".ifeq {draw.small()}",
        lambda: ".ifc a, a",
    )
    return f"{test}\n{_instruction(draw)}\n.else\n{_instruction(draw)}\n.endif"


def _repetition(draw: Draw) -> str:
    """A block that is repeated."""
    return draw.one(
        lambda: f".rept {draw.random.randrange(4)}\n{_instruction(draw)}\n.endr",
        lambda: ".irp reg, a0, t1, s2\nadd \\reg, \\reg, 1\n.endr",
        lambda: ".irpc digit, 147\naddi a0, a0, \\digit\n.endr",
    )


def _macro(draw: Draw) -> str:
    """A macro and two calls of it."""
    name, number = draw.name("macro"), draw.random.randrange(1, 100)
    head = f".macro {name} to, from=a1, n={number}"
    body = f"add \\to, \\from, \\n\n{name}_\\@: bnez \\to, {name}_\\@\n.if \\n > 50\nsub \\to, \\to, \\from\n.endif"
    calls = f"{name} a0\n{name} {draw.scalar()}, {draw.scalar()}, {draw.random.randrange(100)}\n{name} n=5, to=t0"
    return f"{head}\n{body}\n.endm\n{calls}"


def _address(draw: Draw) -> str:
    """The address or the value of a label of the data."""
    label, register = draw.random.choice(draw.labels), draw.random.choice("a0 a1 t0 s1".split())
    return draw.one(
        lambda: f"la {register}, {label}",
        lambda: f"lla {register}, {label} + 4",
        lambda: f"lw {register}, {label}",
        lambda: f"sd {register}, {label}, t6",
        lambda: f"lui {register}, %hi({label})\naddi {register}, {register}, %lo({label})",
        lambda: f"5: auipc {register}, %pcrel_hi({label})\nld a2, %pcrel_lo(5b)({register})",
    )

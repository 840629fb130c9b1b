"""Equations that `why` shows for golden vectors, compared with QEMU's results by the independent reader `shown_equations`."""

import contextlib
import itertools
import random
import re
from collections import Counter
from collections.abc import Callable, Iterable, Iterator, Mapping, Sequence
from dataclasses import dataclass, field
from fractions import Fraction

from support.golden import Vector, before_of, start_byte
from support.shown_equations import LeftOut, Unreadable, evaluate, read_causes, read_equation, read_number, signed
from vecmon_lab.instructions.accesses import REGISTER_BITS, REGISTER_BYTES, vector_instruction
from vecmon_lab.instructions.table import REGISTERS, row_of
from vecmon_lab.instructions.words import LOAD
from vecmon_lab.machine.answers import ControlRegisters
from vecmon_lab.meanings.calculation import Kept, Notation, NumberForm
from vecmon_lab.meanings.executed import Before
from vecmon_lab.meanings.why import Explanation

FORMS: Sequence[NumberForm] = ("signed", "unsigned", "hexadecimal")
UNCLEAN = {"corrected", "versions", "qemu_value"}  # keys of vectors whose result isn't that of all versions of QEMU
_TERM = re.compile(r"(?:(signed|unsigned|sext|zext)\()?(-?\w+)(\.mask)?(?:\[(\w+)\])?\)?")
_TARGET = re.compile(r"v(\d+)(\.mask)?\[(\d+)\]")
_KEPT = re.compile(r"(\S+) kept its value (\S+): (.*)")
_NAMED_EQUALITY = re.compile(r"v\d+\[\d+\] [!=]= \([-−]\d+\)")
_NEGATIVE_EQUALITY = re.compile(r"\([-−]\d+\) [!=]= \([-−]\d+\)")
_ALL_ONES = re.compile(r"(\S+) = (0x[0-9a-f]+), all ones, since it is agnostic under policy ones: (.*)")
_UNMASKED = (
    "vmerge",
    "vadc",
    "vsbc",
    "vmadc",
    "vmsbc",
    "vred",
    "vwred",
)  # whose results a bit of v0 doesn't turn off by element
_WHOLE = re.compile(r"v(?:[ls]\dr|mv\dr)|vlm")


@dataclass(frozen=True)
class State:
    """The state before an instruction, and the results that an independent source has.

    v, x: the registers after it; memory: returns a byte of memory after it, by address
    """

    before: Before
    v: bytes
    x: Sequence[int]
    memory: Callable[[int], int]

    @property
    def control(self) -> ControlRegisters:
        return self.before.control


def clean_vectors(vectors: Iterable[tuple[str, Vector]]) -> list[tuple[str, Vector]]:
    """The vectors whose result all versions of QEMU gave, and whose instruction ended."""
    return [each for each in vectors if not UNCLEAN & each[1].keys() and each[1]["after"]["end"] == "ran"]


def state_of(policy: str, vector: Vector) -> State:
    """The state of a golden vector, with QEMU's results."""
    before, after = before_of(policy, vector), vector["after"]
    v, x = bytearray(before.v), list(before.x)
    for number, digits in after.get("v", {}).items():
        v[int(number) * REGISTER_BYTES : (int(number) + 1) * REGISTER_BYTES] = bytes.fromhex(digits)
    for number, digits in after.get("x", {}).items():
        x[int(number)] = int(digits, 16)
    runs = {int(start, 16): bytes.fromhex(digits) for start, digits in after.get("memory", {}).items()}
    stored = {start + at: byte for start, run in runs.items() for at, byte in enumerate(run)}
    return State(before, bytes(v), x, lambda address: stored.get(address, start_byte(address)))


def bits_of(v: bytes, first: int, width: int) -> int:
    """The bits of registers from a bit on, as an unsigned number."""
    return int.from_bytes(v[first // 8 : (first + width + 7) // 8], "little") >> first % 8 & (1 << width) - 1


def numbers_problem(text: str, form: NumberForm, width: int, expected: int) -> str:
    """What is wrong with the numbers of an equation. Raises Unreadable. Sides with names, and with numbers left out, don't count.

    width: of the target in bits; expected: the bits that it has by an independent source, as an unsigned number
    """
    equation = read_equation(text)
    shown = signed(expected, width) if form == "signed" and width > 1 else expected
    if equation.stored != shown:
        return f"the result is {equation.stored}, and another source's is {shown}"
    if (bool(equation.exact) if width == 1 else equation.exact % (1 << width)) != expected:
        return f"{equation.exact} isn't {expected} in {width} bits"
    for side in equation.sides:
        with contextlib.suppress(LeftOut, Unreadable):
            if (value := evaluate(side, width)) != equation.exact:
                return f"{side} is {value}, and not {equation.exact}"
    return ""


class Checker:
    """Checks the equations of one instruction. It has its own decoder's operands, but nothing of how `meanings` calculates."""

    def __init__(self, state: State, explanation: Explanation | None = None) -> None:
        """explanation: whose equations are checked; without one, those of the state before"""
        self._state, self._word = state, state.before.word
        self._instruction = vector_instruction(self._word, state.control.vtype)
        self._operands = self._instruction.operands if self._instruction else []
        row = row_of(self._word)
        assert row is not None
        self.name = row.name
        self._has_target = "rd" in row.fields()
        self._explanation = explanation or Explanation(state.before)
        self.destination = next((it for it in self._operands if it.place == "vd"), None)

    def places(self) -> list[tuple[str, int | None]]:
        """The elements that the instruction may write or store, as arguments of `why`; or its scalar register."""
        if self.destination is None:
            return [(f"x{self._word >> 7 & 31}", None)] if self._has_target and self._word >> 7 & 31 else []
        count = REGISTER_BITS // self.destination.eew
        return [(f"v{register}", element) for register in self.destination.registers for element in range(count)]

    def problems(self, name: str, element: int | None, tally: Counter[str]) -> Iterator[str]:
        """What is wrong with the equation of an element or a scalar register, in each form of numbers."""
        reason = self._explanation.why(name, element).of
        for form in FORMS:
            text = reason.text(Notation(form, has_abi_names=form == "unsigned", minus="−" if form == "signed" else "-"))
            try:
                check = self._check_kept if isinstance(reason, Kept) else self._check_equation
                found = check(text, form, name, element)
                tally[found.kind] += 1
                problem = found.problem
            except (Unreadable, KeyError) as error:
                problem = f"unreadable: {error}"
            if problem:
                yield f"{self.name} {self._word:08x} in {form} numbers: {text}: {problem}"

    def _target(self, target: str, name: str, element: int | None) -> tuple[int, int, int, int]:
        """The element that a shown name is: its index, its width, and its bits before and after. Raises Unreadable for another one."""
        if element is None:
            if REGISTERS.get(target, target) != name:
                raise Unreadable(f"{target} isn't {name}")
            number = int(name[1:])
            return 0, 64, self._state.before.x[number], self._state.x[number]
        found = _TARGET.fullmatch(target)
        if found is None or self.destination is None:
            raise Unreadable(f"{target} is no element")
        width = 1 if found[2] else max(8, self.destination.eew)
        first = int(found[1]) * REGISTER_BITS + int(found[3]) * width
        if not first <= int(name[1:]) * REGISTER_BITS + element * self.destination.eew < first + width:
            raise Unreadable(f"{target} isn't {name}[{element}]")
        old, new = (bits_of(v, first, width) for v in (self._state.before.v, self._state.v))
        return int(found[3]), width, old, new

    def _check_equation(self, text: str, form: NumberForm, name: str, element: int | None) -> "Found":
        equation = read_equation(text)
        index, width, _, expected = self._target(equation.target, name, element)
        if problem := numbers_problem(text, form, width, expected):
            return Found("equations", problem)
        if element is not None and (problem := self._why_not_active(index)):
            return Found("equations", problem)
        kind = "equations"
        if problem := self._causes_problem(text):
            return Found(kind, problem)
        for side in equation.sides:
            try:
                is_signed = _is_negative_equality(side, equation.sides[-1])
                problem = self._side_problem(side, equation.exact, width, is_signed)
            except LeftOut:
                kind, problem = "equations that leave numbers out", ""
            if problem:
                return Found(kind, problem)
        return Found(kind)

    def _causes_problem(self, text: str) -> str:
        """What is wrong with the conditions that have chosen an equation: with numbers, and with names."""
        for cause, verdict in read_causes(text):
            for side in cause:
                try:
                    values = [evaluate(side)]
                except Unreadable:
                    values = [evaluate(side, 64, number) for number in self._numbers(side)]
                if not any(bool(value) == verdict for value in values):
                    return f"{side} isn't {verdict}"
        return ""

    def _side_problem(self, side: str, exact: int, width: int, is_signed: bool) -> str:
        """What is wrong with a side of an equation: with numbers it is the exact result, with names the same in the target's bits.

        is_signed: whether the names of elements are signed numbers
        """
        target_width = max(8, self.destination.eew) if self.destination else 64
        try:
            value = evaluate(side, target_width)
            return "" if value == exact else f"{side} is {value}, and not {exact}"
        except Unreadable:
            values = [evaluate(side, target_width, number) for number in self._numbers(side, is_signed)]
        fits = [(bool(value) == bool(exact)) if width == 1 else (value - exact) % (1 << width) == 0 for value in values]
        return "" if any(fits) else f"{side} is {' or '.join(map(str, values))}, and not {exact}"

    def _why_not_active(self, index: int) -> str:
        """Why the instruction doesn't write an element; "" if it does."""
        if _WHOLE.match(self.name):
            return ""
        if index >= self._state.control.vl or index < self._state.control.vstart and "[0]" not in self.name:
            return f"element {index} isn't in the body"
        is_masked = not self._word >> 25 & 1 and not self.name.startswith(_UNMASKED)
        return f"element {index} is masked off" if is_masked and not bits_of(self._state.before.v, index, 1) else ""

    def _numbers(self, side: str, is_signed: bool = False) -> Iterator["Numbers"]:
        """The numbers of the names in a side, with each width that a register may be read with.

        is_signed: whether the names of elements are signed numbers
        """
        registers = sorted({found[2] for found in _TERM.finditer(side) if not found[3]})
        choices = [[(name, width) for width in self._widths(REGISTERS.get(name, name))] for name in registers]
        for chosen in itertools.product(*choices):
            yield Numbers(self._state, dict(chosen), self._access_width(), is_signed)

    def _access_width(self) -> int:
        """The width of an element in memory, in bits."""
        if self._word & 0x7F == LOAD:
            return 8 << (self._word >> 12 & 3)
        return max(8, self.destination.eew) if self.destination else 64

    def _widths(self, name: str) -> list[int]:
        """The widths with which the instruction may read a register, in bits."""
        if re.fullmatch(r"x\d+", name):
            return [64, self._state.control.sew] if self._instruction else [64]
        if re.fullmatch(r"v\d+", name):
            widths = {max(8, it.eew) for it in self._operands if int(name[1:]) in it.registers}
            return sorted(widths) or [8]
        return [64]

    def _check_kept(self, text: str, form: NumberForm, name: str, element: int | None) -> "Found":
        has_ones = _ALL_ONES.fullmatch(text)
        found = has_ones or _KEPT.fullmatch(text)
        if found is None:
            raise Unreadable(text)
        index, width, old, new = self._target(found[1], name, element)
        shown = signed(new, width) if form == "signed" and width > 1 and not has_ones else new
        if read_number(found[2]) != shown:
            return Found("kept", f"the value is {found[2]}, and QEMU's is {shown}")
        if has_ones and not (self._state.before.has_ones and new == (1 << width) - 1):
            return Found("kept", "it isn't all ones")
        if not has_ones and old != new:
            return Found("kept", f"it was {old} and is {new}")
        return Found("kept", self._cause_problem(found[3], index))

    def _cause_problem(self, cause: str, index: int) -> str:
        """What is wrong with the reason why an element kept its value."""
        control = self._state.control
        if found := re.fullmatch(r"masked off by v0\[(\d+)\] = 0", cause):
            holds = int(found[1]) == index and not bits_of(self._state.before.v, index, 1) and not self._word >> 25 & 1
        elif found := re.fullmatch(r"tail, since (\d+) >= (?:vl = (\d+)|(\d+)(?:, .*)?)", cause):
            holds = int(found[1]) == index >= int(found[2] or found[3]) and found[2] in (None, f"{control.vl}")
            if cause.endswith(", the number of packed elements"):
                vs1 = self._word >> 15 & 31
                holds = (
                    holds
                    and int(found[3]) == bits_of(self._state.before.v, vs1 * REGISTER_BITS, control.vl).bit_count()
                )
        elif found := re.fullmatch(r"before vstart = (\d+)", cause):
            holds = index < int(found[1]) == control.vstart
        elif found := re.fullmatch(r"no element is written, since vstart = (\d+) >= (\d+), the end of the body", cause):
            holds = control.vstart == int(found[1]) >= int(found[2])
        elif found := re.fullmatch(r"not written, since (.*)", cause):
            return self._condition_problem(found[1])
        elif found := re.fullmatch(r"the access of element (\d+) isn't permitted, so vl is (\d+)", cause):
            holds = found[1] == found[2] and index >= int(found[1])
        elif found := re.fullmatch(r"the access of element (\d+) faults, so it isn't reached", cause):
            holds = index >= int(found[1])
        elif found := re.fullmatch(r"it is stored: memory\[(0x[0-9a-f]+)\] = (\S+) = (\S+)", cause):
            return self._store_problem(int(found[1], 16), found[2], read_number(found[3]))
        else:
            holds = cause == f"{self.name} doesn't write it"
        return "" if holds else f"{cause!r} doesn't hold"

    def _condition_problem(self, condition: str) -> str:
        """What is wrong with a condition under which an element isn't written."""
        try:
            return "" if evaluate(condition) else f"{condition} doesn't hold"
        except LeftOut:
            return ""

    def _store_problem(self, address: int, source: str, value: int) -> str:
        """What is wrong with a stored element. A later element may be stored to the same address, so bytes may differ then."""
        width = max(8, self.destination.eew) if self.destination else 64
        found = _TARGET.fullmatch(source)
        if found is None:
            raise Unreadable(source)
        bits = bits_of(self._state.v, int(found[1]) * REGISTER_BITS + int(found[3]) * width, width)
        if value % (1 << width) != bits:
            return f"{source} is {bits}"
        expected = bits.to_bytes(width // 8, "little")
        bytes_there = [self._state.memory(address + at) for at in range(width // 8)]
        is_ordered = re.match(r"vs(?:[uo]xei|[uo]xseg|se\d|sseg)", self.name)  # whose elements may overlap
        return "" if bytes(bytes_there) == expected or is_ordered else f"QEMU stored {bytes(bytes_there).hex()}"


@dataclass(frozen=True)
class Found:
    """The kind of a checked text, and what is wrong with it, or ""."""

    kind: str
    problem: str = ""


def _is_negative_equality(side: str, numbers: str) -> bool:
    """Whether a side compares an element with negative digits, and the side with numbers has a negative number in its place.

    Equal bits are equal numbers only if both have one sign.
    """
    return bool(_NAMED_EQUALITY.fullmatch(side) and _NEGATIVE_EQUALITY.fullmatch(numbers))


def _control_value(control: ControlRegisters, number: int) -> int:
    """The value of a control register by its number (sections 3.1 to 3.9); 0 for another number."""
    rounding = control.vxrm << 1 | control.vxsat
    values = {0xC20: control.vl, 0xC21: control.vtype, 0xC22: REGISTER_BYTES, 8: control.vstart, 9: control.vxsat}
    return (values | {10: control.vxrm, 15: rounding}).get(number, 0)


def _asked(before: Before) -> dict[str, int]:
    """The length and the type that a vset instruction asks for (sections 6.1 and 6.2)."""
    word, x = before.word, before.x
    rd, rs1 = word >> 7 & 31, word >> 15 & 31
    vtype = word >> 20 & (0x7FF if word >> 31 == 0 else 0x3FF) if word >> 30 != 2 else x[word >> 20 & 31]
    avl = rs1 if word >> 30 == 3 else x[rs1] if rs1 else (1 << 64) - 1 if rd else before.control.vl
    lmul, sew = Fraction(2) ** ((vtype + 4 & 7) - 4), 8 << (vtype >> 3 & 7)
    limit = int(8 * REGISTER_BYTES * lmul / sew)
    is_supported = vtype < 256 and vtype & 7 != 4 and sew <= 64 * min(Fraction(1), lmul)
    if word >> 30 != 3 and not rd and not rs1:
        is_supported = is_supported and limit == before.control.vlmax
    return {"avl": avl, "type": vtype, "limit": limit, "is_supported": int(is_supported)}


class Numbers:
    """The numbers of names in an equation, by the state before the instruction. Calling it raises KeyError for other names."""

    def __init__(self, state: State, widths: Mapping[str, int], element: int, is_signed: bool) -> None:
        """widths: of registers in bits; element: the width of memory; is_signed: whether elements without a function are signed"""
        self._state, self._widths, self._element, self._is_signed = state, widths, element, is_signed

    def __call__(self, term: str) -> int:
        found = _TERM.fullmatch(term)
        if found is None:
            raise KeyError(term)
        function, name, mask, place = found.groups()
        value, width = self._value(name, bool(mask), place)
        has_sign = function in ("signed", "sext") or self._is_signed and function is None and place is not None
        return signed(value, width) if has_sign and width > 1 else value

    def _value(self, name: str, is_mask: bool, place: str | None) -> tuple[int, int]:
        """The unsigned number that a name has, and its width."""
        before, control = self._state.before, self._state.control
        own = REGISTERS.get(name, name)
        if re.fullmatch(r"v\d+", own) and place is not None:
            width = 1 if is_mask else self._widths[name]
            return bits_of(before.v, int(own[1:]) * REGISTER_BITS + int(place) * width, width), width
        if re.fullmatch(r"x\d+", own):
            return before.x[int(own[1:])] % (1 << self._widths[name]), self._widths[name]
        if own.startswith("memory") and place is not None:
            width = int(own.removeprefix("memory") or self._element)  # of its name, or as wide as an element
            data = before.read(int(place, 16), width // 8)
            if data is None:
                raise KeyError(name)
            return int.from_bytes(data, "little"), width
        numbers = {"sew": control.sew, "vl": control.vl, "vlmax": control.vlmax, "vxrm": control.vxrm, "pc": before.pc}
        numbers |= {"csr": _control_value(control, before.word >> 20), "vill": 1 << 63, **_asked(before)}
        if own.removeprefix("-").isdigit():
            return int(own) % (1 << control.sew), control.sew  # an immediate in a conversion
        return numbers[own], 64


@dataclass
class Tally:
    """False or unreadable equations, and how many texts were checked by their kind and by mnemonic."""

    wrong: list[str] = field(default_factory=list)
    counts: Counter[str] = field(default_factory=Counter)
    names: Counter[str] = field(default_factory=Counter)


def check_vectors(vectors: Iterable[tuple[str, Vector]], elements: int, draws: random.Random) -> Tally:
    """Check the equations of vectors. elements: at most, of each vector, all but one of them before its vl"""
    tally = Tally()
    for policy, vector in vectors:
        if vector["name"] == "fence":
            continue
        checker = Checker(state_of(policy, vector))
        places = checker.places()
        body = places[: max(1, vector["vl"])]
        chosen = draws.sample(body, min(elements - 1, len(body))) + draws.sample(places, min(1, len(places)))
        for place in dict.fromkeys(chosen):
            tally.wrong += checker.problems(*place, tally.counts)
            tally.names[checker.name] += 1
    return tally

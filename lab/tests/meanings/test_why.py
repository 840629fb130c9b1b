"""Why an element has its value: sentences worked by hand, and every element of every step of the tour and the course."""

import pathlib
import pickle
from collections import Counter
from collections.abc import Iterator

import pytest

from support.console import shown
from support.golden_equations import Checker, State
from vecmon_lab import LabError
from vecmon_lab.exercises.check import script_before
from vecmon_lab.exercises.exercise import OURS, read_exercise
from vecmon_lab.guest.changes import Retired, Registers, Stepper
from vecmon_lab.guest.guest import Guest
from vecmon_lab.instructions.accesses import REGISTER_BITS, REGISTER_BYTES, vector_instruction
from vecmon_lab.lessons.script import Script
from vecmon_lab.lessons.tour import tours
from vecmon_lab.machine.answers import ControlRegisters, ScalarRegisters
from vecmon_lab.machine.lines import BadLine, words_of
from vecmon_lab.machine.session import Session
from vecmon_lab.meanings.executed import Before, ElementOutcome
from vecmon_lab.meanings.stepped import explanation_of
from vecmon_lab.meanings.why import Explanation
from vecmon_lab.tables.table import read_table

E32, TA = 0x10, 0x40  # parts of vtype, with m1
STEPS = {"tour": 35, "course": 81}  # vector steps that are explained, at least


def group(*values: int) -> bytes:
    """A register of eight elements of 32 bits."""
    return b"".join((value % (1 << 32)).to_bytes(4, "little") for value in values).ljust(REGISTER_BYTES, b"\0")


def test_outcome_has_its_name_when_pickled() -> None:
    assert repr(ElementOutcome.TAIL).startswith("<ElementOutcome.TAIL: ")
    assert [pickle.loads(pickle.dumps(each)) for each in ElementOutcome] == [*ElementOutcome]


def explained(word: int, name: str, element: int | None, **other: int | bool) -> str:
    """The sentence for an instruction under e32, m1 with vl 6 and vstart 0, and these registers.

    v0 is 0b11011111, v2 is 1, 2 .. 8, v4 is 10, -20, 30, .. -80, v8 is 100, 101 .. 107, and x11 is 3.
    """
    v = bytearray(32 * REGISTER_BYTES)
    numbers = {0: (0xDF,), 2: range(1, 9), 4: (10, -20, 30, -40, 50, -60, 70, -80), 8: range(100, 108)}
    for register, values in numbers.items():
        v[register * REGISTER_BYTES : (register + 1) * REGISTER_BYTES] = group(*values)
    control = ControlRegisters(int(other.get("vl", 6)), int(other.get("vtype", E32)), int(other.get("vstart", 0)))
    x = [0] * 11 + [3] + [0] * 20
    before = Before(0x10000, word, x, control, bytes(v[: 32 * REGISTER_BYTES]), bool(other.get("ones", False)))
    return Explanation(before).why(name, element).text


@pytest.mark.parametrize(
    "word, name, element, other, sentence",
    [
        (0xB625E457, "v8", 5, {}, "v8[5] = v2[5] * x11 + v8[5] = 6 * 3 + 105 = 123"),  # vmacc.vx v8, x11, v2
        (0x02410457, "v8", 0, {}, "v8[0] = v4[0] + v2[0] = 10 + 1 = 11"),  # vadd.vv v8, v4, v2
        (0x02410457, "v8", 1, {}, "v8[1] = v4[1] + v2[1] = (-20) + 2 = -18"),
        (
            0x724FB057,
            "v0",
            1,
            {},
            "v0.mask[1] = v4[1] <= unsigned(-1) = 4294967276 <= 4294967295 = 1",
        ),  # vmsleu.vi v0, v4, -1
        (0xEA45E457, "v8", 1, {}, "v8[1] = signed(v4[1]) * unsigned(x11) = (-20) * 3 = -60"),  # vwmulsu.vx v8, v4, x11
        (0x02410457, "v8", 6, {}, "v8[6] kept its value 106: tail, since 6 >= vl = 6"),
        (0x02410457, "v8", 1, {"vstart": 2}, "v8[1] kept its value 101: before vstart = 2"),
        (
            0x02410457,
            "v8",
            7,
            {"vtype": E32 | TA, "ones": True},
            "v8[7] = 0xffffffff, all ones, since it is agnostic under policy ones: tail, since 7 >= vl = 6",
        ),
        (0x1E412457, "v8", 1, {}, "v8[1] kept its value 101: tail, since 1 >= 1, the one element that is written"),
        (0x1E412457, "v9", 0, {}, "v9[0] kept its value 0: vredmax.vs doesn't write v9"),
        (
            0x1E412457,
            "v8",
            0,
            {},
            "v8[0] = max(signed(v2[0]), signed(v4[0]), signed(v4[1]), signed(v4[2]), signed(v4[3]), signed(v4[4]), signed(v4[5]))"
            " = max(1, 10, (-20), 30, (-40), 50, (-60)) = 50",
        ),
        (0x3A41B457, "v8", 1, {}, "v8[1] kept its value 101: not written, since 1 < 3"),  # vslideup.vi v8, v4, 3
        (0x3A41B457, "v8", 4, {}, "v8[4] = v4[1] = -20"),
        # vcompress.vm v8, v4, v0 packs five elements, and the next one is the tail (section 16.5), which nothing fills below vl
        (0x5E402457, "v8", 4, {}, "v8[4] = v4[4] = 50"),
        (
            0x5E402457,
            "v8",
            5,
            {"vtype": E32 | TA, "ones": True},
            "v8[5] kept its value 105: tail, since 5 >= 5, the number of packed elements",
        ),
        (0x00B50533, "x10", None, {}, "x10 = x10 + x11 = 0 + 3 = 3"),  # add x10, x10, x11
        (0x00B50533, "a1", None, {}, "x11 kept its value 3: add doesn't write it"),
    ],
)
def test_why_explains_element(word: int, name: str, element: int | None, other: dict[str, int], sentence: str) -> None:
    assert explained(word, name, element, **other) == sentence


def test_why_names_mask_bit() -> None:
    shown = explained(0x00410457, "v8", 5, vl=8)
    assert shown == "v8[5] kept its value 105: masked off by v0[5] = 0"


@pytest.mark.parametrize(
    "name, element, problem",
    [
        ("v8", 8, "v8 has the elements 0 to 7 of 32 bits, and 8 isn't one"),
        ("v9", 99, "v9 has the elements 0 to 7 of 32 bits, and 99 isn't one"),
        ("v32", 0, "there is no register v32: v0 to v31, x0 to x31, and names such as a0"),
        ("q", 0, "a register has another name than q: v0 to v31, x0 to x31, and names such as a0"),
        ("v8", None, "v8 has elements: v8[0] is one"),
        ("a0", 1, "a0 is a scalar register, and has no elements"),
    ],
)
def test_unknown_name_is_refused(name: str, element: int | None, problem: str) -> None:
    with pytest.raises(LabError) as error:
        explained(0x02410457, name, element)
    assert str(error.value) == problem


def scripts() -> Iterator[tuple[str, Script]]:
    """The scripts of the tour and of the course's lessons, each behind where it belongs."""
    yield from (("tour", script) for script in tours().values())
    yield from (("course", script_before(read_exercise(OURS / name))) for name, _ in read_table("course"))


def unexplained(before: Registers, stepper: Stepper, retired: Retired) -> Iterator[str]:
    """The elements of an instruction's vector registers whose explanation has another value than the machine."""
    instruction = vector_instruction(retired.word, before.control.vtype)
    if instruction is None or retired.stop and retired.stop.cause == 2:
        return
    explanation = explanation_of(stepper.guest, before, stepper.registers.control, retired)
    operand = instruction.operands[0]
    for register in operand.registers if operand.place == "vd" else ():
        value = int.from_bytes(stepper.registers.v[register * REGISTER_BYTES :][:REGISTER_BYTES], "little")
        for element in range(REGISTER_BITS // operand.eew):
            found, bits = explanation.why(f"v{register}", element), (1 << operand.eew) - 1
            if found.value != value >> element * operand.eew & bits or not found.text.startswith("v"):
                yield f"{retired.text}: {found.text}"
    checker = Checker(state_after(before, stepper, retired), explanation)
    yield from (problem for place in checker.places() for problem in checker.problems(*place, Counter()))
    if operand.place != "vd":
        number = retired.word >> 7 & 31
        if explanation.why(f"x{number}").value != stepper.registers.x[number]:
            yield f"{retired.text}: {explanation.why(f'x{number}').text}"


def state_after(before: Registers, stepper: Stepper, retired: Retired) -> State:
    """The state before a stepped instruction, and the machine's results."""
    guest, registers = stepper.guest, stepper.registers

    def read(address: int, length: int) -> bytes | None:
        return guest.peek(address, length)  # no load has changed it

    has_ones = guest.session.policy[guest.user] == "ones"
    state = Before(retired.pc, retired.word, before.x, before.control, bytes(before.v), has_ones, read)
    return State(state, bytes(registers.v), registers.x, lambda address: guest.peek(address, 1)[0])


def test_every_element_of_tour_and_course_is_explained(program: pathlib.Path) -> None:
    counts, wrong = Counter[str](), list[str]()
    for name, script in scripts():
        with Session(program) as session:
            for line in (line for step in script.steps for line in step.lines):
                words = words_of(line)
                if words[0] != "step" or len(words) != 2:
                    try:
                        session.do(line)
                    except BadLine:
                        pass  # as a tour shows them
                    continue
                stepper = Stepper(Guest(session, int(line[0])))
                stepper.guest.pc = stepper.guest.query("regs", ScalarRegisters).pc
                for _ in range(int(words[1])):
                    before = stepper.registers.copy()
                    retired = stepper.step()
                    counts[name] += vector_instruction(retired.word, before.control.vtype) is not None
                    wrong += unexplained(before, stepper, retired)
                    if retired.stop:
                        break
    assert wrong == [] and all(counts[name] >= minimum for name, minimum in STEPS.items()), counts


def test_console_explains_element(tmp_path: pathlib.Path) -> None:
    source = tmp_path / "source.s"
    source.write_text(
        "vsetivli x0, 4, e32, m1, tu, mu\nvid.v v8\nli a1, 3\nvmacc.vx v8, a1, v8\nvcpop.m a0, v8\nebreak\n"
    )
    lines = [
        "why v8[1]",
        "step 4",
        "why v8[3]",
        "why v8 4",
        "why v8[8]",
        "why",
        "why v8[",
        "step",
        "why a0",
        "set a0 1",
        "why a0",
    ]
    output = "\n".join(shown(lines, source))
    for sentence in (
        "no instruction was executed by a single step: step first",
        "v8[3] = v8[3] * x11 + v8[3] = 3 * 3 + 3 = 12",
        "v8[4] kept its value 0: tail, since 4 >= vl = 4",
        "v8 has the elements 0 to 7 of 32 bits, and 8 isn't one",
        "the form is why ELEMENT",
        "'v8[' names no element: v8[5] is one, and x10 or a0 a register",
        "x10 = v8.mask[0] + v8.mask[1] + v8.mask[2] + v8.mask[3] = 0 + 0 + 0 + 0 = 0",
    ):
        assert sentence in output
    assert output.count("step first") == 2


def test_illegal_instruction_explains_unchanged_element() -> None:
    with pytest.raises(LabError) as error:
        explained(0x02410457, "v8", 0, vtype=1 << 63)
    expected = "The vector type is vill: no vset instruction has set one that is supported."
    assert str(error.value) == f"the instruction is illegal and changed nothing: {expected}"

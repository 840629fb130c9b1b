"""The changes of an instruction: rows worked out by hand, and random instructions compared with the whole state."""

import pathlib
import random
import re

import pytest

from support.images import make_image
from support.machine_cases import CODE, SET_TYPE, SET_VSTART, random_case
from support.places import SQUARES
from support.sources import CHANGES
from vecmon_lab.guest.changes import Retired, Change, ElementsChange, MemoryChange, RegisterChange, Stepper, vtype_text
from vecmon_lab.guest.guest import Guest, started
from vecmon_lab.machine.session import Session


def test_step_changes_equal_expected_rows(program: pathlib.Path, tmp_path: pathlib.Path) -> None:
    make_image(program, tmp_path / "rows", re.sub(r"\|.*", "", CHANGES))
    whole = "v8.e8[37]=00  v8.e8[40..41]=00,00  v8.e8[44..45]=00,00"
    expected = [row.partition("|")[2].replace("WHOLE", whole) for row in CHANGES.splitlines() if "|" in row]
    with started(tmp_path / "rows") as guest:
        stepper = Stepper(guest)
        found = [stepper.step() for _ in expected]
        assert ["  ".join(map(str, retired.changes)) for retired in found] == expected
        assert [retired.pc for retired in found[:3]] == [0x10000, 0x10004, 0x10008]
        assert (found[3].word, found[3].text) == (0x5208A457, "vid.v v8")
        assert all(retired.stop is None for retired in found[:-1])
        stop = found[-1].stop
        assert stop is not None and (stop.cause, stop.value) == (7, 0x12000)


class Whole:
    """All that looks show of a user: registers by name, and the bytes of vector registers and of the pages DATA."""

    def __init__(self, session: Session) -> None:
        looks = ["1 regs", "1 vcsr", *(f"1 vreg v{number} 8" for number in range(32))]
        looks += [f"1 peek {DATA + place:x} 256" for place in range(0, DATA_BYTES, 256)]
        registers, (control,), *others = session.do_all(looks)
        words = " ".join(line[2:] for line in registers).split()
        self.registers = {name: int(value, 16) for name, value in zip(words[2::2], words[3::2])}
        for word in control.split()[1:]:
            name, _, value = word.partition("=")
            self.registers[name] = int(value, 16 if name == "vtype" else 10)
        self.vectors = bytearray.fromhex("".join(line.split(" ", 2)[2] for (line,) in others[:32]))
        self.memory = bytearray.fromhex("".join(line.split()[3] for (line,) in others[32:]))

    def undo(self, change: Change) -> None:
        """Puts back what a change has changed, and finds all of it changed."""
        match change:
            case RegisterChange(name, before, after):
                assert self.registers[name] == after != before
                self.registers[name] = before
            case MemoryChange(address, before, after):
                assert all(old != new for old, new in zip(before, after, strict=True))
                self._put(self.memory, address - DATA, before, after)
            case ElementsChange(register, 1, first, before, after):
                values = int.from_bytes(self.vectors[32 * register : 32 * register + 32], "little")
                for number, old, new in zip(range(first, 256), before, after):
                    assert values >> number & 1 == new
                    values ^= (old ^ new) << number
                assert before[0] != after[0] and before[-1] != after[-1]
                self.vectors[32 * register : 32 * register + 32] = values.to_bytes(32, "little")
            case ElementsChange(register, width, first, before, after):
                assert all(old != new for old, new in zip(before, after, strict=True))
                parts = [b"".join(value.to_bytes(width // 8, "little") for value in part) for part in (before, after)]
                self._put(self.vectors, 32 * register + first * width // 8, *parts)

    @staticmethod
    def _put(where: bytearray, place: int, before: bytes, after: bytes) -> None:
        assert where[place : place + len(after)] == after
        where[place : place + len(after)] = before


DATA, DATA_BYTES = 0x20000, 8192


def random_lines(draws: random.Random) -> list[str]:
    """The lines that make a random instruction the next one, in a random state whose registers point to data mostly."""
    case = random_case(draws)
    lines = [f"1 set x{number} {_random_value(draws):x}" for number in range(1, 32)]
    lines += [f"1 vset v{number} {_random_register(draws).hex()}" for number in range(32) if draws.randrange(3) == 0]
    lines += [f"1 set x10 {case.vtype:x}", f"1 set x11 {case.length:x}", f"1 set x12 {case.vstart:x}"]
    return [*lines, f"1 poke {CODE + 8:x} {case.word.to_bytes(4, 'little').hex()}", f"1 setpc {CODE:x}", "1 step 2"]


def _random_value(draws: random.Random) -> int:
    near = DATA + draws.choice((0, draws.randrange(DATA_BYTES), DATA_BYTES // 2 - 20, DATA_BYTES - 20))
    return draws.choice((near, near, near, draws.randrange(64), (1 << 64) - draws.randrange(64), draws.getrandbits(64)))


def _random_register(draws: random.Random) -> bytes:
    """Small offsets, so that indexed accesses stay in the data, or any bytes."""
    size = draws.choice((1, 2, 4, 8))
    values = (draws.randrange(min(1 << 8 * size, 1024)).to_bytes(size, "little") for _ in range(32 // size))
    return draws.choice((draws.randbytes(32), b"".join(values)))


def test_step_changes_of_random_instructions_equal_state_differences(program: pathlib.Path) -> None:
    """Undone, the changes lead back to the whole earlier state; so none is missing, and none is false."""
    draws, kinds = random.Random(7), set[str]()
    with Session(program) as session:
        session.do_all(["1 enter", f"1 map {CODE:x} 1 rx", f"1 map {DATA:x} {DATA_BYTES // 4096} rw"])
        session.do(f"1 poke {CODE:x} {b''.join(word.to_bytes(4, 'little') for word in (SET_TYPE, SET_VSTART)).hex()}")
        stepper = Stepper(Guest(session))
        for _ in range(600):
            session.do_all(random_lines(draws))
            stepper.look()
            before = Whole(session)
            retired = stepper.step()
            after = Whole(session)
            for change in retired.changes:
                after.undo(change)
            assert vars(after) == vars(before), retired
            kinds.update(_kind(change) for change in retired.changes)
        assert stepper.look() == []
    assert kinds == {"x", "vl", "vtype", "vstart", "vxrm", "vxsat", "e1", "e8", "e16", "e32", "e64", "memory"}


def _kind(change: Change) -> str:
    """The kind of a place."""
    if isinstance(change, MemoryChange):
        return "memory"
    return f"e{change.width}" if isinstance(change, ElementsChange) else re.sub("x[0-9]+", "x", change.name)


def test_look_detects_user_changes(session: Session) -> None:
    session.do_all(["1 enter", "1 map 10000 1 rwx"])
    stepper = Stepper(Guest(session))
    lines = ["1 set x5 1f", f"1 vset v3 {'00' * 30}0102", "1 asm 10000 addi x6, x5, 1", "1 setpc 10000"]
    session.do_all(lines)
    assert list(map(str, stepper.look())) == ["x5=1f", "v3.e8[30..31]=01,02"]
    assert str(stepper.step().changes[0]) == "x6=20"
    session.do_all(["1 asm 10004 vsetivli x0, 2, e16, m1, ta, ma", "1 asm 10008 vadd.vi v3, v3, 1"])
    assert stepper.look() == []
    assert (stepper.step().text, stepper.step().text) == ("vsetivli x0, 2, e16, m1, ta, ma", "vadd.vi v3, v3, 1")
    session.do(f"1 vset v3 {'01000000' * 8}")
    singles = [f"v3.e16[{number}]=0001" for number in range(4, 14, 2)]
    assert list(map(str, stepper.look())) == ["v3.e16[1..2]=0000,0001", *singles, "v3.e16[14..15]=0001,0000"]


def test_self_modifying_program_is_decoded_anew(program: pathlib.Path, session: Session) -> None:
    lines = ["sw x6, 8(x5)", "sw x7, 0(x5)", "nop", "jal x0, -12"]
    session.do_all(["1 enter", "1 map 10000 1 rwx", "1 set x5 10000", "1 set x6 00128293", "1 setpc 10000"])
    session.do_all([f"1 asm {0x10000 + 4 * place:x} {line}" for place, line in enumerate(lines) if line != "nop"])
    session.do_all(["1 asm 10008 addi x0, x0, 0", "1 set x7 00a00513"])
    stepper = Stepper(Guest(session))
    assert [stepper.step().text for _ in range(5)] == [
        "sw x6, 8(x5)",
        "sw x7, 0(x5)",
        "addi x5, x5, 1",
        "jal x0, -12",
        "addi x10, x0, 10",
    ]


def test_step_without_fetchable_word_faults(session: Session) -> None:
    session.do_all(["1 enter", "1 setpc 10000"])
    stepper = Stepper(Guest(session))
    retired = stepper.step()
    assert retired.stop is not None and (retired.stop.cause, retired) == (1, Retired(0x10000, 0, "", [], retired.stop))


@pytest.mark.parametrize(
    "vtype, text",
    [(1 << 63, "vill"), (0xD1, "e32,m2,ta,ma"), (0, "e8,m1,tu,mu"), (0x47, "e8,mf2,ta,mu"), (0x9B, "e64,m8,tu,ma")],
)
def test_vtype_is_written_in_assembler(vtype: int, text: str) -> None:
    assert vtype_text(vtype) == text


def test_fault_shows_completed_stores() -> None:
    with started(SQUARES) as guest:
        stepper = Stepper(guest)
        while (retired := stepper.step()).stop is None:
            pass
        assert list(map(str, retired.changes))[:2] == ["vstart=14", "[11fc9]=810f"]

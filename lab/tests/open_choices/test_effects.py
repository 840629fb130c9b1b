"""The first effect of a choice, by logs that are written here by the form of docs/RECORDER.md."""

from collections.abc import Mapping, Sequence

from vecmon_lab.open_choices.effects import Effect, Pair, Place, commit_of, destination_of, element_bytes, first_effect

ADD, SUM, COPY, STORE, BRANCH = 0x02A50533, 0x02802457, 0x9E803457, 0x02058427, 0x00B51463
VADD, VSE8 = 0x02940457, 0x02058427  # vadd.vv v8, v9, v8; vse8.v v8, (x11)
KNOWN: Mapping[Place, Pair] = {("v", 8 * 32 + 5): (0, 0xFF)}  # element 5 of v8


def register(number: int, *changed: tuple[int, int]) -> str:
    """A vector register of a line, with zeros but for some bytes."""
    data = bytearray(32)
    for at, byte in changed:
        data[at] = byte
    return f" v{number:<2} 0x{bytes(reversed(data)).hex()}"


def line(pc: int, word: int, written: str = "") -> str:
    """A line of a log."""
    return f"core   0: 0 0x{pc:016x} (0x{word:08x}){written}\n"


def effect(one: Sequence[str], other: Sequence[str]) -> Effect | None:
    """The first effect after instruction 7."""
    return first_effect(one, other, 8, KNOWN)


def test_scalar_result_is_a_read() -> None:
    found = effect([line(0x100, ADD, " x10 0x0000000000000001")], [line(0x100, ADD, " x10 0x0000000000000003")])
    assert found is not None and found.instruction == (8, 0x100, ADD)
    assert found.values == [("x10", "1", "3")]


def test_kept_element_is_no_read() -> None:
    """vadd.vv writes four elements of v8, and keeps element 5."""
    lines = [line(0x100, VADD, f" e8 m1 l4{register(8, (0, 1), (5, byte))}") for byte in (0, 0xFF)]
    assert effect(*([each] for each in lines)) is None


def test_new_value_of_the_element_is_a_read() -> None:
    lines = [line(0x100, VADD, f" e8 m1 l8{register(8, (5, byte))}") for byte in (1, 0)]
    found = effect(*([each] for each in lines))
    assert found is not None and found.values == [("v8.e8[5]", "1", "0")]


def test_copy_of_whole_register_is_no_read_but_is_followed() -> None:
    """vmv1r.v v8, v8 of another number, and then a sum of the copy."""
    one = [line(0x100, COPY, register(8, (5, 0))), line(0x104, ADD, " x10 0x0000000000000000")]
    other = [line(0x100, COPY, register(8, (5, 0xFF))), line(0x104, ADD, " x10 0x00000000000000ff")]
    found = effect(one, other)
    assert found is not None and found.instruction.number == 9


def test_stored_byte_is_a_read() -> None:
    lines = [line(0x100, VSE8, f" e8 m1 l1 mem 0x0000000000011005 0x{byte:02x}") for byte in (0, 0xFF)]
    found = effect(*([each] for each in lines))
    assert found is not None and found.values == [("[11005]", "0", "ff")]


def test_branch_parts_the_runs() -> None:
    one = [line(0x100, BRANCH), line(0x104, ADD, " x10 0x0000000000000000")]
    other = [line(0x100, BRANCH), line(0x108, ADD, " x10 0x0000000000000000")]
    found = effect(one, other)
    assert found is not None and found.is_parting and found.instruction == (8, 0x100, BRANCH)


def test_overwritten_element_has_no_effect() -> None:
    """Both runs write 3 to all elements; a later difference at the place would be a new one."""
    same = line(0x100, VADD, f" e8 m1 l32{register(8, (5, 3))}")
    later = [line(0x104, VADD, f" e8 m1 l32{register(8, (5, byte))}") for byte in (0, 0xFF)]
    assert effect([same], [same]) is None
    found = effect([same, later[0]], [same, later[1]])
    assert found is not None and found.instruction.number == 9


def test_end_of_both_logs_is_no_effect() -> None:
    assert effect(["exit 0 pc=0000000000000104 8 8\n"], ["exit 0 pc=0000000000000104 8 8\n"]) is None


def test_elements_of_fields_follow_each_other() -> None:
    """vlseg2e8.v v8, (x11) under m1: element 37 is element 5 of v9."""
    commit = commit_of(line(0x100, 0x22058407, f" e8 m1 l5{register(8)}{register(9)}"))
    assert commit is not None
    destination = destination_of(commit)
    assert destination is not None and [*element_bytes(destination, 37)] == [9 * 32 + 5]


def test_kept_bits_of_a_mask_are_no_read() -> None:
    """vmsgt.vx v8, v9, x0 with vl 2 writes the two lowest bits of byte 5 * 8, and keeps the others."""
    word = 0x7E904457  # vmsgt.vx v8, v9, x0
    kept = [line(0x100, word, f" e32 m1 l42{register(8, (5, byte))}") for byte in (0b10, 0b11111110)]
    assert effect(*([each] for each in kept)) is None
    written = [line(0x100, word, f" e32 m1 l42{register(8, (4, byte))}") for byte in (0b10, 0b11)]
    found = effect(*([each] for each in written))
    assert found is not None and found.values == [("v8.e8[4]", "2", "3")]

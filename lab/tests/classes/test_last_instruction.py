"""Registers and memory that the last instruction read and accessed, on a student's page. Expected values are worked by hand."""

import pathlib
from collections.abc import Iterator

import pytest

from support.desk import Desk, ask

SOURCE = """la a0, xs
vsetivli t0, 4, e32, m1, ta, ma
vle32.v v8, (a0)
vadd.vv v8, v8, v8
li t1, 5
vmv.s.x v0, t1
vse32.v v8, (a0), v0.t
li t2, 8
vlse32.v v9, (a0), t2
lw a0, 4(a0)
ebreak
.data
xs: .word 1, 2, 3, 4, 5, 6, 7, 8
"""
LOADED, DOUBLED, STORED, STRIDED, WORD = 4, 5, 8, 10, 11  # steps up to vle32.v, vadd.vv, vse32.v, vlse32.v and lw
BEFORE = "01000000020000000300000004000000"  # v8, four words, and the next ones doubled
DOUBLES = "02000000040000000600000008000000"


@pytest.fixture
def desk(program: pathlib.Path) -> Iterator[Desk]:
    """A desk whose machine has the source, and whose program hasn't started."""
    desk = Desk(program, {}, 100_000)
    ask(desk, ask="source", text=SOURCE)
    yield desk
    desk.close()


def step(desk: Desk, count: int) -> None:
    """Steps an instruction at a time."""
    for _ in range(count):
        ask(desk, ask="lines", do=["step 1"])


def test_state_has_data_of_directives(desk: Desk) -> None:
    data = {"11000": {"type": "i32", "count": 8}}
    assert desk.seat.loaded.names["data"] == data and desk.hello()["patch"]["state"]["data"] == data  # type: ignore[index]
    ask(desk, ask="lines", do=["leave"])
    assert "data" not in desk.seat.loaded.names


def test_accessed_page_of_zeros_has_row(desk: Desk) -> None:
    ask(desk, ask="lines", do=["map 30000 1 rw", "set x10 30020", "asm 10000 ld x5, 8(x10)", "setpc 10000"])
    for _ in range(2):  # before and after the load
        memory = desk.seat.display.shown["memory"]
        assert {row: digits for row, digits in memory.items() if row[:1] == "3"} == {"30020": "00" * 16}
        step(desk, 1)


def test_destination_is_shown_as_it_was(desk: Desk) -> None:
    step(desk, DOUBLED)
    assert desk.seat.state["v"]["8"].startswith(DOUBLES)
    read = desk.seat.state["read"]
    assert read["v"] == {"8": BEFORE + 32 * "0"} and read["x"] == {}
    assert (read["vl"], read["vtype"], read["vstart"]) == (4, "d0", 0)
    assert desk.seat.state["accessed"] == []


def test_last_instruction_stays_until_machine_changes(desk: Desk) -> None:
    """Lines that look or set breakpoints, and refused ones, leave it and its explanation; a written register doesn't."""
    step(desk, DOUBLED)
    shown = ("instruction", "read", "accessed")
    known = {key: desk.seat.state[key] for key in shown}  # type: ignore[literal-required]
    for line in ("regs", "break 10010", "unbreak 10010", "set a0 1", "step 0"):
        ask(desk, ask="lines", do=[line])
        assert {key: desk.seat.state.get(key) for key in shown} == known
    assert "= 2" in ask(desk, ask="why", name="v8[0]")["why"]
    ask(desk, ask="lines", do=["set x5 1"])
    assert not set(shown) & set(desk.seat.state)


def test_state_has_elements_of_last_instruction(desk: Desk) -> None:
    """`vadd.vv v8, v8, v8` with vl 4 of 8, the store that v0 = 5 masks, and an instruction before any vset."""
    step(desk, DOUBLED)
    executed = desk.seat.state["executed"]
    assert executed["outcomes"] == [{"outcome": "active", "count": 4}, {"outcome": "tail", "count": 4}]
    assert (executed["formula"], executed["end"], executed["known"]) == (["v8[i] = v8[i] + v8[i]"], "ran", True)
    assert desk.seat.display.shown["executed"] == executed
    step(desk, STORED - DOUBLED)
    executed = desk.seat.state["executed"]
    outcomes = [(each["outcome"], each["count"]) for each in executed["outcomes"]]
    assert outcomes == [("active", 1), ("masked", 1), ("active", 1), ("masked", 1), ("tail", 4)]
    assert (executed["access"]["start"], executed["access"]["step"], executed["access"]["base"]) == ("11000", 4, 10)
    ask(desk, ask="lines", do=["set x5 1"])
    assert "executed" not in desk.seat.state
    ask(desk, ask="lines", do=["leave", "enter", "map 10000 1 rwx", "asm 10000 vadd.vv v1, v2, v3", "setpc 10000"])
    step(desk, 1)
    assert desk.seat.state["illegal"] and desk.seat.state["executed"]["end"] == "illegal"


@pytest.mark.parametrize(
    "types, text, outcomes",
    [
        ("e32, m2", "vmv.x.s x10, v4", [("active", 1), ("idle", 7)]),
        ("e32, m2", "vmv.s.x v4, x10", [("active", 1), ("tail", 7)]),
        ("e32, mf2", "vmv.s.x v4, x10", [("active", 1), ("tail", 7)]),
        ("e8, mf8", "vmv1r.v v4, v5", [("active", 32)]),
        ("e64, m1", "vadd.vv v4, v5, v6, v0.t", [("masked", 1), ("active", 1), ("masked", 1), ("tail", 1)]),
    ],
)
def test_element_0_of_a_register_has_no_group(
    desk: Desk, types: str, text: str, outcomes: list[tuple[str, int]]
) -> None:
    """vl is 3. Only element 0 is read or written, and LMUL doesn't count for vmv.x.s and vmv.s.x (section 16.1)."""
    code = [f"asm 10000 vsetivli x0, 3, {types}, ta, ma", f"asm 10004 {text}", "vset v0 02" + "00" * 31]
    ask(desk, ask="lines", do=["leave", "enter", "map 10000 1 rwx", *code, "setpc 10000"])
    step(desk, 2)
    assert [(each["outcome"], each["count"]) for each in desk.seat.state["executed"]["outcomes"]] == outcomes


def test_vmv_x_s_reads_element_0_without_a_body(desk: Desk) -> None:
    """Under vl = 0, as section 16.1 says."""
    code = ["asm 10000 vsetivli x0, 0, e32, m1, ta, ma", "asm 10004 vmv.x.s x10, v4", "vset v4 05" + "00" * 31]
    ask(desk, ask="lines", do=["leave", "enter", "map 10000 1 rwx", *code, "setpc 10000"])
    step(desk, 2)
    assert desk.seat.state["x"]["10"] == "5"
    assert desk.seat.state["executed"]["outcomes"][0] == {"outcome": "active", "count": 1}


def test_illegal_instruction_has_no_tail(desk: Desk) -> None:
    """Before any vset there is no element width, and so no body and no tail."""
    ask(desk, ask="lines", do=["leave", "enter", "map 10000 1 rwx", "asm 10000 vid.v v16", "setpc 10000"])
    step(desk, 1)
    assert {each["outcome"] for each in desk.seat.state["executed"]["outcomes"]} == {"pending"}


@pytest.mark.parametrize("text", ["vzext.vf2 v1, v2", "vsext.vf8 v1, v2"])
def test_sources_without_elements_have_no_row(desk: Desk, text: str) -> None:
    """At e8 their sources would have 4 bits and 1 bit: both are illegal."""
    code = ["asm 10000 vsetivli x0, 4, e8, m1, ta, ma", f"asm 10004 {text}", "vset v2 " + "ff" * 32]
    ask(desk, ask="lines", do=["leave", "enter", "map 10000 1 rwx", *code, "setpc 10000"])
    step(desk, 2)
    executed = desk.seat.state["executed"]
    assert (executed["end"], [each["role"] for each in executed["groups"]]) == ("illegal", ["destination"])


def test_masked_store_writes_active_elements(desk: Desk) -> None:
    step(desk, STORED)
    assert desk.seat.state["read"]["x"] == {"10": "11000"} and desk.seat.state["read"]["v0"].startswith("05000000")
    assert desk.seat.state["accessed"] == [
        {"address": "11000", "length": 4, "kind": "write"},
        {"address": "11008", "length": 4, "kind": "write"},
    ]


def test_strided_load_reads_each_element(desk: Desk) -> None:
    step(desk, STRIDED)
    assert desk.seat.state["read"]["x"] == {"7": "8", "10": "11000"}
    assert [each["address"] for each in desk.seat.state["accessed"]] == ["11000", "11008", "11010", "11018"]


def test_scalar_load_is_shown_with_its_base(desk: Desk) -> None:
    step(desk, WORD)
    assert desk.seat.state["x"]["10"] == "2"  # since the store has left element 1
    assert desk.seat.state["read"]["x"] == {"10": "11000"}
    assert desk.seat.state["accessed"] == [{"address": "11004", "length": 4, "kind": "read"}]


def test_run_shows_registers_that_the_instruction_left(desk: Desk) -> None:
    """The sources of `vadd.vv v8, v8, v8` are gone after it, and those of the store before a breakpoint aren't."""
    ask(desk, ask="lines", do=["break 10014", "go"])
    desk.settle()
    assert desk.seat.state["instruction"] == "10010"
    read = desk.seat.state["read"]
    assert read["v"] == {} and read["vl"] == 4 and "vstart" not in read and desk.seat.state["accessed"] == []
    ask(desk, ask="lines", do=["break 10020", "go"])
    desk.settle()
    assert desk.seat.state["instruction"] == "1001c"
    read = desk.seat.state["read"]
    assert read["v"] == {"8": DOUBLES + 32 * "0"} and read["x"] == {"10": "11000"}
    assert "accessed" not in desk.seat.state  # since vstart before the store isn't known


def test_request_completes_what_a_run_left(desk: Desk) -> None:
    """`vadd.vv v8, v8, v8` before a breakpoint, and a breakpoint that is set and removed then."""
    ask(desk, ask="lines", do=["break 10014", "go"])
    desk.settle()
    ask(desk, ask="lines", do=["unbreak 10014", "regs"])
    assert desk.seat.state["read"]["v"] == {}
    script = desk.machine.session.script
    assert "error" not in ask(desk, ask="last-instruction")
    read = desk.seat.state["read"]
    assert read["v"] == {"8": BEFORE + 32 * "0"} and read["v0"] == 64 * "0"
    assert (read["vl"], read["vtype"], read["vstart"]) == (4, "d0", 0)
    assert desk.seat.display.shown["read"] == read and desk.machine.session.script == script


def test_request_completes_a_run_to_an_ebreak(desk: Desk) -> None:
    """lw a0, 4(a0) has lost its base."""
    ask(desk, ask="run")
    desk.settle()
    assert (desk.seat.state["instruction"], desk.seat.execution.stop[:6]) == ("10028", "ebreak")
    ask(desk, ask="last-instruction")
    assert desk.seat.state["read"]["x"] == {"10": "11000"}
    assert desk.seat.state["accessed"] == [{"address": "11004", "length": 4, "kind": "read"}]


def test_request_completes_several_steps(desk: Desk) -> None:
    ask(desk, ask="lines", do=[f"step {STORED}"])
    assert "accessed" not in desk.seat.state
    ask(desk, ask="last-instruction")
    assert [each["address"] for each in desk.seat.state["accessed"]] == ["11000", "11008"]
    before = desk.seat.state
    ask(desk, ask="lines", do=["step 1"])
    ask(desk, ask="last-instruction")  # after a single step, which has all
    assert before is not desk.seat.state and desk.seat.state["read"]["x"] == {}


def test_request_completes_a_run_to_a_fault(desk: Desk) -> None:
    """A load from 11ff8 in a later run: its third word faults."""
    step(desk, LOADED - 1)
    ask(desk, ask="lines", do=["set x10 11ff8", "go"])
    desk.settle()
    assert desk.seat.state["faulted"]
    ask(desk, ask="last-instruction")
    assert desk.seat.state["read"]["vstart"] == 0
    assert desk.seat.state["accessed"] == [{"address": "11ff8", "length": 8, "kind": "read"}]


LOOP = """
li t1, 300
vsetivli t0, 4, e32, m1, ta, ma
vid.v v1
loop: vadd.vv v2, v2, v1
addi t1, t1, -1
bnez t1, loop
vadd.vv v2, v2, v2
ebreak
"""


def test_request_finds_the_last_of_many_rounds(desk: Desk) -> None:
    """Nine slices of 100 ticks and a part: v2 is 300 times 0, 1, 2, 3 before it is doubled; another user runs at the same time."""
    for line in (
        "2 enter",
        "2 map 10000 1 rwx",
        "2 asm 10000 addi x5, x5, 1",
        "2 asm 10004 jal x0, -4",
        "2 setpc 10000",
        "2 go",
    ):
        desk.machine.session.do(line)
    ask(desk, ask="source", text=LOOP)
    ask(desk, ask="run")
    desk.settle()
    assert desk.seat.execution.stop.startswith("ebreak")
    assert desk.seat.state["read"]["v"] == {}
    ask(desk, ask="last-instruction")
    sums = [(300 * element).to_bytes(4, "little").hex() for element in range(4)]
    assert desk.seat.state["read"]["v"] == {"2": "".join(sums) + 32 * "0"}


def test_request_without_a_run_is_refused(desk: Desk) -> None:
    refusal = "the state before the last instruction can't be found: step the program, or run it again"
    assert ask(desk, ask="last-instruction")["error"] == refusal
    ask(desk, ask="lines", do=["break 10014", "go"])
    desk.settle()
    ask(desk, ask="lines", do=["set x5 1"])
    assert ask(desk, ask="last-instruction")["error"] == refusal


def test_run_to_scalar_load_that_loses_its_base(desk: Desk) -> None:
    ask(desk, ask="lines", do=["break 1002c", "go"])
    desk.settle()
    assert desk.seat.state["instruction"] == "10028" and desk.seat.state["read"]["x"] == {}
    assert "accessed" not in desk.seat.state


@pytest.mark.parametrize("line", ["set x10 5", "setpc 10000", f"vset v8 {32 * 'ff'}"])
def test_changed_registers_are_no_longer_those_of_the_instruction(desk: Desk, line: str) -> None:
    step(desk, LOADED)
    assert desk.seat.state["read"]["x"] == {"10": "11000"}
    ask(desk, ask="lines", do=["regs", "out"], look=["vcsr"])
    ask(desk, ask="lines", do=["step 1", line])
    assert "read" not in desk.seat.state and "accessed" not in desk.seat.state


def test_faulting_load_has_read_earlier_elements(desk: Desk) -> None:
    """The page after the data isn't mapped: the words at 11ff8 and 11ffc are read, and the third faults."""
    step(desk, LOADED - 1)
    ask(desk, ask="lines", do=["set x10 11ff8"])
    step(desk, 1)
    state = desk.seat.state
    assert state["faulted"] and state["vstart"] == 2 and state["read"]["vstart"] == 0
    assert state["accessed"] == [{"address": "11ff8", "length": 8, "kind": "read"}]

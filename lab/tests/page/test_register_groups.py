"""The registers in use on pages, as the instruction took them that wrote them last: elements by hand, under a later vector type."""

import pathlib
from collections.abc import Mapping, Sequence
from typing import Any


from support.element_columns import shown_columns
from support.past_sequences import DeskPage, found
from vecmon_lab.assembler.source import assemble
from vecmon_lab.guest.vector_flow import flow_of_listing
from vecmon_lab.lessons.frames import make_frames
from vecmon_lab.lessons.script import read_assembled
from vecmon_lab.machine.answers import Listing, read
from vecmon_lab.machine.session import Session

DATA = """
        .data
numbers: .byte 1, 2, 3, 4, 5, 6, 7, 8
        .text
        la a0, numbers
"""
LATER_E16 = "vsetivli zero, 4, e16, m1, ta, ma\nnop\n"
LATER_E32 = "vsetivli zero, 4, e32, m1, ta, ma\nnop\n"
LATER_E8 = "vsetivli zero, 4, e8, m1, ta, ma\nnop\n"
BYTES = "vsetivli zero, 4, e8, mf2, ta, ma\nvid.v v1\n"
HALVES = "vsetivli zero, 4, e16, m1, ta, ma\nvid.v v2\n"
SOURCES = {
    # 0 + 0, 1 + 1, 2 + 2 and 3 + 3, in 16 bits each
    "widening": (f"{BYTES}vwaddu.vv v4, v1, v1\n{LATER_E16}", {"v1 e8": "0 1 2 3", "v4": "0 2 4 6"}),
    # 0, 1, 2 and 3 in 16 bits, and then in 8
    "narrowing": (
        f"{HALVES}vsetivli zero, 4, e8, mf2, ta, ma\nvnsrl.wi v6, v2, 0\n{LATER_E32}",
        {"v2 e16": "0 1 2 3", "v6 e8": "0 1 2 3"},
    ),
    # 0, 1, 2 and 3 in 8 bits, and in the 32 bits to which they are extended
    "extension of a quarter": (
        f"{BYTES}vsetivli zero, 4, e32, m1, ta, ma\nvzext.vf4 v8, v1\n{LATER_E16}",
        {"v1 e8": "0 1 2 3", "v8 e32": "0 1 2 3"},
    ),
    # three fields of the bytes 1 to 6
    "segments": (
        f"{DATA}vsetivli zero, 2, e8, mf2, ta, ma\nvlseg3e8.v v4, (a0)\n{LATER_E32}",
        {"v4 e8": "1 4", "v5 e8": "2 5", "v6 e8": "3 6"},
    ),
    # halves of two bytes at the offsets 0, 1, 2 and 3: 1 + 256 * 2 = 513, and 257 more for each next one
    "offsets of bytes": (
        f"{DATA}{BYTES}vsetivli zero, 4, e16, m1, ta, ma\nvluxei8.v v2, (a0), v1\n{LATER_E32}",
        {"v1 e8": "0 1 2 3", "v2 e16": "513 770 1027 1284"},
    ),
    "mask": (f"{HALVES}vmsgtu.vi v7, v2, 1\n{LATER_E8}", {"v2 e16": "0 1 2 3", "v7 mask": "0 0 1 1"}),
    "mask of a masked instruction": (
        f"{HALVES}vmsgtu.vi v0, v2, 1\nvadd.vi v3, v2, 4, v0.t\n{LATER_E8}",
        {"v0 mask": "0 0 1 1", "v2 e16": "0 1 2 3", "v3 e16": "0 0 6 7"},
    ),
    # EEW is SEW, and EMUL is 4 (section 16.6)
    "four registers": (
        f"{HALVES}vmv4r.v v8, v0\n{LATER_E8}",
        {"v0–v1 e16": "0 0 0 0", "v2 e16": "0 1 2 3", "v3 e16": "0 0 0 0", "v8–v11 e16": "0 0 0 0"},
    ),
    # a load says its own width
    "whole registers": (f"{DATA}{LATER_E8}vl2re16.v v8, (a0)\nnop\n", {"v8–v9 e16": "513 1027 1541 2055"}),
    "group of two": (
        f"vsetivli zero, 4, e32, m2, ta, ma\nvid.v v2\nvmv.s.x v2, sp\nvmv.s.x v2, zero\n{LATER_E8}",
        {"v2–v3 e32": "0 1 2 3"},
    ),
    "a register of a group": (
        f"vsetivli zero, 4, e64, m2, ta, ma\nvid.v v2\nvsetivli zero, 4, e8, m1, ta, ma\nvid.v v3\n{LATER_E16}",
        {"v2 e64": "0 1 2 3", "v3 e8": "0 1 2 3"},
    ),
    "written again": (
        f"{BYTES}vwaddu.vv v4, v1, v1\n{LATER_E8}vid.v v4\n{LATER_E16}",
        {"v1 e8": "0 1 2 3", "v4 e8": "0 1 2 3"},
    ),
    "read alone": (f"{BYTES}vmv.x.s a1, v12\n{LATER_E32}", {"v1 e8": "0 1 2 3", "v12 e8": "0 0 0 0"}),
}


def rows_of(states: Sequence[Mapping[str, Any]], folder: pathlib.Path) -> list[dict[str, str]]:
    """The first four elements of each register in use in each state, by the heads of their rows."""
    shown = shown_columns([{"state": {**state, "executed": None}} for state in states], folder)
    cells = [{row["head"]: [cell["text"] for cell in row["cells"]] for row in each["rows"]} for each in shown]
    return [{head: " ".join(texts[:4]) for head, texts in each.items()} for each in cells]


def test_registers_keep_elements_under_a_later_type(program: pathlib.Path, tmp_path: pathlib.Path) -> None:
    """After single steps of each source."""
    states = list[Mapping[str, Any]]()
    for name, (source, _) in SOURCES.items():
        script = read_assembled(f"{source}ebreak\n", name)
        states.append(make_frames(script, program)[-1].states["1"])
    found = dict(zip(SOURCES, rows_of(states, tmp_path), strict=True))
    for name, (_, rows) in SOURCES.items():
        starts = {head: found[name].get(head, "")[: len(cells)] for head, cells in rows.items()}
        assert (name, [*found[name]], starts) == (name, [*rows], rows)


LOOP = """
        vsetivli zero, 4, e8, mf2, ta, ma
        vid.v v1
        vwaddu.vv v4, v1, v1
        li t0, 100
        vsetivli zero, 4, e16, m1, ta, ma
again:  vadd.vv v6, v6, v4
        addi t0, t0, -1
        bnez t0, again
        vsetivli zero, 4, e32, m1, ta, ma
        vid.v v4
        vmv.v.v v8, v4
        nop
        nop
        ebreak
"""


def rows_at(page: DeskPage, at: int, folder: pathlib.Path) -> dict[str, str]:
    """The first elements of the registers in use after a number of instructions, negative from the end."""
    return rows_of([found(page, at)["moment"]["state"]], folder)[0]


def test_registers_after_a_run_and_steps_back(program: pathlib.Path, tmp_path: pathlib.Path) -> None:
    """By hand: v6 is a hundred times v4. After the run v4 has words, and before the last vid.v it has halves of 0, 2, 4 and 6."""
    page = DeskPage(program, {})
    page.ask(ask="run", text=LOOP)
    halves = {"v1 e8": "0 1 2 3", "v6 e16": "0 200 400 600"}
    assert rows_of([page.view["state"]], tmp_path) == [halves | {"v4": "0 1 2 3", "v8": "0 1 2 3"}]
    before = rows_at(page, -4, tmp_path)  # after the vset
    assert before | halves | {"v4 e16": "0 2 4 6"} == before
    in_the_loop = rows_at(page, 5 + 3 * 50, tmp_path)
    assert in_the_loop | {"v1 e8": "0 1 2 3", "v4": "0 2 4 6", "v6": "0 100 200 300"} == in_the_loop
    page.close()


FLOW = """
        vadd.vv v1, v1, v1
        vsetivli zero, 4, e8, mf2, ta, ma
        beqz a0, other
        vadd.vv v2, v2, v2
        vsetivli zero, 4, e16, m1, ta, mu
other:  vadd.vv v3, v3, v3
        vsetvli t0, a0, e32, m2, tu, ma
loop:   vadd.vv v4, v4, v4
        bnez a0, loop
        jal ra, function
        vadd.vv v6, v6, v6
        ret
function: vadd.vv v8, v8, v8
        vsetvl t0, a0, a1
        vadd.vv v10, v10, v10
        vsetivli zero, 1, e64, mf2, ta, ma
        vadd.vv v12, v12, v12
        ret
"""


def test_vector_types_of_a_listing(session: Session) -> None:
    """By hand (V 1.0, 3.4 and 6.1): e8,mf2,ta,ma is 0xc7; e32,m2,tu,ma is 0x91; e64,mf2 isn't supported, so vtype is vill.

    After the call it is that with which the function returns. Unknown are the type at the start, those of two paths, and that of vsetvl.
    """
    session.do_all(["1 enter", *(f"1 {line}" for line in assemble(FLOW).lines)])
    listings = [read(session.look(f"1 dis {start} 9")) for start in ("10000", "10024")]
    words = [each for listing in listings if isinstance(listing, Listing) for each in listing.words]
    states = flow_of_listing({each.address: each.word for each in words}).states
    types = {address: state.vtype for address, state in states.items() if state.vtype is not None}
    known = {each.text.split(",")[0]: types[each.address] for each in words if each.address in types}
    sums = {text: vtype for text, vtype in known.items() if text.startswith("vadd")}
    assert sums == {
        "vadd.vv v2": 0xC7,
        "vadd.vv v4": 0x91,
        "vadd.vv v6": 1 << 63,
        "vadd.vv v8": 0x91,
        "vadd.vv v12": 1 << 63,
    }

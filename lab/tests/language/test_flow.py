"""The flow analysis: types and lengths by the manual's rules, and all claims about programs compared with the machine."""

import pathlib
from collections.abc import Callable, Iterator

import pytest

from support.drawn_flows import drawn_flow, drawn_words
from support.flow_claims import check_source, total
from support.places import EXAMPLES, TOP, TOURS
from vecmon_lab.assembler.trial import Trial
from vecmon_lab.guest.changes import vtype_text
from vecmon_lab.guest import vector_flow
from vecmon_lab.guest.constants import constant_before
from vecmon_lab.guest.vector_flow import START, UNKNOWN, VectorState
from vecmon_lab.language.analysis import Analysis

GIVEN = TOP / "lab" / "vecmon_lab" / "exercises" / "given"


@pytest.fixture(scope="module")
def trial(program: pathlib.Path) -> Iterator[Trial]:
    with Trial(program) as trial:
        yield trial


def said(state: VectorState | None) -> str:
    """A state as the sources below have it."""
    if state is None:
        return "unreached"
    types = "?" if state.types is None else "|".join(vtype_text(each) for each in sorted(state.types))
    return f"{types} {'?' if state.vl is None else state.vl}"


# Each instruction with what is known before it, by sections 3.4, 6 and 7.7 of V 1.0 with VLEN 256: e32,m2 has 16 elements, e8,m1 32.
STATES = [
    """
        li a0, 13                           # vill 0
        vsetvli t0, a0, e32, m2, ta, ma     # vill 0
        vadd.vv v8, v8, v8                  # e32,m2,ta,ma 13
        vsetvli t0, a1, e32, m2, ta, ma     # e32,m2,ta,ma 13
        vsetvli t0, x0, e8, m1, tu, mu      # e32,m2,ta,ma ?
        vsetivli x0, 31, e64, m1, tu, mu    # e8,m1,tu,mu 32
        vsetvli x0, x0, e32, mf2, ta, mu    # e64,m1,tu,mu 4
        vsetvli x0, x0, e32, m1, ta, mu     # e32,mf2,ta,mu 4
        nop                                 # vill 0
        vsetivli x0, 3, e64, mf2, ta, mu    # vill 0
        li t1, 0xc8                         # vill 0
        vsetvl t0, x0, t1                   # vill 0
        vle8ff.v v8, (a0)                   # e16,m1,ta,ma 16
        vsetvl t0, x0, a5                   # e16,m1,ta,ma ?
        nop                                 # ? ?
    """,
    """
        vsetivli x0, 4, e8, m1, ta, ma      # vill 0
        beqz a0, other                      # e8,m1,ta,ma 4
        vsetivli x0, 4, e16, m2, ta, ma     # e8,m1,ta,ma 4
    other: nop                              # e8,m1,ta,ma|e16,m2,ta,ma 4
        vsetvli x0, x0, e32, m4, ta, ma     # e8,m1,ta,ma|e16,m2,ta,ma 4
    loop: vsetvli t0, a0, e32, m4, ta, ma   # e32,m4,ta,ma ?
        bnez a0, loop                       # e32,m4,ta,ma ?
        li a7, 93                           # e32,m4,ta,ma ?
        ecall                               # e32,m4,ta,ma ?
        nop                                 # unreached
    """,
    """
    _start: vsetivli x0, 4, e8, m1, ta, ma  # ? ?
        beqz a0, over                       # e8,m1,ta,ma 4
        jalr a3                             # e8,m1,ta,ma 4
        nop                                 # ? ?
        ebreak                              # ? ?
    over: ebreak                            # ? ?
    other: ret                              # ? ?
    """,
    """
    _start: vsetivli x0, 4, e8, m1, ta, ma  # vill 0
        call sets                           # e8,m1,ta,ma 4
        la t1, sets                         # e16,m1,ta,ma 5
        jalr t1                             # e16,m1,ta,ma 5
        nop                                 # e16,m1,ta,ma 5
        ebreak                              # e16,m1,ta,ma 5
    sets: vsetivli x0, 5, e16, m1, ta, ma   # e8,m1,ta,ma|e16,m1,ta,ma ?
        ret                                 # e16,m1,ta,ma 5
    """,
    """
        .globl sums
    sums: vadd.vv v8, v8, v8                # ? ?
        vsetvli x0, x0, e8, m1, ta, ma      # ? ?
        vsetivli x0, 1, e8, m1, ta, ma      # ? ?
        ret                                 # e8,m1,ta,ma 1
    """,
]


@pytest.mark.parametrize("text", STATES, ids=["lengths", "branches", "any label", "calls", "exported"])
def test_states(text: str, trial: Trial) -> None:
    """A call by a register without a known value may enter every label: nothing is claimed there."""
    analysis = Analysis(text, trial)
    assert not analysis.program.mistakes
    expected = {number: line.partition("#")[2].strip() for number, line in enumerate(analysis.lines, 1) if "#" in line}
    found = {each.line: said(analysis.state(each)) for each in reversed(analysis.program.statements)}
    assert found == expected


def test_joins() -> None:
    """Of more types than four nothing is known, and the length only where all ways agree."""
    states = [VectorState(frozenset([number]), 4) for number in range(5)]
    joined = states[0]
    for state in states[1:4]:
        joined = joined.joined(state)
    assert joined == VectorState(frozenset(range(4)), 4) and joined.vtype is None
    assert joined.joined(states[4]) == VectorState(None, 4)
    assert states[0].joined(VectorState(frozenset([0]), 5)) == VectorState(frozenset([0]), None)
    assert START.joined(UNKNOWN) == UNKNOWN


def test_half_typed_lines(trial: Trial) -> None:
    """After a line that may set another type nothing is claimed; after a half-typed vector operation the type stays."""
    head = "vsetivli x0, 4, e8, m2, ta, ma\n"
    for line, is_known in [
        ("vsetvl", False),
        ("vsetvli t0, a0, e8, m", False),
        ("vsetvil t0, a0, e8, m1, ta, ma", False),
        ("call nowhere", False),
        ("unknown_macro 5", False),
        ("vad", True),
        ("vad.vv v2, v4, v6", True),
        ("vadd.vv v2, v4,", True),
        ("vadd.vv v2, v4", True),
        ("fadd.s fa0, fa1, fa2", True),
        ("vfadd.vv v2, v4, v6", True),
    ]:
        analysis = Analysis(f"{head}{line}\nvadd.vv v3, v2, v2\n", trial)
        assert analysis.program.mistakes, line
        assert [each.statement.line for each in analysis.illegal] == [3] * is_known, line


def test_illegal_under_every_type(trial: Trial) -> None:
    """Without a known type only an instruction that no type allows is illegal; of several types all have to forbid it."""
    text = ".globl f\nf: vadd.vv v0, v2, v4, v0.t\nvadd.vv v1, v2, v3\nvsetivli x0, 1, {}, ta, ma\n"
    analysis = Analysis(text.format("e8, m1"), trial)
    assert [(each.statement.line, each.types) for each in analysis.illegal] == [(2, None)]
    ways = "vsetivli x0, 1, e8, {}, ta, ma\nbeqz a0, over\nvsetivli x0, 1, e16, m2, ta, ma\nover: vadd.vv v3, v3, v3\n"
    assert [len(Analysis(ways.format(group), trial).illegal) for group in ("m1", "m2", "m4")] == [0, 1, 1]


def test_constants(trial: Trial) -> None:
    """Values of the scalar manual's instructions: li in its parts, and nothing behind a join, a load or a call."""
    text = (
        "li a0, 0x12345678\nli a1, -5\nslli a2, a1, 4\nla a3, end\naddw a4, a1, a1\nend: li a5, 3\nlw a5, 0(a3)\nnop\n"
    )
    analysis = Analysis(text, trial)
    last = analysis.program.statements[-1].address
    end = analysis.program.labels["end"]
    values = {number: constant_before(analysis.words, (), last, number) for number in (0, 10, 11, 12, 13, 14, 15)}
    signed = {11: (1 << 64) - 5, 12: (1 << 64) - 80}
    assert values == {0: 0, 10: 0x12345678, **signed, 13: end, 14: None, 15: None}
    assert constant_before(analysis.words, [end], last, 10) is None
    assert constant_before(analysis.words, [end], end, 10) is None


SOURCES = [*EXAMPLES.rglob("*.s"), *GIVEN.rglob("*.s"), *TOURS.glob("*.s")]


def test_claims_about_examples_and_course(trial: Trial, program: pathlib.Path) -> None:
    """No claim about the repository's examples, tour and course is wrong; `lab/tools/vector_types.py` takes all sources."""
    sums = total([check_source(path.read_text("utf-8"), trial, program, path.name) for path in SOURCES])
    assert sums.wrong == [] and sums.missed == []
    assert sums.programs > 60 and sums.single > 1000 and sums.lengths > 300, str(sums)


def test_claims_about_drawn_programs(trial: Trial, program: pathlib.Path) -> None:
    flows = total([check_source(drawn_flow(seed), trial, program, f"flow {seed}") for seed in range(20)])
    words = total([check_source(drawn_words(seed, 40), trial, program, f"words {seed}") for seed in range(4)])
    assert flows.wrong + words.wrong + flows.missed + words.missed == []
    assert flows.single > 400 and flows.illegal > 20 and words.single > 100, (str(flows), str(words))


def only_one_way(state: VectorState, other: VectorState) -> VectorState:
    return state


def never_ends(self: vector_flow.Flow, address: int, word: int) -> bool:
    return True


def same_type(self: vector_flow.Flow, state: VectorState, requested: int) -> VectorState:
    return VectorState(frozenset([requested]), state.vl)


@pytest.mark.parametrize(
    "owner, name, planted",
    [
        (VectorState, "joined", only_one_way),
        (vector_flow.Flow, "_ends", never_ends),
        (vector_flow.Flow, "_with_same_length", same_type),
        (vector_flow, "is_supported", lambda vtype: True),
        (vector_flow, "is_fault_only_first", lambda word: False),
    ],
)
def test_planted_errors_are_found(
    owner: object,
    name: str,
    planted: Callable[..., object],
    trial: Trial,
    program: pathlib.Path,
    monkeypatch: pytest.MonkeyPatch,
) -> None:
    """The comparison finds an error in each rule of the analysis."""
    monkeypatch.setattr(owner, name, planted)
    found = list[str]()
    for seed in range(200):
        found += check_source(drawn_flow(seed), trial, program, f"flow {seed}").wrong
        if found:
            return
    raise AssertionError(f"no wrong claim with another {name}")


def test_work_is_bounded_for_functions_that_go_on_into_others(trial: Trial, monkeypatch: pytest.MonkeyPatch) -> None:
    """Each of 400 functions calls one and continues into the next one: each instruction is followed a few times."""
    followed, follow = list[int](), vector_flow.Flow._follow

    def counted(flow: vector_flow.Flow, address: int) -> None:
        followed.append(address)
        follow(flow, address)

    monkeypatch.setattr(vector_flow.Flow, "_follow", counted)
    functions = (f"l{number}: bnez a0, s{number}\njal l{number * 7 % 400}\ns{number}: nop\n" for number in range(400))
    read = Analysis("".join(functions) + "vadd.vv v1, v2, v3\nret\n", trial)
    assert len(followed) < 20 * 3 * 400
    assert said(read.state(read.program.statements[-1])) == "? ?"  # it returns to more calls than are distinguished

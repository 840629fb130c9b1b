"""The result of a comparison as JSON objects; docs/COMPARE.schema.json describes them."""

from typing import Literal, NotRequired, TypedDict

Verdict = Literal["same", "relies", "undecided", "not runnable"]


class Instruction(TypedDict):
    """An instruction of a run.

    number: in the run, counted from 1; address: in hexadecimal digits; place: by a symbol, as `main+0x8`, or ""
    line: of the source, as `sum.c:12`, or ""; text: as the machine shows it
    """

    number: int
    address: str
    place: str
    line: str
    text: str


class Value(TypedDict):
    """A register, an element or a byte of memory, and its values in both runs, in hexadecimal digits; `?` if unknown."""

    name: str
    without: str
    with_choice: str


class RunEnd(TypedDict):
    """The end of a run: how it stopped, as `exit 0`, the bytes of its output, and its instructions."""

    end: str
    output: int
    instructions: int


class FirstByte(TypedDict):
    """The first byte that differs, of the output or of compared memory, and its values in both runs; "" after the last one."""

    at: int
    without: str
    with_choice: str


class Read(TypedDict):
    """The first instruction whose result depends on the choice.

    values: what differs after it; empty if the runs go on with different instructions
    """

    instruction: Instruction
    values: list[Value]


class RelianceForm(TypedDict):
    """A choice that matters: two allowed runs that differ in it, and end differently.

    name: KIND@MNEMONIC and the function or line, as a file of known reliances has it
    section: of the manual, or ""; instruction: none for an initial value; vset: the instruction that set the vector type
    elements: the first and the last one that matter; values: what was chosen; read: none if no instruction was found
    together_from: the first instruction whose choices are needed as well
    explanation: lines about the data flow, in place of an instruction, if the choice of one instruction can't be varied alone
    options: those of the recorder for the two runs; commands: two command lines that show it
    """

    name: str
    kind: str
    title: str
    section: str
    rule: str
    fix: str
    known: bool
    instruction: NotRequired[Instruction]
    vset: NotRequired[Instruction]
    elements: NotRequired[list[int]]
    values: list[Value]
    read: NotRequired[Read]
    together_from: NotRequired[int]
    explanation: NotRequired[list[str]]
    ends: list[RunEnd]
    output: NotRequired[FirstByte]
    memory: NotRequired[FirstByte]
    options: list[list[str]]
    commands: list[str]


class Report(TypedDict):
    """The result for a program.

    program: its path; seeds: the number of seeds; runs: of the recorder; reason: why it isn't runnable
    blamed: after --against-scalar, whether the `compiler` or the `source` is wrong
    """

    version: str
    program: str
    verdict: Verdict
    seeds: int
    runs: int
    reason: NotRequired[str]
    end: NotRequired[RunEnd]
    reliances: list[RelianceForm]
    blamed: NotRequired[Literal["compiler", "source"]]

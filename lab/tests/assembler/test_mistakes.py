"""Mistakes as messages: the word that each marks, its code, and texts that may replace it."""

import pathlib
from collections.abc import Sequence

import pytest

from vecmon_lab.assembler import trial
from vecmon_lab.assembler.mistakes import mistakes_json
from vecmon_lab.assembler.source import SourceError, read_source
from vecmon_lab.assembler.trial import read_tried_source
from vecmon_lab.machine.answers import Refused


@pytest.mark.parametrize(
    "line, marked, fix",
    [
        ("loop: vaddd.vv v1, v2, v3", "vaddd.vv", "vadd.vv"),
        ("VADDD.VV v1, v2, v3  # in capitals", "VADDD.VV", "vadd.vv"),
        (".wrod 5", ".wrod", ".word"),
        ("la a0, lenght\nlength: nop", "lenght", "length"),
        ('.asciz "no end', '"no end', None),
        (r'.asciz "a\qb"', r"\q", None),
        ("li a0, 09", "09", None),
        (r"li a0, '\0'", r"'\0'", "0"),
        (r".byte '\12', 1", r"'\12'", "10"),
        ("addi a0, a1, 0x10000000000000000", "0x10000000000000000", None),
    ],
)
def test_mistake_marks_word(program: pathlib.Path, line: str, marked: str, fix: str | None) -> None:
    text = f"nop\n {line}\n"
    (mistake,) = mistakes_json(read_tried_source(text, program).mistakes, text)
    assert mistake["line"] == 2 and mistake["severity"] == "error" and "code" not in mistake
    start = mistake["column"] - 1
    assert text.split("\n")[1][start : start + mistake["length"]] == marked
    assert [*mistake.get("fix", [])][:1] == ([fix] if fix else [])


def test_machine_refusal_has_code_and_length(program: pathlib.Path) -> None:
    """The machine reads x10 where the source has a0, and refuses it as it isn't a vector register."""
    text = "vsetivli x0, 4, e32, m1, ta, ma\nvadd.vv v1, v2, a0\nadd a0, a1"
    first, second = mistakes_json(read_tried_source(text, program).mistakes, text)
    assert (first["line"], first["column"], first["length"], first["code"]) == (2, 17, 2, "E15")
    assert (second["line"], second["column"], second["length"]) == (3, 11, 0)  # an operand is missing at the end


@pytest.mark.parametrize(
    "message, column, word, code, fix",
    [
        ("unused variable 'count' [-Wunused-variable]", 9, "count", "-Wunused-variable", None),
        ("use of undeclared identifier 'n'; did you mean 'm'?", 17, "n", None, ["m"]),
        ("'n' undeclared (first use in this function); did you mean ‘m’?", 17, "n", None, ["m"]),
        ("expected ';' after expression", 18, ";", None, None),
    ],
)
def test_compiler_message_has_option_and_proposal(
    message: str, column: int, word: str, code: str | None, fix: Sequence[str] | None
) -> None:
    text = "    int count = n;\n"
    (mistake,) = mistakes_json([SourceError(1, column, message)], text, is_c=True, severity="warning")
    assert text[column - 1 : column - 1 + mistake["length"]] == word and mistake["severity"] == "warning"
    assert mistake.get("code") == code and mistake.get("fix") == fix


def test_mistake_at_no_place_has_no_length() -> None:
    (mistake,) = mistakes_json([SourceError(0, 0, "undefined symbol: f")], "int x;", is_c=True)
    assert (mistake["line"], mistake["column"], mistake["length"]) == (0, 0, 0)
    (mistake,) = mistakes_json([SourceError(7, 3, "behind the end")], "nop")
    assert mistake["length"] == 0


FROM_MEMORY = """/* y = a * x + y,
   strip-mined */
        .section .rodata
message: .asciz "done\\n"
        .data
x:      .word   1, 2, 3, 4, 5
y:      .word   10, 20, 30, 40, 50
        .text
_start: la      a1, x
        la      a2, y
        li      a0, 5
1:      vsetvli t0, a0, e32, m1, ta, ma
        vle32.v v1, (a1)
        vle32.v v2, (a2)
        vmacc.vx v2, a3, v1
        vse32.v v2, (a2)
        sub     a0, a0, t0
        slli    t1, t0, 2
        add     a1, a1, t1
        add     a2, a2, t1
        bnez    a0, 1b
        ebreak
"""


def test_loop_from_memory_assembles(program: pathlib.Path) -> None:
    own = read_tried_source(FROM_MEMORY, program)
    assert not own.mistakes and not own.warnings and len(own.statements) == 16
    assert [line for line in own.lines if line.startswith("map ")] == [
        "map 10000 1 rx",
        "map 11000 1 r",
        "map 12000 1 rw",
    ]


@pytest.mark.parametrize(
    "line, problem",
    [
        (".float 1.5", ".float is refused, since floating point isn't in this machine"),
        (".octa 1", ".octa isn't in this assembler"),
        ("table: .byet 1", "there is no directive .byet"),
        (".eqv size, 4", ".eqv isn't in this assembler"),
        (".set size, 1 / 0", "this divides by zero"),
        (".byte 300", "300 is out of range"),
        ("size = nothing", None),
    ],
)
def test_one_mistake_has_one_message(program: pathlib.Path, line: str, problem: str | None) -> None:
    """Lines after a refused one aren't refused, neither for its address nor for a name that the line defines."""
    text = FROM_MEMORY.replace("1:  ", f".data\n{line}\n.text\n1:  ").replace(
        "ebreak", "ebreak\n.data\n.align 2\n.word 1, size"
    )
    text = text if "size" in line else text.replace(", size", "")
    messages = [it.message for it in read_tried_source(text, program).mistakes]
    if problem is None:
        assert len(messages) == 1 and messages[0].startswith("nothing is no register that fits here")
    else:
        assert len(messages) == 1 and messages[0].startswith(problem)
    in_code = FROM_MEMORY.replace("1:  ", f"{line}\n1:  ")
    assert len(read_tried_source(in_code, program).mistakes) <= 2


ONE_CAUSE = [
    (".data\nmain: li a0, 1\n la a1, main\n lw a2, (a1)\n bnez a0, main", "2:7 li is outside .text"),
    (".rodata\n.byte 1\nf: nop\n j f\n.data\n.byte 1", "3:4 nop is outside .text"),
    ("bad label: nop\n j bad\n la a0, bad\n.word bad", "1:1 bad label is no label: a label is one word, as bad_label"),
    (".word x\n j x\n la a0, x", "1:7 x is no register that fits here, and no label"),
    (".data\n.comm a, 8, 3", "2:13 .comm takes an alignment that is a power of two from 1 to 4096"),
    (" li\u00a0a0, 1", "1:4 this is U+00A0, no-break space: only texts and comments may have it"),
    (" nop\n\ufeff nop", "2:1 this is U+FEFF, zero width no-break space"),
    (" nop\0", "1:5 this is U+0000, a control character"),
    (" .byte 3 – 2", "1:10 this is U+2013, en dash"),
    (" nop # \udce9\nb\udce9: nop", "2:2 the byte 0xe9 isn't UTF-8: save the file as UTF-8"),
    ("größe: li a0, 1", "1:3 ö can't be in a name: names have letters of ASCII"),
    (" li a2, COUNT\n nop\nCOUNT = 5", "1:9 COUNT is defined in line 3, and its value is needed here"),
    ("a = \n li a0, a", "1:3 a number is missing after ="),
    ("a = b + 1\nb = a + 1\n nop", "1:5 b is defined by itself"),
    ("a = a\n nop", "1:5 a is defined by itself"),
    (" foo", "1:2 there is no instruction foo"),
    (".eqv N, 10\n li a0, N", "1:1 .eqv isn't in this assembler: write .equ"),
    (".data 0x10010000\nx: .word 1\n.text\n la a0, x", "1:7 .data takes no address"),
    (".data 1\nx: .word 1\n.text\n la a0, x", "1:7 .data has no parts here: write .section"),
    (" .half 7:10, 5\n .align 2\n nop", "1:9 7:10 isn't in this assembler: write .fill 10, 2, 7"),
]


@pytest.mark.parametrize("text, message", ONE_CAUSE)
def test_one_cause_has_one_message(program: pathlib.Path, text: str, message: str) -> None:
    (mistake,) = read_tried_source(text, program).mistakes
    assert f"{mistake.line}:{mistake.column} {mistake.message}".startswith(message)
    assert "fence.tso" not in mistake.message


@pytest.mark.parametrize("text, fix", [("li\u00a0a0, 1", " "), (".byte 3 – 2", "-"), (".eqv N, 10", ".equ")])
def test_foreign_form_has_replacement(text: str, fix: str) -> None:
    (mistake,) = read_source(text).mistakes
    assert [*mistake.fix] == [fix]


def test_constants_of_later_ones_end_at_once() -> None:
    """Each is twice the next one: 2^44 terms, evaluated once each."""
    lines = [f"c{number} = c{number + 1} + c{number + 1}" for number in range(44)]
    assert read_source("\n".join([*lines, "c44 = 1", ".data", ".dword c0"])).lines[-1] == "poke 10000 0000000000100000"


def test_misaligned_instructions_are_one_mistake(program: pathlib.Path) -> None:
    mistakes = read_tried_source("nop\n.byte 1\nnop\nnop\nnop", program).mistakes
    assert [(it.line, it.message) for it in mistakes] == [
        (3, "the address of nop isn't divisible by 4: put .align 2 before it")
    ]


@pytest.mark.parametrize(
    "line, columns",
    [
        ("addi v1, a0, 5000", [6, 14]),
        ("bnez b0, 1b", [6, 10]),
        ("lw a9, 5000(v1)", [4]),
        ("lw v9, 5000(v1)", [4, 8, 13]),
        ("vadd.vi a0, a1, 99", [9, 13, 17]),
        (".byte 300, nowhere, 7, -200", [7, 12, 24]),
        ("addi a0, a0; lw b1, (b2); nop", [12, 17, 22]),
    ],
)
def test_all_mistakes_of_line_are_listed(program: pathlib.Path, line: str, columns: list[int]) -> None:
    assert [it.column for it in read_tried_source(line, program).mistakes] == columns


def test_partial_vector_type_has_warning_and_fixes(program: pathlib.Path) -> None:
    text = " vsetvli t0, a0, e32, m1 # as GNU as\n"
    own = read_tried_source(text, program)
    assert not own.mistakes and own.statements[0].text == "vsetvli x5, x10, e32, m1, tu, mu"
    (warning,) = mistakes_json(own.warnings, text, severity="warning")
    assert (warning["column"], warning["length"], warning["severity"]) == (23, 2, "warning")
    for fix in warning.get("fix", []):
        repaired = read_tried_source(text.replace("m1", fix), program)
        assert not repaired.mistakes and not repaired.warnings
    assert warning.get("fix") == ["m1, tu, mu", "m1, ta, ma"]


def test_trial_goes_on_with_another_machine(program: pathlib.Path, monkeypatch: pytest.MonkeyPatch) -> None:
    """When its script is long, or it remembers many answers, its answers are the same; the words are by the manual."""
    monkeypatch.setattr(trial, "MAX_SCRIPT", 2000)
    monkeypatch.setattr(trial, "MAX_ANSWERS", 500)
    texts = [f"addi x1, x0, {number}" for number in range(300)]
    with trial.Trial(program) as own:
        for _ in range(3):
            answers = own.answers([*texts, "addi x1, x0, 5000", *(f"addi x2, x0, {number}" for number in range(300))])
            assert [getattr(answers[text], "word") for text in texts] == [
                number << 20 | 1 << 7 | 0x13 for number in range(300)
            ]
            assert answers["addi x1, x0, 5000"] == Refused("E15", "14")

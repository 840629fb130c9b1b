"""Macros, repetitions and conditions: their statements, the lines they belong to, and the places of their mistakes."""

import pytest

from vecmon_lab.assembler.source import assemble, read_source

TABLE = """        .macro  step to, by=1
        addi    \\to, \\to, \\by
        .endm
        .irp    reg, a0, a1
        step    \\reg
        .endr
        step    t0, 5000
        step    b0
"""


def test_statements_belong_to_calling_line() -> None:
    statements = assemble("\n".join(TABLE.split("\n")[:-2])).statements
    assert [(it.line, it.text) for it in statements] == [
        (5, "addi x10, x10, 1"),
        (5, "addi x11, x11, 1"),
        (7, "addi x5, x5, 5000"),
    ]
    assert [it.column for it in statements] == [9, 9, 9]


def test_mistake_is_where_it_was_typed() -> None:
    """The register is in the call, and `5000`, for which the machine refuses an instruction, is there, too."""
    program = read_source(TABLE)
    assert [(it.line, it.column) for it in program.mistakes] == [(8, 17)]
    assert program.mistakes[0].message.endswith("; in macro step, called in line 8")
    number = next(it for it in program.statements if it.text.endswith("5000"))
    assert number.place(number.text.index("5000")) == (7, 21)
    assert number.place(0) == (2, 9)


def test_mistake_of_body_is_reported_once() -> None:
    text = ".macro put\n.byte 300\n.endm\nput\nput\n.macro outer\nput\n.endm\nouter"
    (mistake,) = read_source(text).mistakes
    assert (mistake.line, mistake.column) == (2, 7) and mistake.message.endswith("; in macro put, called in line 4")
    (mistake,) = read_source(text.replace("put\nput\n", "", 1)).mistakes
    assert mistake.message.endswith("; in macro put, called in line 5; in macro outer, called in line 7")


def test_message_names_three_calls() -> None:
    (mistake,) = read_source(".macro r\n nop\n r\n.endm\n r").mistakes
    call = "; in macro r, called in line 3"
    assert mistake.message == f"calls and repetitions are nested more than 50 deep here{3 * call}; ... 47 more"


@pytest.mark.parametrize(
    "text, messages",
    [
        (".macro done\n nop\n.end_macro\n done\n", ["3:1 .end_macro isn't in this assembler: write .endm"]),
        (
            ".macro put(%x)\n li a0, %x\n.endm\n put(5)\n put(6)\n",
            ["1:11 a parameter has no % or parentheses: write x here, and \\x in the macro's lines"],
        ),
        (
            ".macro put n, %x\n.endm\n",
            ["1:15 a parameter has no % or parentheses: write x here, and \\x in the macro's lines"],
        ),
    ],
)
def test_form_of_rars_has_one_message(text: str, messages: list[str]) -> None:
    assert [f"{it.line}:{it.column} {it.message}" for it in read_source(text).mistakes] == messages


@pytest.mark.parametrize(
    "text, line, column, message",
    [
        (".macro m w\n vle\\w.v v1, (a0)\n.endm\n m 32", 2, 5, "a dot belongs to a name: write \\w\\().v"),
        (".macro m a b\n.endm\n m 1, 2, 3", 3, 10, "m takes 2 arguments, and this is one more"),
        (".macro m a:req\n.endm\n m", 3, 2, "m needs a value for its argument a"),
        (".macro m a:odd\n.endm", 1, 10, "a parameter is a name"),
        (".macro\n.endm", 1, 1, ".macro takes a name"),
        (".macro m\n.endm\n.macro M\n.endm", 3, 8, "there already is a macro M"),
        (".macro m\n m\n.endm\n m", 2, 2, "in macro m, called in line 2; ... 47 more"),
        (".macro m\n nop\n.end_macro\n m", 3, 1, "write .endm"),
        (".rept 100000\n.rept 100000\n.endr\n.endr", 2, 1, "make more than 20,000 statements"),
        (".rept -1\n.endr", 1, 6, ".rept takes how often"),
        (".irp\n.endr", 1, 5, ".irp takes a name"),
        (".exitm", 1, 1, ".exitm is outside of a macro"),
        (".purgem m", 1, 9, "there is no macro m"),
        (".if later\n.endif\nlater = 1", 1, 5, "later is defined in line 3, and its value is needed here"),
        (".if\n.endif", 1, 1, ".if takes a number"),
        (".if 0\n.else\n.else\n.endif", 3, 1, ".else is after the .else"),
        (".ifc a\n.endif", 1, 1, ".ifc takes two texts"),
        ("nop /* one\ntwo", 1, 5, "this comment doesn't end: */ is missing"),
        (".macro m a\n.ascii \\a\n.endm\n m x", 4, 4, "a string in double quotes is needed here"),
    ],
)
def test_mistake_has_place(text: str, line: int, column: int, message: str) -> None:
    (mistake,) = read_source(text).mistakes
    assert (mistake.line, mistake.column) == (line, column), mistake
    assert message in mistake.message


@pytest.mark.parametrize(
    "call, texts",
    [
        (" m ,5,6", ["1", "5", "6"]),
        (" m ,,6", ["1", "2", "6"]),
        (" m 4,,6", ["4", "2", "6"]),
        (" m , 5", ["1", "5", "3"]),
        (" m ,", ["1", "2", "3"]),
    ],
)
def test_empty_arguments_have_defaults(call: str, texts: list[str]) -> None:
    """As in GNU as 2.40 and clang 19."""
    program = assemble(f".macro m a=1, b=2, c=3\n li a0, \\a\n li a1, \\b\n li a2, \\c\n.endm\n{call}")
    assert [it.text.rpartition(" ")[2] for it in program.statements] == texts


@pytest.mark.parametrize(
    "text, number",
    [
        (".rept 2\n.macro m\n nop\n.endm\n m\n.purgem m\n.endr", 2),
        (".irp n, 1, 2\n.macro m\\n\n nop\n.endm\n m\\n\n.endr", 2),
        (".rep 3\n nop\n.endr", 3),
    ],
)
def test_macro_in_repetition(text: str, number: int) -> None:
    """As in GNU as 2.40 and clang 19."""
    assert [it.text for it in assemble(text).statements] == ["addi x0, x0, 0"] * number


def test_text_of_skipped_branch_is_not_read() -> None:
    program = assemble(".if 0\n what is this\n.if 1\n.else\n.endif\n.rept\n.else\n nop\n.endif")
    assert [it.text for it in program.statements] == ["addi x0, x0, 0"]


def test_doubling_argument_is_refused() -> None:
    """Each call makes its argument twice as long; the text is limited, so that this ends at once."""
    text = ".macro m a\n m \\a\\a\n.endm\n m xxxxxxxx"
    assert any("more than 10,000 characters" in it.message for it in read_source(text).mistakes)

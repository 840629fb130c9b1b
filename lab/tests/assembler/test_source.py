"""Assembler source, compared with the output of stock tools for the same source, and with the machine's answers."""

import pathlib
import re
from collections.abc import Iterator

import pytest
from hypothesis import given, settings
from hypothesis import strategies as st

from support.places import DATA, DOCS
from vecmon_lab.assembler.source import DIRECTIVES, Program, SourceError, assemble, read_source, refusal
from vecmon_lab.assembler.trial import all_mistakes
from vecmon_lab.machine.session import Session

STOCK = DATA / "stock"
INSTRUCTIONS = DOCS / "INSTRUCTIONS.md"
SOURCES = sorted(path.stem for path in STOCK.glob("*.s"))
PURE = settings(derandomize=True, database=None)


def load(session: Session, program: Program) -> None:
    """Enter, and execute all lines of a program; the machine must refuse none."""
    for line in ["enter", *program.load_lines()]:
        [answer] = session.do(f"1 {line}")
        assert re.fullmatch(r"1 (?:entered|ok|[0-9a-f]{16} [0-9a-f]{8})", answer), line


def source(name: str) -> str:
    return (STOCK / f"{name}.s").read_text(encoding="utf-8")


def records(name: str, kind: str) -> Iterator[tuple[str, str]]:
    for line in (STOCK / f"{name}.recorded").read_text().splitlines():
        what, first, second = line.split()
        if what == kind:
            yield first, second


@pytest.mark.parametrize("name", SOURCES)
def test_bytes_and_symbols_equal_stock_assembler(session: Session, name: str) -> None:
    program = assemble(source(name))
    load(session, program)
    for address, content in records(name, "bytes"):
        assert session.look(f"1 peek {address} {len(content) // 2}") == [f"1 peek {address} {content}"]
    assert program.labels == {symbol: int(address, 16) for symbol, address in records(name, "symbol")}
    assert program.entry == program.labels.get("_start", 0x10000)


def test_sources_cover_every_instruction() -> None:
    known = set(re.findall(r"^\| `([^ `]+)[^`]*` \| `[01 -]+`", INSTRUCTIONS.read_text(), re.MULTILINE))
    assert len(known) >= 598
    assert known <= {statement.text.split()[0] for statement in assemble(source("instructions")).statements}


def test_statement_has_line_number() -> None:
    statements = assemble("\n nop\nlabel: li a0, 0x12345678 # two\n").statements
    assert [(item.address, item.line) for item in statements] == [(0x10000, 2), (0x10004, 3), (0x10008, 3)]


def test_call_assembles_to_one_jump() -> None:
    program = assemble("f: nop\n call f\n call g\ng: ret")
    assert [item.text for item in program.statements] == ["addi x0, x0, 0", "jal x1, -4", "jal x1, 4", "jalr x0, 0(x1)"]


def test_program_starts_at_start_label() -> None:
    assert assemble(" nop\n_start: nop").entry == 0x10004
    assert assemble(" nop\nstart: nop", 0x3000).entry == 0x3000
    for origin in (0x10004, -0x1000, (1 << 48) - 0x1000):
        with pytest.raises(ValueError):
            assemble("", origin)


def test_sections_have_separate_pages_and_permissions() -> None:
    program = assemble(".data\n.byte 1\n.bss\n.zero 4097\n.text\n.zero 4096\n", 0x400000)
    assert program.lines == ["map 400000 1 rx", "map 401000 1 rw", "map 402000 2 rw", "poke 401000 01"]
    assert assemble("").lines == []


def test_byte_order_mark_is_a_space() -> None:
    """The columns of the first line count it."""
    program = assemble("\ufeff_start: nop\n")
    assert program.labels == {"_start": 0x10000} and program.statements[0].column == 10
    assert read_source("\ufefffoo1").mistakes[0].column == 2


@pytest.mark.parametrize("codec", ["utf-16", "utf-16-le", "utf-16-be"])
@pytest.mark.parametrize("errors", ["surrogateescape", "replace"])
def test_utf_16_is_one_mistake(codec: str, errors: str) -> None:
    text = "_start: nop\n ebreak\n".encode(codec).decode("utf-8", errors)
    (mistake,) = read_source(text).mistakes
    assert (mistake.line, mistake.column, mistake.message) == (1, 1, "this file is in UTF-16: save it as UTF-8")


def test_long_data_is_split() -> None:
    lines = assemble(".data\n" + ".dword -1\n" * 65 + '.zero 300\n.string "' + "." * 400 + '"').lines
    assert lines[:2] == ["map 10000 1 rw", f"poke 10000 {'ff' * 256}"]
    assert lines[2:4] == [f"poke 10100 {'ff' * 256}", "poke 10200 ffffffffffffffff"]
    assert lines[4:] == [f"poke 10334 {'2e' * 256}", f"poke 10434 {'2e' * 144}00"]


def test_branch_reaches_range_limits() -> None:
    assert assemble("a: .zero 4096\n beqz a0, a").statements[0].text == "beq x10, x0, -4096"
    assert assemble(" blt a0, a1, a\n .zero 4088\na: nop").statements[0].text == "blt x10, x11, 4092"
    assert assemble(" j a\n .zero 0xfaff8\na: .byte 1").statements[0].text == "jal x0, 1028092"


def run(session: Session, name: str) -> tuple[Program, str]:
    """A program run to its stop line."""
    program = assemble(source(name))
    load(session, program)
    for _ in range(100):
        [answer] = session.do("1 step 256")
        if not answer.startswith("1 stepped"):
            return program, answer
    raise AssertionError(f"{name} doesn't stop")


def test_strlen_returns_length(session: Session) -> None:
    text = "".join(re.findall(r'\.(?:ascii|string)\s+"(.*)"', source("strlen")))
    assert run(session, "strlen")[1].startswith(f"1 exit {len(text)} ")


def test_memcpy_copies_bytes(session: Session) -> None:
    text = "".join(re.findall(r'\.ascii\s+"(.*)"', source("memcpy"))).replace("\\n", "\n")
    assert run(session, "memcpy")[1].startswith("1 exit 0 ")
    assert session.do("1 out") == [f"1 out {len(text)} {text.encode().hex()}"]


def test_axpy_adds_scaled_elements(session: Session) -> None:
    x = [*range(1, 21), *range(-1, -9, -1), 0x7FFFFFFF, 0x80000000, *range(21, 28)]
    y = [0, *range(100, 1900, 100), *range(10, 100, 10), 0xFFFFFFFF, *range(110, 190, 10)]
    program, stop = run(session, "axpy")
    assert stop.startswith("1 ebreak ")
    expected = b"".join(
        ((7 * first + second) % (1 << 32)).to_bytes(4, "little") for first, second in zip(x, y, strict=True)
    )
    assert session.look(f"1 peek {program.labels['y']:x} 148")[0].split()[-1] == expected.hex()


ERRORS = [
    ("nop\n j nowhere", 2, 4, "nowhere is no register that fits here, and no label"),
    ("a: nop\n  a: nop", 2, 3, "a is defined in line 1 already"),
    (".equ a, 1\na: nop", 2, 1, "a is defined in line 1 already"),
    (
        "  beq a0, a1, 8",
        1,
        15,
        "a label is needed here: a number is an address to some assemblers, and a distance to others",
    ),
    ("  jal -4", 1, 7, "a label is needed here"),
    ("  beq a0, a1", 1, 11, "a1 is no register that fits here, and no label"),
    ("  j 0x10000", 1, 5, "a label is needed here"),
    ("  la a0, 16", 1, 10, "a label is needed here"),
    ("  li a0, 010", 1, 10, "010 begins with a zero: stock assemblers read that as octal"),
    (" .word 1, 007", 1, 11, "007 begins with a zero"),
    (" addi a0, a0, 0b2", 1, 15, "0b2 is no number"),
    (" li a0, 0x", 1, 9, "0x is no number"),
    ("a: .zero 4100\n beqz a0, a", 2, 11, "this is -4100 bytes away, and -4096 to 4094 can be reached"),
    (" beqz a0, a\n .zero 4092\na: nop", 1, 11, "this is 4096 bytes away"),
    (" nop\n .zero 1024000\n .zero 4092\na: nop", 4, 4, "here the program grows beyond 251 pages"),
    (".data\n .zero 0xfb000\n .zero 1", 3, 2, "here the program grows beyond 251 pages"),
    (' .incbin "x"', 1, 2, ".incbin isn't here: files are read only by run, explore and console"),
    (" add a0, a1, a9", 1, 14, "a9 is no register that fits here"),
    (" add x32, a1, a2", 1, 6, "x32 is no register that fits here"),
    (" lw a0, 4(b0)", 1, 10, "an address is a register in parentheses"),
    (" lw a0, 4(a0", 1, 10, "an address is a register in parentheses"),
    (" vle8.v v1, 4(a0)", 1, 13, "the address of a vector instruction has no distance"),
    (" lw a0, a", 1, 9, "a is no register that fits here"),
    ("a: addi a0, a0, a", 1, 17, "a number is needed here, and this is an address"),
    ("a: li a0, a", 1, 11, "a number is needed here, and this is an address"),
    (" li a0, 0x10000000000000000", 1, 9, "has more than 64 bits"),
    (" li a0, -0x10000000000000001", 1, 10, "has more than 64 bits"),
    (" li a0, 18446744073709551616 - 1", 1, 9, "has more than 64 bits"),
    (" li a0, " + "9" * 5000, 1, 9, "has more than 64 bits"),
    (" .byte 255, 256", 1, 13, "256 is out of range: -128 to 255 fit"),
    (" .byte -129", 1, 8, "-129 is out of range"),
    (".data\na: .half a", 2, 10, "65536 is out of range"),
    (" .word -0x8000000000000001", 1, 8, "9223372036854775807 is out of range"),
    (" .word", 1, 2, ".word takes one operand or more"),
    (' .string "never ends', 1, 10, "this string doesn't end on its line"),
    (' .string "ends\\"', 1, 10, "this string doesn't end on its line"),
    (' .string "no \\q"', 1, 14, "there is no such escape in a string"),
    (' .string "é\\x414"', 1, 12, "there is no such escape in a string"),
    (" .string text", 1, 10, "a string in double quotes is needed here"),
    (" mv a0", 1, 2, "mv takes 2 operands, not 1"),
    (" ret a0", 1, 2, "ret takes 0 operands, not 1"),
    (" add a0, , a1", 1, 10, "an operand is missing before this comma"),
    (" add a0, a1,", 1, 12, "an operand is missing after this comma"),
    (" add a0 a1, a2", 1, 9, "a1 doesn't fit here: a comma may be missing before it"),
    (" addi a0, a0, 1 +", 1, 17, "a number is missing after +"),
    (" addi a0, a0, 1 2", 1, 17, "2 doesn't fit here"),
    (" addi a0, a0, @", 1, 15, "@ doesn't fit here"),
    (" * nop", 1, 2, "* isn't an instruction, a directive or a label"),
    ("1x: nop", 1, 1, "1x is no label"),
    ("1: j 2b", 1, 6, "there is no label 2: before here"),
    ("1: j 1f", 1, 6, "there is no label 1: after here"),
    (" jmp x", 1, 2, "there is no instruction jmp; near it is jump"),
    (" jmp x,, 5", 1, 2, "there is no instruction jmp"),
    ("  frobnicate a0", 1, 3, "there is no instruction frobnicate"),
    ("  vfadd.vv v1, v2, v3", 1, 3, "there is no instruction vfadd.vv here. Floating point isn't supported"),
    (" mov a0, a1", 1, 2, "there is no instruction mov; near it are move and mv"),
    (" vad v1, v2, v3", 1, 2, "there is no instruction vad; near it are vadd.vx, vadd.vv and vadd.vi"),
    (" add a0, a0, " + "0 - " * 80 + "a0", 1, 334, "a0 is no register that fits here"),
    (" add a0, a0, " + ", ".join(["-9"] * 80), 1, 2, "an instruction has at most 256 characters, and this one 332"),
    (".data\n nop", 2, 2, "nop is outside .text"),
    (".data\n nop\n li a0, 1\nx: la a0, x", 2, 2, "write .text before it"),
    (".data 0x10010000\nx: .byte 1\n.text\n la a0, x", 1, 7, "write .data by itself"),
    (".data\n .word 0:10", 2, 9, "write .fill 10, 4, 0"),
    (".byte '\\0'", 1, 7, "stock assemblers have no octal escapes"),
    (".dword 1 !! 2", 1, 10, "!! between numbers is ^ to GNU as"),
    (".comm a, 8, 3", 1, 13, ".comm takes an alignment that is a power of two"),
    (".byte 1\n nop", 2, 2, "the address of nop isn't divisible by 4"),
    (".bss\n .byte 1", 2, 2, ".bss has only zeros"),
    ('.bss\n .string "a"', 2, 2, ".bss has only zeros"),
    (" .align 13", 1, 9, ".align n aligns to 2^n bytes, with n from 0 to 12"),
    (" .balign 12", 1, 10, ".balign takes a power of two from 1 to 4096"),
    (" .zero -1", 1, 8, ".zero takes how many bytes there are"),
    (" .section .tdata", 1, 11, "thread-local storage isn't in this machine"),
    (" .equ 5, 5", 1, 7, ".equ takes a name and a number"),
    (" li a0, later\n .equ later, 1", 1, 9, "later is defined in line 2, and its value is needed here"),
    (".data\nb: .text\na: nop\n li a0, b - a", 4, 9, "the distance between two sections isn't known here"),
    ("a: .dword -a", 1, 12, "of two addresses only the difference can be taken"),
    ("a: .dword a + a", 1, 15, "of two addresses only the difference can be taken"),
    (" vmslt.vi v1, v2, 17", 1, 19, "vmslt.vi takes a number from -15 to 16"),
    (" vmsge.vx v0, v2, a0, v0.t", 1, 11, "into v0 this needs one more operand"),
    (" vmsge.vx v1, v2, a0, v0.t, v1", 1, 29, "must be neither v0 nor the destination"),
    (" vmsge.vx v1, v2, a0, v3", 1, 2, "vmsge.vx takes vd, vs2, rs1"),
    (" csrrwi t", 1, 9, "t is no register that fits here"),
    (" csrr a0, t", 1, 11, "t isn't a control register"),
    (" vmsge.vx v1, v2, a0, v0.t, v3, v0.t", 1, 2, "vmsge.vx takes vd, vs2, rs1"),
]


@pytest.mark.parametrize(("text", "line", "column", "message"), ERRORS)
def test_error_has_line_and_column(text: str, line: int, column: int, message: str) -> None:
    with pytest.raises(SourceError) as caught:
        assemble(text)
    assert (caught.value.line, caught.value.column) == (line, column)
    assert message in caught.value.message


def test_mistakes_are_reported_in_order(program: pathlib.Path) -> None:
    """Mistakes of form, and those that the machine reports for lines without such mistakes; correct lines have none."""
    text = """here: jmp here
        addi a0, a0, 4096
        .dword 1, 22222222222222222222
        vadd.vv v1, v2
        j nowhere
        add a0, a0 a1
        .zero 4294967296
        j here
        nop, ,
        .align 2"""
    expected = [(each.line, each.message.split(" ")[0]) for each in all_mistakes(read_source(text), program)]
    arguments = ["there", "4096", "22222222222222222222", "an", "nowhere", "a1", "here", "an"]
    assert expected == [*zip([1, 2, 3, 4, 5, 6, 7, 9], arguments)]


def test_first_hundred_mistakes_are_reported() -> None:
    mistakes = read_source("j later\n" + "jmp x\n" * 4999 + "later: nop").mistakes
    assert [each.line for each in mistakes] == [*range(2, 102)]
    mistakes = read_source("".join(f"j nowhere{number}\n" for number in range(5000)) + "jmp x").mistakes
    assert [each.line for each in mistakes] == [*range(1, 101)]


REFUSED = [
    ("  addi   s11, a0, 4096  # too much", 19, "4096 doesn't fit here"),
    ("  addi   s11, a0, -2049", 19, "-2049 doesn't fit here"),
    ("  lw  s11,  -2049(a0)", 13, "-2049 doesn't fit here"),
    (
        "  vadd.vi v1, v2, -17",
        19,
        "-17 doesn't fit here, as the machine reads it: vadd.vi v1, v2, -17; the form is "
        "vadd.vi vd, vs2, imm[, v0.t], with imm from -16 to 15",
    ),
    (
        "a: addi s11,s11,1,2",
        19,
        "too many, as the machine reads it: addi x27, x27, 1, 2; the form is addi rd, rs1, imm",
    ),
    ("  lw  s11,  2048(a0)", 13, "2048 doesn't fit here"),
    (
        "  lw  s11,  20(v1)",
        16,
        "v1 doesn't fit here, as the machine reads it: lw x27, 20(v1); the form is lw rd, imm(rs1)",
    ),
    ("  lw  s11,  a0", 13, "x10 doesn't fit here"),
    ("  sub s11, a0, 5", 16, "5 doesn't fit here"),
    ("  mv  a0,  5", 12, "5 doesn't fit here"),
    ("  mv  v5,  a0", 7, "v5 doesn't fit here"),
    ("  mv  a0, a1, v0.t", 15, "there is an operand too many"),
    ("  vmand.mm v1, v2, v3, v0.t", 24, "there is an operand too many"),
    ("  vadd.vv  v1, v2  # and", 18, "an operand is missing at the end; the form is vadd.vv vd, vs2, vs1[, v0.t]"),
    ("  vsetvli  t0, a0", 18, "an operand is missing at the end"),
    ("  vsetvli  t0, a0, m1, e32", 20, "; the form is vsetvli rd, rs1, eSEW, mLMUL, ta|tu, ma|mu"),
    ("  csrr     a0, 4096", 16, "4096 doesn't fit here"),
    ("  csrwi    vxrm, 32", 18, "32 doesn't fit here"),
    ("a: .byte 1, 1\n.align 2\n  bne a0, zero, a + 1", 17, "doesn't fit here"),
]


@pytest.mark.parametrize(("text", "column", "message"), REFUSED)
def test_machine_refusal_has_source_location(session: Session, text: str, column: int, message: str) -> None:
    program = assemble(text)
    session.do("1 enter")
    session.do("1 map 10000 1 rx")
    statement = program.statements[-1]
    [answer] = session.do(f"1 asm {statement.address:x} {statement.text}")
    assert answer.startswith("1 E15 ")
    error = refusal(statement, int(answer.removeprefix("1 E15 ")))
    assert (error.line, error.column) == (text.count("\n") + 1, column)
    assert message in error.message


def reached(program: Program) -> int:
    """The value of a0 after the instructions of a li, by the unprivileged manual."""
    value = 0
    for statement in program.statements:
        name, *operands = statement.text.replace(",", "").split()
        number = int(operands[-1])
        assert operands[0] == "x10" and operands[1:-1] in ([], ["x0"], ["x10"]) and (value == 0 or name != "lui")
        value = 0 if operands[1:-1] == ["x0"] else value
        results = {
            "lui": number << 12 if number < 1 << 19 else (number << 12) - (1 << 32),
            "addi": value + number,
            "addiw": ((value + number + (1 << 31)) % (1 << 32)) - (1 << 31),
            "slli": value << number if 0 <= number < 64 else 0,
            "srli": value >> number if 0 <= number < 64 else 0,
            "xori": value ^ (number % (1 << 64)),
        }
        assert name not in ("addi", "addiw", "xori") or -2048 <= number < 2048
        value = results[name] % (1 << 64)
    return value


SHIFTED = st.tuples(st.integers(-99, 99), st.integers(0, 56)).map(lambda pair: pair[0] << pair[1])


@PURE
@given(st.integers(-(1 << 63), (1 << 64) - 1) | SHIFTED)
def test_li_loads_constant(value: int) -> None:
    program = assemble(f"li a0, {value}")
    assert reached(program) == value % (1 << 64)
    assert assemble(f"li a0, {'-' if value < 0 else ''}{abs(value):#x}").lines == program.lines
    assert 1 <= len(program.statements) <= 8


@PURE
@given(st.sampled_from([1, 2, 4, 8]), st.integers(-(1 << 64), 1 << 65), st.booleans(), st.integers(0, 99))
def test_data_directive_accepts_numbers(width: int, value: int, hexadecimal: bool, more: int) -> None:
    """Numbers have 64 bits: -0xffffffffffffffff is 1, as in GNU as and clang."""
    directive = {1: ".byte", 2: ".half", 4: ".word", 8: ".dword"}[width]
    digits = hex(abs(value)) if hexadecimal else str(abs(value))
    text = f".data\n{directive} {'-' if value < 0 else ''}{digits}, {more} - {more} + 7\n"
    wrapped = value if value >= -(1 << 63) else value + (1 << 64)
    if abs(value) < 1 << 64 and -(1 << 8 * width - 1) <= wrapped < 1 << 8 * width:
        expected = (wrapped % (1 << 8 * width)).to_bytes(width, "little") + (7).to_bytes(width, "little")
        assert assemble(text).lines[1:] == [f"poke 10000 {expected.hex()}"]
    else:
        with pytest.raises(SourceError):
            assemble(text)


NAMES = "a0 sp v1 v0.t vl e32 m1 label x .text .data .bss .byte .word .zero .align .ascii .equ .section".split()
NAMES += "li la mv j call beqz addi lw vle32.v vsetvli vmsge.vx vmslt.vi csrr jalr ret".split()
OTHERS = '0 1 -1 12 0x7ff 010 4097 0xffffffffffffffff "a\\n" " \\ ( ) , : + - # // @ é \u2028 \r \0'.split(" ")
WORDS = st.sampled_from(NAMES + OTHERS)
SOURCE = st.lists(st.lists(WORDS, max_size=9).map(" ".join) | st.text(max_size=20), max_size=6).map("\n".join)


@settings(PURE, max_examples=200)
@given(SOURCE)
def test_random_text_assembles_or_has_located_error(text: str) -> None:
    lines = text.split("\n")
    try:
        program = assemble(text)
    except SourceError as error:
        assert 1 <= error.line <= len(lines) and 1 <= error.column <= len(lines[error.line - 1]) + 1
        assert "\n" not in str(error)
    else:
        assert all(re.fullmatch("[ -~]{0,1022}", line) for line in program.lines)
        assert all(1 <= item.line <= len(lines) for item in program.statements)


def test_source_lines_match_instruction_words() -> None:
    """Each source line is at its first word, with its comment, or the comment of the line above."""
    text = "# Counts.\nloop: one: addi t0, t0, 1 # up\n// Two words.\n\tli a0, 0x12345\n\n# none\n.data\n.word 1\n.text\nnop\r\n ret\n"
    assert read_source(text).source_lines(text) == {
        "10000": "addi t0, t0, 1 # up",
        "10004": "li a0, 0x12345  // Two words.",
        "1000c": "nop",
        "10010": "ret",
    }


def test_directives_are_accepted() -> None:
    for name in DIRECTIVES:
        reply = str(read_source(f"{name} 1, 2").mistakes)
        assert "there is no directive" not in reply, name
    assert ".frob" not in DIRECTIVES


def test_complement_has_64_bits() -> None:
    """As in GNU as 2.40 and clang 19."""
    lines = assemble(" .data\n .dword ~0x8000000000000000, ~0xffffffff00000000").lines
    assert lines[1] == "poke 10000 ffffffffffffff7fffffffff00000000"


def test_byte_order_mark_is_skipped() -> None:
    assert assemble("\ufeff_start: nop").labels == {"_start": 0x10000}


def test_aliases_are_the_pseudo_instructions_of_vector_instructions() -> None:
    """Each with the spaces of an instruction's text, at the address of its first instruction, in macros too; others have none."""
    text = r"""
        li      a0, 0x12345678
start:  VNEG.V  v8,v4  # -v4
        vadd.vv v1, v2, v3; vnot.v v2 , v2
        .macro  negate register
        vneg.v  \register, \register
        .endm
        negate  v3
        vmsge.vx v0, v4, a1
        mv      a1, a0
        vle1.v  v0, (a0)
    """
    assert assemble(text).aliases() == {
        "10008": "vneg.v v8, v4",
        "10010": "vnot.v v2, v2",
        "10014": "vneg.v v3, v3",
        "10018": "vmsge.vx v0, v4, a1",
        "10024": "vle1.v v0, (a0)",
    }

"""tools/instructions, which writes from the records of instructions the files that repeat them."""

import contextlib
import pathlib
import re
import shutil
import subprocess
import sys

import pytest

from support.places import TOP
from support.values_by_hand import HandValue, hand_values
from tools.records import instruction_places
from tools.records.instruction_files import FILE_ERRORS, changes, parts_by_file, part_lines
from tools.records.instruction_parts import replaced
from tools.records.instruction_records import Record, RecordError, read_records

TOOL = TOP / "tools" / "instructions"
RECORDS = TOP / "instructions"
SPELLINGS, ENCODINGS = (TOP / "crates/test_assembler/data" / name for name in ("spellings", "encodings"))
ADDED = """
[vnone]
extension = "Zvkb"
family = "binary"
word = "001000- ----- ----- OPI ----- 1010111"
forms = "vv vx"
operands = "vd, vs2, vs1/rs1[, v0.t]"
shape = "single"
definition = "formula"
test = "one_width.BINARY"
does = "Combines the elements of vs2 with the complement of {the elements of vs1} by and."
formula = "vd[i] = vs2[i] & ~vs1[i]"
section = "11.5"
"""
"""A record of a name that no extension has; its word is that of no instruction of any extension."""


UNARY = """
[vunary]
extension = "Zvbb"
family = "extend"
word = "010010- ----- 11111 010 ----- 1010111"
forms = "v"
operands = "vd, vs2[, v0.t]"
shape = "same source"
definition = "extend_formula"
does = "Combines the elements of vs2 with 1 by exclusive or."
formula = "vd[i] = vs2[i] ^ 1"
section = "2.1"
"""


@pytest.fixture(scope="module")
def records() -> list[Record]:
    return read_records(RECORDS)


@pytest.fixture(scope="module")
def names() -> list[str]:
    """The files with records and those that repeat them."""
    with contextlib.chdir(TOP):
        written = [line.partition(":")[0] for line in part_lines()]
    return [*written, *(path.relative_to(TOP).as_posix() for path in (*RECORDS.iterdir(), ENCODINGS))]


@pytest.fixture
def copy(names: list[str], tmp_path: pathlib.Path, monkeypatch: pytest.MonkeyPatch) -> pathlib.Path:
    """A folder with the records and the files that repeat them, which is the current one."""
    for name in names:
        (tmp_path / name).parent.mkdir(parents=True, exist_ok=True)
        shutil.copy(TOP / name, tmp_path / name)
    monkeypatch.chdir(tmp_path)
    return tmp_path


def added_lines() -> dict[str, list[str]]:
    """The new lines of each file that differs from the records, without indents."""
    added = dict[str, list[str]]()
    for change in changes():
        lines = {*change.has.splitlines()}
        added[change.path.as_posix()] = [line.strip() for line in change.text.splitlines() if line not in lines]
    return added


def edit(folder: pathlib.Path, name: str, old: str, new: str) -> None:
    """Replace a text, which a file of records has once."""
    path = folder / "instructions" / name
    text = path.read_text("ascii")
    assert text.count(old) == 1, old
    path.write_text(text.replace(old, new), "ascii")


def test_changed_bit_of_record_is_found_in_each_file(copy: pathlib.Path) -> None:
    assert changes() == []
    head = '[vsmul]\nextension = "V"\nfamily = "fixed_point"\nword = "{} ----- ----- OPI'
    edit(copy, "vector_fixed_point.toml", head.format("100111-"), head.format("100110-"))
    found = {change.path.as_posix(): change.difference() for change in changes()}
    assert [*found] == [
        "crates/rv_model/specs/instructions/Operations.antt",
        "crates/rv_decode/src/lines.rt",
        "crates/rv_decode/src/vector_operations.rt",
        "crates/rv_model/src/assembler/mnemonics.rt",
        "crates/test_assembler/stdout",
        "lab/vecmon_lab/tables/instructions.txt",
        "lab/vecmon_lab/tables/operations.txt",
    ]
    numbered = enumerate((copy / "crates/rv_decode/src/lines.rt").read_text("utf-8").splitlines(), 1)
    line = next(number for number, text in numbered if "FixedPointOp::Vsmul" in text)
    assert found["crates/rv_decode/src/lines.rt"] == (
        f"crates/rv_decode/src/lines.rt:{line}: it has 'FixedPointOp::Vsmul => opi(0x27, Forms::Vx),'; "
        "by the records it is 'FixedPointOp::Vsmul => opi(0x26, Forms::Vx),'"
    )


def test_changed_character_of_each_part_is_found(copy: pathlib.Path) -> None:
    number = 0
    for name, parts in parts_by_file(read_records()).items():
        text = (copy / name).read_text("utf-8")
        for part in parts:
            place = part.place_in(text)
            last = max(found.start() for found in re.finditer(r"\w", text[place.start : place.end])) + place.start
            changed = f"{text[:last]}Q{text[last + 1:]}"
            assert changed != text and replaced(changed, [part]).split() == text.split(), part
            number += 1
    assert number > 200


def test_moved_anchor_is_named(copy: pathlib.Path) -> None:
    path = copy / "crates/rv_decode/src/scalar_operations.rt"
    path.write_text(path.read_text("utf-8").replace("fn system_op(bits: u32)", "fn system_op(word: u32)"), "utf-8")
    with pytest.raises(
        FILE_ERRORS, match=r"^crates/rv_decode/src/scalar_operations.rt: there is no line 'pub\(crate\) fn"
    ):
        changes()


def test_added_record_gets_a_line_in_each_file(copy: pathlib.Path, records: list[Record]) -> None:
    """The fields of the opcode are by hand from the manual's table of opcodes."""
    with (copy / "instructions/vector_integer.toml").open("a", encoding="ascii") as file:
        file.write(ADDED)
    names = sum(len(record.mnemonics) for record in records)
    tested = sum(record.cells.get("test") == "one_width.BINARY" for record in records)
    by_path = added_lines()
    added = {path.rpartition("/")[2]: lines for path, lines in by_path.items()}
    assert added["operations.rt"] == ["Vnone,"]
    assert 'vector_entry (Binary Vnone) = opi (codes "vnone") 0x08 Vx' in added["Operations.antt"]
    assert added["lines.rt"] == ["BinaryOp::Vnone => opi(0x08, Forms::Vx),"]
    assert added["vector_operations.rt"] == ["0x08 => (VectorOp::Binary(BinaryOp::Vnone), Forms::Vx),"]
    assert added["mnemonics.rt"] == [
        f"pub const NAME_COUNT: usize = {names + 2};",
        'Mnemonic(*b"vnone.vv        ", Form::VectorVector, 0x2000_0057),',
        'Mnemonic(*b"vnone.vx        ", Form::VectorScalar, 0x2000_4057),',
    ]
    assert added["one_width.rt"] == [
        f"const BINARY: [(BinaryOp, &str); {tested + 1}] = [",
        '(BinaryOp::Vnone, "vnone"),',
    ]
    assert added["vector_instructions"] == ["vnone.vv v8, v16, v24", "vnone.vx v8, v16, x5"]
    assert added["operations.txt"] == ["OPI    001000  VX     vnone         single          -"]
    assert added["instructions.txt"] == [
        "vnone.vv  vd, vs2, vs1[, v0.t]  001000- ----- ----- 000 ----- 1010111",
        "vnone.vx  vd, vs2, rs1[, v0.t]  001000- ----- ----- 100 ----- 1010111",
    ]
    assert added["COMMANDS.md"] == ["| `vnone` | 11.5 of the Vector Cryptography extensions |"]
    assert added["vector_integer.toml"][0] == "[vnone]" and not any("word" in it for it in added["vector_integer.toml"])
    stored = (TOP / "crates/test_faults/stdout").read_text("ascii")
    ((lines, instructions),) = re.findall(r"^commands without memory: (\d+) lines, (\d+) ", stored, re.MULTILINE)
    assert by_path["crates/test_faults/stdout"] == [
        f"commands without memory: {int(lines) + 6} lines, {int(instructions) + 2} instructions by themselves, 0 differ"
    ]
    assert by_path["crates/test_kernels/stdout"] == ["vnone: 7920 compared, 0 differ"]


def test_added_source_width_gets_its_lines(copy: pathlib.Path) -> None:
    """An operation on one source of SEW, as the unary ones of Zvbb are, and one without a function of whole chunks."""
    with (copy / "instructions/vector_integer.toml").open("a", encoding="ascii") as file:
        file.write(UNARY)
        file.write(ADDED.replace('test = "one', 'chunk = "none"\ntest = "one'))
    added = added_lines()
    (divisor,) = added["crates/reg_groups/src/operands.rt"]
    assert divisor.endswith("ExtendOp::Vunary => 1,")
    assert {"extension_divisor Vunary = 1", "part_width Vunary w = w"} <= {
        *added["crates/rv_model/specs/vector/Groups.antt"]
    }
    (text,) = [change.text for change in changes() if change.path.as_posix() == "crates/vec_unit/src/extend.rt"]
    arm = text.partition("ExtendOp::Vunary => match sew {\n")[2].lstrip()
    assert arm.startswith("Sew::E8 => perform_at::<u8, u8, ExtendOperation>(from, groups, target, state, scalar),\n")
    assert "is_simd Vnone = false" in added["crates/lane_arith/specs/SimdOperations.antt"]
    assert any(line.endswith("BinaryOp::Vnone") for line in added["crates/lane_arith/src/chunk.rt"])


MISTAKES = {
    "unknown key": ('forms = "vv vx vi"', 'form = "vv vx vi"', "vadd has the unknown key form; known are family, "),
    "missing key": ('operands = "vd, vs2, vs1/rs1/imm[, v0.t]"\n', "", "vadd lacks the key operands"),
    "missing shape": ('shape = "single"\n', "", "vadd lacks the key shape"),
    "another's word": ("000000-", "000010-", "vsub: vsub.vv has a word of vadd.vv (instructions/vector_integer.toml:"),
    "short word": (
        "000000-",
        "00000-",
        "vadd has the word 00000- ----- ----- 000 ----- 1010111; it needs fields of 7,",
    ),
    "no bit": ("000000-", "00000x-", "vadd has the word 00000x- ----- ----- 000 ----- 1010111; it needs fields of 7,"),
    "funct3": ("OPI", "000", "vadd needs OPI or OPM as funct3, since its family is binary"),
    "unknown family": (
        'family = "binary"',
        'family = "unary"',
        "vadd has the unknown family unary; known are binary, ",
    ),
    "unknown extension": (
        'extension = "V"',
        'extension = "W"',
        "vadd has the unknown extension W; add it to lab/vecmon_lab/tables/instruction_extensions.txt",
    ),
    "shapes": ('shape = "single"', 'shape = "single/move"', "vadd has 2 shapes for 3 names"),
    "unknown shape": (
        'shape = "single"',
        'shape = "twin"',
        "vadd has the unknown shape twin; lab/vecmon_lab/tables/shapes.txt",
    ),
    "shape of no operation": (
        'shape = "single"',
        'shape = "widening"',
        "vadd has the shape widening; the family binary has single, high product",
    ),
    "shape with another operand": (
        'operands = "vd, vs2, vs1/rs1/imm[, v0.t]"',
        'operands = "vd, vs1/rs1/imm[, v0.t]"',
        "vadd: vadd.vv has the vector operands vd, vs1, and the shape single has vd, vs2, vs1",
    ),
    "fixed field of an operand": (
        'word = "000000- ----- -----',
        'word = "000000- 00000 -----',
        "vadd: the word of vadd.vv has 00000 for the operand vs2",
    ),
    "field without operand": (
        'operands = "vd, vs2, vs1/rs1/imm[, v0.t]"',
        'operands = "vd, vs2, vs1/rs1/imm"',
        "vadd: vadd.vv lacks an operand for the field vm of its word",
    ),
    "chunk": ('shape = "single"', 'shape = "single"\nchunk = "some"', 'vadd has the key chunk; it is "none", and only'),
    "operand": ("vs1/rs1/imm", "vs1/rs1", "vadd has no operand for the form vi in vs1/rs1"),
    "no text": ('shape = "single"', "shape = 1", "vadd has a value of shape that isn't text"),
    "no table": ("[vadd]", "vadd = 1\n[other]", "vadd is no table"),
}


@pytest.mark.parametrize("mistake", MISTAKES)
def test_mistake_in_record_is_one_line(copy: pathlib.Path, mistake: str) -> None:
    old, new, message = MISTAKES[mistake]
    path = copy / "instructions/vector_integer.toml"
    path.write_text(path.read_text("ascii").replace(old, new, 1), "ascii")
    with pytest.raises(RecordError) as caught:
        changes()
    text = str(caught.value)
    assert re.match(r"instructions/vector_integer\.toml:\d+: ", text) and "\n" not in text
    assert text.partition(": ")[2].startswith(message)


def test_mistakes_of_files_are_one_line(copy: pathlib.Path) -> None:
    stray = copy / "instructions/vectors.toml"
    stray.write_text("", "ascii")
    with pytest.raises(RecordError, match="^instructions/vectors.toml: unknown file; records are in scalar.toml, "):
        changes()
    stray.unlink()
    path = copy / "instructions/scalar.toml"
    text = path.read_text("ascii")
    path.write_text(f"{text}\n[lui]\n", "ascii")
    with pytest.raises(RecordError, match=r"^instructions/scalar.toml: Cannot declare \('lui',\) twice"):
        changes()
    path.write_text(f"{text}\n[none]\nfamily = \n", "ascii")
    with pytest.raises(RecordError, match="^instructions/scalar.toml: Invalid value"):
        changes()
    path.unlink()
    with pytest.raises(RecordError, match="^instructions/scalar.toml: No such file or directory"):
        changes()


def test_words_of_records_are_those_of_binutils(records: list[Record]) -> None:
    """The recorded words of GNU as and llvm-mc have the fixed bits that the records give for their names."""
    names = {it.name: it for record in records for it in record.mnemonics}
    rows = [line.split() for line in SPELLINGS.read_text("ascii").splitlines()]
    rows = [row for row in rows if row[0] != "00000000"]  # which marks texts that no assembler takes
    found = [(int(row[0], 16), row[1]) for row in rows if row[1:] and row[1] in names]
    assert [(word, name) for word, name in found if (word ^ names[name].word) & names[name].mask] == []
    assert {name for _, name in found} == {*names}


@pytest.mark.parametrize("arguments, status", [(["--help"], 0), (["write"], 2), (["--check", "--parts"], 2)])
def test_arguments(arguments: list[str], status: int) -> None:
    command = [sys.executable, str(TOOL), *arguments]
    completed = subprocess.run(command, cwd=TOP, capture_output=True, text=True, check=False)
    assert completed.returncode == status
    if status:
        assert completed.stdout == "" and completed.stderr.startswith("usage: tools/instructions [--check | --parts]")
    else:
        assert completed.stdout.startswith("Writes and checks the files that repeat the records of instructions")


def test_mistake_ends_with_status_1_and_writes_nothing(copy: pathlib.Path) -> None:
    edit(copy, "vector_fixed_point.toml", '[vssrl]\nextension = "V"\n', "[vssrl]\n")
    before = {path: path.read_bytes() for path in copy.rglob("*") if path.is_file()}
    completed = subprocess.run([sys.executable, str(TOOL)], cwd=copy, capture_output=True, text=True, check=False)
    assert completed.returncode == 1 and completed.stderr == ""
    assert re.fullmatch(r"instructions/vector_fixed_point\.toml:\d+: vssrl lacks the key extension\n", completed.stdout)
    assert {path: path.read_bytes() for path in copy.rglob("*") if path.is_file()} == before


@pytest.fixture
def tree(tmp_path: pathlib.Path) -> pathlib.Path:
    """A folder with all that `tools/instructions --check` reads: copies of records and definitions, and links to the rest."""
    for name in ("lab", "docs", "tests"):
        (tmp_path / name).symlink_to(TOP / name)
    shutil.copytree(RECORDS, tmp_path / "instructions")
    (tmp_path / "crates").mkdir()
    for crate in (TOP / "crates").iterdir():
        if crate.name != "rv_model":
            (tmp_path / "crates" / crate.name).symlink_to(crate)
    for name in ("src", "specs"):
        shutil.copytree(TOP / "crates/rv_model" / name, tmp_path / "crates/rv_model" / name)
    return tmp_path


def check(folder: pathlib.Path) -> list[str]:
    """The lines that `tools/instructions --check` prints in a folder, in which it finds a fault."""
    command = [sys.executable, str(TOOL), "--check"]
    completed = subprocess.run(command, cwd=folder, capture_output=True, text=True, check=False)
    assert completed.returncode == 1 and completed.stderr == ""
    return completed.stdout.splitlines()


def replace_in(path: pathlib.Path, old: str, new: str) -> None:
    """Replace a text, which a file has once."""
    text = path.read_text("utf-8")
    assert text.count(old) == 1, old
    path.write_text(text.replace(old, new), "utf-8")


FORMULAS = "crates/rv_model/specs/elements/Formulas.antt"


def test_record_without_formula_is_named(tree: pathlib.Path) -> None:
    """`vsub` without a line, `vzext.vf4` with the line for all others, `vsll` with an immediate that isn't unsigned.

    Three names are missing in `use` lines: a constructor that only a pattern has, one of the kit, and a variant of the line that
    `tools/instructions` doesn't write.
    """
    replace_in(tree / FORMULAS, "formula Vsub w a b = pos a -ℤ pos b\n", "")
    replace_in(tree / FORMULAS, "extend_formula VzextVf4 n a = pos a\n", "")
    replace_in(tree / FORMULAS, "has_unsigned_immediate Vsll = true\n", "")
    replace_in(tree / FORMULAS, " pos, negsuc,", " pos,")
    replace_in(tree / FORMULAS, " quotient, remainder,", " quotient,")
    replace_in(tree / FORMULAS, "VzextVf4, VzextVf2", "VzextVf4")
    lines = check(tree)
    unknown = [re.sub(r"^(\S+):\d+: ", r"\1: ", line) for line in lines[:3]]
    assert unknown == [
        f"{FORMULAS}: low_bits uses negsuc, which no `use` line has",
        f"{FORMULAS}: formula uses remainder, which no `use` line has",
        f"{FORMULAS}: extend_formula uses VzextVf2, which no `use` line has",
    ]
    faults = [
        f"vsub: the definition formula has no line for it: add one to {FORMULAS}",
        f"vsll: its immediate isn't uimm by has_unsigned_immediate in {FORMULAS}",
        f"vzext: the definition extend_formula has no line for it: add one to {FORMULAS}",
    ]
    assert [re.sub(r"^instructions/vector_integer\.toml:\d+: ", "", line) for line in lines[3:6]] == faults


def test_record_of_other_definition_is_named(tree: pathlib.Path) -> None:
    replace_in(tree / "instructions/scalar.toml", '"jump_step"', '"branch_step"')
    (line, *_) = check(tree)
    wanted = r"instructions/scalar\.toml:\d+: jal: the step of jal doesn't rest on the definition branch_step"
    assert re.fullmatch(wanted, line)


def test_name_without_results_is_named(monkeypatch: pytest.MonkeyPatch) -> None:
    """`divuw` has golden vectors, two rows by hand, or one, which isn't enough."""
    monkeypatch.chdir(TOP)
    golden, rows = instruction_places.golden_names(), [HandValue("divuw x1, x2, x3", {}, {})] * 2
    others = [row for row in hand_values() if row.name != "divuw"]
    fault = "divuw: add 2 rows to lab/tests/data/values_by_hand.txt, or golden vectors to lab/tests/data/golden_vectors"
    monkeypatch.setattr(instruction_places, "golden_names", lambda: golden)
    monkeypatch.setattr(instruction_places, "hand_values", lambda: others)
    assert instruction_places.missing() == []
    monkeypatch.setattr(instruction_places, "golden_names", lambda: golden - {"divuw"})
    assert instruction_places.missing() == [fault]
    monkeypatch.setattr(instruction_places, "hand_values", lambda: [*others, *rows[:1]])
    assert instruction_places.missing() == [fault]
    monkeypatch.setattr(instruction_places, "hand_values", lambda: [*others, *rows])
    assert instruction_places.missing() == []

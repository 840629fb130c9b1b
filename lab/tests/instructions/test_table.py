"""The list of instructions, compared with the page that the program `test_assembler` prints."""

from support.command_tables import with_instructions
from support.places import DOCS
from vecmon_lab.instructions.table import instruction_table


def test_table_equals_page() -> None:
    page = (DOCS / "INSTRUCTIONS.md").read_text("ascii")
    path = DOCS.parent / "lab" / "vecmon_lab" / "tables" / "instructions.txt"
    assert with_instructions(path.read_text("ascii"), page) == path.read_text("ascii")


def test_table_rows_have_operands_and_fields() -> None:
    rows = instruction_table()
    assert len(rows) >= 597
    assert rows["ecall"].operands == "" and rows["ecall"].word(0) == 0x73
    assert rows["vadd.vv"].operands == "vd, vs2, vs1[, v0.t]" and rows["vadd.vv"].fields() == ["vd", "vs2", "vs1"]

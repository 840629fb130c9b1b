"""The records: each name has one, their parts are consistent, and searches and `help` find them."""

import pathlib
import re
import subprocess

import pytest

from support.console import shown
from support.meaning_examples import made
from vecmon_lab.assembler.source import DIRECTIVES, read_source
from vecmon_lab.compilers.compiler import Compiler
from vecmon_lab.instructions.table import instruction_table
from vecmon_lab.meanings import record as record_module
from vecmon_lab.meanings.describe import EXAMPLES, describe, encoding_fields, expansions, found
from vecmon_lab.meanings.extensions import added_archs
from vecmon_lab.meanings.help import help_lines
from vecmon_lab.meanings.record import instruction_records, record_of, records
from vecmon_lab.tables.table import read_table

LAYOUTS = {"by element", "gather", "slide", "reduce", "compress", "scan"}
WORDS = 25  # of a sentence, at most


def test_every_mnemonic_has_one_record() -> None:
    every = [it for it in records().values() if it.kind == "instruction"]
    for name in instruction_table():
        assert [it.name for it in every if re.fullmatch(it.names, name)] == [record_of(name).name], name
    assert {name for it in every for name in it.members} == {*instruction_table()}
    assert len(every) > 190 and len(instruction_records()) == len(every)


def test_other_names_have_records() -> None:
    by_kind = {
        kind: {name for name, it in records().items() if it.kind == kind} for kind in ("directive", "control register")
    }
    assert by_kind["directive"] == {*DIRECTIVES}
    assert by_kind["control register"] == {*dict(read_table("keywords"))[r"csr\w*"].split()}
    pseudo = {form.split()[0] for form, *_ in read_table("pseudo")} | {"li"}
    assert pseudo == {name for name, it in records().items() if it.kind == "pseudo-instruction"} | {"jal", "jalr"}
    assert {*expansions()} == pseudo - {"li"}


def test_named_sections_are_accepted() -> None:
    sections = re.findall(r"\.\w+", records()[".section"].does)
    assert sections == [".text", ".rodata", ".data", ".bss"]
    assert not any(read_source(f".section {name}").mistakes for name in sections)


def test_records_describe_instructions() -> None:
    for name, record in records().items():
        assert len(record.does.split("; ")[0].split()) <= WORDS and record.does.endswith("."), name
        assert all(
            each in records() or each in instruction_table() or each in COMMANDS_SEEN for each in record.see
        ), name
        if record.kind == "instruction":
            assert record.layout in LAYOUTS and re.fullmatch(r"\d+(\.\d+)*", record.section), name


COMMANDS_SEEN = {"break"}
# Operands in the manual's assembly syntax, and words for them
OPERANDS = {"rd", "rs1", "rs2", "vd", "vs1", "vs2", "vs3", "v0", "imm", "uimm", "shamt", "immediate", "scalar"}


def test_sentences_name_operands_of_their_form() -> None:
    for name, row in instruction_table().items():
        operands = {*re.findall(r"\w+", row.operands)}
        operands |= {"immediate"} if operands & {"imm", "uimm"} else set()
        operands |= {"scalar"} if operands & {"rd", "rs1"} else set()
        sentence = record_of(name).does_of(name)
        assert {*re.findall(r"\w+", sentence)} & OPERANDS <= operands, f"{name}: {sentence}"
        assert not {*"{}"} & {*sentence} and len(sentence.split("; ")[0].split()) <= WORDS, f"{name}: {sentence}"
    sentences = [record_of(f"vsub.{form}").does_of(f"vsub.{form}").split(" from ")[0] for form in ("vv", "vx")]
    assert sentences == ["Subtracts the elements of vs1", "Subtracts x[rs1]"]
    assert record_of("vmsgt.vi").does_of("vmsgt.vi").endswith("1 where vs2 is greater than the immediate.")
    assert records()["vmsgt"].does.endswith("1 where vs2 is greater than a scalar or an immediate.")


def test_examples_equal_machine_results(program: pathlib.Path) -> None:
    assert EXAMPLES.read_text("ascii") == made(program)


def test_examples_equal_hand_worked_results() -> None:
    rows = {name: cells for name, *cells in read_table("instruction_examples")}
    assert rows["vadd"][0] == "vadd.vv v8, v4, v6" and rows["vadd"][2] == "v8: 3 -2 8 -1 12 -5 13 -4"
    assert rows["vredmax"][2] == "v8: 7 101 102 103 104 105 106 107"
    assert rows["vrgather"][2] == "v8: 3 1 -6 -4 -8 -2 7 5"
    assert rows["vcpop"][2] == "x5: 4"


def test_every_intrinsic_compiles(tmp_path: pathlib.Path, clang: Compiler) -> None:
    parts, names = ["#include <riscv_vector.h>"], dict[str, str]()
    for record in instruction_records():
        if record.intrinsic:
            result, name, parameters = re.findall(r"^(.+?) (__riscv_\w+)\((.*)\)$", record.intrinsic)[0]
            arguments = [re.findall(r"\w+$", each)[0] for each in parameters.split(", ")]
            values = ", ".join("__RISCV_VXRM_RNU" if each == "vxrm" else each for each in arguments)
            function = f"f{len(names)}"
            names[function] = record.name
            parts.append(
                f"{result} {function}({parameters}) {{ {'' if result == 'void' else 'return '}{name}({values}); }}"
            )
    source = tmp_path / "intrinsics.c"
    source.write_text("\n".join(parts))
    words = [
        "--target=riscv64",
        "_".join(("-march=rv64im_zve64x_zvl256b", *added_archs())),
        "-menable-experimental-extensions",  # which intrinsics of Zvkb, Zvbb and Zvbc need
        "-O1",
        "-Werror=implicit-function-declaration",
        "-S",
        "-o",
        "-",
    ]
    completed = subprocess.run([clang.name, *words, source], capture_output=True, text=True)
    assert completed.returncode == 0, completed.stderr
    bodies = dict(re.findall(r"^(f\d+):(.*?)^\.Lfunc_end", completed.stdout, re.MULTILINE | re.DOTALL))
    for function, name in names.items():
        used = set(re.findall(r"^\t(v[\w.]+)", bodies[function], re.MULTILINE))
        assert used & {*records()[name].members, "vsetivli"}, f"{name}: {used}"
    assert len(names) > 120


@pytest.mark.parametrize(
    "arguments, first, others",
    [
        ("add with carry", "vadc", set()),
        ("reverse", "vrsub", {"vrgather"}),
        ("exit", "exit", {"exit_group"}),
        ("rounding mode", "vxrm", set()),
        ("end of a string", "vfirst", set()),
        ("saturating add", "vsadd", {"vsaddu"}),
        ("multiply add", "vmacc", {"vmadd"}),
        ("unsigned divide", "divu", {"vdivu", "divuw"}),
        ("unsigned remainder", "remu", {"vremu"}),
        ("unsigned compare", "vmsltu", {"vmsleu", "vmsgtu"}),
        ("unsigned maximum", "vmaxu", {"vredmaxu"}),
        ("unsigned average", "vaaddu", set()),
        ("unsigned branch", "bltu", {"bgeu"}),
        ("unsigned load", "lbu", {"lhu", "lwu"}),
        ("sign extend", "vsext", {"lb", "sext.w"}),
    ],
)
def test_search_finds_records(arguments: str, first: str, others: set[str]) -> None:
    names = [record.name for record in found(arguments)]
    assert first in names and others <= {*names}


def test_search_lists_signed_before_unsigned() -> None:
    """`signed` is inside `unsigned`, and both are found."""
    names = [record.name for record in found("signed multiply")]
    signed, unsigned = {"mulh", "vmulh", "vwmul", "vwmacc", "vsmul"}, {"mulhu", "vmulhu", "vwmulu", "vwmaccu"}
    assert signed | unsigned <= {*names}
    assert max(map(names.index, signed)) < min(map(names.index, unsigned))


def test_other_extension_name_is_explained() -> None:
    reasons = {
        "vfadd.vv": "Floating point isn't supported",
        "vfmacc.vf": "Floating point isn't supported",
        "fadd.d": "Floating point isn't supported",
        "vandn.vv": "Zvbb isn't supported",
        "vclmul.vv": "Zvbc isn't supported",
        "amoadd.w": "Atomic instructions (extension A) aren't supported",
        "c.addi": "Compressed instructions (extension C) aren't supported",
        "sh1add": "Zba isn't supported",
        "clz": "Zbb isn't supported",
        "mret": "Privileged instructions",
    }
    absent = {name: reason for name, reason in reasons.items() if name not in instruction_table()}
    assert len(absent) > 6
    for name, reason in absent.items():
        assert describe(name)[0].startswith(f"{name}: {reason}"), name
    assert not any(
        re.fullmatch(it.names, name) for it in records().values() if it.kind == "absent" for name in instruction_table()
    )


def test_absent_names_leave_out_instructions(tmp_path: pathlib.Path, monkeypatch: pytest.MonkeyPatch) -> None:
    """The pattern of an extension may still fit an instruction that the machine has by now."""
    (tmp_path / "absent.toml").write_text(
        "[Zvkb]\nnames = 'vadd\\.v[vx]|vnone\\.v[vx]'\ndoes = \"It isn't there.\"\n", "ascii"
    )
    monkeypatch.setattr(record_module, "FOLDER", tmp_path)
    found = record_module.records.__wrapped__()["Zvkb"]
    assert [name for name in ("vadd.vv", "vadd.vx", "vnone.vv", "vnone.vx") if re.fullmatch(found.names, name)] == [
        "vnone.vv",
        "vnone.vx",
    ]


def test_help_describes_instruction() -> None:
    (row, formula, *more) = help_lines("vmacc.vx")
    assert row.startswith("vmacc.vx vd, rs1, vs2[, v0.t]: Multiplies the elements of vs2 by x[rs1] and adds")
    assert formula == "  vd[i] = vs2[i] * vs1[i] + vd[i], where vs1[i] is x[rs1]"
    assert "  101101 | vm:1 | vs2:5 | rs1:5 | 110 | vd:5 | 1010111" in more
    assert help_lines("vcsr")[0].startswith("vcsr: prints") and len(help_lines("vcsr")) > 1
    assert help_lines("nonsense") == ["nothing is called nonsense; help lists the commands"]
    output = shown(["help vadd.vv", "help vfadd.vv", "help E03", "help add with carry"])
    assert output[1].startswith("vadd.vv vd, vs2, vs1[, v0.t]: Adds the elements")
    assert [line.partition(":")[0] for line in output[-2:]] == ["vadc", "carry"]


def test_encodings_have_32_bits() -> None:
    for row in instruction_table().values():
        assert sum(bits for _, bits in encoding_fields(row)) == 32
    fields = encoding_fields(instruction_table()["vse32.v"])
    assert fields == [("000000", 6), ("vm", 1), ("00000", 5), ("rs1", 5), ("110", 3), ("vs3", 5), ("0100111", 7)]

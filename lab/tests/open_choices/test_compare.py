"""`vecmon-lab compare`: programs that rely on open choices or on initial values, and ones that don't."""

import json
import pathlib
from typing import Any, NamedTuple

import jsonschema
import pytest

from support import compare_schema
from support.commands import Lab
from support.images import make_image
from support.places import DATA, EXAMPLES, SORT, SQUARES, STOCK, SUM
from support.sources import EXIT, FOREVER
from vecmon_lab.compilers.compiler import Compiler


class Expected(NamedTuple):
    """A reliance: its kind, the label of the instruction or the name of the place, and the label of what reads it first."""

    kind: str
    origin: str
    read: str


UNWRITTEN = {
    "tail_added": Expected("tail", "strip", "sum"),
    "masked_off_stored": Expected("masked", "double", "store"),
    "mask_tail_counted": Expected("register", "v9", "count"),
    "counter_not_cleared": Expected("register", "x6", "count"),
    "sums_not_cleared": Expected("register", "v8", "add"),
    "length_not_read": Expected("trim", "load", "sum"),
    "vlmax_assumed": Expected("length", "strip", "sum"),
    "local_not_set": Expected("stack", "[7fffefb8]", "look"),  # the 8 bytes that have the variable, at 7fffefbc
}
"""What each program of the examples relies on, by its labels."""

LATE = """
# A sum that includes a tail, and an exit with it a million instructions later.
        vsetivli zero, 8, e32, m1, ta, ma
        vmv.v.i v8, 1
        vsetivli zero, 4, e32, m1, ta, ma
strip:  vadd.vi v8, v8, 1
        vsetivli zero, 8, e32, m1, ta, ma
        vmv.s.x v9, zero
sum:    vredsum.vs v8, v8, v9
        vmv.x.s s0, v8
        li t0, 500000
wait:   addi t0, t0, -1
        bnez t0, wait
        mv a0, s0
        li a7, 93
        ecall
"""
SAVED = f"""
# Saves and restores a register whose tail is anything, and uses its first elements alone.
        vsetivli zero, 4, e8, mf2, ta, ma
        vmv.v.i v8, 1
        lui a1, 0x11
        vs1r.v v8, (a1)
        vl1re8.v v9, (a1)
        vmv.s.x v10, zero
        vredsum.vs v9, v9, v10
        vmv.x.s a0, v9
        {EXIT}
        .data
        .zero 32
"""
WRITES_UNEVENLY = """
# Writes 300 times 10 bytes, each time after 40 ticks, and doesn't look how many were taken.
        li s0, 300
next:   li t0, 20
wait:   addi t0, t0, -1
        bnez t0, wait
        li a0, 1
        la a1, text
        li a2, 10
        li a7, 64
        ecall
        addi s0, s0, -1
        bnez s0, next
        li a0, 3
        li a7, 93
        ecall
        .data
text:   .ascii "123456789\\n"
"""
UNUSED = f"""
# Loads four of eight elements; adds to those of all eight that are above -1; and stores four.
        vsetivli zero, 8, e32, m1, ta, ma
        vid.v v1
        vmsleu.vi v0, v1, 3
        vmv1r.v v2, v0
        lui a1, 0x11
some:   vle32.v v8, (a1), v0.t
bits:   vmsgt.vi v0, v8, -1
        vadd.vi v8, v8, 1, v0.t
        vmv1r.v v0, v2
store:  vse32.v v8, (a1), v0.t
        lw a0, 12(a1)
        {EXIT}
        .data
        .word 1, 2, 3, 4
"""
OWN_WORD = f"""
# Stores eight words from its own on: seven of them are those of `li a0, 1`.
        li a0, 0
        vsetivli zero, 8, e32, m1, ta, ma
        lui a1, 0x11
        vle32.v v8, (a1)
        auipc a1, 0
        addi a1, a1, 8
        vse32.v v8, (a1)
        nop
        nop
        {EXIT}
        nop
        nop
        nop
        nop
        .data
        .word 0x00100513, 0x00000013, 0x00000013, 0x05d00893, 0x00000073, 0x00000013, 0x00000013, 0x00000013
"""


Json = dict[str, Any]


def compared(lab: Lab, *arguments: object) -> tuple[int, Json]:
    """The status and the report of a comparison, which is as the schema has it."""
    status, output, errors = lab("compare", "--json", *arguments)
    assert errors == ""
    report: Json = json.loads(output)
    jsonschema.validate(report, json.loads(compare_schema.schema()))
    return status, report


def of_source(lab: Lab, program: pathlib.Path, folder: pathlib.Path, source: str) -> tuple[int, Json, dict[str, str]]:
    """The same of a source, and the addresses of its labels in hexadecimal digits."""
    labels = make_image(program, folder / "image", source)
    status, report = compared(lab, folder / "image")
    return status, report, {label: f"{address:x}" for label, address in labels.items()}


def reliances(report: Json) -> list[Expected]:
    """The reliances of a report, by addresses in place of labels."""
    found = []
    for form in report["reliances"]:
        origin = form["instruction"]["address"] if "instruction" in form else form["name"].partition(" ")[2]
        found.append(Expected(form["kind"], origin, form["read"]["instruction"]["address"]))
    return found


def with_addresses(expected: Expected, labels: dict[str, str]) -> Expected:
    """The same reliance by addresses."""
    return Expected(expected.kind, labels.get(expected.origin, expected.origin), labels[expected.read])


@pytest.mark.by_command("compare")
def test_stock_programs_are_the_same(lab: Lab) -> None:
    """Their outputs and ends are those of QEMU."""
    status, output, errors = lab("compare", SUM)
    first, last = output.decode().splitlines()
    assert (status, errors) == (0, "")
    assert first == f"{SUM}: exit 0; 7 bytes: b'328350\\n'; 250 instructions"
    assert last == "the same with 8 seeds"
    status, output, errors = lab("compare", SQUARES)
    first, last = output.decode().splitlines()
    assert (status, errors) == (0, "")
    assert "fault cause=7 pc=0000000000010198 value=0000000000012000; 0 bytes: b''" in first


@pytest.mark.parametrize("name", UNWRITTEN)
def test_reliance_of_example_is_named(lab: Lab, program: pathlib.Path, tmp_path: pathlib.Path, name: str) -> None:
    source = (EXAMPLES / "unwritten" / f"{name}.s").read_text("utf-8")
    status, report, labels = of_source(lab, program, tmp_path, source)
    assert (status, reliances(report)[:1]) == (1, [with_addresses(UNWRITTEN[name], labels)])


@pytest.mark.parametrize(
    "source, name, values",
    [
        (
            "vsetivli zero, 1, e8, m1, ta, ma\nvmv.v.i v8, 1\nread: vaadd.vx v9, v8, zero\nvmv.x.s a0, v9",
            "vxrm",
            {"name": "v9.e8[0]", "without": "1", "with_choice": "0"},  # half of 1 is rounded up, and to even
        ),
        ("read: csrr a0, vxsat", "vxsat", {"name": "x10", "without": "0", "with_choice": "1"}),
    ],
)
def test_unwritten_control_register_is_named(
    lab: Lab, program: pathlib.Path, tmp_path: pathlib.Path, source: str, name: str, values: dict[str, str]
) -> None:
    status, report, labels = of_source(lab, program, tmp_path, f"{source}\nli a7, 93\nend: ecall")
    assert (status, reliances(report)) == (1, [Expected("register", name, labels["read"])])
    assert values in report["reliances"][0]["read"]["values"]


def test_every_example_has_its_expected_reliance() -> None:
    assert {path.stem for path in (EXAMPLES / "unwritten").iterdir()} == set(UNWRITTEN)


def test_late_effect_is_named(lab: Lab, program: pathlib.Path, tmp_path: pathlib.Path) -> None:
    status, report, labels = of_source(lab, program, tmp_path, LATE)
    assert (status, reliances(report)) == (1, [Expected("tail", labels["strip"], labels["sum"])])
    (form,) = report["reliances"]
    assert form["values"] == [{"name": "v8.e32[4]", "without": "1", "with_choice": "ffffffff"}]
    # 4 x 2 + 4 is 12; without one of the four ones, and with -1 in its place, it is 10
    assert form["read"]["values"] == [{"name": "v8.e32[0]", "without": "c", "with_choice": "a"}]


IMAGES = {path.name: path for path in [*STOCK.parent.rglob("*"), *(DATA / "images").iterdir(), SORT] if path.is_file()}


@pytest.mark.parametrize("name", [name for name, path in IMAGES.items() if path.read_bytes()[:4] == b"\x7fELF"])
def test_example_images_rely_on_nothing(lab: Lab, name: str) -> None:
    """`good` is for the loader: it exits with what is in a0. prefix_sums.c has a mistake in line 44."""
    status, output, errors = lab("compare", "--json", "--ticks", 70_000, IMAGES[name])
    report = json.loads(output)
    if status == 125:
        assert errors and report["verdict"] == "not runnable" and lab("run", IMAGES[name])[0] == 2
        return
    found = [(form["kind"], form.get("instruction", {}).get("line", form["name"])) for form in report["reliances"]]
    if name.startswith("prefix_sums"):
        assert status == 1 and ("tail", "prefix_sums.c:44") in found
        return
    assert (status == 1, found) == ((True, [("register", "register x10")]) if name == "good" else (False, []))


def test_slices_reveal_store_over_own_word(lab: Lab, program: pathlib.Path, tmp_path: pathlib.Path) -> None:
    make_image(program, tmp_path / "image", OWN_WORD)
    data = bytearray((tmp_path / "image").read_bytes())
    data[64 + 4] = 7  # p_flags: the text may be written
    (tmp_path / "image").write_bytes(data)
    status, report = compared(lab, tmp_path / "image")
    (form,) = report["reliances"]
    assert (status, form["kind"], [end["end"] for end in form["ends"]]) == (1, "slices", ["exit 0", "exit 1"])


@pytest.mark.parametrize("source, end", [("SAVED", "exit 4"), ("WRITES_UNEVENLY", "exit 3"), ("UNUSED", "exit 5")])
def test_programs_that_rely_on_nothing(
    lab: Lab, program: pathlib.Path, tmp_path: pathlib.Path, source: str, end: str
) -> None:
    """A saved register, output that is cut, and results that nothing uses: as clang has it at -Os for `a > b ? a - b : c`."""
    status, report, _ = of_source(lab, program, tmp_path, globals()[source])
    assert (status, report["verdict"], report["end"]["end"]) == (0, "same", end)


def test_endless_program_is_undecided(lab: Lab, program: pathlib.Path, tmp_path: pathlib.Path) -> None:
    make_image(program, tmp_path / "forever", FOREVER)
    status, report = compared(lab, "--ticks", "6999", tmp_path / "forever")
    assert (status, report["verdict"], report["end"]["end"]) == (124, "undecided", "no end")


@pytest.mark.parametrize(
    "arguments, expected",
    [
        ([], 2),
        (["--ticks", "none", SUM], 2),
        (["--expect", "tails", SUM], 2),
        (["--list", "none"], 2),
        (["--against-scalar", SUM], 2),
        (["none"], 125),
        ([STOCK / "short"], 125),
        (["--memory", "nowhere", SUM], 125),
    ],
)
def test_bad_input_is_refused(lab: Lab, arguments: list[object], expected: int) -> None:
    status, output, errors = lab("compare", *arguments)
    assert (status, output, errors.count("\n")) == (expected, b"", 1)


def test_runs_alike_in_breakpoint_are_the_same(lab: Lab, program: pathlib.Path, tmp_path: pathlib.Path) -> None:
    status, report, _ = of_source(lab, program, tmp_path, "nop\nebreak")
    assert (status, report["verdict"], report["end"]["end"]) == (0, "same", "ebreak pc=0000000000010004")
    assert lab("run", tmp_path / "image")[0] == 133


def test_store_by_agnostic_mask_matters_to_compared_memory(lab: Lab, tmp_path: pathlib.Path) -> None:
    """Eight elements are stored or four, though the program doesn't load the others again."""
    source, text = tmp_path / "stores.s", UNUSED.replace("vmv1r.v v0, v2", "nop").replace(
        "        .word", "words:  .word"
    )
    text = text.replace("some:   vle32.v v8, (a1), v0.t", "        vle32.v v9, (a1)\nsome:   vadd.vi v8, v9, 0, v0.t")
    source.write_text(text, "utf-8")
    assert compared(lab, source)[0] == 0
    status, report = compared(lab, "--memory", "words", source)
    assert status == 1
    form = next(form for form in report["reliances"] if form["kind"] == "masked")
    assert form["instruction"]["place"] == "some" and form["read"]["instruction"]["place"] == "bits"
    assert form["memory"]["at"] >= 16  # after the four words that are loaded


TWO = """
# Two sums, each of a tail: one in a function.
        .globl _start, helper
_start: vsetivli zero, 8, e32, m1, ta, ma
        vmv.v.i v8, 1
        vmv.v.i v9, 1
        vsetivli zero, 4, e32, m1, ta, ma
first:  vadd.vi v8, v8, 1
        jal ra, helper
        vsetivli zero, 8, e32, m1, ta, ma
        vmv.s.x v10, zero
        vredsum.vs v8, v8, v10
        vredsum.vs v9, v9, v8
        vmv.x.s a0, v9
        li a7, 93
        ecall
helper: vadd.vi v9, v9, 1
        ret
"""


@pytest.fixture
def two(tmp_path: pathlib.Path) -> pathlib.Path:
    """A source with two reliances."""
    (tmp_path / "two.s").write_text(TWO, "utf-8")
    return tmp_path / "two.s"


def test_reliances_are_named_one_after_another(lab: Lab, two: pathlib.Path) -> None:
    status, report = compared(lab, two)
    names = [form["name"] for form in report["reliances"]]
    assert (status, names) == (1, ["tail@vadd.vi first", "tail@vadd.vi helper"])


def test_tail_of_load_is_found_with_all_ones(lab: Lab, tmp_path: pathlib.Path) -> None:
    """Four elements of eight are loaded, and all are added. Its two command lines show it."""
    source = tmp_path / "load.s"
    text = "vsetivli zero, 8, e32, m1, ta, ma\nvmv.v.i v8, 1\nlui a1, 0x11\nvsetivli zero, 4, e32, m1, ta, ma\n"
    text += "load: vle32.v v8, (a1)\nvsetivli zero, 8, e32, m1, ta, ma\nvmv.s.x v9, zero\nsum: vredsum.vs v8, v8, v9\n"
    text += f"vmv.x.s a0, v8\n{EXIT}\n.data\n.word 1, 2, 3, 4"
    source.write_text(text, "utf-8")
    status, report = compared(lab, source)
    (form,) = report["reliances"]
    assert (status, form["name"], [end["end"] for end in form["ends"]]) == (1, "ones", ["exit 14", "exit 6"])
    assert "which comes from the tail of" in form["explanation"][-1] and " load " in form["explanation"][-1]
    assert [f"exit {lab(*command.split()[1:])[0]}" for command in form["commands"]] == ["exit 14", "exit 6"]
    known = tmp_path / "known"
    known.write_text("ones\n", "utf-8")
    assert compared(lab, "--known", known, source)[0] == 0 and lab("compare", "--expect", "ones", source)[0] == 0


def test_only_one_function_counts(lab: Lab, two: pathlib.Path) -> None:
    status, report = compared(lab, "--only", "helper", two)
    assert (status, [form["name"] for form in report["reliances"]]) == (1, ["tail@vadd.vi helper"])
    assert compared(lab, "--only", "other", two)[0] == 0


def test_known_reliances_are_accepted(lab: Lab, two: pathlib.Path) -> None:
    known = two.with_name("known")
    known.write_text("# accepted\ntail@vadd.vi helper  # sums ones\n", "utf-8")
    status, report = compared(lab, "--known", known, two)
    assert (status, [form["known"] for form in report["reliances"]]) == (1, [False, True])
    known.write_text("tail@vadd.vi\n", "utf-8")
    status, report = compared(lab, "--known", known, two)
    assert (status, report["verdict"]) == (0, "same")
    known.write_text("\ntails\n", "utf-8")
    status, _, errors = lab("compare", "--known", known, two)
    assert status == 2 and errors.startswith(f"vecmon-lab: {known}:2: 'tails' is no kind of reliance")


@pytest.mark.parametrize(
    "expected, status", [("tail", 0), ("tail@vadd.vi", 0), ("tail@vadd.vv", 1), ("masked", 1), ("register", 1)]
)
def test_expected_reliance_turns_status(lab: Lab, two: pathlib.Path, expected: str, status: int) -> None:
    assert lab("compare", "--expect", expected, two)[0] == status


def test_commands_show_both_ends(lab: Lab, two: pathlib.Path) -> None:
    """The two command lines of a reliance exit as it says."""
    _, report = compared(lab, two)
    for form in report["reliances"]:
        for command, end in zip(form["commands"], form["ends"]):
            words = command.split()
            assert words[0] == "vecmon-lab"
            assert f"exit {lab(*words[1:])[0]}" == end["end"]


def test_saved_folder_shows_reliance(lab: Lab, two: pathlib.Path) -> None:
    folder = two.with_name("saved")
    assert lab("compare", "--save", folder, two)[0] == 1
    names = {path.name for path in folder.iterdir()}
    assert {"image", "two.s", "report.json", "report.txt", "versions", "show.sh"} <= names
    logs = [(folder / f"log1.{name}").read_text("ascii").splitlines() for name in ("without", "with")]
    assert logs[0] != logs[1] and logs[0][-1].startswith("exit ")
    status, _, errors = lab("compare", "--save", folder, two)
    assert status == 125 and "isn't empty" in errors


@pytest.mark.parametrize("name", ["counter_not_cleared", "local_not_set"])
def test_initial_value_is_shown(lab: Lab, tmp_path: pathlib.Path, name: str) -> None:
    """The two command lines and the saved folder, for a register and for the stack."""
    folder, source = tmp_path / "saved", EXAMPLES / "unwritten" / f"{name}.s"
    status, report = compared(lab, "--save", folder, source)
    form = report["reliances"][0]
    ends = [end["end"] for end in form["ends"]]
    assert (status, form["kind"]) == (1, UNWRITTEN[name].kind) and ends[0] != ends[1]
    assert [f"exit {lab(*command.split()[1:])[0]}" for command in form["commands"]] == ends
    logs = [(folder / f"log1.{run}").read_text("ascii").splitlines()[-1] for run in ("without", "with")]
    assert [line.partition(" pc=")[0] for line in logs] == ends


def test_list_prints_line_for_each_program(lab: Lab, two: pathlib.Path) -> None:
    listed = two.with_name("list")
    listed.write_text(f"# three programs\n{two}\n{SUM} argument\nnone\n", "utf-8")
    status, output, _ = lab("compare", "--jobs", "2", "--list", listed)
    lines = dict(line.split(": ", 1) for line in output.decode().splitlines())
    assert status == 1 and lines.keys() == {f"{two}", f"{SUM}", "none"}
    assert lines[f"{SUM}"].startswith("the same with 8 seeds")
    assert lines[f"{two}"].endswith(": tail@vadd.vi first, tail@vadd.vi helper")
    assert lines["none"].startswith("not runnable: ")
    listed.write_text("none\n", "utf-8")
    assert lab("compare", "--list", listed)[0] == 125


def test_schema_is_written() -> None:
    advice = "run python -m support.compare_schema in lab"
    assert compare_schema.SCHEMA.read_text("utf-8") == compare_schema.schema(), advice
    jsonschema.Draft202012Validator.check_schema(json.loads(compare_schema.schema()))


MISCOMPILED = """
#ifdef __OPTIMIZE__  // as if the compiler had made a vector loop that forgets the tail
#define SUM "vmv.s.x v9, zero; vredsum.vs v8, v8, v9; vmv.x.s %0, v8"
#else
#define SUM "li %0, 8"
#endif
int main(void)
{
    int sum;
    __asm__("vsetivli zero, 4, e32, m1, ta, ma; vmv.v.i v8, 0; vmv.v.i v9, 1; vadd.vv v8, v9, v9;"
            "vsetivli zero, 8, e32, m1, ta, ma;" SUM : "=r"(sum) : : "v8", "v9");
    return sum != 8;
}
"""


@pytest.mark.parametrize("name, blamed", [("dot_product.c", "source"), ("miscompiled.c", "compiler")])
def test_wrong_side_is_named(
    lab: Lab, sandboxed_clang: Compiler, tmp_path: pathlib.Path, name: str, blamed: str
) -> None:
    example, source = EXAMPLES / "searches" / name, tmp_path / name
    source.write_text(example.read_text("utf-8") if example.exists() else MISCOMPILED, "utf-8")
    status, output, _ = lab("compare", "--against-scalar", "--cc", sandboxed_clang.name, source)
    assert status == 1 and output.decode().endswith(f"; the {blamed} is to blame\n")

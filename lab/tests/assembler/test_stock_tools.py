"""Each directive and form of GNU as: accepted, ignored or refused; the bytes are compared with GNU as and clang."""

import pathlib
import re
import shutil
import subprocess

import pytest

from support.assembler_forms import FORMS, Form
from support.drawn_sources import END_OF_SECTIONS, drawn_source
from support.places import DATA, EXAMPLES, TOP
from support.stock_assemblers import COMMANDS, differences, machine_bytes, stock_bytes
from vecmon_lab.assembler.source import read_source
from vecmon_lab.assembler.trial import read_tried_source
from vecmon_lab.machine.session import Session

ALLOWED = "--target=riscv64 -march=rv64im_zve64x_zvl256b -mabi=lp64 -ffreestanding -S -o -".split()
REFUSED = [form for form in FORMS if form.treatment == "refused"]
TAKEN = [form for form in FORMS if form.treatment != "refused"]
needs_tools = pytest.mark.skipif(
    not all(shutil.which(each[0][0]) for each in COMMANDS.values()), reason="GNU as for RISC-V or clang 19 is missing"
)


def assert_equal_bytes(session: Session, text: str, tools: str) -> None:
    """Compare the machine's bytes of a source with those of stock tools."""
    own = read_source(text)
    assert not own.mistakes, [f"{each}" for each in own.mistakes]
    stock = stock_bytes(text, tools)
    assert isinstance(stock, bytes), stock
    assert stock and differences(machine_bytes(session, own), stock) == [], text


@pytest.mark.parametrize("form", REFUSED, ids=[form.source for form in REFUSED])
def test_refused_form_has_one_reason(program: pathlib.Path, form: Form) -> None:
    """The example has one mistake, however much follows it."""
    (mistake,) = read_tried_source(form.source, program).mistakes
    assert form.reason and form.reason in mistake.message


@pytest.mark.parametrize("form", TAKEN, ids=[form.source for form in TAKEN])
def test_form_is_accepted(form: Form) -> None:
    """A form without an effect gives no word and no byte; a form with a warning is one that clang refuses."""
    own = read_source(form.source)
    assert not own.mistakes and bool(own.warnings) == (form.treatment == "warned"), own.mistakes
    if form.treatment == "ignored":
        assert not [line for line in own.lines if line[:4] in ("asm ", "poke")]
    else:
        assert own.lines or form.treatment == "warned"


@needs_tools
@pytest.mark.parametrize("tools", ["gnu", "clang"])
def test_bytes_equal_stock_tools(session: Session, tools: str) -> None:
    """All examples in one source, but for `.end`, which would hide the others."""
    forms = [
        it for it in FORMS if it.treatment in ("accepted", "warned") and tools[0] in it.tools and it.name != ".end"
    ]
    assert len(forms) > 80
    examples = "\n.text\n.p2align 2\n".join(["nop", *(form.source for form in forms)])
    assert_equal_bytes(session, examples + END_OF_SECTIONS, tools)


@needs_tools
def test_calls_equal_relaxed_jumps(session: Session) -> None:
    """A call is one jump, as GNU's linker makes it of two instructions."""
    text = "first: call last\ntail first\ncall t0, last\njump first, t1\nlast: nop" + END_OF_SECTIONS
    assert_equal_bytes(session, text, "gnu relaxed")


@needs_tools
@pytest.mark.parametrize("tools", ["gnu", "clang"])
def test_drawn_sources_equal_stock_tools(session: Session, tools: str) -> None:
    """100 sources, in batches; `lab/tools/compare_assemblers.py` compares more of them."""
    for batch in (range(50), range(50, 100)):
        assert_equal_bytes(
            session, "\n".join(drawn_source(each, f"s{each}_") for each in batch) + END_OF_SECTIONS, tools
        )


def compiled_source(name: str) -> str:
    """The source in assembler of gcc 12, as it was stored, or of clang for a kernel."""
    if name.endswith(".s"):
        return (DATA / "compiled" / name).read_text("utf-8")
    headers = f"-I{next((TOP / 'lab' / 'vecmon_lab').rglob('vecmon.h')).parent}"
    command = ["clang-19", *ALLOWED, headers, "-O2", f"{EXAMPLES / 'kernels' / name}"]
    return subprocess.run(command, check=True, capture_output=True, text=True).stdout


@needs_tools
@pytest.mark.parametrize("name", ["saxpy.c", "gcc_switch.s"])
def test_compiler_output_assembles_unchanged(session: Session, name: str) -> None:
    """GNU as doesn't take clang's `.addrsig`, so it gets the source without it. Functions elsewhere are labels at the end."""
    text = compiled_source(name)
    called = {*re.findall(r"\t(?:call|tail)\t(\w+)", text)} - {*re.findall(r"^(\w+):", text, re.MULTILINE)}
    text += "\n.text\n" + "".join(f"{each}: ret\n" for each in sorted(called)) + END_OF_SECTIONS
    own = read_source(text)
    assert not own.mistakes and len(own.statements) > 20
    stock = stock_bytes(re.sub(r".*\.addrsig.*\n", "", text), "gnu relaxed")
    assert isinstance(stock, bytes), stock
    assert stock and differences(machine_bytes(session, own), stock) == []

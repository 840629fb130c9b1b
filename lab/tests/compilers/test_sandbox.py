"""Hostile sources in the sandbox: attempts to read files, fill disks and keep it busy; and crafted images."""

import json
import os
import pathlib
import resource
import shutil
import struct
from collections.abc import Callable, Sequence
from typing import Any

import pytest

from support.skips import NO_SANDBOX, leave_out
from vecmon_lab import LabError
from vecmon_lab.compilers import sandbox
from vecmon_lab.compilers.compiler import Compiler, choice_of
from vecmon_lab.compilers.debug import image_of
from vecmon_lab.compilers.failures import ToolError
from vecmon_lab.compilers.sandbox import run_sandboxed, check_sandbox
from vecmon_lab.compilers.sandbox_main import CPU_SECONDS

MAIN = "int main(void) { return 0; }\n"
SECRET = "root:"  # as a file of the system begins that isn't a program's


Ask = Callable[..., dict[str, Any]]
FORKS = """
import os, time
from vecmon_lab.compilers import sandbox_main

def fork(command, own):
    made = 0
    try:
        while made < 500:
            if os.fork() == 0:
                time.sleep(60)
            made += 1
    except OSError:
        pass
    return [sandbox_main.Diagnostic(made, 0, True, "processes")]

sandbox_main.compile_source = fork
sandbox_main.main()
"""


def used_seconds() -> float:
    """The processor time that ended children of this process have used, with that of their own."""
    usage = resource.getrusage(resource.RUSAGE_CHILDREN)
    return usage.ru_utime + usage.ru_stime


@pytest.fixture
def answer(clang: Compiler) -> Ask:
    """Requests to compile a text in the sandbox, with the options of this name."""
    if shutil.which("bwrap") is None:
        leave_out(NO_SANDBOX)

    def ask(text: str, options: str = "O2") -> dict[str, Any]:
        reply: dict[str, Any] = json.loads(run_sandboxed([clang.name, f"{choice_of(options)}"], text))
        return reply

    return ask


def test_sandbox_compiles_program(answer: Ask) -> None:
    reply = answer(MAIN)
    assert reply["messages"] == [] and reply["image"]


@pytest.mark.parametrize(
    "line",
    [
        "#include </etc/passwd>",
        '#include "/etc/passwd"',
        '__asm__(".incbin \\"/etc/passwd\\"");',
        '__asm__(".include \\"/etc/passwd\\"");',
        "const char text[] = {\n#embed </etc/passwd>\n};",
        '__asm__(".incbin \\"/proc/self/environ\\"");',
        f'#include "{pathlib.Path(__file__).resolve()}"',
    ],
)
def test_system_files_are_hidden(answer: Ask, line: str) -> None:
    reply = answer(f"{line}\n{MAIN}")
    text = json.dumps(reply)
    assert reply["image"] is None and reply["messages"]
    assert SECRET not in text and SECRET.encode().hex() not in text and os.sep + "etc" not in text


@pytest.mark.parametrize("line", ['.incbin "/etc/passwd"', '.include "/etc/passwd"', '.incbin "/proc/self/environ"'])
def test_stock_assembler_reads_no_files(answer: Ask, line: str) -> None:
    reply = answer(f"_start: nop\n {line}\n", "stock")
    assert reply["image"] is None and [message[0] for message in reply["messages"]] == [2]
    assert SECRET not in json.dumps(reply) and SECRET.encode().hex() not in json.dumps(reply)
    assert answer("_start: nop\n", "stock")["image"]


@pytest.mark.parametrize("text", [".rept 100000000\n.dword 1\n.endr\n", '.incbin "/dev/zero"\n', ".fill 1 << 40\n"])
def test_stock_assembler_is_limited(answer: Ask, text: str) -> None:
    started = used_seconds()
    try:
        reply = answer(text, "stock")
        assert reply["image"] is None and reply["messages"]
    except LabError as error:
        assert "was stopped" in str(error)
    assert (
        used_seconds() - started < 2 * CPU_SECONDS + 5
    )  # of the compiler, of the process around it, and of their starts


def test_fork_bomb_ends(answer: Ask, monkeypatch: pytest.MonkeyPatch) -> None:
    """Of 500 that are begun few are: root's count too, which otherwise nothing bounds."""
    monkeypatch.setattr(sandbox, "MODULE", ("-c", FORKS))
    [(made, *_)] = answer(MAIN)["messages"]
    assert 4 < made < sandbox.PROCESSES == 32
    monkeypatch.undo()
    assert answer(MAIN)["image"], "and they end with what began them"


@pytest.mark.parametrize(
    "text, sentence",
    [
        ("char bytes[100 << 20] = {1};\n" + MAIN, "it wrote a file of more than 32 MB"),
        ("#include __FILE__\n#include __FILE__\n#warning again\n" + MAIN, "it printed more than 64 KB of messages"),
        ('__asm__(".rept 100000000\\n.dword 1\\n.endr");\n' + MAIN, "it took more than 512 MB of memory"),
        ('__asm__(".incbin \\"/dev/zero\\"");\n' + MAIN, "Could not find incbin file"),
        ("(" * 65_000, "bracket nesting level exceeded"),
        ("{" * 65_000, "expected identifier"),
        ("int main(void) { return " + "-" * 60_000 + "1; }", "the compiler crashed (Segmentation fault)"),
    ],
    ids=[
        "a large array",
        "errors without end",
        "words without end",
        "bytes without end",
        "brackets",
        "braces",
        "signs",
    ],
)
def test_compiler_resources_are_limited(answer: Ask, text: str, sentence: str) -> None:
    started = used_seconds()
    try:
        reply = answer(text)
        assert reply["image"] is None and sentence in reply["messages"][0][3]
    except ToolError as error:
        assert "by the clock" in str(error)
    assert (
        used_seconds() - started < 2 * CPU_SECONDS + 5
    )  # of the compiler, of the process around it, and of their starts


def test_endless_macro_ends(answer: Ask) -> None:
    doubled = "".join(f"#define A{i + 1} A{i} A{i} A{i} A{i}\n" for i in range(30))
    started = used_seconds()
    try:
        reply = answer(f"#define A0 x\n{doubled}int y = A30;\n{MAIN}")
        assert reply["image"] is None and reply["messages"]
    except LabError as error:
        assert "was stopped" in str(error)
    assert (
        used_seconds() - started < 2 * CPU_SECONDS + 5
    )  # of the compiler, of the process around it, and of their starts


def test_named_library_is_not_linked(answer: Ask) -> None:
    reply = answer(f'#pragma comment(lib, "/etc/passwd")\n#pragma comment(lib, "c")\n{MAIN}')
    assert SECRET not in json.dumps(reply)


def test_long_name_is_truncated(answer: Ask) -> None:
    name = "f" * 60_000
    reply = answer(f"int {name}(void) {{ return 1; }}\nint main(void) {{ return {name}(); }}\n")
    assert max(map(len, reply["image"]["symbols"])) <= 100


def test_crafted_debug_data_is_ignored(answer: Ask) -> None:
    sections = [".debug_line", ".debug_info", ".debug_abbrev", ".debug_ranges", ".debug_str", ".debug_loc"]
    junk = "".join(f'__asm__(".section {each}\\n.fill 2000, 4, 0xffffff7f\\n.text");\n' for each in sections)
    reply = answer(junk + MAIN)
    assert reply["messages"] or reply["image"]


def number(value: int) -> bytes:
    """A number as ULEB128."""
    return bytes([value & 0x7F | 0x80]) + number(value >> 7) if value > 0x7F else bytes([value])


def crafted(variables: Sequence[tuple[str, bytes]], type_at: int = 21) -> str:
    """A source whose debug data has, next to its own, variables with these expressions, and a pointer to itself.

    type_at: where in it the variables have their type
    """
    unit = b"\1source.c\0" + b"\3" + struct.pack("<I", 21)
    for name, expression in variables:
        place = number(len(expression)) + expression
        unit += b"\2" + name.encode("ascii") + b"\0" + struct.pack("<I", type_at) + place
    abbreviations = "1,17,1,3,8,0,0, 2,52,0,3,8,73,19,2,24,0,0, 3,15,0,73,19,0,0, 0"
    head, data = f".4byte {len(unit) + 8}\\n.2byte 4\\n.4byte kinds\\n.byte 8", ",".join(map(str, unit + b"\0"))
    lines = [f".section .debug_abbrev\\nkinds: .byte {abbreviations}", f".section .debug_info\\n{head}\\n.byte {data}"]
    return "".join(f'__asm__("{line}\\n.text");\n' for line in lines) + MAIN


def nested(depth: int) -> bytes:
    """An expression in an expression, and so on (DW_OP_entry_value)."""
    expression = b"\x50"
    for _ in range(depth):
        expression = b"\xa3" + number(len(expression)) + expression
    return expression


def test_crafted_variables_are_bounded(answer: Ask) -> None:
    hostile = [
        b"\xff\xff",
        b"\x96" * 40,
        b"\x22",
        b"\3\0\0",
        b"\x93\4",
        nested(12),
        nested(3000),
        b"\x31" * 5000,
        b"\x92\0\0",
        b"",
    ]
    reply = answer(
        crafted([("fine", b"\3" + bytes([0, 1]) + bytes(6)), *((f"v{at}", each) for at, each in enumerate(hostile))])
    )
    (_, *fine), *others = reply["image"]["variables"]
    assert fine == ["fine", "", [], "", [], [[0, 1 << 48, "memory", 0, "100"]], ""]
    assert [each[6][0][2] for each in others] == ["untold"] * len(hostile)


def test_excess_variables_are_omitted(answer: Ask) -> None:
    reply = answer(crafted([("x" * 200, b"\x50")] * 1000, type_at=1 << 31))
    assert len(reply["image"]["variables"]) <= 300


def elf(headers: list[bytes]) -> bytes:
    """An image with only these program headers."""
    head = (
        b"\x7fELF\2\1\1"
        + bytes(9)
        + struct.pack("<HHIQQQIHHHHHH", 2, 243, 1, 0, 64, 0, 0, 64, 56, len(headers), 64, 0, 0)
    )
    return head + b"".join(headers)


def test_excess_headers_are_refused(tmp_path: pathlib.Path) -> None:
    path = tmp_path / "image"
    path.write_bytes(elf([struct.pack("<IIQQQQQQ", 1, 4, 0, 0, 0, 1, 1, 1)] * 10_000))
    with pytest.raises(ValueError, match="more than 64 segments"):
        image_of(path)


def test_oversized_segments_are_refused(tmp_path: pathlib.Path) -> None:
    path = tmp_path / "image"
    for size, memory in ((1, 1 << 60), (1 << 60, 1)):
        path.write_bytes(elf([struct.pack("<IIQQQQQQ", 1, 4, 0, 0, 0, size, memory, 1)]))
        with pytest.raises(ValueError, match="more than"):
            image_of(path)


def test_sandbox_refuses_root(monkeypatch: pytest.MonkeyPatch) -> None:
    monkeypatch.setattr(shutil, "which", lambda name: f"/usr/bin/{name}")
    monkeypatch.setattr(os, "geteuid", lambda: 0)
    with pytest.raises(LabError, match="as root"):
        check_sandbox()
    monkeypatch.setattr(shutil, "which", lambda name: None)
    with pytest.raises(
        LabError, match="only in the sandbox of bwrap, which isn't installed: sudo apt install bubblewrap"
    ):
        check_sandbox()

"""Sources in C in a class: written, compiled in a sandbox, kept, given; and what hostile ones come to."""

import asyncio
import io
import pathlib
import shutil
import struct
import zipfile

import pytest

from support.class_tabs import Tab, served
from support.skips import NO_SANDBOX, leave_out
from support.places import DATA, EXAMPLES
from vecmon_lab import LabError
from vecmon_lab.classes.server.builds import Builds
from vecmon_lab.compilers.sandbox import sandboxed_compiler
from vecmon_lab.classes.core.languages import LANGUAGES
from vecmon_lab.classes.core.shared_machine import SEAT_BYTES
from vecmon_lab.compilers import sandbox
from vecmon_lab.compilers.compiled import read_compiled_program
from vecmon_lab.compilers.compiler import Compiler

pytestmark = pytest.mark.asyncio
[C] = [number for number, language in enumerate(LANGUAGES) if language.name == "C, O2"]
[STOCK] = [number for number, language in enumerate(LANGUAGES) if language.name == "assembler, stock"]
PLAIN_SUM = (EXAMPLES / "kernels" / "plain_sum.c").read_text("ascii")
EMPTY = "int main(void)\n{\n    return 0;\n}\n"
ENDLESS = "#if __INCLUDE_LEVEL__ < 100\n#include __FILE__\n#include __FILE__\n#endif\n"


@pytest.fixture
def builds(clang: Compiler) -> Builds:
    """The compiler in the sandbox, as in a class that root doesn't serve."""
    if shutil.which("bwrap") is None:
        leave_out(NO_SANDBOX)
    return Builds(clang)


async def run(tab: Tab) -> tuple[str, str]:
    """Run a seat's program to its end; return the last stop, and the output in hexadecimal digits."""
    await tab.do("go")
    while tab.view["state"]["run"] == "running":
        if "error" in await tab.ask("lines", do=[], slices=100):
            await asyncio.sleep(0.2)  # slices wait where a checkpoint is behind
    return tab.view["stop"], "".join(tab.view["state"].get("outputs", {}).values())


async def test_c_source_builds_and_class_restores_it_without_compiler(tmp_path: pathlib.Path, builds: Builds) -> None:
    """The listing has its lines; the script has it whole, and a class restores it without a compiler."""
    async with served(tmp_path / "class", builds=builds) as room:
        tab, teacher = await room.sit("A3"), await room.sit("teacher")
        assert tab.view["languages"] == [each.name for each in LANGUAGES] and not tab.view["no_c"]
        reply = await tab.ask("source", text=PLAIN_SUM, language=C)
        lines = [number for number, line in enumerate(PLAIN_SUM.split("\n"), 1) if line.startswith("//>")]
        assert (reply["mistakes"], [each["line"] for each in reply["warnings"]]) == ([], lines) and len(lines) == 3
        assert reply["warnings"][0]["message"].startswith("//> lines are for lessons")
        state = tab.view["state"]
        assert any("total += from[i];" in line for line in state["lines"].values())
        assert any("vredsum" in text for text in state["code"].values()), "all of it is listed"
        [numbers] = [address for address, names in state["labels"].items() if "numbers" in names]
        assert f"{int(numbers, 16) // 16 * 16:x}" in state["memory"], "variables are shown"
        assert "10000" not in state["memory"], "and what else the image has isn't"
        assert [state["pc"]] == [address for address, names in state["labels"].items() if "_start" in names]
        stop, output = await run(tab)
        assert stop.startswith("exit 0") and output == struct.pack("<I", sum(i * i for i in range(100))).hex()
        assert (await room.sit("A3")).view["source"]["language"] == C
        await teacher.ask("shoulder", seat="A3")
        assert (teacher.view["source"]["text"], teacher.view["source"]["language"]) == (PLAIN_SUM, C)
        await teacher.ask("give", seat="A4", text=PLAIN_SUM, language=C)
        given = (await room.sit("A4")).view["source"]
        assert (given["language"], given["versions"][-1]["language"]) == (C, C)
        await tab.ask("source", text="nop\n", language=0)
        assert (await tab.ask("version", number=1))["language"] == C
        await tab.ask("source", text=PLAIN_SUM, language=C)
        await room.check_replay()
    assert not (tmp_path / "class" / "A3.s").exists() and (tmp_path / "class" / "A3.O2.c").read_text() == PLAIN_SUM
    async with served(tmp_path / "class") as room:
        tab = await room.sit("A3")
        assert (tab.view["source"]["text"], tab.view["source"]["language"]) == (PLAIN_SUM, C)
        assert [each["language"] for each in tab.view["source"]["versions"]] == [C, 0, C]
        assert tab.view["state"]["lines"] == state["lines"]
        assert "error" not in await tab.ask("again") and (await run(tab))[1] == output
        (status, data) = await room.get("A3/home")
        home = zipfile.ZipFile(io.BytesIO(data))
        assert status == 200 and home.read("A3/A3.O2.c").decode() == PLAIN_SUM
        assert "total += from[i];" in home.read("A3/A3.html").decode()
        assert "takes no C" in (await tab.ask("source", text=EMPTY, language=C))["error"]


MACRO = "        .macro twice of\n        add \\of, \\of, \\of\n        .endm\n        li a0, 3\n        twice a0\n        ebreak\n"
MACRO += "        .insn r 0x33, 0, 0, t6, zero, zero\n"  # which the lab's assembler doesn't take


async def test_stock_assembler_source_builds(tmp_path: pathlib.Path, builds: Builds) -> None:
    """It takes what the lab's own doesn't, which is the first choice all the same, and reads no files."""
    async with served(tmp_path / "class", builds=builds) as room:
        tab = await room.sit("A1")
        assert LANGUAGES[0].choice is None and (await tab.ask("source", text=MACRO))["mistakes"]
        assert (await tab.ask("source", text=MACRO, language=STOCK))["mistakes"] == []
        assert sorted(tab.view["state"]["starts"].values()) == [0, 4, 5, 6]
        await tab.ask("step", by="line")
        await tab.ask("step", by="line")
        assert tab.view["state"]["x"]["10"] == "6"
        reply = await tab.ask("source", text='nop\n.incbin "/etc/passwd"\n', language=STOCK)
        assert [each["line"] for each in reply["mistakes"]] == [2] and "/etc" not in str(reply["mistakes"])
        script, _ = await room.check_replay()
        assert b"root:".hex().encode() not in script
    assert (tmp_path / "class" / "A1.written.stock.s").read_text() == MACRO
    async with served(tmp_path / "class") as room:
        tab = await room.sit("A1")
        assert "error" not in await tab.ask("again") and len(tab.view["state"]["starts"]) == 4
        assert tab.view["against"] == []
        reply = await tab.ask("listings", text=EMPTY, language=C, other=0)
        assert "options from the page's list" in reply["error"]


LOOPS = """\
#include "vecmon.h"
static long twice(long x)
{
    return 2 * x;
}
int main(void)
{
    char text[9];
    memset(text, 1, sizeof text);
    long sum = 0;
    for (long i = 0; i < 100000; i++) sum += i;
    return (int)twice(text[8]);
}
"""


async def test_line_step_stops_at_next_line(tmp_path: pathlib.Path, builds: Builds) -> None:
    """It ends where another line begins, in a function that is called too, at a breakpoint, and on a long line in time."""
    [plain] = [number for number, language in enumerate(LANGUAGES) if language.name == "C, O0"]

    async with served(tmp_path / "class", builds=builds) as room:
        tab = await room.sit("A1")
        assert "there is no program" in (await tab.ask("step", by="line"))["error"]
        await tab.ask("source", text=LOOPS, language=plain)
        starts = tab.view["state"]["starts"]

        async def step() -> int:
            assert "error" not in await tab.ask("step", by="line")
            pc = int(tab.view["state"]["pc"], 16)
            return int(starts[max((each for each in starts if int(each, 16) <= pc), key=lambda each: int(each, 16))])

        assert [await step() for _ in range(4)] == [7, 9, 10, 11], "memset has no lines of its own here"
        assert await step() == 11 and len(tab.logs["A1"]) < 1200, "100,000 rounds are too many"
        await tab.do("break " + next(address for address, number in starts.items() if number == 12))
        assert (await run(tab))[0].startswith("break") and [await step() for _ in range(3)] == [3, 4, 12]
        assert tab.view["state"]["variables"]
        while tab.view["state"]["run"] == "stopped" and not tab.view["stop"].startswith("exit"):
            await tab.ask("step", by="line")
        assert tab.view["stop"].startswith("exit 2")
        await room.check_replay()


async def test_breakpoint_covers_inlined_copies(tmp_path: pathlib.Path, builds: Builds) -> None:
    """They stop in the copy that runs; the function isn't static, so it has another one, which comes first."""
    text = (DATA / "images" / "prefix_sums.c").read_text("ascii")
    async with served(tmp_path / "class", builds=builds) as room:
        tab = await room.sit("A1")
        await tab.ask("source", text=text, language=C)
        state = tab.view["state"]
        [start] = [int(address, 16) for address, names in state["labels"].items() if "main" in names]
        first, last = state["stops"]["10"]
        assert int(first, 16) < start < int(last, 16)
        await tab.do(*(f"break {address}" for address in (first, last)))
        assert (await run(tab))[0] == f"break pc={int(last, 16):016x}"
    async with served(tmp_path / "class") as room:
        assert (await room.sit("A1")).view["state"]["stops"]["10"] == [first, last]


async def test_compiler_messages_have_lines(tmp_path: pathlib.Path, builds: Builds) -> None:
    """They have their lines; a source with mistakes begins no machine."""
    async with served(tmp_path / "class", builds=builds) as room:
        tab = await room.sit("A1")
        text = "int main(void)\n{\n    int unused;\n    return missing;\n}\n"
        reply = await tab.ask("source", text=text, language=C)
        assert [(each["line"], each["column"]) for each in reply["mistakes"]] == [(4, 12)]
        assert [(each["line"], each["column"]) for each in reply["warnings"]] == []
        assert tab.view["state"]["run"] == "absent"
        reply = await tab.ask("source", text=text.replace("missing", "0"), language=C)
        assert [each["line"] for each in reply["warnings"]] == [3] and not reply["mistakes"]
        assert tab.view["state"]["run"] == "stopped"


async def test_sandbox_hides_system_files(tmp_path: pathlib.Path, builds: Builds) -> None:
    """Neither a seat's messages nor the script have it, nor any path of the server's."""
    async with served(tmp_path / "class", builds=builds) as room:
        tab = await room.sit("A1")
        for line in ("#include </etc/passwd>", '__asm__(".incbin \\"/etc/passwd\\"");', f'#include "{__file__}"'):
            reply = await tab.ask("source", text=f"{line}\n{EMPTY}", language=C)
            assert reply["mistakes"] and "root:" not in str(reply) and "/etc" not in str(reply["mistakes"])
            assert str(pathlib.Path(__file__).parent) not in str(reply["mistakes"])
        script, _ = await room.check_replay()
        assert b"root:".hex().encode() not in script and not script


async def test_endless_compile_delays_no_other_seat(
    tmp_path: pathlib.Path, builds: Builds, monkeypatch: pytest.MonkeyPatch
) -> None:
    """Another seat's steps are answered meanwhile, and the seat's own; it has one at a time, which ends.

    The steps together take a small part of the compiler's limit of processor time, which a busy host shares among both.
    """
    limit = "sandbox_main.CPU_SECONDS, sandbox_main.LIMITS[sandbox_main.resource.RLIMIT_CPU] = 2, (2, 3)"
    start = f"from vecmon_lab.compilers import sandbox_main; {limit}; sandbox_main.main()"
    monkeypatch.setattr(sandbox, "MODULE", ("-c", start))
    async with served(tmp_path / "class", builds=builds) as room:
        hostile, second, other = await room.sit("A1"), await room.sit("A1"), await room.sit("A2")
        await other.ask("source", text="loop: addi t0, t0, 1\n j loop\n")
        endless = asyncio.create_task(hostile.ask("source", text=ENDLESS, language=C))
        while not room.members.builds._busy:  # type: ignore[union-attr]
            await asyncio.sleep(0.01)
        assert "is being compiled" in (await second.ask("source", text=EMPTY, language=C))["error"]
        assert await second.do("enter") == [["entered"]]
        steps = 0
        while not endless.done():
            await other.do("step 1")
            steps += 1
        assert steps > 20 and "was stopped" in (await endless)["mistakes"][0]["message"]
        monkeypatch.undo()
        assert "error" not in await hostile.ask("source", text=EMPTY, language=C)


async def test_oversized_program_is_refused(tmp_path: pathlib.Path, clang: Compiler, builds: Builds) -> None:
    """An image has a limit, which the teacher sets, and a seat its share; the refusal has the remaining bytes."""
    async with served(tmp_path / "class", builds=Builds(clang, limit=200)) as room:
        tab = await room.sit("A1")
        assert "200 bytes that aren't zeros are the most" in (await tab.ask("source", text=EMPTY, language=C))["error"]
        assert "65,536 bytes" in (await tab.ask("source", text="\u00e9" * 40_000, language=C))["error"]
    async with served(tmp_path / "other", builds=builds) as room:
        tab = await room.sit("A1")
        assert room.members
        room.members.seat("A1").used = SEAT_BYTES - 300
        assert "300 are left" in (await tab.ask("source", text=EMPTY, language=C))["error"]


@pytest.mark.parametrize(
    "expected",
    [
        b"",
        b"[]",
        b"{}",
        b"[" * 100_000,
        b'{"messages": [], "image": null}',
        b'{"messages": [["x", 1, true, "y"]], "image": null}',
        b'{"messages": [], "image": {"entry": 0, "segments": [[0, "rw", 1152921504606846976, ""]]}}',
        b'{"messages": [], "image": {"entry": 0, "segments": [["0", "rw", 1, "00"]], "symbols": {}, "rows": []}}',
        b'{"messages": [], "image": {"entry": 0, "segments": [[0, "rw", 1, "zz"]], "symbols": {}, "rows": []}}',
        b'{"messages": [], "image": {"entry": "0", "segments": [], "symbols": {"f": "0"}, "rows": []}}',
        b'{"messages": [], "image": {"entry": 0, "segments": [], "symbols": {}, "rows": [["0", 5, 5]]}}',
    ],
)
async def test_crafted_sandbox_reply_is_refused(expected: bytes) -> None:
    with pytest.raises(LabError):
        read_compiled_program(expected)


async def test_c_is_unavailable_as_root(clang: Compiler, monkeypatch: pytest.MonkeyPatch) -> None:
    monkeypatch.setattr(shutil, "which", lambda name, path=None: f"/usr/bin/{name}")
    monkeypatch.setattr("os.geteuid", lambda: 0)
    with pytest.raises(LabError, match="as root"):
        sandboxed_compiler(clang.name)

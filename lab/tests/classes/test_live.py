"""Pages show the output and the state of running programs without a request."""

import asyncio
import pathlib

import pytest

from support.class_tabs import LOOP, Message, Served, Tab, served
from vecmon_lab.classes.server import room as class_room
from vecmon_lab.classes.core.live import is_servers, server_line

pytestmark = pytest.mark.asyncio

HELLO = """
        la a1, text
        li a2, 6
        li a0, 1
        li a7, 64
        ecall
        li s0, 7
        ebreak
        .data
text:   .ascii "hello\\n"
"""
# Writes eight bytes s0 times, counts in s1, and waits for another time in each turn.
WRITES = """
        li s0, {times}
next:   addi s1, s1, 1
        andi t0, s1, 31
wait:   addi t0, t0, -1
        bgtz t0, wait
        la a1, text
        li a2, 8
        li a0, 1
        li a7, 64
        ecall
        bne s0, s1, next
        ebreak
        .data
text:   .ascii "1234567\\n"
"""


def output(view: Message) -> bytes:
    """The output on the page."""
    blocks: dict[str, str] = view["state"].get("outputs", {})
    return bytes.fromhex("".join(blocks[number] for number in sorted(blocks, key=int)))


async def written(room: Served, source: str) -> Tab:
    """A tab whose machine has this program."""
    tab = await room.sit("A1")
    assert (await tab.ask("source", text=source))["mistakes"] == []
    return tab


async def test_output_is_sent_at_stops(tmp_path: pathlib.Path, monkeypatch: pytest.MonkeyPatch) -> None:
    monkeypatch.setattr(class_room, "WATCH_SECONDS", 1e9)  # so that the script has no looks of the server's
    async with served(tmp_path / "class") as room:
        tab, teacher = await written(room, HELLO), await room.sit("teacher")
        used = tab.view["share"]["used"]
        await tab.do("go", slices=9)
        assert tab.view["state"]["run"] == "stopped" and output(tab.view) == b"hello\n"
        assert tab.logs["A1"][-1] == "=1 out 6"
        assert tab.view["share"]["used"] == used + len("1 go\n* run 1\n")
        assert (await tab.do("out")) == [["out 0"]]  # the server has taken it
        await tab.do("setpc 10000")
        for _ in range(6):
            await tab.do("step 1")
        assert output(tab.view) == b"hello\nhello\n"  # at once after the step of an ecall
        await tab.do("setpc 10000", "step 8")
        assert output(tab.view) == 3 * b"hello\n"
        script = (await room.check_replay())[0].decode().splitlines()
        assert [line for line in script if "out" in line] == ["1 out ", "1 out", "1 out ", "1 out "]
        await teacher.ask("shoulder", seat="A1")
        assert output(teacher.view) == 3 * b"hello\n"
        view = tab.view
        await tab.socket.close()
    async with served(tmp_path / "class") as room:
        again = await room.sit("A1")
        assert again.view["state"]["outputs"] == view["state"]["outputs"] and again.view["share"] == view["share"]
        assert again.logs["A1"][-9:] == tab.logs["A1"][-9:]
        await again.do("leave")
        assert output(again.view) == b""


async def test_output_beyond_buffer_and_page_is_truncated(tmp_path: pathlib.Path) -> None:
    async with served(tmp_path / "class") as room:
        tab, teacher = await written(room, WRITES.format(times=9_000)), await room.sit("teacher")
        await teacher.ask("clock", machine="A", on=True, slices=1000, ms=10)
        await tab.do("go")
        await tab.until(lambda view: view["state"]["run"] == "stopped" and view["stop"].startswith("ebreak"))
        assert output(tab.view)[-64_000:] == 8_000 * b"1234567\n"
        assert 64_000 < len(output(tab.view)) <= 65_536
        assert tab.logs["A1"].count("=1 out 1024") == sum("outfull" in entry for entry in tab.logs["A1"]) == 1
        assert ">1 go" in tab.logs["A1"]  # which 70 full buffers would push out of a long day's log
        transcript = (await room.check_replay())[1].decode()
        expected = [line.split()[3:] for line in transcript.splitlines() if line.startswith("1 out ")]
        assert b"".join(bytes.fromhex("".join(digits)) for digits in expected) == 9_000 * b"1234567\n"


async def test_running_program_is_shown(tmp_path: pathlib.Path, monkeypatch: pytest.MonkeyPatch) -> None:
    monkeypatch.setattr(class_room, "WATCH_SECONDS", 0.05)
    async with served(tmp_path / "class") as room:
        tab, teacher = await room.sit("A1"), await room.sit("teacher")
        other = await room.sit("A2")
        for each in (tab, other):
            await each.do(*LOOP, "go")
        used = tab.view["share"]["used"]
        await other.socket.close()
        await teacher.ask("clock", machine="A", on=True, slices=10, ms=10)
        seen = set[str]()

        def has_run(view: Message) -> bool:
            assert view["state"]["run"] == "running"
            seen.add(view["state"].get("x", {}).get("5", ""))
            return len(seen) > 5

        await tab.until(has_run)
        await teacher.ask("clock", machine="A", on=False)
        assert room.members
        own = room.members.room("A")
        while own.machine.has_run or own.is_busy():  # until the last slices are shown
            await asyncio.sleep(0.02)
        script = (await room.check_replay())[0].decode().splitlines()
        assert {"1 stop ", "1 out ", "1 go "} <= set(script) and "2 stop " not in script  # nobody looks at seat 2
        assert tab.view["share"]["used"] == used
        assert not [entry for entry in tab.logs["A1"] if "stop" in entry]
        lines = len(script)
        await asyncio.sleep(0.2)  # nothing runs without slices, so nobody looks
        assert len((await room.check_replay())[0].splitlines()) == lines


async def test_breakpoint_always_stops(tmp_path: pathlib.Path, monkeypatch: pytest.MonkeyPatch) -> None:
    monkeypatch.setattr(class_room, "WATCH_SECONDS", 0.01)
    async with served(tmp_path / "class", quantum=1) as room:  # so that slices end at the breakpoint, too
        tab, teacher = await written(room, WRITES.format(times=200)), await room.sit("teacher")
        labels = tab.view["state"]["labels"]
        (place,) = [address for address, names in labels.items() if names == ["next"]]
        await tab.do(f"break {place}")
        await teacher.ask("clock", machine="A", on=True, slices=9, ms=10)
        for count in range(40):
            await tab.do("go")
            await tab.until(lambda view: view["state"]["run"] == "stopped")
            assert (tab.view["state"]["pc"], tab.view["state"]["x"]["9"]) == (place, f"{count:x}")
            assert output(tab.view) == count * b"1234567\n"
        script = (await room.check_replay())[0].decode()
        assert script.count("1 stop \n") > 40


@pytest.mark.parametrize("line", ["out ", "stop ", "go "])
async def test_requests_with_server_lines_are_refused(tmp_path: pathlib.Path, line: str) -> None:
    async with served(tmp_path / "class") as room:
        tab = await room.sit("A1")
        assert "is the server's own line" in (await tab.ask("lines", do=["enter", line]))["error"]
        assert (await room.check_replay())[0] == b""


async def test_server_line_has_trailing_space() -> None:
    for command in ("out", "stop", "go"):
        assert server_line("3", command) == f"3 {command} "
        assert is_servers(f"3 {command} ")
        assert not any(map(is_servers, (f"3 {command}", f"3 {command}  ", f"3  {command}", f"* {command} ")))


SORT = """
# Sorts 300 numbers, the largest first at the beginning, by bubbles.
        la s0, numbers
        li s1, 300
        mv t0, s0
        mv t1, s1
fill:   sw t1, 0(t0)
        addi t0, t0, 4
        addi t1, t1, -1
        bnez t1, fill
outer:  addi s1, s1, -1
        beqz s1, done
        mv t0, s0
        mv t1, s1
inner:  lw t2, 0(t0)
        lw t3, 4(t0)
        ble t2, t3, next
        sw t3, 0(t0)
        sw t2, 4(t0)
next:   addi t0, t0, 4
        addi t1, t1, -1
        bnez t1, inner
        j outer
done:   ebreak
        .data
numbers: .zero 1200
"""


async def test_class_starts_with_clock(tmp_path: pathlib.Path) -> None:
    async with served(tmp_path / "class", clock=True) as room:
        tabs = [await room.sit(f"A{digit}") for digit in "12345678"]
        for tab in tabs:
            assert (await tab.ask("source", text=SORT))["mistakes"] == [] and tab.view["clock"]
        await asyncio.gather(*(tab.do("go") for tab in tabs))
        for tab in tabs:
            await tab.until(lambda view: view["state"]["run"] == "stopped" and view["stop"].startswith("ebreak"))
            reply = await tab.ask("lines", look=["peek 11000 8", "peek 114a8 8"])
            assert [answer[0].split()[2] for answer in reply["look"]] == ["0100000002000000", "2b0100002c010000"]
        assert (await room.check_replay())[0].count(b"* slices 1000\n") < 60  # 100,000 ticks each


async def test_go_waits_while_clock_is_off(tmp_path: pathlib.Path) -> None:
    async with served(tmp_path / "class") as room:
        tab, teacher = await room.sit("A1"), await room.sit("teacher")
        await tab.do(*LOOP, "go")
        await tab.do("stop")
        expected = "!The clock is off, so the program waits: the teacher can turn it on"
        assert f"{expected}, or press Go on a little." in tab.logs["A1"]
        await teacher.ask("rights", machine="A", own_slices=False)
        await tab.do("go")
        await tab.do("stop")
        assert f"{expected}." in tab.logs["A1"]
        await teacher.ask("clock", machine="A", on=True)
        before = len(tab.logs["A1"])
        await tab.do("go")
        await tab.do("stop")
        assert not [entry for entry in tab.logs["A1"][before:] if entry[0] == "!"]


async def test_long_running_program_is_stopped(tmp_path: pathlib.Path, monkeypatch: pytest.MonkeyPatch) -> None:
    monkeypatch.setattr(class_room, "WATCH_SECONDS", 0.02)
    async with served(tmp_path / "class") as room:
        tab, other, teacher = await room.sit("A1"), await room.sit("A2"), await room.sit("teacher")
        assert "limit of the clock is" in (await teacher.ask("clock", machine="A", limit=5))["error"]
        await teacher.ask("clock", machine="A", on=True, slices=100, ms=10, limit=200_000)
        await other.do(*LOOP)
        await tab.do(*LOOP)
        for count in (1, 2):
            await tab.do("go")
            await tab.until(lambda view: view["state"]["run"] == "stopped")
            expected = (
                "!The server stopped the program, since it ran for 200,000 ticks without a stop. go lets it run on."
            )
            while tab.logs["A1"].count(expected) < count:
                await tab.receive()
            assert int(tab.view["state"]["x"]["5"], 16) >= count * 100_000  # two instructions each
        assert int(tab.view["state"]["x"]["5"], 16) < 400_000
        await room.check_replay()


async def test_unwatched_program_is_stopped(tmp_path: pathlib.Path, monkeypatch: pytest.MonkeyPatch) -> None:
    monkeypatch.setattr(class_room, "WATCH_SECONDS", 0.02)
    monkeypatch.setattr(class_room, "UNSEEN_SECONDS", 0.3)
    async with served(tmp_path / "class") as room:
        tab, other, teacher = await room.sit("A1"), await room.sit("A2"), await room.sit("teacher")
        for each in (tab, other):
            await each.do(*LOOP, "go")
        await tab.socket.close()
        await teacher.ask("clock", machine="A", on=True, slices=1, ms=10)
        await teacher.until(lambda view: view["machines"]["A"]["seats"]["1"]["run"] == "stopped")
        assert teacher.view["machines"]["A"]["seats"]["2"]["run"] == "running"
        expected = "!The server stopped the program, since nobody looked at it for 0.3 s. go lets it run on."
        again = await room.sit("A1")
        while expected not in again.logs["A1"]:
            await again.receive()
        await other.do("stop")
        await room.check_replay()

"""Failures of a class: programs that end or hang, servers that are killed, a full disk, floods."""

import asyncio
import gc
import json
import os
import pathlib
import re
import resource
import shutil
import signal
import socket
import subprocess
import sys
import threading
from typing import Any

import pytest

from support.class_tabs import LOOP, SECONDS, command, process, served
from support.places import TOP
from support.terminal import INTERRUPT, Terminal
from vecmon_lab.classes.core.languages import SourceText
from vecmon_lab.classes.core.requests import LinesRequest
from vecmon_lab.classes.server.machine_thread import Stopped
from vecmon_lab.classes.server.store import Store
from vecmon_lab.classes.server.served_class import Class
from vecmon_lab.machine import session as machine
from vecmon_lab.machine.program import find_program

pytestmark = pytest.mark.asyncio


async def test_killed_or_hanging_program_is_replaced(tmp_path: pathlib.Path) -> None:
    async with process(tmp_path / "class", "--patience", "3") as room:
        tab, other, teacher = await room.sit("A1"), await room.sit("A2"), await room.sit("teacher")
        await tab.do(*LOOP, "step 7")
        await other.do(*LOOP)
        for count, sign in enumerate((signal.SIGKILL, signal.SIGTERM, signal.SIGSTOP), 1):
            os.kill(room.machine(), sign)
            waiting = asyncio.create_task(tab.do("step 2"))
            await teacher.ask("rights", machine="A", own_slices=True)  # which never waits for the machine
            assert await waiting == [["stepped 2 pc=0000000000010004"]]
            await teacher.until(lambda view: view["machines"]["A"]["restarts"] >= count)  # a slow one is replaced, too
        assert "says nothing for 3 s" in teacher.view["machines"]["A"]["loss"]
        assert await other.do("step 1") == [["stepped 1 pc=0000000000010004"]]
        await room.check_replay()
        assert await room.end() == 0


async def test_pages_show_machine_rebuild(tmp_path: pathlib.Path) -> None:
    async with process(tmp_path / "class", makes_checkpoints=False) as room:
        tab, other, teacher = await room.sit("A1"), await room.sit("A2"), await room.sit("teacher")
        await tab.do(*LOOP, "go")
        await teacher.do(*["slices 1000"] * 250, machine="A")  # which takes a while each time
        os.kill(room.machine(), signal.SIGKILL)
        waiting = asyncio.create_task(tab.do("stop"))
        sentence = re.compile(r"machine A is being rebuilt: \d?\d %")
        await other.until(lambda view: sentence.fullmatch(view["trouble"]) and not view["ready"])
        await teacher.until(lambda view: sentence.fullmatch(view["machines"]["A"]["trouble"]))
        await teacher.until(lambda view: view["machines"]["A"]["loss"] == "the program ended by SIGKILL")
        assert [answer[:7] for (answer,) in await waiting] == ["stopped"]
        await other.until(lambda view: not view["trouble"] and view["ready"])
        await teacher.until(lambda view: not view["machines"]["A"]["trouble"])
        await room.check_replay()
        assert await room.end(signal.SIGKILL) == -signal.SIGKILL
    with Terminal(command(tmp_path / "class"), {"PYTHONPATH": str(TOP / "lab")}) as terminal:
        output = terminal.expect("teacher: http")
        assert sentence.findall(output)[0] == "machine A is being rebuilt: 0 %"
        assert output.endswith("machine A is being rebuilt: 100 %\nteacher: http")
        terminal.type(INTERRUPT)
        assert terminal.end()[0] == 0


def _heed_hangup() -> None:
    """SIGHUP ends a process, even if these tests run under nohup."""
    signal.signal(signal.SIGHUP, signal.SIG_DFL)


@pytest.mark.parametrize("sign", [signal.SIGINT, signal.SIGTERM, signal.SIGHUP])
async def test_signalled_server_ends_cleanly(tmp_path: pathlib.Path, sign: signal.Signals) -> None:
    async with process(tmp_path / "class", "--patience", "1000", preexec_fn=_heed_hangup) as room:
        tab, unresponsive = await room.sit("A1"), await room.sit("teacher")
        await tab.do(*LOOP)
        child = room.machine()
        os.kill(child, signal.SIGSTOP)
        await tab.socket.send_json({"id": 9, "ask": "lines", "do": ["step 1"]})  # which waits for the machine
        for _ in range(3):
            await unresponsive.ask("rights", machine="A", own_slices=True)  # which doesn't wait for the machine
        assert await room.end(sign) == 0
        with pytest.raises(EOFError, match="1001"):
            await unresponsive.until(lambda view: False)
        with pytest.raises(ProcessLookupError):
            os.kill(child, 0)
        script = (tmp_path / "class" / "A.script").read_text()
        assert script.splitlines() == [f"1 {line}" for line in LOOP]


async def test_replaced_program_file_is_reported(tmp_path: pathlib.Path) -> None:
    program, old, new = (tmp_path / name for name in ("vecmon", "old", "new"))
    shutil.copy(find_program(), program)
    new.write_bytes(program.read_bytes() + b"\0")
    new.chmod(0o755)
    environment = os.environ | {"VECMON": str(program)}
    async with process(tmp_path / "class", env=environment, stderr=asyncio.subprocess.PIPE) as room:
        tab = await room.sit("A1")
        await tab.do(*LOOP, "step 7")
        assert room.server and room.server.stderr
        program.rename(old)
        new.rename(program)  # as an upgrade does it
        os.kill(room.machine(), signal.SIGKILL)
        with pytest.raises((EOFError, AssertionError)):
            await tab.do("step 1")  # no new program executes this
        assert await asyncio.wait_for(room.server.wait(), SECONDS) == 2
        errors = (await room.server.stderr.read()).decode()
    assert errors == f"vecmon-lab: the class has ended, since {program} is another program now: start the class again\n"
    assert (tmp_path / "class" / "A.script").read_text().count("step") == 1
    async with process(tmp_path / "class", env=environment | {"VECMON": str(old)}) as room:
        tab = await room.sit("A1")
        assert await tab.do("step 1") == [["stepped 1 pc=0000000000010000"]]
        assert await room.end() == 0
    async with process(tmp_path / "class", env=environment, stderr=asyncio.subprocess.PIPE) as room:
        tab = await room.sit("A1")
        assert await tab.do("step 1") == [["stepped 1 pc=0000000000010004"]]
        assert await room.end() == 0 and room.server and room.server.stderr
        note = (await room.server.stderr.read()).decode()
    news = "isn't the program that served this class before; its answers are the same"
    assert note == f"vecmon-lab: {program} {news}\n"


async def test_missing_program_file_is_reported(tmp_path: pathlib.Path) -> None:
    program = tmp_path / "vecmon"
    shutil.copy(find_program(), program)
    environment = os.environ | {"VECMON": str(program)}
    async with process(tmp_path / "class", env=environment, stderr=asyncio.subprocess.PIPE) as room:
        tab = await room.sit("A1")
        await tab.do(*LOOP, "step 7")
        program.unlink()  # as its package is removed
        assert room.server and room.server.stderr
        assert await asyncio.wait_for(room.server.wait(), SECONDS) == 2
        errors = (await room.server.stderr.read()).decode()
    assert errors == f"vecmon-lab: the class has ended, since {program} isn't there any more\n"
    assert (tmp_path / "class" / "A.script").read_text().count("step") == 1


async def test_killed_server_restarts_with_same_state(tmp_path: pathlib.Path) -> None:
    folder = tmp_path / "class"
    async with process(folder) as room:
        tab, other, teacher = await room.sit("A1"), await room.sit("A2"), await room.sit("teacher")
        await tab.do(*LOOP, "step 7")
        await other.do(*LOOP, "go")
        await tab.ask("source", text="first: j first")
        await teacher.ask("clock", machine="A", slices=3, ms=50)
        await teacher.ask("rights", machine="A", own_slices=False)
        await teacher.do("run 2", machine="A")
        codes, seats = room.codes, teacher.view["machines"]["A"]["seats"]
        notes = folder / "A.json"
        while not notes.exists() or json.loads(notes.read_text())["lines"] < teacher.view["machines"]["A"]["lines"]:
            await asyncio.sleep(0.05)
        await tab.do("step 1")  # which the digest doesn't cover yet
        await room.end(signal.SIGKILL)
    with open(folder / "A.script", "ab") as file:
        file.write(b"1 step 100")  # torn: without its newline
    async with served(folder) as room:
        assert room.codes == codes
        again, last, teacher = await room.sit("A1"), await room.sit("A2"), await room.sit("teacher")
        lines = [entry for entry in tab.logs["A1"] if entry[0] not in "+-"]  # the script has no groups
        assert again.logs["A1"] == lines and any(entry[0] == "+" for entry in tab.logs["A1"])
        assert again.view["state"]["labels"] == {"10000": ["first"]}
        stepped = {name: tab.view["state"][name] for name in ("instruction", "read", "accessed")}
        assert stepped["instruction"] == "10000" and {**again.view["state"], **stepped} == tab.view["state"]
        assert last.view["state"]["run"] == "running" and not last.view["own_slices"]
        now = teacher.view["machines"]["A"]
        assert now["clock"] == {"on": False, "slices": 3, "ms": 50, "limit": 50_000_000}
        own = {name: seats["2"][name] for name in ("tabs", "since", "active")}  # of each server
        assert now["seats"]["2"] | own == seats["2"]
        assert await again.do("step 1") == [["stepped 1 pc=0000000000010000"]]
        await room.check_replay()


async def test_changed_script_with_same_answers_is_reported(tmp_path: pathlib.Path) -> None:
    """A value of a register shows in no answer; notes of 2.0 have no digest of the lines."""
    folder = tmp_path / "class"
    async with served(folder) as room:
        await (await room.sit("A1")).do(*LOOP, "set x5 7")
    shutil.copytree(folder, tmp_path / "old")
    for place in (folder, tmp_path / "old"):
        (place / "A.script").write_bytes((place / "A.script").read_bytes().replace(b"set x5 7", b"set x5 8"))
    notes = json.loads((folder / "A.json").read_text())
    del notes["script"]
    (tmp_path / "old" / "A.json").write_text(json.dumps(notes))
    async with served(folder) as room:
        assert room.members and room.members.store.damage.sentences == [
            "A.script: its first 6 lines were changed, and are answered as before"
        ]
    async with served(folder) as room, served(tmp_path / "old") as old:
        assert room.members and room.members.store.damage.sentences == []  # the present lines count from then on
        assert old.members and old.members.store.damage.sentences == []


async def test_changed_script_answers_are_refused(tmp_path: pathlib.Path, program: pathlib.Path) -> None:
    folder = tmp_path / "class"
    async with served(folder) as room:
        await (await room.sit("A1")).do(*LOOP, "step 1")
    script = (folder / "A.script").read_bytes()
    assert script.splitlines() == [*(f"1 {line}".encode() for line in (*LOOP, "step 1")), b"1 out "]
    for changed, expected in (
        (
            script.replace(b"step 1", b"step 3"),
            "its first 7 lines are answered otherwise than before: it, or an image, was changed",
        ),
        (script[: script.rindex(b"1 step")], "it has 5 lines, and had 7: the last 2 are lost"),
        (b"", "it has 0 lines, and had 7: the last 7 are lost"),
    ):
        copy = tmp_path / str(len(changed))
        shutil.copytree(folder, copy)
        (copy / "A.script").write_bytes(changed)
        members = Class(Store(copy, program), SECONDS)
        assert (
            members.store.damage.sentences == [f"A.script: {expected}"] and members.rooms["A"].session.script == changed
        )
        assert expected in members.store.damage.summary
        members.save()
        members.end()
        members = Class(Store(copy, program), SECONDS)  # whose notes are of the script as it is now
        assert not members.store.damage.sentences
        members.end()
    (folder / "A.script").write_bytes(script + b"1 step 1\n")  # not covered by the digest
    async with served(folder) as room:
        assert (await room.sit("A1")).view["state"]["pc"] == "10000"
    for broken in (b"9 enter\n", b"1 \xff\n", b"\n"):
        (folder / "A.script").write_bytes(script + broken)
        members = Class(Store(folder, program), SECONDS)
        assert members.store.damage.sentences[0].startswith("A.script is damaged behind line 7, and A.script.damaged")
        members.end()


async def test_differing_replay_stops_class(tmp_path: pathlib.Path) -> None:
    program, word = tmp_path / "vecmon", tmp_path / "word"
    program.write_text(f"#!/bin/sh\n{find_program()} | sed -u s/00128293/$(cat {word})/\n")
    program.chmod(0o755)
    word.write_text("00128293")
    members = Class(Store(tmp_path / "class", program), SECONDS)
    room = members.rooms["A"]
    for line in LOOP:
        await room.lines(room.seats.users["1"], LinesRequest([line]), [])
    word.write_text("00128294")
    room.session.close()
    for _ in range(2):
        with pytest.raises(Stopped, match="in doubt.*line 3, '1 asm 10000 .*now with '1 0000000000010000 00128294'"):
            await room.lines(room.seats.users["1"], LinesRequest(["step 1"]), [])
    with pytest.raises(Stopped):
        await room.source(room.seats.users["1"], SourceText("nop"))
    assert "in doubt" in room.warning and room.session.lines == len(LOOP)
    members.end()
    assert (tmp_path / "class" / "A.script").read_text().count("\n") == len(LOOP)


async def test_temporarily_missing_program_is_retried(tmp_path: pathlib.Path) -> None:
    program = tmp_path / "vecmon"
    shutil.copy(find_program(), program)
    members = Class(Store(tmp_path / "class", program), SECONDS)
    room = members.rooms["A"]
    await room.lines(room.seats.users["1"], LinesRequest(LOOP), [])
    program.rename(tmp_path / "elsewhere")
    assert room.session.process
    os.kill(room.session.process, signal.SIGKILL)
    room.set_clock({"on": True})
    with pytest.raises(machine.ProgramGone):
        await room.lines(room.seats.users["1"], LinesRequest(["step 1"]), [])
    assert "is down" in room.warning
    (tmp_path / "elsewhere").rename(program)
    done: list[list[str]] = []
    await room.lines(room.seats.users["1"], LinesRequest(["step 1"]), done)
    assert done == [["stepped 1 pc=0000000000010004"]] and room.warning == ""
    members.end()
    assert (tmp_path / "class" / "A.script").read_bytes() == room.session.script


async def test_failure_of_cancelled_call_is_not_logged(tmp_path: pathlib.Path, program: pathlib.Path) -> None:
    """The server ends while the clock waits for the machine, whose call then fails: asyncio would log that with a traceback."""
    logged = list[dict[str, Any]]()
    asyncio.get_running_loop().set_exception_handler(lambda _, context: logged.append(context))
    members = Class(Store(tmp_path / "class", program), SECONDS)
    begun, ending = threading.Event(), threading.Event()

    def fail() -> None:
        begun.set()
        ending.wait(SECONDS)
        raise machine.ProgramGone("the session has ended")

    waiting = asyncio.create_task(members.rooms["A"].thread.call(fail))
    await asyncio.to_thread(begun.wait, SECONDS)
    waiting.cancel()
    for _ in range(10):  # turns of the event loop, in which the call is cancelled
        await asyncio.sleep(0)
    ending.set()
    with pytest.raises(asyncio.CancelledError):
        await waiting
    del waiting
    await asyncio.sleep(0)
    gc.collect()
    assert begun.is_set() and logged == []
    members.end()


async def test_files_at_end_are_consistent(tmp_path: pathlib.Path) -> None:
    """A server that ends while its clock grants slices keeps no number of lines with a digest of others."""
    members, notes = Class(Store(tmp_path / "class", find_program()), SECONDS), tmp_path / "class" / "A.json"
    room = members.rooms["A"]
    await room.lines(room.seats.users["1"], LinesRequest([*LOOP, "go"]), [])
    members.save()
    members.store.texts.flush()
    stored, process = notes.read_text(), room.session.process
    assert process
    os.kill(process, signal.SIGSTOP)
    clock = asyncio.create_task(room.clock.run())
    while not room.is_busy():
        await asyncio.sleep(0.01)
    clock.cancel()
    await asyncio.sleep(0.1)
    members.save()
    members.store.texts.flush()
    assert room.is_busy() and notes.read_text() == stored
    os.kill(process, signal.SIGCONT)
    with pytest.raises(asyncio.CancelledError):
        await clock
    members.save()
    members.store.texts.flush()
    reply = json.loads(notes.read_text())
    assert (reply["lines"], reply["answers"]) == (len(LOOP) + 2, room.session.digest)
    members.end()


def fill_the_disk() -> None:
    """Lets no file of this process grow beyond 2,000 bytes, as a disk does that is full."""
    resource.setrlimit(resource.RLIMIT_FSIZE, (2000, resource.RLIM_INFINITY))


async def test_full_disk_is_reported(tmp_path: pathlib.Path) -> None:
    folder = tmp_path / "class"
    async with process(folder, preexec_fn=fill_the_disk) as room:
        tab, teacher = await room.sit("A1"), await room.sit("teacher")
        await tab.do(*LOOP)
        for _ in range(30):
            await tab.do(*["step 1"] * 10)
        await teacher.until(lambda view: "isn't saved" in view["machines"]["A"]["trouble"])
        await tab.until(lambda view: "isn't saved" in view["trouble"])
        await teacher.ask("renew", seat="A2")  # codes are kept, or the teacher gets an error
        assert (folder / "A.script").stat().st_size <= 2000
        assert len((await room.check_replay(is_saved=False))[0]) > 2500
        assert room.server
        infinity = resource.RLIM_INFINITY
        resource.prlimit(room.server.pid, resource.RLIMIT_FSIZE, (infinity, infinity))  # there is room again
        await teacher.until(lambda view: not view["machines"]["A"]["trouble"])
        await tab.until(lambda view: not view["trouble"])
        await room.check_replay()
        assert await room.end() == 0


async def test_code_renewal_on_full_disk_is_refused(tmp_path: pathlib.Path) -> None:
    folder = tmp_path / "class"
    async with process(folder) as room:
        tab, teacher = await room.sit("A1"), await room.sit("teacher")
        await tab.do(*LOOP)
        assert room.server
        limit, infinity = resource.RLIMIT_FSIZE, resource.RLIM_INFINITY
        resource.prlimit(room.server.pid, limit, (100, infinity))  # a script may grow so far, and no other file
        new = (await teacher.ask("renew", seat="A2"))["codes"]["A2"]
        await teacher.until(lambda view: view["trouble"].startswith("codes.json isn't saved"))
        await tab.do("step 1")  # so that the machine's notes wait as well
        resource.prlimit(room.server.pid, limit, (infinity, infinity))
        await teacher.until(lambda view: not view["trouble"])
        assert json.loads((folder / "codes.json").read_text())["A2"] == new != room.codes["A2"]
        await room.end(signal.SIGKILL)
    async with served(folder) as again:
        assert (await (await again.open(new)).receive())["who"] == "A2"
        with pytest.raises(EOFError, match="4403"):
            await (await again.open(room.codes["A2"])).receive()


async def test_server_killed_on_full_disk_restarts(tmp_path: pathlib.Path) -> None:
    folder = tmp_path / "class"
    async with process(folder, preexec_fn=fill_the_disk) as room:
        tab, teacher = await room.sit("A1"), await room.sit("teacher")
        await tab.do(*LOOP, *["step 1"] * 240)
        await teacher.until(lambda view: "isn't saved" in view["machines"]["A"]["trouble"])
        await asyncio.sleep(1.5)  # in which the digest would be kept, of lines that aren't
        await room.end(signal.SIGKILL)
    async with served(folder) as room:
        assert (await room.sit("A1")).view["state"]["run"] == "stopped"
        await room.check_replay()


async def test_flooding_seats_delay_no_other_machine(tmp_path: pathlib.Path) -> None:
    async with process(tmp_path / "class", "--machines", "2") as room:
        tabs = [await room.sit(f"A{digit}") for digit in "12345678"]
        other, teacher = await room.sit("B1"), await room.sit("teacher")
        for tab in tabs:
            await tab.do(*LOOP)

        async def flood(tab: int) -> list[str]:
            return [line for _ in range(4) for (line,) in await tabs[tab].do(*["step 1"] * 250)]

        floods = asyncio.gather(*map(flood, range(8)))
        await other.do(*LOOP)
        asked = 0
        while not floods.done():
            await teacher.ask("rights", machine="A", own_slices=True)
            await other.do("step 1")
            await asyncio.sleep(0.02)
            asked += 1
        reply = await asyncio.wait_for(floods, SECONDS)
        assert asked > 2  # the teacher and the other machine were answered all the while
        transcript = (await room.check_replay())[1].decode().splitlines()
        for digit, lines in zip("12345678", reply):
            own = [line[2:] for line in transcript if line[0] == digit and line[2:] != "out 0"]  # which the server asks
            assert own[len(LOOP) :] == lines and len(lines) == 1_000
        assert await room.end() == 0


async def test_full_script_is_refused(tmp_path: pathlib.Path, monkeypatch: pytest.MonkeyPatch) -> None:
    monkeypatch.setattr(
        machine.Session.__init__, "__kwdefaults__", machine.Session.__init__.__kwdefaults__ | {"script_bytes": 2000}
    )
    async with served(tmp_path / "class") as room:
        tab, teacher = await room.sit("A1"), await room.sit("teacher")
        await tab.do(*LOOP)
        for _ in range(10):
            await tab.do("step 1", look=["regs"] * 100)
        assert tab.view["state"]["x"]["5"] == "5" and not tab.view["trouble"]
        while "error" not in (reply := await tab.ask("lines", do=["step 2"] * 20)):
            pass
        assert "has 2,000 bytes at most" in reply["error"] and len(reply["done"]) < 20
        assert (await tab.ask("lines", look=["regs"]))["look"]
        await teacher.ask("clock", machine="A", on=True, ms=10)
        assert len((await room.check_replay())[0]) <= 2000


async def test_clock_stops_when_script_is_full(tmp_path: pathlib.Path, monkeypatch: pytest.MonkeyPatch) -> None:
    monkeypatch.setattr(
        machine.Session.__init__, "__kwdefaults__", machine.Session.__init__.__kwdefaults__ | {"script_bytes": 300}
    )
    async with served(tmp_path / "class") as room:
        tab, teacher = await room.sit("A1"), await room.sit("teacher")
        await tab.do(*LOOP, "go")
        await teacher.ask("clock", machine="A", on=True, ms=10)
        await teacher.until(lambda view: not view["machines"]["A"]["clock"]["on"])
        await teacher.do("list", machine="A")
        assert any(entry.startswith("!The clock was stopped: the script has 300 bytes") for entry in teacher.logs["A"])
        await room.check_replay()


async def test_full_script_leaves_watched_program_running(
    tmp_path: pathlib.Path, monkeypatch: pytest.MonkeyPatch
) -> None:
    lines = "".join(f"1 {line}\n" for line in [*LOOP, "go"])
    room_left = {"script_bytes": len(lines + "1 stop \n1 out \n")}  # which has no room for another `go`
    monkeypatch.setattr(machine.Session.__init__, "__kwdefaults__", machine.Session.__init__.__kwdefaults__ | room_left)
    async with served(tmp_path / "class") as room:
        tab = await room.sit("A1")
        await tab.do(*LOOP, "go")
        assert room.members
        own = room.members.room("A")
        seat = own.seats.users["1"]
        with pytest.raises(machine.ScriptFull):
            await own.run(seat, own.machine.show(seat, "", "server"))
        assert (await tab.ask("lines", look=["state"]))["look"] == [["state running pc=0000000000010000"]]


async def test_busy_port_is_reported_before_replay(tmp_path: pathlib.Path) -> None:
    async with process(tmp_path / "class") as room:
        await (await room.sit("A1")).do("enter")
        assert await room.end() == 0
    with socket.create_server(("127.0.0.1", 0)) as taken:
        port = taken.getsockname()[1]
        expected = f"vecmon-lab: 127.0.0.1, port {port}: Address already in use; --port names another port\n"
        assert refused(tmp_path / "class", "--port", port) == expected


@pytest.mark.parametrize(
    "arguments, expected",
    [
        (["--port", "65536"], " class: argument --port: 65536 is no number from 0 to 65535; --help says more\n"),
        (["--port", "-1"], " class: argument --port: -1 is no number from 0 to 65535; --help says more\n"),
        (["--host", "256.1.1.1"], ": 256.1.1.1, port 8765: Name or service not known\n"),
    ],
)
async def test_unavailable_address_is_refused(tmp_path: pathlib.Path, arguments: list[str], expected: str) -> None:
    assert refused(tmp_path / "class", *arguments) == f"vecmon-lab{expected}"


def refused(folder: pathlib.Path, *arguments: object) -> str:
    """The output of the command for a class that it doesn't serve."""
    line = [sys.executable, "-m", "vecmon_lab", "class", str(folder), *map(str, arguments)]
    completed = subprocess.run(line, cwd=TOP, capture_output=True, text=True, timeout=SECONDS)
    assert (completed.returncode, completed.stdout) == (2, "")
    return completed.stderr


async def test_torn_connection_preserves_seat(tmp_path: pathlib.Path) -> None:
    """A tab's last request before it went away is executed once, or not at all."""
    async with served(tmp_path / "class") as room:
        for _ in range(7):
            tab = await room.sit("A1")
            await tab.socket.send_json({"id": 1, "ask": "lines", "do": ["enter"] * 50})
            connection = tab.socket._response.connection
            assert connection and connection.transport
            connection.transport.abort()
        tab = await room.sit("A2")
        assert await tab.do("enter") == [["entered"]]
        await (await room.sit("A1")).ask("lines", look=["state"])  # behind what the others asked
        script, transcript = await room.check_replay()
        assert script.count(b"1 enter\n") % 50 == 0 and transcript.count(b"1 entered\n") <= 1

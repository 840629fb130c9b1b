"""The server of a class through its sockets. Nothing waits on a clock: each test awaits the message that it needs."""

import asyncio
import gc
import json
import os
import pathlib
import re
import signal
import subprocess
from collections.abc import AsyncIterator
from typing import Any

import aiohttp
import pytest
import pytest_asyncio

from support import class_tabs
from support.class_tabs import LOOP, SECONDS, Served, Tab, process, served
from support.places import SUM
from vecmon_lab.classes.server import server as class_server
from vecmon_lab.classes.server.tab_socket import BEAT

pytestmark = pytest.mark.asyncio


@pytest_asyncio.fixture  # type: ignore[misc]
async def room(tmp_path: pathlib.Path) -> AsyncIterator[Served]:
    async with served(tmp_path / "class", {"sum": SUM}) as room:
        yield room


@pytest.mark.by_command("class")
async def test_step_updates_state(room: Served) -> None:
    tab = await room.sit("A3")
    assert tab.view["state"] == {"run": "absent", "labels": {}, "lines": {}}
    assert (tab.view["seat"], tab.view["images"], tab.view["quantum"]) == ("A3", ["sum"], 100)
    assert await tab.do(*LOOP) == [
        ["entered"],
        ["ok"],
        ["0000000000010000 00128293"],
        ["0000000000010004 ffdff06f"],
        ["ok"],
    ]
    assert tab.view["state"]["code"]["10000"] == "00128293 addi x5, x5, 1"
    assert await tab.do("step 1") == [["stepped 1 pc=0000000000010004"]]
    state = tab.view["state"]
    assert (state["pc"], state["instruction"], state["x"]["5"], state["run"]) == ("10004", "10000", "1", "stopped")
    assert tab.logs["A3"][-2:] == [">3 step 1", "<3 stepped 1 pc=0000000000010004"]
    assert (await room.check_replay())[0].splitlines()[-1] == b"3 step 1"


async def test_looks_are_unrecorded_and_change_nothing(room: Served) -> None:
    tab = await room.sit("A1")
    looks = ["regs", "vcsr", "vreg v1 8", "dis 10000 2", "peek 10000 4", "state", "breaks", "trace"]
    reply = await tab.ask("lines", do=[*LOOP, "step 5", "peek 10000 16"], look=looks)
    assert [len(answer) for answer in reply["look"]] == [9, 1, 1, 2, 1, 1, 1, 1]
    assert reply["look"][4] == ["peek 0000000000010000 93821200"]
    assert tab.logs["A1"][-2] == ">1 peek 10000 16"  # a look that was typed is logged, and not recorded
    assert not [entry for entry in tab.logs["A1"] if "vcsr" in entry]
    script, transcript = await room.check_replay()
    assert script.decode().splitlines() == [f"1 {line}" for line in [*LOOP, "step 5"]] and b"peek" not in transcript


async def test_refusal_is_explained(room: Served) -> None:
    tab, teacher = await room.sit("A2"), await room.sit("teacher")
    reply = await tab.ask("lines", do=["enter", "map 10000 1 rwx", "asm 10000 add x1, x2, 4", "step 300"])
    mark = "`add x1, x2, 4\n            ^`\nE15: 4 doesn't fit here, as the machine reads it: add x1, x2, 4"
    mark += "; the form is add rd, rs1, rs2"
    sentence = "E04: 300 isn't from 1 to 256; the form is step N"
    assert reply["words"] == ["", "", mark, sentence] and reply["do"][2:] == [["E15 13"], ["E04"]]
    assert tab.logs["A2"][-3:] == [f"<2 E15 13\n{mark}", ">2 step 300", f"<2 E04\n{sentence}"]
    reply = await teacher.ask("lines", machine="A", do=["regs", "slices 1"])
    assert reply["words"] == ["E03: regs is a user's: regs", ""]


@pytest.mark.parametrize("look", ["step 1", "out", "set x1 1", "", "list", "regsx", "Regs"])
async def test_changing_line_is_refused_as_look(room: Served, look: str) -> None:
    tab = await room.sit("A1")
    reply = await tab.ask("lines", do=["enter"], look=[look])
    assert "isn't a line that only looks" in reply["error"] and reply["done"] == []
    assert tab.view["state"]["run"] == "absent"


HOSTILE = [
    "step 1\n2 enter",
    "step 1\r2 enter",
    "\n",
    "regs\0",
    "a\tb",
    "é",
    "\u2028",
    "x" * 1023,
    5,
    None,
    ["a"],
    "x\x85y",
    "\ud800",
]


async def test_line_with_user_digit_is_refused(room: Served) -> None:
    tab, teacher = await room.sit("A1"), await room.sit("teacher")
    for line in HOSTILE:
        assert "error" in await tab.ask("lines", do=["enter", line]), line
        assert "error" in await teacher.ask("lines", machine="A", do=[line]), line
    assert (await room.check_replay())[0] == b""


async def test_line_affects_own_seat_only(room: Served) -> None:
    tab = await room.sit("A3")
    answers = await tab.do("enter", "2 enter", "* list", "x" * 1022, " ", "")
    assert answers == [["entered"], *[["E03"]] * 5]
    script = b"3 enter\n3 2 enter\n3 * list\n3 " + b"x" * 1022 + b"\n3  \n3 \n"
    assert (await room.check_replay())[0] == script
    teacher = await room.sit("teacher")
    runs = [seat["run"] for seat in teacher.view["machines"]["A"]["seats"].values()]
    assert runs == ["absent", "absent", "stopped", *["absent"] * 5]


REQUESTS = [
    *("[1]", "{", "", "5", "null", '{"ask": "lines"}', '{"id": true, "ask": "lines"}', '{"id": "1", "ask": "lines"}'),
    *(
        '{"id": 1}',
        '{"id": 1, "ask": ["lines"]}',
        '{"id": 1, "ask": "__class__"}',
        '{"id": 1, "ask": "lines", "do": 5}',
    ),
    *('{"id": 1, "ask": "lines", "do": {"a": 1}}', '{"id": 1, "ask": "lines", "look": "regs"}', "[" * 100_000),
    *(
        '{"id": 1, "ask": "source"}',
        '{"id": 1, "ask": "lines", "slices": 101}',
        '{"id": 1, "ask": "lines", "slices": "1"}',
    ),
    '{"id": 1, "ask": "lines", "slices": -1}',
    json.dumps({"id": 1, "ask": "lines", "do": ["regs"] * 200, "look": ["regs"] * 57}),
]


async def test_malformed_request_is_refused(room: Served) -> None:
    for role in ("A1", "teacher"):
        tab = await room.sit(role)
        for request in REQUESTS:
            await tab.socket.send_str(request)
            while (reply := await tab.receive())["kind"] != "answer":
                pass
            assert "error" in reply, request
    assert (await room.check_replay())[0] == b""


async def test_oversized_or_binary_message_closes_connection(room: Served) -> None:
    for message in ("x" * 500_000, ""):
        tab = await room.sit("A1")
        await (tab.socket.send_str(message) if message else tab.socket.send_bytes(b"{}"))
        with pytest.raises(EOFError):
            await tab.until(lambda view: False)


@pytest.mark.parametrize("ask", ["clock", "rights", "renew", "shoulder", "wall", "codes"])
async def test_teacher_request_from_seat_is_refused(room: Served, ask: str) -> None:
    tab, teacher = await room.sit("A1"), await room.sit("teacher")
    before = room.codes["A2"]
    words = {"machine": "A", "on": True, "own_slices": False, "seat": "A2"}
    assert "no such request" in (await tab.ask(ask, **words))["error"]
    assert "A2" not in json.dumps(tab.view) and before not in json.dumps(tab.view) and "machines" not in tab.view
    await teacher.do("list", machine="A")
    machine = teacher.view["machines"]["A"]
    assert (machine["clock"]["on"], machine["own_slices"], teacher.view["wall"]) == (False, True, "")
    assert (await teacher.ask("codes", seat="A2"))["codes"] == {"A2": before}
    assert (await tab.ask("lines", machine="A", do=["slices 1"]))["do"] == [["E03"]]  # as user 1


async def test_wrong_code_is_refused(room: Served) -> None:
    right = room.codes["A1"]
    codes = ["", "A1", "1", right[:-1], right + "x", right.upper(), "é", "\ud800", "x" * 1000, 5, None, [right]]
    tabs = await asyncio.gather(*(room.open(code) for code in codes))
    for tab in tabs:
        with pytest.raises(EOFError, match="4403"):
            await tab.receive()
    for first in ("[1]", "{", right, json.dumps(right)):
        connection = await room.session.ws_connect(room.url + "socket")
        await connection.send_str(first)
        with pytest.raises(EOFError, match="4403"):
            await Tab(connection).receive()


async def test_new_code_ends_old_connections(room: Served) -> None:
    tab, other, teacher = await room.sit("A1"), await room.sit("A2"), await room.sit("teacher")
    renewed = (await teacher.ask("renew", seat="A1"))["codes"]["A1"]
    with pytest.raises(EOFError, match="4403"):
        await tab.until(lambda view: False)
    with pytest.raises(EOFError, match="4403"):
        await (await room.open(room.codes["A1"])).receive()
    assert room.members
    room.members.store.texts.flush()
    assert renewed != room.codes["A1"] and json.loads((room.folder / "codes.json").read_text())["A1"] == renewed
    assert (await (await room.open(renewed)).receive())["who"] == "A1"
    assert await other.do("enter") == [["entered"]]
    for seat in ("A9", "teacher", "", None, 5, ["A1"], "B1", "A12"):
        assert "no such seat" in (await teacher.ask("renew", seat=seat))["error"]


@pytest.mark.parametrize(
    "headers",
    [
        {"Origin": "http://evil.example"},
        {"Origin": "null"},
        {"Origin": "http://127.0.0.1:1"},
        {"Origin": "http://localhost"},
        {"Host": "evil.example"},
        {"Host": "evil.example:80", "Origin": "http://evil.example:80"},
        {"Host": "127.0.0.1.evil.example"},
        {"Host": "evil.example@127.0.0.2:x"},
        {"Host": "[::1"},
        {"Host": ""},
    ],
)
async def test_request_from_other_site_is_refused(room: Served, headers: dict[str, str]) -> None:
    with pytest.raises(aiohttp.WSServerHandshakeError) as refused:
        await room.open(room.codes["A1"], **headers)
    assert refused.value.status == 403
    async with room.session.get(room.url, headers=headers) as answer:
        assert answer.status == 403


async def test_request_from_same_site_is_accepted(room: Served) -> None:
    for host in (f"127.0.0.1:{room.port}", f"localhost:{room.port}", "192.168.1.7", "[fe80::1]:80"):
        for scheme in ("http", "https"):
            tab = await room.open(room.codes["A1"], Host=host, Origin=f"{scheme}://{host}")
            assert (await tab.receive())["who"] == "A1"
            await tab.socket.close()


async def test_configured_host_name_is_accepted(tmp_path: pathlib.Path) -> None:
    async with served(tmp_path / "class", name="class.school.example") as room:
        tab = await room.open(room.codes["A1"], Host="class.school.example", Origin="https://class.school.example")
        assert (await tab.receive())["who"] == "A1"


async def test_page_has_security_headers(room: Served) -> None:
    async with room.session.get(room.url) as answer:
        page, policy = await answer.text(), answer.headers["Content-Security-Policy"]
        assert answer.headers["X-Content-Type-Options"] == "nosniff"
        assert answer.headers["Referrer-Policy"] == "no-referrer"
        assert answer.headers["Cache-Control"] == "no-store"
        assert "Set-Cookie" not in answer.headers
    assert "default-src 'none'" in policy and "frame-ancestors 'none'" in policy and "unsafe" not in policy
    scripts = [kind for kind in re.findall('<script type="([^"]*)"', page) if kind != "application/json"]
    assert scripts == ["module"] and policy.split("script-src")[1].split(";")[0].count("sha256-") == 1
    assert page.count("<script") == 2  # the other one has data
    assert not re.search(r"""(src|href)\s*=\s*["'](?!data:)|\son\w+\s*=|\sstyle\s*=""", page.split("<script")[0])
    assert not [code for code in room.codes.values() if code in page]
    for path in ("A", "A/", "A/json", "codes.json", "A/../codes.json", "lab", "B/script", "socket/"):
        assert (await room.get(path))[0] == 404, path
    for role in (None, "A1"):
        for path in ("A/script", "A/transcript"):
            assert (await room.get(path, role))[0] == 404, path
    assert (await room.get(f"A/script?code={room.codes['teacher']}", None))[0] == 404
    async with room.session.post(room.url, data=b"x") as answer:
        assert answer.status == 405


async def test_long_script_number_is_not_found(room: Served) -> None:
    """More digits than Python reads as a number (4,300)."""
    assert (await room.get("A.1/script"))[0] == 200
    for number in ("2", "1000000", "9" * 5000):
        assert (await room.get(f"A.{number}/script"))[0] == 404


async def test_responses_name_no_version(room: Served) -> None:
    """Also those to requests that can't be read, and the handshake of a socket."""
    socket = await room.session.ws_connect(room.url + "socket")
    assert socket._response.headers["Server"] == "vecmon-lab"
    for path in ("", "none", "A/script"):
        async with room.session.get(room.url + path) as answer:
            assert answer.headers["Server"] == "vecmon-lab"
    reader, writer = await asyncio.open_connection("127.0.0.1", room.port)
    writer.write(b"\x16\x03\x01 no request\r\n\r\n")
    page = await asyncio.wait_for(reader.read(), SECONDS)
    assert page.startswith(b"HTTP/1.0 400 ") and b"Python" not in page and b"aiohttp" not in page
    writer.close()


async def test_stop_is_sent_without_request(room: Served) -> None:
    tab, other, teacher = await room.sit("A2"), await room.sit("A3"), await room.sit("teacher")
    await tab.do(*LOOP, "break 10004", "go")
    await other.do(*LOOP, "go")
    assert not tab.view["clock"]
    await teacher.ask("clock", machine="A", on=True, slices=4, ms=10)
    await tab.until(lambda view: view["state"]["run"] == "stopped")
    assert tab.view["stop"] == "break pc=0000000000010004" and tab.view["clock"]
    assert tab.logs["A2"][-1] == "*2 break pc=0000000000010004"
    assert tab.view["state"]["stop"] == "Stopped at the breakpoint at 0x10004; its instruction is the next one."
    await teacher.until(lambda view: view["machines"]["A"]["seats"]["2"]["status"]["kind"] == "breakpoint")
    assert teacher.view["machines"]["A"]["seats"]["3"]["run"] == "running"
    assert not [entry for entry in teacher.logs.get("A", []) if "slices" in entry]
    assert await other.do("stop") and other.view["state"]["run"] == "stopped"
    await teacher.do("list", machine="A")
    lines = teacher.view["machines"]["A"]["lines"]  # no program runs, so the clock is stopped
    await asyncio.sleep(0.1)
    await teacher.do("list", machine="A")
    assert teacher.view["machines"]["A"]["lines"] == lines
    await teacher.ask("clock", machine="A", on=False)
    assert b"* slices 4\n" in (await room.check_replay())[0]


async def test_student_slices_need_permission(room: Served) -> None:
    tab, teacher = await room.sit("A4"), await room.sit("teacher")
    await tab.do(*LOOP, "go", slices=3)
    assert (tab.view["state"]["run"], tab.view["stop"]) == ("running", "")
    used = tab.view["share"]["used"]
    await tab.do("stop", slices=5)  # no program runs, so none is granted
    await tab.do("break 10000", "setpc 10000", "go", slices=9)
    assert tab.view["stop"] == "break pc=0000000000010000" and tab.view["state"]["run"] == "stopped"
    script = (await room.check_replay())[0].decode().splitlines()
    assert script.count("* run 4") == 4  # the stop ended them
    own = [line for line in script if not line.endswith(" ")]  # and not the server's
    assert tab.view["share"]["used"] == sum(len(line) + 1 for line in own) > used
    await teacher.ask("rights", machine="A", own_slices=False)
    await tab.until(lambda view: not view["own_slices"])
    assert "teacher's to grant" in (await tab.ask("lines", do=["go"], slices=1))["error"]
    assert tab.view["state"]["run"] == "stopped"
    for name, value in [("slices", 0), ("slices", 1001), ("ms", 9), ("ms", "x"), ("slices", 1.5), ("on", "yes")]:
        assert "error" in await teacher.ask("clock", machine="A", **{str(name): value})
    machines: list[Any] = ["B", None, ["A"], {}, ""]
    for machine in machines:
        assert "no such machine" in (await teacher.ask("clock", machine=machine))["error"]


SOURCE = """
_start: la a0, numbers
        lw a1, 4(a0)
loop:   addi a1, a1, 1
        j loop
        .data
numbers: .word 1, 2
"""


async def test_source_is_assembled_and_loaded(room: Served) -> None:
    tab = await room.sit("A5")
    for _ in range(2):  # also where there is a machine, and a program that runs
        assert (await tab.ask("source", text=SOURCE))["mistakes"] == []
        state = tab.view["state"]
        assert (state["pc"], state["run"], state["x"]["11"]) == ("10000", "stopped", "0")
        assert state["labels"]["11000"] == ["numbers"] and ["loop"] in state["labels"].values()
        assert state["memory"]["11000"].startswith("0100000002000000")
        await tab.do("step 6")
        assert tab.view["state"]["x"]["11"] == "4"  # la is two instructions; then lw, addi, j and addi again
        await tab.do("go")
    script = (await room.get("A/script"))[1]
    reply = await tab.ask("source", text="addi a0, a0, 5000\njmp x\nvadd.vv v1, v2, v3\nvadd.vv v1, v2, q\n")
    assert [(each["line"], each["column"]) for each in reply["mistakes"]] == [(1, 14), (2, 1), (4, 17)]
    assert "near it is jump" in reply["mistakes"][1]["message"]
    assert (await room.get("A/script"))[1] == script  # nothing was done
    reply = await tab.ask("source", text="nop\naddi a0, a0, 5000\nnop\nslli a0, a0, 99\n")
    assert [(each["line"], each["column"]) for each in reply["mistakes"]] == [(2, 14), (4, 14)]
    assert "doesn't fit" in reply["mistakes"][0]["message"]
    assert (await tab.ask("source", text="b nowhere"))["mistakes"][0]["line"] == 1
    reply = await tab.ask("source", text="vadd.vv v1, v2\n" * 200)
    assert [each["line"] for each in reply["mistakes"]] == [*range(1, 101)]
    reply = await tab.ask("source", text="nop\n" * 5000)
    assert "4096 lines at most" in reply["error"]
    await room.check_replay()


async def test_other_seats_get_turns_during_source_load(room: Served) -> None:
    tab, other = await room.sit("A5"), await room.sit("A6")
    lines = ["nop"] * 900
    for wrong in (9, 499, 899):
        lines[wrong] = "slli a0, a0, 99"
    for _ in range(2):
        written = asyncio.create_task(tab.ask("source", text="\n".join(lines)))
        assert room.members
        session = room.members.rooms["A"].session
        before = session.lines
        while session.lines == before:
            await asyncio.sleep(0)
        await other.do("nonsense")
        assert not written.done()
        assert [each["line"] for each in (await written)["mistakes"]] == [10, 500, 900]
    assert len(tab.view["state"]["code"]) > 500 and tab.view["state"]["pc"] == "10000"
    script = (await room.check_replay())[0].decode().splitlines()
    others = [number for number, line in enumerate(script) if line == "6 nonsense"]
    own = [number for number, line in enumerate(script) if line in ("5 enter", "5 setpc 10000")]
    assert own[0] < others[0] < own[1] < own[2] < others[1] < own[3]


async def test_teacher_watches_seat(room: Served) -> None:
    tab, teacher = await room.sit("A6"), await room.sit("teacher")
    await tab.do(*LOOP, "step 1")
    await teacher.ask("shoulder", seat="A6")
    assert teacher.view["state"] == tab.view["state"] and teacher.view["shoulder"] == "A6"
    assert teacher.logs["A6"] == tab.logs["A6"]
    await tab.do("step 2")
    await teacher.until(lambda view: view["state"]["pc"] == tab.view["state"]["pc"] and view["state"]["x"]["5"] == "2")
    assert teacher.logs["A6"] == tab.logs["A6"]
    await teacher.ask("shoulder", seat="")
    assert "state" not in teacher.view
    await tab.do("step 2")
    teacher.logs.clear()
    await teacher.ask("shoulder", seat="A6")
    assert teacher.logs["A6"] == tab.logs["A6"]
    assert "no such seat" in (await teacher.ask("shoulder", seat="A9"))["error"]


async def test_reload_preserves_seat(room: Served) -> None:
    tab = await room.sit("A7")
    await tab.do(*LOOP, "step 1", "peek 10000 16")
    await tab.ask("source", text="l: j l")
    await tab.socket.close()
    again = await room.sit("A7")
    assert (again.view, again.logs) == (tab.view, tab.logs)
    teacher = await room.sit("teacher")
    await teacher.until(lambda view: view["machines"]["A"]["seats"]["7"]["tabs"] == 1)
    seat = teacher.view["machines"]["A"]["seats"]["7"]
    assert (seat["line"], seat["answer"], seat["run"]) == ("setpc 10000", "ok", "stopped")
    assert seat["status"] == {"kind": "paused", "text": "paused: jal", "instruction": "jal"}


async def test_two_tabs_show_same_seat(room: Served) -> None:
    one, two = await room.sit("A8"), await room.sit("A8")
    await one.do(*LOOP)
    await two.until(lambda view: view["state"].get("pc") == "10000")
    await two.do("step 3")
    await one.until(lambda view: view["state"]["x"]["5"] == "2")
    assert one.logs == two.logs and one.view == two.view


async def test_excess_tabs_of_seat_are_refused(room: Served) -> None:
    tabs = [await room.sit("A1") for _ in range(8)]
    with pytest.raises(EOFError, match="4429"):
        await (await room.open(room.codes["A1"])).receive()
    await (await room.sit("A2")).do("enter")
    await tabs[0].socket.close()
    teacher = await room.sit("teacher")
    await teacher.until(lambda view: view["machines"]["A"]["seats"]["1"]["tabs"] == 7)
    await room.sit("A1")


async def test_seat_share_of_script_is_limited(room: Served) -> None:
    tab, other = await room.sit("A1"), await room.sit("A2")
    line = "x" * 1000
    while tab.view["share"]["used"] + 250 * 1003 <= tab.view["share"]["of"]:
        await tab.do(*[line] * 250)
    assert tab.view["share"]["used"] > 0.8 * tab.view["share"]["of"]
    assert "share of the script is used up" in (await tab.ask("lines", do=["enter", *[line] * 249]))["error"]
    assert await tab.do("enter") == [["entered"]]
    assert (await tab.ask("lines", look=["regs"] * 200))["look"]
    assert await other.do("enter") == [["entered"]]
    await room.check_replay()


async def test_machines_are_independent(tmp_path: pathlib.Path) -> None:
    async with served(tmp_path / "class", machines=2) as room:
        assert len(room.codes) == 18 and len(set(room.codes.values())) == 18
        one, two, teacher = await room.sit("A1"), await room.sit("B1"), await room.sit("teacher")
        await one.do(*LOOP, "go")
        await two.do(*LOOP, "step 1")
        await teacher.ask("clock", machine="A", on=True, ms=10)
        await one.until(lambda view: view["clock"])
        assert not two.view["clock"] and two.view["state"]["x"]["5"] == "1"
        assert list(teacher.view["machines"]) == ["A", "B"]
        await teacher.ask("clock", machine="A", on=False)
        script = (await room.check_replay("B"))[0].decode().splitlines()
        assert script == [f"1 {line}" for line in [*LOOP, "step 1", "out "]]
        assert room.members and (stuck := room.members.rooms["A"].session.process)
        os.kill(stuck, signal.SIGSTOP)
        hanging = asyncio.create_task(one.do("stop"))
        assert await two.do("step 1") == [["stepped 1 pc=0000000000010000"]]
        assert not hanging.done()
        os.kill(stuck, signal.SIGCONT)
        assert len(await hanging) == 1
        await room.check_replay("A")


async def test_silent_connections_are_closed(tmp_path: pathlib.Path, monkeypatch: pytest.MonkeyPatch) -> None:
    for limit in ("PATIENCE", "CODE_SECONDS"):
        monkeypatch.setattr(class_server, limit, 2.0)
    monkeypatch.setattr(class_server, "UNKNOWN", 3)
    async with served(tmp_path / "class") as room:
        readers = []
        for start in [b"", b"GET / HTTP/1.1\r\n"] * 4:  # more than may be there, and half of them slow
            reader, writer = await asyncio.open_connection("127.0.0.1", room.port)
            writer.write(start)
            readers.append(reader)
        for reader in readers:
            with pytest.raises((ConnectionError, asyncio.IncompleteReadError)):
                await asyncio.wait_for(reader.readexactly(1), SECONDS)
        silent = [await room.session.ws_connect(room.url + "socket") for _ in range(3)]  # no code comes
        for each in silent:
            assert (await asyncio.wait_for(each.receive(), SECONDS)).data == 4403
        await room.sit("A1")


async def test_malformed_http_request_is_refused(tmp_path: pathlib.Path) -> None:
    long, twice = b"GET / HTTP/1.1\r\nX: %b\r\n\r\n" % (b"a" * 20_000), b"GET / HTTP/1.1\r\nHost: a\r\nHost: b\r\n\r\n"
    async with process(tmp_path / "class", stderr=subprocess.PIPE) as room:
        for request in (b"\x16\x03\x01\x02\x00\x01\x00\x01\xfc\x03\x03", b"one line\r\n\r\n", long, twice):
            reader, writer = await asyncio.open_connection("127.0.0.1", room.port)
            writer.write(request)
            assert (await asyncio.wait_for(reader.readline(), SECONDS)).endswith(b" 400 Bad Request\r\n")
            writer.close()
        assert await room.end() == 0
        assert room.server and room.server.stderr
        assert await room.server.stderr.read() == b""


async def test_unread_connections_are_closed(room: Served) -> None:
    tab = await room.sit("A1")
    await tab.do(*LOOP)
    unresponsive = [await room.sit("A2") for _ in range(4)]
    for each in unresponsive:
        connection = each.socket._response.connection  # nothing is read from here on
        assert connection and connection.transport
        connection.transport.pause_reading()
        for number in range(30):
            await each.socket.send_json({"id": number, "ask": "lines", "look": ["regs"] * 200})
    for _ in range(20):
        assert len(await tab.do("step 1")) == 1
    for each in unresponsive:
        connection = each.socket._response.connection
        assert connection and connection.transport
        connection.transport.abort()
    assert (members := room.members)
    while any(tab.who == "A2" for tab in members.tabs):  # they stay until all their requests are executed
        await asyncio.sleep(0.01)
    await room.check_replay()


async def test_waiting_tab_stays_connected(tmp_path: pathlib.Path, monkeypatch: pytest.MonkeyPatch) -> None:
    """The server asks each tab for a sign of life, and closes one that gives none in half of that time."""
    monkeypatch.setattr(class_server, "READ_SECONDS", 90.0)  # between pings
    monkeypatch.setattr(class_tabs, "SECONDS", 1000.0)  # since the clock is put forward
    loop, passed_seconds, pongs = asyncio.get_running_loop(), [0.0], asyncio.Queue[bytes]()
    clock = loop.time
    monkeypatch.setattr(loop, "time", lambda: clock() + passed_seconds[0])
    async with served(tmp_path / "class") as room:
        tab, other = await room.sit("A1"), await room.sit("A2")
        await tab.do("enter")
        pong = tab.socket.pong

        async def take_turns() -> None:
            """Lets the server read what the tabs have sent, and do what is due."""
            await other.socket.send_str(BEAT)
            while (await other.receive())["kind"] != "beat":
                pass

        async def counted_pong(message: bytes = b"") -> None:
            await pong(message)
            pongs.put_nowait(message)

        monkeypatch.setattr(tab.socket, "pong", counted_pong)
        assert room.members and (machine := room.members.rooms["A"].session.process)
        os.kill(machine, signal.SIGSTOP)
        waits = asyncio.create_task(tab.do(*LOOP[1:]))  # whose socket answers pings meanwhile
        for _ in range(2):
            passed_seconds[0] += 91
            await pongs.get()
            await take_turns()
        passed_seconds[0] += 46  # which would be too long without an answer to the last ping
        await take_turns()
        os.kill(machine, signal.SIGCONT)
        assert len(await waits) == 4 and not room.members.rooms["A"].session.losses


async def test_excess_waiting_requests_are_refused(room: Served) -> None:
    tab = await room.sit("A1")
    assert room.members and (machine := room.members.rooms["A"].session.process)
    os.kill(machine, signal.SIGSTOP)
    for number in range(70):
        await tab.socket.send_json({"id": number, "ask": "lines", "do": [f"set x5 {number:x}" if number else "enter"]})
    reply = [await tab.receive() for _ in range(5)]  # one is executed, and 64 wait
    assert [each["id"] for each in reply] == [65, 66, 67, 68, 69]
    assert all(each["error"].startswith("64 requests of this tab wait already") for each in reply)
    await tab.socket.close()
    os.kill(machine, signal.SIGCONT)
    again = await room.sit("A1")
    # the waiting requests aren't dropped with their tab
    await again.until(lambda view: view["state"].get("x", {}).get("5") == "40")
    assert (await room.check_replay())[0] == b"1 enter\n" + b"".join(b"1 set x5 %x\n" % each for each in range(1, 65))


async def test_waiting_requests_end_with_code(room: Served) -> None:
    tab, teacher = await room.sit("A1"), await room.sit("teacher")
    assert room.members and (machine := room.members.rooms["A"].session.process)
    os.kill(machine, signal.SIGSTOP)
    for number in range(5):
        await tab.socket.send_json({"id": number, "ask": "lines", "do": ["enter"]})
    await teacher.ask("renew", seat="A1")
    os.kill(machine, signal.SIGCONT)
    while any(each.who == "A1" for each in room.members.tabs):
        await asyncio.sleep(0.01)
    assert (await room.check_replay())[0] == b"1 enter\n"  # which was under way


async def test_reset_connection_is_cleaned_up(room: Served, caplog: pytest.LogCaptureFixture) -> None:
    tab, other = await room.sit("A1"), await room.sit("A1")
    await tab.do(*LOOP)
    connection = other.socket._response.connection
    assert connection and connection.transport
    connection.transport.pause_reading()  # so that the server's news don't get through
    for _ in range(80):
        await tab.do(*["peek 10000 256"] * 240)
    connection.transport.abort()
    assert room.members
    while len(room.members.tabs) > 1:
        await tab.do("step 1")
    await asyncio.sleep(0)
    gc.collect()
    assert not caplog.records

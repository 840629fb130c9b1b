"""The synchronous core does what the server does: a desk of one process and a class answer the same requests alike."""

import asyncio
import json
import pathlib
import random
from collections.abc import Iterable, Mapping
from typing import Any

from support.class_tabs import SECONDS, patched
from support.desk import Desk, untimed
from support.desk_requests import Request, drawn_requests, exercise_requests, source_requests
from vecmon_lab.classes.server.store import Store
from vecmon_lab.classes.server.tab_requests import TabRequests
from vecmon_lab.classes.server.served_class import Class
from vecmon_lab.classes.server.tab import Tab
from vecmon_lab.exercises.exercise import OURS
from vecmon_lab.machine.program import find_program

SEAT, LIMIT = "A1", 100_000
Message = Mapping[str, Any]
Sent = list[list[Message]]
"""The greeting, and for each request the answer, and the news once nothing goes on."""


async def answered_by_server(members: Class, requests: Iterable[Request], has_clock: bool) -> Sent:
    """The messages of a class to a student."""
    desk, tab, room = TabRequests(members), Tab(SEAT), members.rooms["A"]
    room.set_clock({"on": has_clock, "ms": 10, "limit": LIMIT})
    clock = asyncio.create_task(room.clock.run())
    sent: Sent = [[desk.hello(tab)]]
    for number, request in enumerate(requests, 1):
        answer = await desk.respond(tab, json.dumps({"id": number, **request}))
        while has_clock and members.seat(SEAT).state["run"] == "running" or members.checks.exercises.busy:
            await asyncio.sleep(0.002)
        sent.append([answer, desk.news(tab)])
    clock.cancel()
    return sent


def answered_by_desk(members: Class, requests: Iterable[Request], has_clock: bool) -> Sent:
    """The messages of a desk with the same exercises."""
    desk = Desk(members.store.program, members.checks.exercises.by_name, LIMIT)
    desk.has_clock = has_clock
    sent: Sent = [[desk.hello()]]
    for number, request in enumerate(requests, 1):
        sent.append([desk.respond(json.dumps({"id": number, **request})), desk.settle()])
    desk.close()
    return sent


def answered(folder: pathlib.Path, requests: list[Request], names: Iterable[str], has_clock: bool) -> tuple[Sent, Sent]:
    """The messages of a class and of a desk with exercises of these names."""
    exercises = [pathlib.Path(name) for name in names]
    members = Class(Store(folder, find_program()), SECONDS, exercises=exercises)
    try:
        server = asyncio.run(answered_by_server(members, requests, has_clock))
        return server, answered_by_desk(members, requests, has_clock)
    finally:
        members.end()


def differences(sent: Sent, others: Sent) -> list[int]:
    """The numbers of the requests after which answers, settled views or logs differ; 0 is the greeting."""
    views: list[Any] = [{}, {}]
    found = []
    for number, pair in enumerate(zip(sent, others, strict=True)):
        expected = []
        for side, messages in enumerate(pair):
            for message in messages:
                views[side] = patched(views[side], message.get("patch", {}))
            own = {name: part for name, part in messages[0].items() if name not in ("patch", "logs")}
            logs = [entry for message in messages for entry in message.get("logs", {}).get(SEAT, [])]
            expected.append(untimed([own, views[side], logs]))
        found += [number] * (expected[0] != expected[1])
    return found


def test_desk_equals_server_for_repository_sources(tmp_path: pathlib.Path) -> None:
    requests = source_requests()
    server, desk = answered(tmp_path / "class", requests, ["doubles"], has_clock=True)
    assert [(number, requests[number - 1]) for number in differences(server, desk)] == []
    assert len(desk) > 900 and (b"hallo" * 9).hex() in json.dumps(desk)


def test_desk_equals_server_for_exercise_answers(tmp_path: pathlib.Path) -> None:
    requests = exercise_requests()
    names = sorted(path.name for path in OURS.iterdir() if path.is_dir())
    server, desk = answered(tmp_path / "class", requests, names, has_clock=True)
    assert [(number, requests[number - 1]) for number in differences(server, desk)] == []
    assert len(desk) > 250 and json.dumps(desk).count('"cases"') > 80


def test_desk_equals_server_for_random_requests(tmp_path: pathlib.Path) -> None:
    """Also a test of the comparison: one digit of one register, or of one answer, is found."""
    requests = list(drawn_requests(random.Random(1), 1300))
    server, desk = answered(tmp_path / "class", requests, ["doubles"], has_clock=False)
    assert [(number, requests[number - 1]) for number in differences(server, desk)] == []
    answers = [part[0] for messages in desk for part in messages[0].get("do", [])]
    assert {line.partition(" ")[0] for line in answers} >= {
        "E05",
        "E11",
        "E15",
        "fault",
        "ok",
        "out",
        "running",
        "stepped",
    }
    place = next(at for at in range(500, 1300) if "x" in desk[at][0].get("patch", {}).get("state", {}))
    registers = desk[place][0]["patch"]["state"]["x"]
    name, value = next(iter(registers.items()))
    registers[name] = f"{int(value, 16) ^ 1:x}"
    assert place in differences(server, desk)
    registers[name] = value
    place = next(at for at in range(500, 1300) if desk[at][0].get("look"))
    answer = desk[place][0]["look"][0]
    answer[0] = answer[0][:-1] + chr(ord(answer[0][-1]) ^ 1)
    assert differences(server, desk) == [place]


def test_state_has_how_its_machine_began(program: pathlib.Path) -> None:
    """`prepared` until the program executes something, or lines change registers; looking changes nothing."""
    desk, view = Desk(program, {}, LIMIT), dict[str, Any]()

    def state_after(*lines: str, look: str = "regs") -> tuple[Any, Any]:
        nonlocal view
        answer: Any = desk.respond(json.dumps({"id": 1, "ask": "lines", "do": lines, "look": [look]}))
        view = patched(view, answer.get("patch", {}))
        return view["state"].get("began"), view["state"].get("prepared")

    assert state_after() == (None, None)
    assert state_after("enter", "map 10000 1 rwx", "asm 10000 addi x5, x5, 1") == (1, None)
    assert state_after("setpc 10000") == (1, True)
    assert state_after() == state_after("break 10000") == (1, True)
    assert state_after("set x6 1") == (1, None)
    assert state_after("setpc 10000", "step 1") == state_after("setpc fffffffffffffffff") == (1, None)
    assert state_after("leave") == (None, None)
    assert state_after("enter", "setpc 10000") == (3, True)
    desk.close()

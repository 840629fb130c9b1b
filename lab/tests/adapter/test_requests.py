"""Requests of clients: in order, with what they ask for, and wrong ones, which are refused."""

import json
import os
import pathlib
from collections.abc import Iterator
from typing import Any

import pytest

from support.dap_client import Body, Client
from support.places import EXAMPLES, SUM
from vecmon_lab.adapter import session
from vecmon_lab.adapter.session import CAPABILITIES
from vecmon_lab.adapter.wire import Wire

SOURCE = EXAMPLES / "strip_mined.s"


@pytest.fixture
def client() -> Iterator[Client]:
    """A client whose session has got nothing."""
    with Client.in_thread() as client:
        yield client


def test_initialize_says_what_is_supported(client: Client) -> None:
    body = client.ask("initialize", adapterID="vecmon", pathFormat="path", locale="de")
    assert {name for name, is_there in body.items() if is_there is True} == {*CAPABILITIES}
    assert body["supportsStepBack"] and body["supportsDataBreakpoints"]
    assert "sent before" in client.refused("initialize")


def test_attach_is_refused_with_the_way_to_launch(client: Client) -> None:
    client.ask("initialize")
    assert "launch one" in client.refused("attach", pid=1)


def test_wrong_launches_are_refused_and_end_the_debugging(client: Client) -> None:
    wrong: list[tuple[Body, str]] = [
        ({}, "the argument program is missing"),
        ({"program": 5}, "program is no text"),
        ({"program": "/nowhere/x.s"}, "/nowhere/x.s: No such file"),
        ({"program": f"{SOURCE}", "stopOnEntry": "yes"}, "stopOnEntry is no truth value"),
        ({"program": f"{SOURCE}", "policy": "other"}, "policy is one of keep, ones"),
        ({"program": f"{SOURCE}", "options": "O9"}, "options is one of O2, "),
        ({"program": f"{SOURCE}", "args": "a"}, "args is no list"),
        ({"program": f"{SUM}", "input": f"{SOURCE}"}, "symbol input not found"),
        ({"program": __file__}, "no ELF file"),
    ]
    assert "the first request is initialize" in client.refused("launch")
    client.ask("initialize")
    numbers = [
        client.post("launch", **arguments) for arguments, _ in wrong
    ]  # together, so that the session doesn't end
    for number, (_, reason) in zip(numbers, wrong):
        response = client.response(number)
        assert not response["success"] and reason in response["message"]
        assert client.event("terminated") == {}


def test_wrong_requests_are_refused_before_a_launch(client: Client) -> None:
    wrong: list[tuple[str, Body, str]] = [
        ("next", {}, "no program was launched"),
        ("stackTrace", {}, "no program was launched"),
        ("configurationDone", {}, "no program was launched"),
        ("setDataBreakpoints", {}, "no program was launched"),
        ("gotoTargets", {}, "the request gotoTargets isn't supported"),
        ("source", {"sourceReference": 3}, "the source isn't on this computer"),
    ]
    for command, arguments, _ in wrong:
        assert "the first request is initialize" in client.refused(command, **arguments)
    client.ask("initialize")
    for command, arguments, reason in wrong:
        assert reason in client.refused(command, **arguments)
    client.ask("launch", program=f"{SOURCE}", stopOnEntry=True)
    assert client.begin()["reason"] == "entry"


def test_wrong_requests_are_refused_at_a_stop(client: Client) -> None:
    client.launch(SOURCE, stopOnEntry=True)
    assert "configurationDone comes first" in client.refused("next", threadId=1)
    client.begin()
    wrong: list[tuple[str, dict[str, Any]]] = [
        ("launch", {"program": f"{SOURCE}"}),
        ("configurationDone", {}),
        ("scopes", {}),
        ("scopes", {"frameId": 2}),
        ("scopes", {"frameId": -1}),
        ("variables", {"variablesReference": 0}),
        ("variables", {"variablesReference": 99}),
        ("variables", {"variablesReference": "1"}),
        ("variables", {"variablesReference": 1, "start": -1}),
        ("setVariable", {"variablesReference": 99, "name": "a", "value": "1"}),
        ("setExpression", {"expression": "vl", "value": "1"}),
        ("setExpression", {"expression": "1 + 1", "value": "1"}),
        ("evaluate", {"expression": "a0", "frameId": 7}),
        ("setBreakpoints", {"source": {}}),
        ("setBreakpoints", {"source": {"path": "x.s"}, "breakpoints": [{"line": True}]}),
        ("setBreakpoints", {"source": {"path": "x.s"}, "breakpoints": [5]}),
        ("setDataBreakpoints", {"breakpoints": [{"dataId": "x"}]}),
        ("disassemble", {"memoryReference": "0x10000", "instructionCount": 1 << 30}),
        ("readMemory", {"memoryReference": "0x10000", "count": 1 << 40}),
        ("stepOut", {"threadId": 1, "granularity": "all"}),
        ("setDataBreakpoints", {"breakpoints": [{"dataId": "10000:-8"}]}),
        ("readMemory", {"memoryReference": "0x10000", "count": 4, "offset": 1 << 64}),
        ("readMemory", {"memoryReference": "0x10000", "count": 4, "offset": -1 << 64}),
        ("readMemory", {"memoryReference": "9" * 5000, "count": 4}),
        ("writeMemory", {"memoryReference": f"{1 << 64:#x}", "data": "AAAA"}),
        ("writeMemory", {"memoryReference": "0x10000", "data": "é"}),
        ("disassemble", {"memoryReference": "_start+18446744073709551616", "instructionCount": 1}),
        ("disassemble", {"memoryReference": "0x10000", "instructionCount": 1, "instructionOffset": 1 << 62}),
        ("setVariable", {"variablesReference": 1, "name": "pc", "value": "9" * 5000}),
        ("dataBreakpointInfo", {"name": f"{1 << 64:#x}", "asAddress": True}),
    ]
    client.scope("Vector registers")
    for command, arguments in wrong:
        assert client.refused(command, **arguments), command
    assert "give that of the scope" in client.refused("setVariable", variablesReference=0, name="a0", value="1")
    assert client.move("next")["reason"] == "step"  # it goes on


def test_arguments_that_are_no_object_are_refused(client: Client) -> None:
    content = b'{"seq": 1, "type": "request", "command": "initialize", "arguments": [1]}'
    client.write(b"Content-Length: %d\r\n\r\n%s" % (len(content), content))
    response = client.response(1)
    assert not response["success"] and response["message"] == "the arguments are no object"


def test_requests_sent_together_are_answered_in_order(client: Client) -> None:
    first = [client.post("initialize"), client.post("launch", program=f"{SOURCE}", stopOnEntry=True)]
    assert all(client.response(number)["success"] for number in first)
    client.event("initialized")
    numbers = [client.post("configurationDone")]
    numbers += [client.post("next", threadId=1) for _ in range(2)]
    numbers += [client.post("stackTrace", threadId=1), client.post("evaluate", expression="pc")]
    bodies = [client.response(number)["body"] for number in numbers]
    assert bodies[-2]["stackFrames"][0]["instructionPointerReference"] == "0x1000c"  # li, and the two words of la
    assert [client.event("stopped")["reason"] for _ in range(3)] == ["entry", "step", "step"]


def test_failed_restart_shows_its_mistakes_and_keeps_the_program(client: Client, tmp_path: pathlib.Path) -> None:
    source = tmp_path / "edited.s"
    source.write_text("loop: addi t0, t0, 1\nj loop\n")
    client.launch(source, stopOnEntry=True)
    client.begin()
    source.write_text("vfoo.vv v1, v2, v3\n")
    assert client.output("stderr") == ""
    message = client.refused("restart")
    assert f"{source}:1:" in message and client.output("stderr") == f"{message}\n"
    assert client.move("next")["reason"] == "step"
    assert "terminated" not in [event["event"] for event in client.events]


def test_session_of_a_failed_launch_ends_if_its_client_is_silent(monkeypatch: pytest.MonkeyPatch) -> None:
    monkeypatch.setattr(session, "REST_SECONDS", 0)
    (source, target), sent = os.pipe(), list[bytes]()
    for number, command in enumerate(["initialize", "launch"], 1):
        content = json.dumps({"seq": number, "type": "request", "command": command}).encode()
        os.write(target, b"Content-Length: %d\r\n\r\n%s" % (len(content), content))
    session.Session(Wire(source, sent.append)).serve()  # the other end is open
    assert b'"event":"terminated"' in sent[-1]
    os.close(source)
    os.close(target)


def test_lines_may_start_at_0(client: Client) -> None:
    client.launch(SOURCE, {"linesStartAt1": False}, stopOnEntry=True)
    (found,) = client.lines(SOURCE, 20)
    assert found["line"] == 20
    client.begin()
    client.move("continue")
    assert client.where()[1] == 20


def test_progress_and_changes_are_reported_to_clients_that_want_them(client: Client) -> None:
    wants = {"supportsProgressReporting": True, "supportsInvalidatedEvent": True}
    client.launch(SOURCE, wants, stopOnEntry=True)
    assert client.event("progressStart")["title"] == "Building strip_mined.s"
    client.event("progressEnd")
    client.begin()
    client.ask("setExpression", expression="a0", value="1")
    assert client.event("invalidated") == {"areas": ["variables"]}

"""The debug adapter with an assembler source: breakpoints, steps in both directions, and what is shown.

Its numbers are counted and calculated by hand: y[i] is 100 + 3 x[i] where x[i] is above 4, and 100 elsewhere.
"""

import base64
import pathlib
from collections.abc import Iterator

import pytest

from support.dap_client import Body, Client, line_of
from support.places import EXAMPLES
from support.sources import COUNTDOWN

SOURCE = EXAMPLES / "strip_mined.s"
X = [9, 2, 7, 1, 8, 3, 6, 4, 5, 1, 12, 3, 20]
Y = [100 + 3 * x if x > 4 else 100 for x in X]
FIRST, MULTIPLY, STORE, LAST = (line_of(SOURCE, text) for text in ("li a0", "vmacc.vx", "vse32.v", "ebreak"))

CALLS = """\
        .text
_start: li a0, 1
        jal twice
        jal twice
        addi a0, a0, 100
        li a7, 93
        ecall
twice:  slli a0, a0, 1
        ret
"""


@pytest.fixture
def client() -> Iterator[Client]:
    """A client whose program is stopped at its first line, with a breakpoint at the multiplication."""
    with Client.in_thread() as client:
        begin(client)
        yield client


def begin(client: Client) -> None:
    """Launch the program, which stops at its first line, with a breakpoint at the multiplication."""
    client.launch(SOURCE, stopOnEntry=True)
    (found,) = client.lines(SOURCE, MULTIPLY)
    assert found["verified"] and found["line"] == MULTIPLY and found["source"]["path"] == f"{SOURCE}"
    assert client.begin()["reason"] == "entry" and client.where()[1] == FIRST


def elements(client: Client, name: str, scope: str = "Vector registers") -> list[Body]:
    """The rows of a group's elements."""
    group = client.rows(client.scope(scope))[name]
    return [*client.rows(group["variablesReference"]).values()]


def first_words(rows: list[Body]) -> list[int]:
    """The numbers that rows begin with."""
    return [int(row["value"].split()[0]) for row in rows]


def moves(client: Client, *commands: str) -> list[tuple[str, int]]:
    """The reasons and lines of stops after commands."""
    return [(client.move(command)["reason"], client.where()[1]) for command in commands]


@pytest.mark.by_command("dap")
def test_lines_are_stepped_forwards_and_backwards() -> None:
    with Client.started() as client:
        begin(client)
        assert moves(client, "next", "next", "stepIn", "stepBack", "stepBack") == [
            ("step", FIRST + each) for each in (1, 2, 3, 2, 1)
        ]
        assert moves(client, "stepBack", "stepBack") == [("step", FIRST), ("entry", FIRST)]
        assert client.value("pc") == "65536 (0x10000)"
        client.move("next")
        client.move("stepIn", granularity="instruction")  # the second word of `la`
        assert client.where()[1] == FIRST + 1 and client.value("pc") == "65544 (0x10008)"
        client.move("stepBack", granularity="instruction")
        assert client.value("pc") == "65540 (0x10004)"


def test_run_goes_through_breakpoints_both_ways(client: Client) -> None:
    ends = [("breakpoint", MULTIPLY)] * 2 + [("breakpoint", LAST)]
    assert moves(client, *["continue"] * 3) == ends
    assert moves(client, *["reverseContinue"] * 3) == [*ends[:2], ("entry", FIRST)]
    assert moves(client, *["continue"] * 3) == ends


def test_elements_are_shown_with_their_outcomes(client: Client) -> None:
    client.move("continue")
    assert first_words(elements(client, "v9")) == [100] * 8
    client.move("next")
    assert client.where()[1] == STORE
    assert first_words(elements(client, "v9")) == Y[:8]
    assert client.value("v9[2]") == f"{Y[2]} ({Y[2]:#010x})"
    texts = [row["value"] for row in elements(client, "destination v9", "Last instruction")]
    for index, (text, x, y) in enumerate(zip(texts, X, Y)):
        assert text.startswith(f"{y} ") and f"v9[{index}]" in text
        assert (f"{x} * 3 + 100 = {y}" if x > 4 else f"masked off by v0[{index}] = 0") in text
    assert "masked off by v0[1] = 0" in client.value("why v9[1]", context="repl")
    client.move("stepBack")
    assert first_words(elements(client, "v9")) == [100] * 8


def test_tail_follows_vl(client: Client) -> None:
    client.move("continue")
    client.move("continue")
    rows = elements(client, "v8")
    assert first_words(rows)[:5] == X[8:]
    assert ["tail" in row["value"].split() for row in rows] == [False] * 5 + [True] * 3
    state = {name: row["value"] for name, row in client.rows(client.scope("Vector state")).items()}
    assert state["vtype"].split() == ["e32,m1,ta,mu", "(0x50)"] and state["vl"].split()[0] == "5"
    assert state["v0.mask"] == "".join(f"{int(x > 4)}" for x in X[8:])


def test_groups_follow_the_vector_type(tmp_path: pathlib.Path) -> None:
    source = tmp_path / "groups.s"
    source.write_text("vsetivli x0, 9, e16, m4, ta, ma\nvid.v v8\nvsetivli x0, 2, e64, mf2, ta, ma\nebreak\n")
    with Client.in_thread() as client:
        client.launch(source, stopOnEntry=True)
        client.begin()
        assert len(client.rows(client.scope("Vector registers"))) == 32
        client.move("next")
        client.move("next")
        groups = client.rows(client.scope("Vector registers"))
        assert [*groups] == [f"v{at}-v{at + 3}" for at in range(0, 32, 4)]
        assert groups["v8-v11"]["indexedVariables"] == 64 and groups["v8-v11"]["type"] == "e16,m4,ta,ma"
        own = groups["v8-v11"]["variablesReference"]
        part = client.rows(own, start=7, count=3, format={"hex": True})
        assert [row["value"].split() for row in part.values()] == [["0x0007"], ["0x0008"], ["0x0000", "tail"]]
        assert "is in the group v8-v11" in client.refused("evaluate", expression="v9")
        client.move("next")  # SEW 64 and LMUL 1/2 are reserved, so vtype is vill
        assert client.rows(client.scope("Vector registers"))["v8"]["indexedVariables"] == 32


def test_data_breakpoints_stop_after_the_access_in_both_directions(client: Client) -> None:
    client.lines(SOURCE)
    info = client.ask("dataBreakpointInfo", name="y")
    assert "write" in info["accessTypes"]
    address = int(info["dataId"].split(":")[0], 16)
    watched = [{"dataId": f"{address + 40:x}:4", "accessType": "write"}]  # y[10], which the second round changes
    (found,) = client.ask("setDataBreakpoints", breakpoints=watched)["breakpoints"]
    assert found["verified"]
    stop = client.move("continue")
    assert (stop["reason"], stop["hitBreakpointIds"]) == ("data breakpoint", [found["id"]])
    assert client.where()[1] == STORE + 1
    memory = client.ask("readMemory", memoryReference=f"{address:#x}", count=52)
    values = base64.b64decode(memory["data"])
    assert [int.from_bytes(values[at : at + 4], "little") for at in range(0, 52, 4)] == Y
    assert moves(client, "continue", "reverseContinue", "reverseContinue") == [
        ("breakpoint", LAST),
        ("data breakpoint", STORE + 1),
        ("entry", FIRST),
    ]
    client.ask("setDataBreakpoints", breakpoints=[{**watched[0], "accessType": "readWrite", "condition": "vl == 8"}])
    assert moves(client, "continue") == [("breakpoint", LAST)]


def test_conditions_and_messages_decide_whether_a_breakpoint_stops(client: Client) -> None:
    (found,) = client.lines(SOURCE, MULTIPLY, condition="a0 == 5 && v8[0] == 5")
    assert found["verified"]
    assert moves(client, "continue", "continue", "reverseContinue") == [
        ("breakpoint", MULTIPLY),
        ("breakpoint", LAST),
        ("breakpoint", MULTIPLY),
    ]
    assert client.value("a0") == "5 (0x5)"
    client.lines(SOURCE, MULTIPLY, logMessage="left: {a0}, none: {nothing}")
    assert moves(client, "reverseContinue") == [("entry", FIRST)]
    assert "left: " not in client.output("console")  # the way back prints nothing again
    assert moves(client, "continue") == [("breakpoint", LAST)]
    printed = client.output("console")
    assert "left: 13 (0xd), none: {there is no symbol nothing}\n" in printed and "left: 5 (0x5), " in printed
    (found,) = client.lines(SOURCE, MULTIPLY, condition="a0 = 5")
    assert not found["verified"] and "a0 = 5 is no expression" in found["message"]
    (found,) = client.lines(SOURCE, MULTIPLY, hitCondition="2")
    assert not found["verified"] and "hit counts aren't supported" in found["message"]


def test_breakpoints_above_16_arent_verified(tmp_path: pathlib.Path) -> None:
    source = tmp_path / "many.s"
    source.write_text("addi x5, x5, 1\n" * 20 + "ebreak\n")
    with Client.in_thread() as client:
        client.launch(source, stopOnEntry=True)
        found = client.lines(source, *range(2, 20))
        assert [each["verified"] for each in found] == [True] * 16 + [False] * 2
        assert "has 16 breakpoints" in found[16]["message"] and "0 are left" in found[16]["message"]
        client.begin()
        assert client.move("continue")["reason"] == "breakpoint" and client.where()[1] == 2
        assert moves(client, "next", "next") == [("breakpoint", 3), ("breakpoint", 4)]
        (function,) = client.ask("setFunctionBreakpoints", breakpoints=[{"name": "none"}])["breakpoints"]
        assert not function["verified"] and "no function or label none" in function["message"]
        other = {"instructionReference": "0x10048"}
        (address,) = client.ask("setInstructionBreakpoints", breakpoints=[other])["breakpoints"]
        assert not address["verified"]
        client.lines(source, 2)
        event = client.event("breakpoint")["breakpoint"]  # there is room now
        assert event["id"] == address["id"] and event["verified"] and event["line"] == 19
        assert client.move("continue")["reason"] == "instruction breakpoint" and client.where()[1] == 19


def test_line_without_instructions_has_the_breakpoint_of_the_next_one(client: Client) -> None:
    comment = line_of(SOURCE, "# Elements that are masked off")
    found = client.lines(SOURCE, comment, LAST + 1)
    assert [each["verified"] for each in found] == [True, False] and found[0]["line"] == MULTIPLY
    (other,) = client.lines(SOURCE.with_name("other.s"), 3)
    assert not other["verified"] and "no instruction of a line of other.s" in other["message"]
    listed = client.ask("breakpointLocations", source={"path": f"{SOURCE}"}, line=MULTIPLY, endLine=STORE)
    assert [each["line"] for each in listed["breakpoints"]] == [MULTIPLY, STORE]


def test_calls_are_passed_entered_and_left(tmp_path: pathlib.Path) -> None:
    source = tmp_path / "calls.s"
    source.write_text(CALLS)
    with Client.in_thread() as client:
        client.launch(source, stopOnEntry=True)
        client.begin()
        assert moves(client, "next", "next") == [("step", 3), ("step", 4)] and client.value("a0") == "2 (0x2)"
        assert moves(client, "stepIn") == [("step", 8)]
        frames = client.ask("stackTrace", threadId=1)["stackFrames"]
        assert [(each["name"], each["line"]) for each in frames] == [("twice", 8), ("_start", 4)]
        assert moves(client, "stepOut") == [("step", 5)] and client.value("a0") == "4 (0x4)"
        assert len(client.ask("stackTrace", threadId=1)["stackFrames"]) == 1  # ra has an older address
        assert moves(client, "stepBack", "stepBack") == [("step", 4), ("step", 3)] and client.value("a0") == "1 (0x1)"
        client.lines(source, 9)
        assert moves(client, "continue", "next") == [("breakpoint", 9), ("step", 4)]
        assert moves(client, "next", "stepBack") == [("breakpoint", 9), ("step", 8)]
        client.lines(source)
        stop = client.move("continue")
        assert stop["reason"] == "exit" and "104" in stop["text"]
        client.ask("next", threadId=1)
        assert client.event("exited") == {"exitCode": 104} and client.event("terminated") == {}


def test_step_passes_a_loop_that_is_one_line(tmp_path: pathlib.Path) -> None:
    source = tmp_path / "loop.s"
    source.write_text("li t0, 200\nloop: addi t0, t0, -1; addi t1, t1, 2; bnez t0, loop\nli a0, 1\nebreak\n")
    with Client.in_thread() as client:
        client.launch(source, stopOnEntry=True)
        client.begin()
        assert moves(client, "next", "next") == [("step", 2), ("step", 3)]
        assert client.value("t0") == "0 (0x0)" and client.value("t1") == "400 (0x190)"
        assert moves(client, "stepBack") == [("step", 2)] and client.value("t0") == "1 (0x1)"  # the last round
        client.ask("setInstructionBreakpoints", breakpoints=[{"instructionReference": "loop", "offset": 8}])
        assert moves(client, "reverseContinue", "next") == [("instruction breakpoint", 2)] * 2
        assert client.value("t0") == "0 (0x0)"


def test_values_can_be_changed(client: Client) -> None:
    client.move("continue")
    scalars = client.scope("Scalar registers")
    assert client.ask("setVariable", variablesReference=scalars, name="x6/t1", value="10")["value"] == "10 (0xa)"
    group = client.rows(client.scope("Vector registers"))["v8"]["variablesReference"]
    assert client.ask("setVariable", variablesReference=group, name="[1]", value="-1")["value"] == "-1 (0xffffffff)"
    assert client.ask("setExpression", expression="v8[0]", value="0x10")["value"] == "16 (0x00000010)"
    client.move("next")
    assert client.value("v9[0]").split()[0] == "260" and client.value("v9[2]").split()[0] == "170"
    for name, value in (("x0/zero", "1"), ("x6/t1", "many"), ("x6/t1", "0x10000000000000000"), ("none", "1")):
        client.refused("setVariable", variablesReference=client.scope("Scalar registers"), name=name, value=value)
    for name, value in (("[8]", "1"), ("[0]", "4294967296")):
        group = client.rows(client.scope("Vector registers"))["v8"]["variablesReference"]
        client.refused("setVariable", variablesReference=group, name=name, value=value)
    client.move("stepBack")
    assert client.value("t1") == "10 (0xa)"  # a change that was made there stays


def test_memory_is_read_and_written(client: Client) -> None:
    address = int(client.value("x").split()[0])
    memory = client.ask("readMemory", memoryReference="x", count=8, offset=4)
    assert (
        base64.b64decode(memory["data"]) == bytes([2, 0, 0, 0, 7, 0, 0, 0]) and memory["address"] == f"{address + 4:#x}"
    )
    data = base64.b64encode(b"\5\0\0\0").decode()
    assert client.ask("writeMemory", memoryReference="x", offset=4, data=data) == {"bytesWritten": 4}
    client.move("continue")
    assert first_words(elements(client, "v8"))[:3] == [9, 5, 7]
    end = (address // 4096 + 1) * 4096
    memory = client.ask("readMemory", memoryReference=f"{end - 2:#x}", count=6)
    assert base64.b64decode(memory["data"]) == bytes(2) and memory["unreadableBytes"] == 4
    assert client.ask("readMemory", memoryReference="0x90000000", count=3) == {
        "address": "0x90000000",
        "unreadableBytes": 3,
    }
    assert "no memory is at" in client.refused("writeMemory", memoryReference=f"{end - 2:#x}", data=data)
    written = client.ask("writeMemory", memoryReference=f"{end - 2:#x}", data=data, allowPartial=True)
    assert written == {"bytesWritten": 2}
    client.refused("writeMemory", memoryReference="x", data="no base64")
    client.refused("readMemory", memoryReference="nowhere", count=1)
    client.refused("readMemory", memoryReference="x", count=-1)


def test_last_instruction_is_the_one_that_was_executed(client: Client) -> None:
    client.move("continue")
    client.move("next")
    pc = int(client.value("pc").split()[0])
    nop = base64.b64encode(bytes([0x13, 0, 0, 0])).decode()
    assert client.ask("writeMemory", memoryReference=f"{pc - 4:#x}", data=nop) == {"bytesWritten": 4}
    rows = client.rows(client.scope("Last instruction"))
    assert rows["instruction"]["value"].startswith("vmacc.vx v9, x6, v8, v0.t ")
    assert client.value("why v9[0]", context="repl").count("9 * 3 + 100 = 127") == 1
    listed = client.ask("disassemble", memoryReference=f"{pc - 4:#x}", instructionCount=1)
    assert listed["instructions"][0]["instruction"] == "addi x0, x0, 0"


def test_instructions_are_listed_with_their_lines(client: Client) -> None:
    listed = client.ask("disassemble", memoryReference="0x10000", instructionOffset=-1, instructionCount=4)
    rows = listed["instructions"]
    assert [row["address"] for row in rows] == ["0xfffc", "0x10000", "0x10004", "0x10008"]
    assert [row["instruction"] for row in rows[1:]] == ["addi x10, x0, 13", "auipc x11, 1", "addi x11, x11, -4"]
    assert rows[1]["instructionBytes"] == "13 05 d0 00"  # by the manual: imm 13, rs1 0, rd 10, opcode 0x13
    assert [row.get("line") for row in rows] == [None, FIRST, FIRST + 1, None]
    assert rows[0]["presentationHint"] == "invalid"


def test_expressions_hovers_and_completions_are_answered(client: Client) -> None:
    client.move("continue")
    assert client.value("a0 + v8[0]") == "22 (0x16)" and client.value("vl == 8") == "1 (0x1)"
    assert client.value("a0", format={"hex": True}) == "0xd"
    assert client.value("vmacc.vx", context="hover").startswith("vmacc.vx vd, rs1, vs2[, v0.t]: ")
    assert client.value("t1", context="hover") == "3 (0x3)"
    for context in (
        "repl",
        "hover",
        "watch",
        "",
    ):  # dap-mode evaluates what a user types as a hover, and Kate without a context
        assert "vadd.vv" in client.value("help vadd.vv", context=context)
        assert client.value("why v8[0]", context=context).startswith("v8[0] ")
    client.refused("evaluate", expression="why", context="hover")
    assert client.refused("evaluate", expression="((int *)1)[0]") == "memory at 0x1 can't be read"
    for text in ("nothing", "v8[8]", "v32", "a0[1]", "vmacc.vx", "1 +"):
        client.refused("evaluate", expression=text)
    assert client.value("((int32_t *)x)[4]") == "8 (0x8)" and client.value("*(uint16_t *)(y + 2)") == "0 (0x0)"
    assert client.value("((int32_t *)a2)[vl - 1] == 100 && *(int *)a1 == v8[0]") == "1 (0x1)"
    assert "((int32_t *)y)[2]" in client.refused("evaluate", expression="y[2]")
    targets = client.ask("completions", text="a0 + vst", column=9)["targets"]
    assert targets == [{"label": "vstart", "start": 5, "length": 3}]


def test_number_at_an_address_is_watched(client: Client) -> None:
    client.move("continue")
    y = int(client.value("y").split()[0])
    info = client.ask("dataBreakpointInfo", name="((int32_t *)y)[2]")
    assert info["dataId"] == f"{y + 8:x}:4"
    for number in (0, -1):
        client.refused("dataBreakpointInfo", name=f"{y:#x}", asAddress=True, bytes=number)
    client.lines(SOURCE)
    client.ask("setDataBreakpoints", breakpoints=[{"dataId": info["dataId"], "accessType": "write"}])
    assert client.move("continue")["reason"] == "data breakpoint"
    assert client.where()[1] == STORE + 1 and client.value("((int32_t *)y)[2]") == f"{Y[2]} ({Y[2]:#x})"


def test_source_has_the_path_by_which_it_was_launched(tmp_path: pathlib.Path) -> None:
    link = tmp_path / "link.s"
    link.symlink_to(SOURCE)
    with Client.in_thread() as client:
        client.launch(link, stopOnEntry=True)
        (found,) = client.lines(link, MULTIPLY)
        assert found["verified"] and found["source"]["path"] == f"{link}"
        client.begin()
        assert client.ask("stackTrace", threadId=1)["stackFrames"][0]["source"]["path"] == f"{link}"


def test_illegal_instruction_is_explained(tmp_path: pathlib.Path) -> None:
    source = tmp_path / "illegal.s"
    source.write_text("vsetivli x0, 4, e64, m2, ta, ma\nvid.v v2\nvadd.vv v3, v2, v2\nebreak\n")
    with Client.in_thread() as client:
        client.launch(source)
        stop = client.begin()
        assert stop["reason"] == "exception" and client.where()[1] == 3
        info = client.ask("exceptionInfo", threadId=1)
        assert info["description"].endswith(
            "The vector type has LMUL 2, so register groups begin at even registers: v3 is odd."
        )
        assert client.rows(client.scope("Last instruction"))["instruction"]["value"].startswith("vadd.vv v3, v2, v2 ")
        assert client.move("continue")["reason"] == "exception"  # it faults again
        assert moves(client, "stepBack") == [("step", 2)]
        client.refused("exceptionInfo", threadId=1)


def test_end_of_a_source_is_an_exit(tmp_path: pathlib.Path) -> None:
    source = tmp_path / "short.s"
    source.write_text("li a0, 3\n")
    with Client.in_thread() as client:
        client.launch(source)
        assert client.begin()["reason"] == "exit"
        assert moves(client, "stepBack") == [("step", 1)]
        assert client.move("continue")["reason"] == "exit"
        client.ask("continue", threadId=1)
        assert client.event("exited") == {"exitCode": 0} and client.event("terminated") == {}


def test_restart_builds_the_source_again(tmp_path: pathlib.Path) -> None:
    source = tmp_path / "edited.s"
    source.write_text(COUNTDOWN)
    with Client.in_thread() as client:
        client.launch(source, stopOnEntry=True)
        store = line_of(source, "store:")
        client.lines(source, store)
        client.begin()
        assert moves(client, "continue") == [("breakpoint", store)] and client.value("t0") == "3 (0x3)"
        source.write_text(COUNTDOWN.replace("x0, 3", "x0, 7"))
        client.ask("restart")
        assert client.event("stopped")["reason"] == "entry"
        assert moves(client, "continue") == [("breakpoint", store)] and client.value("t0") == "7 (0x7)"
        source.write_text("addi x5, x0\nadd.vv v1, v2\n")
        assert f"{source}:1:" in client.refused("restart")
        assert client.value("t0") == "7 (0x7)"  # the program before is still there
        assert moves(client, "next") == [("step", store + 1)]

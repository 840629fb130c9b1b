"""The debug adapter with sources in C and with images: frames, variables, and steps over calls and inlined functions.

The numbers of `above.c` are calculated here, those of `total` and `prefix_sums` by hand; where functions are entered is what gdb shows
(lab/tests/gdb).
"""

import pathlib
from collections.abc import Iterator

import pytest

from support.dap_client import Client, line_of
from support.places import EXAMPLES, PREFIX_SUMS, SQUARES, SUM, SUM_DWARF4, SUM_DWARF5, TOTAL
from vecmon_lab.compilers.compiler import RUNTIME, Compiler

ABOVE = EXAMPLES / "above.c"
NUMBERS = [i * 37 % 101 for i in range(100)]
ADD = line_of(ABOVE, "sums = __riscv_vadd")

CALLS = """\
#include "vecmon.h"

struct pair { int first; unsigned char second; };
static short table[2][3] = {{1, 2, 3}, {-4, 5, 6}};
static const char *name = "none";
static char text[] = "two\\nlines";
int count = 7;

__attribute__((noinline)) static int depth(int number)
{
    int below = number > 0 ? depth(number - 1) : 0;
    return below + number;
}

int main(int argc, char **argv)
{
    struct pair pair = {argc, 'x'};
    count += depth(4);
    table[1][0] = (short)count;
    put(text, sizeof text - 1);
    return count + pair.first + (name != argv[0]);
}
"""

PARTS = """\
#include <riscv_vector.h>
#include <stddef.h>
#include <stdint.h>

struct pair { int first; unsigned char second; };
struct node {
    struct node *next;
    struct pair both;
    union { int32_t whole; uint8_t bytes[4]; };
    unsigned low : 3;
    int high : 5;
};
static struct node nodes[2] = {{nodes + 1, {1, 'x'}, {258}, 5, -3}, {NULL, {2, 'y'}, {513}, 7, 15}};
static int table[3];

int main(void)
{
    struct node *at = nodes;
    void *any = at;
    size_t vl = __riscv_vsetvl_e32m2(11);
    vint32m2_t x = __riscv_vsub(__riscv_vreinterpret_i32m2(__riscv_vid_v_u32m2(vl)), 4, vl);
    vbool16_t below = __riscv_vmslt(x, 0, vl);
    vuint8mf2_t bytes = __riscv_vid_v_u8mf2(vl);
    __riscv_vse32_v_i32m1(table, __riscv_vget_i32m1(x, 0), 3);
    table[0] += __riscv_vcpop(below, vl) + (int)__riscv_vmv_x(bytes) + (any != NULL);
    return at->low + table[0];
}
"""

MERGED = """\
__attribute__((noinline)) static int twice(int number)
{
    __asm__ volatile("nop");
    return 2 * number;
}

int main(int argc, char **argv)
{
    int got;
    if (argv[0][0] == 'x')
        got = twice(argc + 5) + 3;
    else
        got = twice(argc + 7) + 3;
    return got;
}
"""
"""The compiler merges the two calls, and gives line 0 to the call and to the addition after it."""

SCALE = """\
#include <riscv_vector.h>
#include <stddef.h>
#include <stdint.h>

int16_t from[20];
int32_t to[20];

__attribute__((noinline)) static void scale(size_t n, const int16_t *x, int32_t *y)
{
    for (size_t vl; n > 0; n -= vl, x += vl, y += vl) {
        vl = __riscv_vsetvl_e16m1(n);
        __riscv_vse32(y, __riscv_vwmul(__riscv_vle16_v_i16m1(x, vl), 1000, vl), vl);
    }
}

int main(void)
{
    for (int i = 0; i < 20; i++)
        from[i] = (int16_t)(i - 3);
    scale(20, from, to);
    return to[19] & 0x7f;
}
"""


@pytest.fixture
def above(clang: Compiler) -> Iterator[Client]:
    """A client with `above.c`, stopped at its first line, with a breakpoint at the addition."""
    with Client.in_thread() as client:
        client.launch(ABOVE, stopOnEntry=True, options="O2", compiler=clang.name)
        (found,) = client.lines(ABOVE, ADD)
        assert found["verified"] and found["line"] == ADD
        client.begin()
        yield client


@pytest.fixture
def calls(clang: Compiler, tmp_path: pathlib.Path) -> Iterator[tuple[Client, pathlib.Path]]:
    """A client with a source that isn't optimized, stopped at `main`, and its path."""
    source = tmp_path / "calls.c"
    source.write_text(CALLS)
    with Client.in_thread() as client:
        client.launch(source, stopOnEntry=True, options="O0", compiler=clang.name)
        client.begin()
        yield client, source


def texts(client: Client, scope: str, frame: int = 1) -> dict[str, str]:
    """The values in a scope."""
    return {name: row["value"] for name, row in client.rows(client.scope(scope, frame)).items()}


def test_inlined_function_has_a_frame_and_variables(above: Client) -> None:
    assert above.move("continue")["reason"] == "breakpoint"
    frames = above.ask("stackTrace", threadId=1)["stackFrames"]
    call = line_of(ABOVE, "numbers[0] = sum(")
    assert [(each["name"], each["line"]) for each in frames] == [("sum", ADD), ("_start", call)]
    assert {each["source"]["path"] for each in frames} == {f"{ABOVE}"}
    variables = texts(above, "Locals")
    assert variables["length"] == "16" and variables["count"] == "100"
    assert texts(above, "Locals", 2)["above"] == f"{sum(each > 50 for each in NUMBERS[:16])}"
    numbers = above.rows(above.scope("Globals"))["numbers"]
    part = above.rows(numbers["variablesReference"], start=90, count=3)
    assert [row["value"] for row in part.values()] == [f"{each}" for each in NUMBERS[90:93]]
    assert above.value("numbers[99]") == f"{NUMBERS[99]}" and above.value("numbers[1] * 2") == "74 (0x4a)"
    above.move("continue")
    assert texts(above, "Locals", 2)["above"] == f"{sum(each > 50 for each in NUMBERS[:32])}"


def test_inlined_function_is_left(above: Client) -> None:
    above.move("continue")
    above.lines(ABOVE)
    above.move("stepOut")
    assert above.where()[0] == "_start"
    above.move("stepBack")
    above.lines(ABOVE, ADD)
    above.move("reverseContinue")
    assert above.where() == ("sum", ADD)


def test_step_out_ends_at_a_line(clang: Compiler, tmp_path: pathlib.Path) -> None:
    source = tmp_path / "merged.c"
    source.write_text(MERGED)
    with Client.in_thread() as client:
        client.launch(source, options="O2", compiler=clang.name)
        client.lines(source, line_of(source, "asm"))
        client.begin()
        assert client.where()[0] == "twice"
        client.ask("stepOut", threadId=1, granularity="instruction")
        client.event("stopped")
        (frame, *_) = client.ask("stackTrace", threadId=1)["stackFrames"]
        assert frame["name"] == "main" and "source" not in frame  # a premise
        client.move("stepBack")
        client.move("stepOut")
        assert client.where() == ("main", line_of(source, "return got"))


def test_exit_status_comes_after_the_stop_at_the_exit(above: Client) -> None:
    above.lines(ABOVE)
    stop = above.move("continue")
    status = sum(each > 50 for each in NUMBERS)
    assert stop["reason"] == "exit" and f"status {status}." in stop["text"]
    above.lines(ABOVE, ADD)
    assert above.move("reverseContinue")["reason"] == "breakpoint"
    above.lines(ABOVE)
    assert above.move("continue")["reason"] == "exit"
    above.ask("continue", threadId=1)
    assert above.event("exited") == {"exitCode": status} and above.event("terminated") == {}


def test_recursive_calls_have_frames(calls: tuple[Client, pathlib.Path]) -> None:
    client, source = calls
    assert client.where()[0] == "main"
    returns = line_of(source, "return below")
    client.lines(source, returns)
    client.move("continue")
    frames = client.ask("stackTrace", threadId=1)["stackFrames"]
    assert [each["name"] for each in frames][:7] == [*["depth"] * 5, "main", "_start"]
    assert [texts(client, "Locals", frame)["number"] for frame in range(1, 6)] == ["0", "1", "2", "3", "4"]
    part = client.ask("stackTrace", threadId=1, startFrame=4, levels=2)
    assert [each["id"] for each in part["stackFrames"]] == [5, 6] and part["totalFrames"] == len(frames)
    client.lines(source)
    client.move("stepOut")
    assert client.where()[0] == "depth" and texts(client, "Locals")["number"] == "1"
    client.move("next")
    assert client.where() == ("depth", returns) and texts(client, "Locals")["below"] == "0"
    client.move("stepBack")
    assert client.where() == ("depth", line_of(source, "int below"))
    assert texts(client, "Locals")["number"] == "1"


def test_step_passes_a_recursive_call_both_ways(calls: tuple[Client, pathlib.Path]) -> None:
    client, source = calls
    first = line_of(source, "count += depth")
    client.lines(source, first)
    client.move("continue")
    client.lines(source)
    client.move("next")
    assert client.where() == ("main", first + 1) and client.value("count") == "17"
    client.move("stepBack")
    assert client.where() == ("main", first) and client.value("count") == "7"
    client.move("stepIn")
    assert client.where()[0] == "depth"


def test_values_have_their_types(calls: tuple[Client, pathlib.Path]) -> None:
    client, source = calls
    client.lines(source, line_of(source, "put(text"))
    client.move("continue")
    shared = client.rows(client.scope("Globals"))
    assert shared["table"]["value"] == "{{1, 2, 3}, {17, 5, 6}}" and shared["table"]["type"] == "short table[2][3]"
    row = client.rows(shared["table"]["variablesReference"])["[1]"]
    assert [each["value"] for each in client.rows(row["variablesReference"]).values()] == ["17", "5", "6"]
    assert shared["text"]["value"] == '"two\\nlines"' and shared["name"]["value"].startswith("0x")
    reference = client.scope("Globals")
    assert client.ask("setVariable", variablesReference=reference, name="count", value="-20")["value"] == "-20"
    assert client.ask("setExpression", expression="table[0][2]", value="0x7f")["value"] == "127"
    assert client.value("table[0][2] + count") == "107 (0x6b)"
    for name, value in (("count", "4294967296"), ("table", "1"), ("count", "x")):
        client.refused("setVariable", variablesReference=reference, name=name, value=value)
    info = client.ask("dataBreakpointInfo", variablesReference=row["variablesReference"], name="[1]")
    assert info["dataId"].endswith(":2")
    assert client.ask("dataBreakpointInfo", name="a0")["dataId"] is None
    client.move("next")
    assert client.output() == "two\nlines"


def test_data_breakpoint_at_a_variable_goes_back_to_its_change(calls: tuple[Client, pathlib.Path]) -> None:
    client, source = calls
    client.move("continue")
    info = client.ask("dataBreakpointInfo", name="count")
    client.ask("setDataBreakpoints", breakpoints=[{"dataId": info["dataId"], "accessType": "write"}])
    assert client.move("reverseContinue")["reason"] == "data breakpoint"
    assert client.where() == ("main", line_of(source, "count += depth") + 1)  # the store is the line's last instruction
    assert client.value("count") == "17"
    client.move("stepBack")
    assert client.value("count") == "7"


def test_pointers_have_elements(clang: Compiler, tmp_path: pathlib.Path) -> None:
    """In the second round x[0] is from[16], which is 13, and y[0] is to[16]; the others are calculated by hand."""
    source = tmp_path / "scale.c"
    source.write_text(SCALE)
    with Client.in_thread() as client:
        client.launch(source, options="O0", compiler=clang.name)
        (found,) = client.lines(source, line_of(source, "vse32"), condition="x[0] == 13 && *x > x[-1]")
        assert found["verified"]
        assert client.begin()["reason"] == "breakpoint"
        values = {"x[0]": "13", "x[vl - 1]": "16", "x[-1]": "12", "y[-1]": "12000", "n": "4"}
        assert {text: client.value(text) for text in values} == values
        assert client.value("*(y - 2) + 1") == "11001 (0x2af9)"
        to = int(client.value("y"), 16)
        assert client.value("y + 1") == f"{to + 4} ({to + 4:#x})" and client.value("y + 1 - y") == "1 (0x1)"
        info = client.ask("dataBreakpointInfo", name="y[-15]")
        assert info["dataId"] == f"{to - 60:x}:4"
        client.lines(source)
        client.ask("setDataBreakpoints", breakpoints=[{"dataId": info["dataId"], "accessType": "write"}])
        assert client.move("reverseContinue")["reason"] == "data breakpoint"
        assert client.value("n") == "20" and client.value("y[1]") == "-2000"
        client.ask("setExpression", expression="y[1]", value="-7")
        assert client.value("*(y + 1)") == "-7 (0xfffffffffffffff9)"
        for text in ("n[0]", "*n", "x - y", "scale[0]"):
            client.refused("evaluate", expression=text)


@pytest.fixture
def parts(clang: Compiler, tmp_path: pathlib.Path) -> Iterator[Client]:
    """A client with structures, pointers and vectors on the stack, stopped before `main` returns."""
    source = tmp_path / "parts.c"
    source.write_text(PARTS)
    with Client.in_thread() as client:
        client.launch(source, options="O0", compiler=clang.name)
        client.lines(source, line_of(source, "return at->low"))
        client.begin()
        yield client


def test_structures_pointers_and_vectors_have_parts(parts: Client) -> None:
    """The values are those of the initializers; vl is 11, and the elements of x are their indices less 4."""
    own, nodes = parts.rows(parts.scope("Locals")), parts.rows(parts.scope("Globals"))["nodes"]
    second = "{next = 0x0, both = {first = 2, second = 121}, whole = 513, bytes = {1, 2, 0, 0}, low = 7, high = 15}"
    (pointed,) = parts.rows(own["at"]["variablesReference"]).values()
    assert pointed["name"] == "*at" and pointed["value"].endswith(
        "both = {first = 1, second = 120}, whole = 258, " "bytes = {2, 1, 0, 0}, low = 5, high = -3}"
    )
    fields = parts.rows(pointed["variablesReference"])
    assert [*fields] == ["next", "both", "whole", "bytes", "low", "high"] and fields["high"]["value"] == "-3"
    (after,) = parts.rows(fields["next"]["variablesReference"]).values()
    assert after["value"] == second == parts.value(after["evaluateName"])
    assert nodes["indexedVariables"] == 2
    assert parts.rows(nodes["variablesReference"])["[1]"]["value"] == second
    assert parts.rows(parts.rows(nodes["variablesReference"])["[1]"]["variablesReference"])["next"]["value"] == "0x0"
    assert own["any"]["variablesReference"] == 0
    x = [row["value"] for row in parts.rows(own["x"]["variablesReference"]).values()]
    assert len(x) == 16 and x[:11] == [f"{index - 4}" for index in range(11)]
    below = [row["value"] for row in parts.rows(own["below"]["variablesReference"], count=11).values()]
    assert below == [f"{int(index < 4)}" for index in range(11)]
    assert [parts.value(f"bytes[{index}]") for index in (0, 10)] == ["0", "10"] and own["bytes"][
        "indexedVariables"
    ] == 16
    assert parts.value("at->next->both.second + x[0]") == "117 (0x75)" and parts.value("(*at).low == 5") == "1 (0x1)"
    parts.ask("setExpression", expression="at->both.first", value="-9")
    assert parts.value("nodes[0].both") == "{first = -9, second = 120}"
    info = parts.ask("dataBreakpointInfo", name="nodes[1].both.second")
    assert info["dataId"] == f"{int(after['memoryReference'], 16) + 12:x}:1"
    for text in (
        "at->nothing",
        "at.next",
        "*any",
        "nodes[2]",
        "x[16]",
        "any->next",
        "at->low.x",
        "((int *)at)->low",
        "a0.x",
    ):
        parts.refused("evaluate", expression=text)
    parts.refused("setExpression", expression="at->low", value="1")  # a bit field


@pytest.mark.parametrize("image", TOTAL)
def test_image_of_gcc_has_frames_and_locals(image: pathlib.Path) -> None:
    with Client.in_thread() as client:
        client.launch(image, stopOnEntry=True)
        (found,) = client.ask("setFunctionBreakpoints", breakpoints=[{"name": "total"}])["breakpoints"]
        assert found["verified"]
        client.begin()
        assert client.move("continue")["reason"] == "function breakpoint"
        frames = client.ask("stackTrace", threadId=1)["stackFrames"]
        assert [each["name"] for each in frames] == ["total", "main", "_start"]
        assert frames[0]["source"]["path"] == f"{image.with_name('total.c')}"
        assert frames[2]["source"]["path"] == f"{RUNTIME / 'runtime.c'}"
        assert client.rows(client.scope("Locals", 2))["first"]["value"] == "0"
        numbers = client.rows(client.scope("Globals"))["numbers"]
        assert numbers["value"] == "{0, 1, 4, 9, 16, 25, 36, 49, 64, 81}"


@pytest.mark.parametrize("image", PREFIX_SUMS)
def test_image_of_clang_has_globals(image: pathlib.Path) -> None:
    with Client.in_thread() as client:
        client.launch(image)
        client.lines(image.with_name("prefix_sums.c"), 51)
        assert client.begin()["reason"] == "breakpoint"
        assert client.rows(client.scope("Globals"))["numbers"]["type"] == "uint32_t numbers[50]"
        assert client.value("numbers[49]") == "0"


@pytest.mark.parametrize("image", [SUM_DWARF4, SUM_DWARF5])
def test_arguments_of_an_inlined_function_are_found(image: pathlib.Path) -> None:
    """At line 23 gdb 13.1 shows count=100 and v10 with the squares of 0 to 7 (docs/DEBUGGING.md)."""
    with Client.in_thread() as client:
        client.launch(image, stopOnEntry=True)
        (found,) = client.lines(pathlib.Path("/nowhere/sum.c"), 23)
        assert found["verified"] and found["source"]["path"] == "/nowhere/sum.c"
        client.begin()
        client.move("continue")
        assert client.where() == ("sum", 23)
        assert client.rows(client.scope("Locals"))["count"]["value"] == "100"
        group = client.rows(client.scope("Vector registers"))["v10-v11"]["variablesReference"]
        values = [row["value"].split()[0] for row in client.rows(group, count=8).values()]
        assert values == [f"{at * at}" for at in range(8)]


def test_fault_of_an_image_without_debug_data_is_explained() -> None:
    """The store and its element are those of docs/COMPILING.md."""
    with Client.in_thread() as client:
        client.launch(SQUARES)
        assert client.begin()["reason"] == "exception"
        info = client.ask("exceptionInfo", threadId=1)
        assert info["description"].startswith("The store at 0x10198 may not write from 0x12000 on: ")
        (frame, *_) = client.ask("stackTrace", threadId=1)["stackFrames"]
        assert frame["instructionPointerReference"] == "0x10198" and "source" not in frame
        rows = client.rows(client.scope("Last instruction"))["data v8-v9"]["variablesReference"]
        outcomes = [row["value"].split(")  ")[1] for row in client.rows(rows, start=13, count=3).values()]
        assert outcomes == ["before vstart", "fault", "not reached"]


def test_output_and_end_of_an_image_without_stops() -> None:
    with Client.started() as client:
        client.launch(SUM, noDebug=True, args=["a", "b"])
        client.ask("configurationDone")
        assert client.event("exited") == {"exitCode": 0} and client.output() == "328350\n"
        client.event("terminated")
        client.ask("disconnect")
        with pytest.raises(EOFError):
            client.message()


def test_mistakes_of_a_source_are_listed(clang: Compiler, tmp_path: pathlib.Path) -> None:
    wrong, source, right = (tmp_path / name for name in ("wrong.c", "wrong.s", "right.s"))
    wrong.write_text("int main(void) { return nothing; }\nint other(void) { return 1 }\n")
    source.write_text("vadd.vv v1, v2, 3\nvad.vv v1, v2, v3\nli a0\n")
    right.write_text("ebreak\n")
    with Client.started() as client:
        client.ask("initialize")
        numbers = [client.post("launch", program=f"{wrong}", compiler=clang.name)]
        numbers += [client.post("launch", program=f"{path}", stopOnEntry=True) for path in (source, right)]
        lines = client.response(numbers[0])["message"].split("\n")
        assert [line.split(": ")[0] for line in lines] == [f"{wrong}:1:25", f"{wrong}:2:27"]
        lines = client.response(numbers[1])["message"].split("\n")
        assert [line.removeprefix(f"{source}:").split(":")[0] for line in lines] == ["1", "2", "3"]
        assert client.response(numbers[2])["success"]
        assert client.begin()["reason"] == "entry"

"""LLDB and its debug adapter with the machine: locals, vector registers and the vector type, compared with values from gdb and by hand."""

import pathlib
import re
import shutil
import subprocess
import sys
from collections.abc import Iterator

import pytest

from support.dap_client import Client
from support.places import SUM_DWARF4, SUM_DWARF5, TOP
from support.skips import NO_LLDB, leave_out


GDB = [sys.executable, "-m", "vecmon_lab", "gdb"]
SQUARES = [number * number for number in range(16)]


@pytest.fixture(params=[SUM_DWARF4, SUM_DWARF5])
def served(request: pytest.FixtureRequest) -> Iterator[tuple[pathlib.Path, int]]:
    """An image, and the port where a machine with it is served."""
    if not shutil.which("lldb-19"):
        leave_out(NO_LLDB)
    with subprocess.Popen([*GDB, "--port", "0", request.param], cwd=TOP, stdout=subprocess.PIPE) as program:
        try:
            assert program.stdout
            found = re.search(rb":([0-9]+)\n", program.stdout.readline())
            assert found
            yield request.param, int(found[1])
        finally:
            program.kill()


def test_lldb_shows_locals_and_vectors(served: tuple[pathlib.Path, int]) -> None:
    """At line 23 of sum.c gdb 13.1 shows count=100 (docs/DEBUGGING.md)."""
    image, port = served
    commands = (
        f"target create {image}",
        "breakpoint set -f sum.c -l 23",
        f"gdb-remote 127.0.0.1:{port}",
        "continue",
        "frame variable count length",
        "register read a0 vtype v10",
        "next",
    )
    words = [word for command in commands for word in ("-o", command)]
    done = subprocess.run(["lldb-19", "--no-lldbinit", "-b", *words], capture_output=True, text=True)
    assert "(size_t) count = 100\n" in done.stdout, done
    assert re.search(r"^ *x10 = 0x[0-9a-f]{16}$", done.stdout, re.MULTILINE)
    assert re.search(r"\(vill = 0, ma = 1, ta = 1, sew = e32, lmul = m2\)", done.stdout)
    (data,) = re.findall(r"v10 = \{(.*)\}", done.stdout)
    values = bytes(int(word, 16) for word in data.split())
    assert [int.from_bytes(values[at : at + 4], "little") for at in range(0, 32, 4)] == SQUARES[:8]
    assert "stop reason = step over" in done.stdout


def test_adapter_of_lldb_shows_locals(served: tuple[pathlib.Path, int]) -> None:
    image, port = served
    pipe = subprocess.PIPE
    with subprocess.Popen(["lldb-dap-19"], stdin=pipe, stdout=pipe, stderr=pipe, bufsize=0) as program:
        assert program.stdin and program.stdout
        client = Client(program.stdout.fileno(), program.stdin.fileno())
        try:
            client.ask("initialize", adapterID="lldb", linesStartAt1=True, pathFormat="path")
            own = {
                "program": f"{image}",
                "gdb-remote-port": port,
                "gdb-remote-hostname": "127.0.0.1",
                "stopOnEntry": True,
            }
            client.ask("attach", **own)
            client.event("initialized")
            client.lines(pathlib.Path("sum.c"), 23)
            client.ask("configurationDone")
            (thread,) = client.ask("threads")["threads"]
            client.event("stopped")
            client.ask("continue", threadId=thread["id"])
            client.event("stopped")
            (frame, *_) = client.ask("stackTrace", threadId=thread["id"])["stackFrames"]
            scopes = {
                each["name"]: each["variablesReference"] for each in client.ask("scopes", frameId=frame["id"])["scopes"]
            }
            assert client.rows(scopes["Locals"])["count"]["value"] == "100"
        finally:
            program.kill()  # it would end by SIGPIPE, and leave files

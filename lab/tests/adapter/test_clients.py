"""The process of the debug adapter: its clients go away, at any moment; signals, ports, and programs that don't end."""

import fcntl
import os
import pathlib
import re
import signal
import socket
import subprocess
import sys
import termios
import time
from collections.abc import Iterator

import pytest

from support.busy_host import PATIENCE
from support.dap_client import DAP, Client
from support.places import EXAMPLES, TOP
from vecmon_lab.__main__ import main

SOURCE = EXAMPLES / "strip_mined.s"
ENDLESS = "loop: addi t0, t0, 1\nj loop\n"
PRINTING = "loop: li a7, 64\nli a0, 1\nli a2, 4096\nli a1, 0x10000\necall\nj loop\n"


@pytest.fixture
def client() -> Iterator[Client]:
    """A client of the command, which has got nothing."""
    with Client.started() as client:
        yield client


@pytest.fixture
def endless(tmp_path: pathlib.Path) -> pathlib.Path:
    """A source whose program doesn't end."""
    source = tmp_path / "endless.s"
    source.write_text(ENDLESS)
    return source


def test_endless_program_is_paused_and_answers_meanwhile(client: Client, endless: pathlib.Path) -> None:
    client.launch(endless)
    client.ask("configurationDone")
    assert client.ask("threads")["threads"] == [{"id": 1, "name": "endless.s"}]
    assert "pause it first" in client.refused("stackTrace", threadId=1)
    client.ask("pause", threadId=1)
    assert client.event("stopped")["reason"] == "pause"
    before = int(client.value("t0").split()[0])
    assert before > 0
    client.ask("continue", threadId=1)
    (found,) = client.lines(endless, 2)  # while it runs
    assert found["verified"] and client.event("stopped")["reason"] == "breakpoint" and client.where()[1] == 2
    assert int(client.value("t0").split()[0]) > before
    assert client.move("reverseContinue")["reason"] == "breakpoint"
    client.lines(endless)
    client.ask("stepOut", threadId=1)
    client.ask("pause", threadId=1)
    assert client.event("stopped")["reason"] == "pause"
    client.ask("continue", threadId=1)
    client.ask("restart")
    assert client.event("stopped")["reason"] == "pause" and client.event("continued")["threadId"] == 1
    client.ask("pause", threadId=1)
    assert client.event("stopped")["reason"] == "pause"
    client.ask("continue", threadId=1)
    client.ask("terminate")
    client.event("terminated")
    client.ask("disconnect")
    with pytest.raises(EOFError):
        client.message()
    assert client.program and client.program.wait() == 0


@pytest.mark.parametrize("is_running", [False, True])
def test_adapter_ends_with_its_client(client: Client, endless: pathlib.Path, is_running: bool) -> None:
    client.launch(endless, stopOnEntry=not is_running)
    client.ask("configurationDone")
    assert client.program and client.program.stdin
    client.program.stdin.close()
    assert client.program.wait() == 0


def test_adapter_ends_with_its_client_whose_requests_wait_for_a_step(
    endless: pathlib.Path, tmp_path: pathlib.Path
) -> None:
    folder = tmp_path / "temporary"
    folder.mkdir()
    with Client.started(env={**os.environ, "TMPDIR": f"{folder}"}) as client:
        client.launch(endless, stopOnEntry=True)
        client.begin()
        client.ask("stepOut", threadId=1)  # there is no way out of the loop
        client.post("stackTrace", threadId=1)
        assert client.program and client.program.stdin and [*folder.iterdir()]
        number = client.program.pid
        (machine,) = pathlib.Path(f"/proc/{number}/task/{number}/children").read_text().split()
        client.program.stdin.close()
        assert client.program.wait(PATIENCE) == 0
    assert not [*folder.iterdir()] and not pathlib.Path(f"/proc/{machine}").exists()


def test_loop_of_a_conditional_breakpoint_is_paused_and_ends_with_its_client(
    client: Client, tmp_path: pathlib.Path
) -> None:
    source = tmp_path / "tight.s"
    source.write_text("li a0, 0\nloop: j loop\n")
    client.launch(source, stopOnEntry=True)
    client.lines(source, 2, condition="a0 == 1")
    client.begin()
    client.ask("continue", threadId=1)
    client.ask("pause", threadId=1)
    assert client.event("stopped")["reason"] == "pause"
    client.ask("continue", threadId=1)
    assert client.program and client.program.stdin
    client.program.stdin.close()
    assert client.program.wait(PATIENCE) == 0


@pytest.mark.parametrize("command", ["launch", "attach"])
def test_failed_launch_shows_its_mistakes_and_ends_the_debugging(
    client: Client, tmp_path: pathlib.Path, command: str
) -> None:
    source = tmp_path / "wrong.s"
    source.write_text("vfoo.vv v1, v2, v3\nli a0, 0\nvadd.vv v1, v2\n")
    client.ask("initialize")
    numbers = [client.post(command, program=f"{source}"), client.post("disconnect")]
    response = client.response(numbers[0])
    assert not response["success"] and client.event("terminated") == {}
    assert client.output("stderr") == f"{response['message']}\n"
    if command == "launch":
        assert re.findall(r"wrong\.s:(\d+):\d+: ", response["message"]) == ["1", "3"]
    assert client.response(numbers[1])["success"]
    assert client.program and client.program.wait(PATIENCE) == 0


def wait_for_full_pipe(number: int) -> None:
    """Wait until a pipe, of which this file descriptor reads, has bytes and their number doesn't rise any more."""
    counts = [0]
    while not counts[-1] or len(counts) < 20 or counts[-20] < counts[-1]:
        time.sleep(0.05)
        counts.append(int.from_bytes(fcntl.ioctl(number, termios.FIONREAD, bytes(4)), sys.byteorder))


def unignored() -> None:
    """Let SIGHUP end a process, even if these tests run under nohup."""
    signal.signal(signal.SIGHUP, signal.SIG_DFL)


@pytest.mark.parametrize("number, is_running", [(signal.SIGTERM, True), (signal.SIGHUP, False)])
def test_signal_ends_the_adapter_and_its_image(
    endless: pathlib.Path, tmp_path: pathlib.Path, number: signal.Signals, is_running: bool
) -> None:
    folder = tmp_path / "temporary"
    folder.mkdir()
    with Client.started(env={**os.environ, "TMPDIR": f"{folder}"}, preexec_fn=unignored) as client:
        client.launch(endless, stopOnEntry=not is_running)
        client.ask("configurationDone")
        assert client.program and [*folder.iterdir()]
        client.program.send_signal(number)
        assert client.program.wait(PATIENCE) == 128 + number
    assert not [*folder.iterdir()]


def test_client_that_reads_nothing_more_ends_the_adapter(client: Client, endless: pathlib.Path) -> None:
    client.launch(endless, stopOnEntry=True)
    assert client.program and client.program.stdout
    client.program.stdout.close()
    try:
        client.post("configurationDone")
    except BrokenPipeError:
        pass
    assert client.program.wait() == 0


def test_client_that_leaves_a_full_pipe_ends_the_adapter(tmp_path: pathlib.Path) -> None:
    """The client sends nothing more, and its end of the adapter's output is open, full and unread."""
    source, folder = tmp_path / "printing.s", tmp_path / "temporary"
    source.write_text(PRINTING)
    folder.mkdir()
    with Client.started(env={**os.environ, "TMPDIR": f"{folder}"}) as client:
        client.launch(source)
        client.ask("configurationDone")
        assert client.program and client.program.stdin and client.program.stdout and [*folder.iterdir()]
        number = client.program.pid
        (machine,) = pathlib.Path(f"/proc/{number}/task/{number}/children").read_text().split()
        wait_for_full_pipe(client.program.stdout.fileno())
        client.program.stdin.close()
        assert client.program.wait(PATIENCE) == 0
    assert not [*folder.iterdir()] and not pathlib.Path(f"/proc/{machine}").exists()


def test_bytes_that_are_no_messages_end_with_one_line() -> None:
    done = subprocess.run(DAP, input=b"run\n" * 2000, capture_output=True, cwd=TOP)
    assert done.returncode == 2 and done.stdout == b""
    assert re.fullmatch(rb"vecmon-lab: [^\n]*from an editor\n", done.stderr)


def test_port_takes_one_client(tmp_path: pathlib.Path) -> None:
    pipe = subprocess.PIPE
    with subprocess.Popen([*DAP, "--port", "0"], cwd=TOP, stdout=pipe, stderr=pipe) as program:
        try:
            assert program.stdout
            found = re.fullmatch(rb"listening at 127\.0\.0\.1:([0-9]+)\n", program.stdout.readline())
            assert found
            with socket.create_connection(("127.0.0.1", int(found[1]))) as connection:
                client = Client(connection.fileno(), connection.fileno())
                client.launch(SOURCE, stopOnEntry=True)
                assert client.begin()["reason"] == "entry"
                with pytest.raises(ConnectionRefusedError):
                    socket.create_connection(("127.0.0.1", int(found[1])))
            assert program.wait() == 0
        finally:
            program.kill()


def test_taken_port_is_reported(capsys: pytest.CaptureFixture[str], monkeypatch: pytest.MonkeyPatch) -> None:
    with socket.create_server(("127.0.0.1", 0)) as taken:
        port = taken.getsockname()[1]
        monkeypatch.setattr("sys.argv", ["vecmon-lab", "dap", "--port", f"{port}"])
        assert main() == 2
    assert re.fullmatch("vecmon-lab: [^\n]+\n", capsys.readouterr().err)


def test_environment_is_left_alone() -> None:
    """The adapter's own standard input isn't read by the programs that it starts."""
    with Client.started(env={**os.environ, "PYTHONUNBUFFERED": "1"}) as client:
        client.launch(SOURCE, stopOnEntry=True)
        numbers = [client.post("evaluate", expression="pc") for _ in range(3)]
        assert all(client.response(number)["success"] for number in numbers)

"""Messages of the Debug Adapter Protocol in pieces, together, and damaged; and output that the client doesn't read."""

import json
import os
import socket
import threading
from collections.abc import Iterator
from functools import partial

import pytest

from vecmon_lab.adapter import client_output
from vecmon_lab.adapter.client_output import ClientOutput
from vecmon_lab.adapter.wire import MAX_BYTES, BadMessage, Wire
from vecmon_lab.json_messages import BadContent, BadHead


def framed(text: str, head: str = "Content-Length: {}\r\n\r\n") -> bytes:
    """A message with its head."""
    return head.format(len(text.encode())).encode() + text.encode()


def request(number: int, command: str = "threads") -> str:
    """A request in JSON."""
    return json.dumps({"seq": number, "type": "request", "command": command})


class Pipe:
    """A pipe to a wire, and what the wire has written."""

    def __init__(self) -> None:
        source, self.target = os.pipe()
        self.written = list[bytes]()
        self.wire = Wire(source, self.written.append)

    def write(self, data: bytes) -> None:
        """Write bytes for the wire."""
        os.write(self.target, data)


@pytest.fixture
def pipe() -> Iterator[Pipe]:
    """A pipe to a wire."""
    yield Pipe()


def test_message_in_pieces_is_read_once_it_is_whole(pipe: Pipe) -> None:
    data = framed(request(1))
    for place in range(len(data) - 1):
        pipe.write(data[place : place + 1])
        assert not pipe.wire.waiting()
    pipe.write(data[-1:] + framed(request(2)) + framed(request(3)))
    assert [each["seq"] for each in pipe.wire.waiting()] == [1, 2, 3]
    assert [pipe.wire.receive()["seq"] for _ in range(3)] == [1, 2, 3]


@pytest.mark.parametrize(
    "head",
    [
        "Content-Length: {}\r\nContent-Type: application/vscode-jsonrpc; charset=utf-8\r\n\r\n",
        "Content-Type: a\r\ncontent-length:{}\r\n\r\n",
    ],
)
def test_other_fields_of_a_head_are_ignored(pipe: Pipe, head: str) -> None:
    pipe.write(framed(request(7), head))
    assert pipe.wire.receive()["seq"] == 7


@pytest.mark.parametrize(
    "data",
    [
        b"GET / HTTP/1.1\r\nHost: a\r\n\r\n",
        b"\r\n",
        b"\n" * 3,
        b"x" * 5000,
        f"Content-Length: {MAX_BYTES + 1}\r\n\r\n".encode(),
        b"Content-Length: -1\r\n\r\n",
        framed("{"),
        framed("[1]"),
        framed("[" * 100_000),
        framed('{"seq": 1, "type": "event", "event": "x"}'),
        framed('{"seq": true, "type": "request", "command": "x"}'),
        framed('{"type": "request", "command": "x"}'),
        framed('{"seq": 1, "type": "request", "command": 5}'),
        framed("é").replace("é".encode(), b"\xff\xfe"),
    ],
)
def test_damaged_messages_are_refused(pipe: Pipe, data: bytes) -> None:
    with pytest.raises((BadHead, BadContent, BadMessage)):
        for place in range(0, len(data), 60_000):
            pipe.write(data[place : place + 60_000])
            pipe.wire.waiting()
        os.close(pipe.target)
        pipe.wire.receive()


def test_end_comes_after_the_last_message(pipe: Pipe) -> None:
    pipe.write(framed(request(1)) + b"Content-Le")
    os.close(pipe.target)
    assert [each["seq"] for each in pipe.wire.waiting()] == [1]
    assert pipe.wire.receive()["seq"] == 1
    with pytest.raises(EOFError):
        pipe.wire.receive()
    with pytest.raises(EOFError):
        pipe.wire.waiting()


def test_length_counts_bytes_of_what_is_sent(pipe: Pipe) -> None:
    pipe.wire.send("event", event="output", body={"output": "Größe ∞\n"})
    pipe.wire.send("event", event="terminated", body={})
    for number, data in enumerate(pipe.written, 1):
        head, _, content = data.partition(b"\r\n\r\n")
        assert head == b"Content-Length: %d" % len(content) and json.loads(content)["seq"] == number
    assert json.loads(pipe.written[0].partition(b"\r\n\r\n")[2])["body"]["output"] == "Größe ∞\n"


def test_output_waits_for_a_client_that_reads_slowly() -> None:
    """More than a pipe's 65,536 bytes are written while the client's own side is open."""
    (source, target), (unread, output) = os.pipe(), os.pipe()
    data, read = bytes(range(256)) * 1024, bytearray()

    def read_all() -> None:
        while len(read) < len(data):
            read.extend(os.read(unread, 1000))

    thread = threading.Thread(target=read_all)
    thread.start()
    ClientOutput(source, output, partial(os.write, output)).write(data)
    thread.join()
    assert read == data
    for number in (source, target, unread, output):
        os.close(number)


@pytest.mark.parametrize("is_early", [True, False])
def test_output_ends_for_a_client_that_has_gone_and_left_its_pipe(
    monkeypatch: pytest.MonkeyPatch, is_early: bool
) -> None:
    """The client closes its side before the output is full, or while the adapter waits."""
    monkeypatch.setattr(client_output, "GONE_SECONDS", 0)
    (source, target), (unread, output) = os.pipe(), os.pipe()
    timer = threading.Timer(0 if is_early else 0.2, os.close, [target])
    timer.start()
    to_client = ClientOutput(source, output, partial(os.write, output))
    for _ in range(2):  # the second time at once
        with pytest.raises(BrokenPipeError):
            to_client.write(bytes(1 << 17))
    timer.join()
    for number in (source, unread, output):
        os.close(number)


def test_output_ends_for_a_client_of_a_port_that_has_gone(monkeypatch: pytest.MonkeyPatch) -> None:
    """The client's socket sends nothing more, and is open for reading."""
    monkeypatch.setattr(client_output, "GONE_SECONDS", 0)
    client, own = socket.socketpair()
    with client, own:
        number = own.fileno()
        to_client = ClientOutput(number, number, lambda data: own.send(data, socket.MSG_DONTWAIT))
        client.shutdown(socket.SHUT_WR)
        with pytest.raises(BrokenPipeError):
            to_client.write(bytes(1 << 24))
        assert client.recv(1) == bytes(1)

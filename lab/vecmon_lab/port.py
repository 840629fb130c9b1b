"""A client at a port of this computer."""

import contextlib
import socket
from collections.abc import Iterator

HOST = "127.0.0.1"


@contextlib.contextmanager
def one_client(port: int) -> Iterator[socket.socket]:
    """Wait for the first client at a port of this computer, print the port, and yield the connection. Other clients can't connect.

    port: with 0, the system chooses a free port. Raises OSError if the port is taken.
    """
    with socket.create_server((HOST, port)) as listener:
        print(f"listening at {HOST}:{listener.getsockname()[1]}", flush=True)
        connection, _ = listener.accept()
    with connection:
        connection.setsockopt(socket.IPPROTO_TCP, socket.TCP_NODELAY, 1)
        yield connection

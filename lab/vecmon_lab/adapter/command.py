"""The command `vecmon-lab dap`, which serves one client over standard input and output, or over a port of this computer."""

import argparse
import os
import socket
import sys
from functools import partial

from ..arguments import between
from ..end_signals import ended_by_signals
from ..port import HOST, one_client
from .client_output import ClientOutput
from .session import Session
from .wire import Wire


def add_arguments(parser: argparse.ArgumentParser) -> None:
    """Add the arguments of `vecmon-lab dap`."""
    help_text = f"wait for one client at this port of {HOST}; 0 chooses one, which is printed"
    parser.add_argument("--port", metavar="N", type=between(0, 65535), help=help_text)


def run(arguments: argparse.Namespace) -> int:
    """Serve a client until it ends the session, and return the exit status 0.

    Raises LabError for a message that isn't a request, and OSError if the port is in use.
    """
    with ended_by_signals():
        if arguments.port is None:
            source, target = os.dup(0), sys.stdout.fileno()
            Session(Wire(source, ClientOutput(source, target, partial(os.write, target)).write)).serve()
            return 0
        with one_client(arguments.port) as connection:
            number = connection.fileno()
            output = ClientOutput(number, number, lambda data: connection.send(data, socket.MSG_DONTWAIT))
            Session(Wire(number, output.write)).serve()
        return 0

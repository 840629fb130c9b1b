"""The command `vecmon-lab lsp`: a language server for assembler sources, which an editor starts and communicates with over pipes."""

import argparse
import gc

from ..machine.program import find_program
from .server import Server
from .wire import Wire

_COLLECTED = 100_000  # new objects before garbage is collected; the analysis of 2,000 lines makes about 50,000


def add_arguments(parser: argparse.ArgumentParser) -> None:
    """Add the option `--stdio`, which editors pass to language servers."""
    parser.add_argument(
        "--stdio", action="store_true", help="use standard input and output, as always; for editors that say so"
    )


def run(arguments: argparse.Namespace) -> int:
    """Serve an editor until it ends the session, and return the exit status.

    Raises LabError if `vecmon` isn't found, or if the header of a message is invalid.
    """
    gc.set_threshold(_COLLECTED)
    return Server(Wire(), find_program()).run()

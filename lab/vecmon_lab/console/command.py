"""A prompt at one user's machine: lines of the monitor without the user's digit, and some additional commands."""

import argparse
import contextlib
import functools
import os
import pathlib
import sys
import termios
from collections.abc import Callable, Iterator
from typing import Any

from .. import LabError
from ..arguments import add_program
from ..compilers.compiler import ASSEMBLER_SUFFIXES
from ..guest.guest import QUANTUM, Guest, started
from ..guest.runner import Reporter
from ..guest.symbols import Symbols
from ..machine.program import find_program
from ..machine.session import Session
from .lines import Console
from .show import Screen

MARK = "vecmon> "


def add_arguments(parser: argparse.ArgumentParser) -> None:
    """Add the arguments of `vecmon-lab console`."""
    help_text = "an image, or a source in C (.c) or assembler (.s, .S); without one, there is no program"
    add_program(parser, help_text, is_needed=False)


def run(arguments: argparse.Namespace) -> int:
    """Execute lines up to the end of the input or `quit`, and return the exit status 0.

    Raises LabError and OSError if the image or the source can't be loaded.
    """
    is_terminal = sys.stdin.isatty() and sys.stdout.isatty()
    is_able = is_terminal and os.environ.get("TERM", "dumb") != "dumb"
    screen = Screen(is_able and not os.environ.get("NO_COLOR"))
    with _console(arguments, screen) as console:
        prompt: Callable[[], str] = functools.partial(_plain_line, MARK if is_terminal else "")
        if is_able:
            from .prompt import terminal_prompt  # importing its library takes a third of a second

            prompt = terminal_prompt(MARK, console.names.choices, console.bar)
        console.execution.show_place()
        while console.is_open:
            try:
                entry = prompt()
                with _typed_ahead(is_terminal):
                    console.do(entry)
            except EOFError:
                break
            except KeyboardInterrupt:  # at the prompt; a running command handles Ctrl-C itself
                if not is_terminal:
                    raise
                print()
    return 0


@contextlib.contextmanager
def _console(arguments: argparse.Namespace, screen: Screen) -> Iterator[Console]:
    """Yield a console with a new machine, and load the image or source that the arguments name.

    Raises LabError if a source has arguments or input.
    """
    path: pathlib.Path | None = arguments.image
    if path is not None and path.suffix not in ASSEMBLER_SUFFIXES:
        words, symbols = [path.name, *arguments.words], Symbols.read(path)
        report = Reporter(lambda address: console.names.symbols.place(address))
        given: dict[str, Any] = {"arguments": words, "file": arguments.input, "name": arguments.named}
        with started(path, write=screen.write, report=report, **given) as guest:
            screen.say(*filter(None, [symbols.warning]))
            console = Console(guest, screen, symbols)
            yield console
        return
    if arguments.words or arguments.input:
        raise LabError("arguments and --in need an image or a source in C")
    report = Reporter(lambda address: console.names.symbols.place(address))
    guest = Guest(Session(find_program(), quantum=QUANTUM), write=screen.write, report=report)
    with contextlib.ExitStack() as stack:
        stack.callback(lambda: guest.session.close())  # another session, if the guest went back
        guest.ask("enter")
        console = Console(guest, screen, Symbols())
        if path is not None:
            console.source(path)
        yield console


@contextlib.contextmanager
def _typed_ahead(is_terminal: bool) -> Iterator[None]:
    """Preserve lines that are typed while a command runs: by default a terminal deletes them at Ctrl-C (NOFLSH of termios)."""
    if not is_terminal:
        yield
        return
    terminal = sys.stdin.fileno()
    saved = termios.tcgetattr(terminal)
    termios.tcsetattr(terminal, termios.TCSANOW, [*saved[:3], saved[3] | termios.NOFLSH, *saved[4:]])
    try:
        yield
    finally:
        termios.tcsetattr(terminal, termios.TCSANOW, saved)


def _plain_line(mark: str) -> str:
    """Print a prompt, and return the next line of standard input. Raises EOFError at the end of the input.

    Bytes that aren't UTF-8 become non-ASCII characters. mark: the prompt
    """
    print(mark, end="", flush=True)
    line = sys.stdin.buffer.readline()
    if not line:
        print(end="\n" if mark else "")
        raise EOFError
    return line.decode("utf-8", "replace")

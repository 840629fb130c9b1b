"""The program `vecmon-lab`. Each command is a module, which is imported only when the command is used."""

import argparse
import importlib
import os
import sys
from typing import NoReturn

from . import LabError
from .output import terminal_text
from .places import IS_PYTHON_PACKAGE, install_command
from .tables.table import read_table

COMMANDS = {name: (module, sentence) for name, module, sentence in read_table("lab_commands")}
"""The commands by name, each with its module and a sentence about it.

A module has `add_arguments(parser)`, and `run(arguments)`, which returns the exit status.
"""


class _Parser(argparse.ArgumentParser):
    """A parser that reports a usage error in one line."""

    def error(self, message: str) -> NoReturn:
        self.exit(2, f"{self.prog}: {message}; --help says more\n")


def main() -> int:
    """Run the command that the program's arguments name, and return its exit status.

    The status is 2 after bad input, which is reported on standard error; 130 after Ctrl-C; and 141 if the output's reader has gone.
    """
    try:
        if sys.stdout is None:  # as after `>&-`
            raise LabError("standard output is closed; to discard it, use >/dev/null")
        arguments = arguments_of(sys.argv[1:])
        if any(word.endswith(".c") for word in sys.argv[1:]):
            importlib.import_module("vecmon_lab.compilers.compiler").install_compilers()
        status = int(arguments.run(arguments))
        sys.stdout.flush()  # here, so that a reader that has gone is handled below
        return status
    except KeyboardInterrupt:
        return 130
    except LabError as error:
        mistake = str(error)
    except ModuleNotFoundError as error:
        mistake = _missing(error.name or "")
    except BrokenPipeError:  # the reader has gone, as `head` does; the rest is dropped
        os.dup2(os.open(os.devnull, os.O_WRONLY), sys.stdout.fileno())
        return 141
    except OSError as error:
        mistake = f"{error.filename}: {error.strerror}" if error.filename else str(error)
        mistake += "; name a new folder" if isinstance(error, FileExistsError) else ""
    sys.stderr.writelines(f"vecmon-lab: {line}\n" for line in terminal_text(mistake).split("\n"))
    return 2


def _missing(module: str) -> str:
    """Return the message for a Python module that isn't installed: the name of its library, and how to install it."""
    package = module.partition(".")[0]
    name = {"elftools": "pyelftools"}.get(package, package)
    if IS_PYTHON_PACKAGE:
        return f"this needs the Python library {name}: `{install_command(name)}`"
    own = f"`python3 -m venv ~/.vecmon && ~/.vecmon/bin/pip install {name}`, and VECMON_PYTHON=~/.vecmon/bin/python"
    return f"this needs the Python library {name}: `{install_command(name)}`; or else {own}"


def arguments_of(words: list[str]) -> argparse.Namespace:
    """Parse the program's arguments. The result has the function `run` of the command that they name.

    Options may be at any place. If a command takes arguments for its image, the command's options come before the image.
    """
    match words:
        case ["help", *more]:
            words = [*more[:1], "--help"]
        case ["--version"]:
            return argparse.Namespace(run=importlib.import_module("vecmon_lab.installation").versions)
        case ["--names", ("vectors" | "grade") as which]:  # for completion
            print("\n".join(importlib.import_module(f"vecmon_lab.{COMMANDS[which][0]}").names()))
            raise SystemExit(0)
    if words and words[0] in COMMANDS:
        place, summary = COMMANDS[words[0]]
        command = _Parser(prog=f"vecmon-lab {words[0]}", description=f"{summary[0].upper()}{summary[1:]}.")
        module = importlib.import_module(f"vecmon_lab.{place}")
        module.add_arguments(command)
        command.set_defaults(run=module.run)
        if not command.allow_abbrev:
            return command.parse_args(words[1:])
        return command.parse_intermixed_args(words[1:])
    parser = _Parser(prog="vecmon-lab", description="A front end for vecmon, the trainer machine for RISC-V vectors.")
    parser.add_argument("--version", action="store_true", help="print the versions of the lab and of vecmon")
    commands = parser.add_subparsers(metavar="COMMAND", required=True)
    for name, (_, summary) in COMMANDS.items():
        commands.add_parser(name, help=summary)
    return parser.parse_args(words)


if __name__ == "__main__":
    raise SystemExit(main())

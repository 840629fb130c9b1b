"""The console's `help NAME`: descriptions of names, including the console's own commands and gdb's command names."""

from ..assembler.commands import COMMANDS
from ..meanings.describe import describe
from ..meanings.help import help_lines
from .names import gdb_command

HELP_ON_PLACES = {
    "break": ["  ADDR may be a function or a line, as sum.c:12, and a condition may follow: break ADDR if a0 == 5"],
    "unbreak": ["  ADDR may be a function or a line, as sum.c:12"],
}
"""Arguments that the console accepts in addition to the monitor's, by command."""


def help_on_console(name: str) -> list[str]:
    """Return the description of a name. For a name of gdb that isn't an instruction, describe the console's command."""
    own = gdb_command(name)
    if own is None or describe(name):
        return [*help_lines(name), *HELP_ON_PLACES.get(name, [])]
    return [f"gdb's {name} is `{COMMANDS[own].form}` here", *help_on_console(own)]

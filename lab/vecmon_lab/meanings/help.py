"""The text of the console's `help NAME`: commands, refusals, records, and the results of a search."""

from ..assembler.commands import COMMANDS, MEANINGS, help_on
from .describe import describe, search_lines


def help_lines(name: str) -> list[str]:
    """Return the lines that `help NAME` prints.

    They describe the command, the refusal or the record with this name. If a command and an instruction have the same name, they
    describe both. If nothing has the name, they list the records whose texts contain all its words. For an empty name, they list
    the commands.
    """
    if not name:
        return [
            *help_on(""),
            "help NAME describes a command, an instruction, a directive or a refusal; help WORDS searches.",
        ]
    own = help_on(name) if name in COMMANDS or name in MEANINGS else []
    return [*own, *describe(name)] or search_lines(name) or [f"nothing is called {name}; help lists the commands"]

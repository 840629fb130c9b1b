"""The prompt of the console at a terminal, with prompt_toolkit.

It has editing, history, completion, pasted lines as one entry, and a bar.
"""

import os
import pathlib
import re
from collections.abc import Callable, Iterable

from prompt_toolkit import PromptSession
from prompt_toolkit.completion import CompleteEvent, Completer, Completion, PathCompleter
from prompt_toolkit.document import Document
from prompt_toolkit.history import FileHistory, History, InMemoryHistory
from prompt_toolkit.output import ColorDepth

from ..assembler.commands import COMMANDS

Choices = Callable[[str], Iterable[str]]
"""A function that returns the values that an argument may have, by the argument's name in a command's form, such as xN."""


def terminal_prompt(mark: str, choices: Choices, bar: Callable[[], str]) -> Callable[[], str]:
    """Return a function that reads an entry of one line, or of several pasted lines. The function raises EOFError at Ctrl-D."""
    session: PromptSession[str] = PromptSession(
        mark,
        completer=_Names(choices),
        complete_while_typing=False,
        history=_history(),
        bottom_toolbar=bar,
        color_depth=ColorDepth.DEPTH_1_BIT if os.environ.get("NO_COLOR") else None,
    )
    return session.prompt


class _Names(Completer):
    """Completes a command, and then its arguments, by the form of the command."""

    def __init__(self, choices: Choices) -> None:
        self._choices = choices

    def get_completions(self, document: Document, complete_event: CompleteEvent) -> Iterable[Completion]:
        """Return the completions of the word before the cursor."""
        *before, word = re.split(" +", document.current_line_before_cursor.lstrip())
        form = COMMANDS[before[0]].form.split() if before and before[0] in COMMANDS else ["COMMAND"]
        kind = form[len(before)] if len(before) < len(form) else ""
        kind = "TOPIC" if before == ["help"] else kind
        if kind == "FILE":
            yield from PathCompleter(expanduser=True).get_completions(Document(word), complete_event)
        for choice in sorted(self._choices(kind)):
            if choice.startswith(word):
                yield Completion(f"{choice} ", -len(word), display=choice)


def _history() -> History:
    """Return the history of entries, from a file if it can be written, or else only of this session."""
    state = pathlib.Path(os.environ.get("XDG_STATE_HOME") or pathlib.Path.home() / ".local" / "state")
    file = state / "vecmon-lab" / "console"
    try:
        file.parent.mkdir(parents=True, exist_ok=True)
        file.touch()
    except OSError:
        return InMemoryHistory()
    return FileHistory(str(file))

"""Descriptions of commands and meanings of refusals. The manuals' tables have the same source."""

import itertools
import operator
import re
from collections.abc import Sequence
from dataclasses import dataclass

from ..machine.answers import Refused, is_refusal, is_stop, read
from ..machine.lines import words_of
from ..tables.table import read_table
from .instruction import Statement, refusal
from .argument_errors import argument_error


@dataclass(frozen=True)
class Command:
    """A command of the monitor or the console: its form, as `peek ADDR N`, its effect, and the codes of refusals that it may get."""

    form: str
    does: str
    refusals: list[str]


def _plain(text: str) -> str:
    """Return Markdown as plain text, without backquotes and links, and without parentheses that contain only a link."""
    return re.sub(r" \(\[[^]]*\]\([^)]*\)\)|\[([^]]*)\]\([^)]*\)", r"\1", text).replace("`", "")


def _name(form: str) -> str:
    """Return the name of a command with this form: its first word, with `*` before it for the operator's commands."""
    return " ".join(form.split()[: 2 if form[0] == "*" else 1])


_COMMANDS, _REFUSALS = read_table("commands"), read_table("refusals")
COMMANDS = {_name(form): Command(form, _plain(does), own.split(" ")) for _, form, does, _, own in _COMMANDS}
OF_THE_CONSOLE = {_name(form) for section, form, *_ in _COMMANDS if section == "Commands of the console"}
"""The names of the console's own commands, which the machine doesn't have."""

_IMAGE_FAULTS = dict(read_table("image_faults"))
MEANINGS = {code: _plain(meaning) for code, meaning, _ in _REFUSALS}


def help_on(name: str) -> list[str]:
    """Return lines that describe a command (its form, its effect and its refusals) or the meaning of a refusal's code.

    name: a command or a code. For an empty name, return a line for each section of commands, with their forms
    """
    if not name:
        sections = itertools.groupby(_COMMANDS, operator.itemgetter(0))
        return [f"{section}: {', '.join(form for _, form, *_ in rows)}" for section, rows in sections]
    if name in MEANINGS:
        return [f"{name}: {MEANINGS[name]}"]
    if name not in COMMANDS:
        return [f"there is no command {name}; help lists them"]
    command = COMMANDS[name]
    own = [f"  {code}: {MEANINGS[code]}" for code in command.refusals if code in MEANINGS]
    return [f"{command.form}: {command.does}", *own]


def explain_refusal(line: str, answer: Refused) -> list[str]:
    """Return lines that explain why a line of the monitor was refused.

    If `asm` refused a text, the first line is this text, and the second line marks the wrong character.

    line: the refused line; answer: the refusal
    """
    word = "".join(words_of(line)[:1])
    own, other, whose = (f"* {word}", word, "a user") if line[0] == "*" else (word, f"* {word}", "the operator")
    match answer.code:
        case "E03" if other in COMMANDS:
            message = f"{word} is {whose}'s: {COMMANDS[other].form}"
        case "E03" if word:
            message = f"there is no command {word}"
        case "E04":
            message = f"{argument_error(line, COMMANDS[own].form)}; the form is {COMMANDS[own].form}"
        case "E08":
            message = f"there is no image {words_of(line)[1]}"
        case "E13":
            message = "there is no breakpoint" if word == "unbreak" else "there already is a breakpoint"
        case "E09":
            message = _IMAGE_FAULTS[str(answer)]
        case "E15":
            text = line[2:].strip(" ").split(maxsplit=2)[2]
            offsets = tuple((0, column) for column in range(1, len(text) + 2))
            message = refusal(Statement(0, 1, 1, text, offsets), int(answer.detail)).message
            return [text, f"{'^':>{answer.detail}}", f"E15: {message}"]
        case code:
            message = MEANINGS[code]
    return [f"{answer}: {message}"]


def refusal_on_pages(line: str, answer: Sequence[str]) -> str:
    """Return the meaning of a refusal for pages, with code between backquotes; "" if the answer isn't a refusal.

    line: a line of the monitor; answer: the lines of its answer
    """
    parsed = read(answer) if is_refusal(answer) else None
    if not isinstance(parsed, Refused):
        return ""
    *marked, sentence = explain_refusal(line, parsed)
    return "`{}\n{}`\n{}".format(*marked, sentence) if marked else sentence


def log_entries(line: str, answer: Sequence[str]) -> list[str]:
    """Return the lines of an answer as entries of a log.

    An entry starts with `*` if the line of the answer says that a program stopped, and otherwise with `<`. After a refusal, a newline
    and the meaning follow. line: the line of the monitor that was answered
    """
    words = refusal_on_pages(line, answer)
    return [f"{'*' if is_stop(part) else '<'}{part}\n{words}".rstrip("\n") for part in answer]

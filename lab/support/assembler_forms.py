"""The table of assembler forms, with the results of the lab's assembler, GNU as and clang for each."""

from dataclasses import dataclass

from .places import DATA


@dataclass(frozen=True)
class Form:
    """A directive of GNU as's manual, or a form of a source.

    treatment: `accepted`, `warned`, `ignored`, `differs` or `refused`; tools: g for GNU as and c for clang, if they take the example
    source: the example; reason: a part of the message, if it is refused
    """

    name: str
    treatment: str
    tools: str
    source: str
    reason: str = ""


def _form(line: str) -> Form:
    """The form of a line of the table."""
    name, treatment, tools, source, *reason = [cell.strip() for cell in line.split("  ") if cell.strip()]
    return Form(name, treatment, tools, source.replace(" ;; ", "\n"), *reason)


FORMS = [
    _form(line)
    for line in (DATA / "assembler_forms.txt").read_text("utf-8").splitlines()
    if line and not line.startswith("#")
]

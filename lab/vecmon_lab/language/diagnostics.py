"""The diagnostics of a source, and changes that fix them."""

from collections.abc import Iterable, Iterator
from dataclasses import dataclass
from typing import NotRequired, TypedDict

from ..assembler.inputs import LessonCommand
from ..assembler.line import token_length
from ..assembler.mistakes import Severity, mistakes_json
from ..assembler.names import absence
from ..guest.changes import vtype_text
from ..guest.vector_flow import is_supported, is_vset
from ..instructions.reasons import ELEN
from ..instructions.table import row_of
from ..machine.answers import VILL
from .analysis import Analysis, Illegal
from .positions import Range, TextEdit, range_of

SOURCE = "vecmon"
ERROR, WARNING, HINT = 1, 2, 4  # severities
ILLEGAL = "illegal"
_RESERVED = 4  # the reserved value of vlmul
_FIRST_TYPE = "vsetvli t0, a0, e32, m1, ta, ma"


class Diagnostic(TypedDict):
    """A message at a range. code: the machine's refusal, or `illegal` or `vill`; it is missing if the message has no code"""

    range: Range
    severity: int
    source: str
    message: str
    code: NotRequired[str]


@dataclass(frozen=True)
class Fix:
    """A change that fixes a diagnostic. title: its text in the editor's menu"""

    title: str
    edit: TextEdit


@dataclass(frozen=True)
class Finding:
    """A diagnostic with its fixes, the most likely one first."""

    diagnostic: Diagnostic
    fixes: tuple[Fix, ...] = ()


def findings(analysis: Analysis) -> list[Finding]:
    """Return the diagnostics of a source by rising line: mistakes, warnings, illegal instructions, and instructions that set vill."""
    found = [
        *_mistakes(analysis, "error"),
        *_mistakes(analysis, "warning"),
        *_illegal(analysis),
        *_without_type(analysis),
    ]
    return sorted(found, key=lambda it: (it.diagnostic["range"]["start"]["line"], it.diagnostic["severity"]))


def _mistakes(analysis: Analysis, severity: Severity) -> Iterator[Finding]:
    """Yield the diagnostics of the assembler's mistakes or warnings.

    A name of another extension, or of a lesson's command, gets only a hint: the source may be written for this extension, or for a lesson.
    """
    program = analysis.program
    errors = program.mistakes if severity == "error" else program.warnings
    for error, mistake in zip(errors, mistakes_json(errors, "\n".join(analysis.lines), severity=severity)):
        line, column, length = mistake["line"], mistake["column"], mistake["length"]
        span = range_of(analysis.lines, line, column, length)
        word = analysis.lines[line - 1][column - 1 : column - 1 + length] if 0 < line <= len(analysis.lines) else ""
        is_of_others = isinstance(error, LessonCommand) or bool(word and absence(word))
        level = HINT if is_of_others else ERROR if severity == "error" else WARNING
        diagnostic: Diagnostic = {
            "range": span,
            "severity": level,
            "source": SOURCE,
            "message": mistake["message"],
        }
        if code := mistake.get("code"):
            diagnostic["code"] = code
        fixes = (Fix(f"replace by {text}", {"range": span, "newText": text}) for text in mistake.get("fix", []))
        yield Finding(diagnostic, tuple(fixes))


def _illegal(analysis: Analysis) -> Iterator[Finding]:
    """Yield the diagnostics of illegal instructions, at the instructions' names.

    An instruction of a macro that is called several times gets each message only once.
    """
    seen = set[tuple[int, int, str]]()
    for illegal in analysis.illegal:
        line, column = illegal.statement.place(0)
        message = illegal_message(illegal)
        if (line, column, message) not in seen and 0 < line <= len(analysis.lines):
            seen.add((line, column, message))
            span = range_of(analysis.lines, line, column, token_length(analysis.lines[line - 1], column))
            diagnostic: Diagnostic = {
                "range": span,
                "severity": ERROR,
                "source": SOURCE,
                "message": message,
                "code": ILLEGAL,
            }
            yield Finding(diagnostic, tuple(_cures(analysis, illegal, line)))


def _without_type(analysis: Analysis) -> Iterator[Finding]:
    """Yield the warnings about instructions that should set a vector type, but set vill on all paths."""
    for statement in analysis.program.statements:
        word = analysis.words.get(statement.address, 0)
        if not is_vset(word) or statement.within or analysis.state(statement) is None:
            continue
        row = row_of(word)
        if row is None:
            continue
        if analysis.flow.after(statement.address).vtype == VILL:
            line, column = statement.place(0)
            diagnostic: Diagnostic = {
                "range": range_of(analysis.lines, line, column, len(row.name)),
                "severity": WARNING,
                "source": SOURCE,
                "message": _vill_message(analysis.flow.requested(statement.address, word)),
                "code": "vill",
            }
            yield Finding(diagnostic)


def _vill_message(requested: int | None) -> str:
    """Return the reason why an instruction that sets a vector type sets vill. requested: the type; None if it is unknown"""
    if requested is not None and is_supported(requested):
        return "sets vill: with x0 twice vl stays, so the type before has to have the same VLMAX"
    if requested is not None and requested < 1 << 8 and requested & 7 != _RESERVED and requested >> 5 & 1 == 0:
        return f"sets vill: {vtype_text(requested)} isn't supported, since elements have LMUL x {ELEN} bits at most"
    return "sets vill: this is the number of no supported type"


def illegal_message(illegal: Illegal) -> str:
    """Return the message about an illegal instruction: the reasons, and the vector types under which it is illegal, unless all are meant."""
    reasons = " ".join(illegal.reasons)
    within = "".join(f" ({each})" for each in illegal.statement.within[:1])
    if illegal.types is None:
        return f"illegal{within}: {reasons}"
    return f"illegal under {listed_types(illegal.types)}{within}: {reasons}"


def listed_types(types: Iterable[int]) -> str:
    """Return vector types as text, such as `e8,m1,ta,ma or e16,m2,ta,ma`."""
    return " or ".join(vtype_text(each) for each in sorted(types))


def _cures(analysis: Analysis, illegal: Illegal, line: int) -> Iterator[Fix]:
    """Yield a fix if an instruction is illegal because no vector type is set before it: insert an instruction that sets a vector type.

    line: the number of the line in which to insert it, from 1
    """
    if illegal.types != frozenset([VILL]) or illegal.statement.within:
        return
    text = analysis.lines[line - 1]
    column = illegal.statement.column
    margin = text[: column - 1] if not text[: column - 1].strip() else " " * (column - 1)
    start = range_of(analysis.lines, line, column, 1)["start"]
    edit: TextEdit = {"range": {"start": start, "end": start}, "newText": f"{_FIRST_TYPE}\n{margin}"}
    yield Fix(f"insert {_FIRST_TYPE}", edit)

"""Code actions: the fixes of the diagnostics in a range."""

from collections.abc import Iterable
from typing import NotRequired, TypedDict

from .diagnostics import Diagnostic, Finding
from .positions import Position, Range, TextEdit


class WorkspaceEdit(TypedDict):
    """Changes of documents, by their URIs."""

    changes: dict[str, list[TextEdit]]


class CodeAction(TypedDict):
    """A fix that an editor offers."""

    title: str
    kind: str
    diagnostics: list[Diagnostic]
    edit: WorkspaceEdit
    isPreferred: NotRequired[bool]


def code_actions(uri: str, found: Iterable[Finding], span: Range) -> list[CodeAction]:
    """Return the fixes of all diagnostics that overlap or touch a range. uri: the document's URI; found: the document's diagnostics"""
    actions = list[CodeAction]()
    for finding in found:
        if _touch(finding.diagnostic["range"], span):
            for number, fix in enumerate(finding.fixes):
                action: CodeAction = {
                    "title": fix.title,
                    "kind": "quickfix",
                    "diagnostics": [finding.diagnostic],
                    "edit": {"changes": {uri: [fix.edit]}},
                }
                if number == 0:
                    action["isPreferred"] = True
                actions.append(action)
    return actions


def _touch(one: Range, other: Range) -> bool:
    """Return whether two ranges overlap, or touch at their ends."""
    return _key(one["start"]) <= _key(other["end"]) and _key(other["start"]) <= _key(one["end"])


def _key(where: Position) -> tuple[int, int]:
    return where["line"], where["character"]

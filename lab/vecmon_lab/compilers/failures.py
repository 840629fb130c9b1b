"""Failures of the tools that compile and check a source."""

import re

from .. import LabError

_FOLDERS = re.compile(r"(?:/[\w.+-]+)+/")


class ToolError(LabError):
    """A tool failed: the sandbox, the compiler's process or the machine. The source may be right."""


def without_folders(text: str) -> str:
    """Return a text in which paths of files are reduced to their names."""
    return _FOLDERS.sub("", text)

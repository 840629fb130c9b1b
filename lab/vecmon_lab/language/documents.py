"""The documents that an editor has open, each with the analysis and the diagnostics of its present text."""

import pathlib
from collections.abc import Sequence
from urllib.parse import unquote, urlsplit

from ..assembler.assembly import FileReader
from ..assembler.blocks import TooMuchMade
from ..assembler.line import SourceError, refuse_preprocessor_lines
from ..assembler.own_files import files_beside
from ..assembler.trial import Trial
from .analysis import Analysis
from .diagnostics import HINT, SOURCE, Finding, findings
from .positions import Change, changed, lines_of, range_of

MAX_CHARACTERS, MAX_STATEMENTS = 300_000, 5_000  # the most in a document that is checked
MAX_MADE = (
    100_000  # the most characters that a document's macros and repetitions may make; each statement counts as 16 more
)
UNCHECKED = "this source isn't checked"


class Document:
    """An open document.

    uri: its URI; lines: the lines of its present text; version: the editor's number of the present text
    """

    def __init__(self, uri: str, text: str, version: int, trial: Trial) -> None:
        self.uri, self.version = uri, version
        self.lines = lines_of(text)
        self._path = path_of(uri)
        self._trial = trial
        self._analysis: Analysis | None = None
        self._findings: list[Finding] | None = None
        self._problem: SourceError | None = None

    def change(self, changes: Sequence[Change], version: int) -> None:
        """Apply changes to the text, one after another. version: the editor's number of the new text"""
        for each in changes:
            self.lines = changed(self.lines, each)
        self.version, self._analysis, self._findings = version, None, None

    @property
    def is_read(self) -> bool:
        """Whether the diagnostics of the present text are known already."""
        return self._findings is not None

    @property
    def analysis(self) -> Analysis:
        """The analysis of the present text; the analysis of an empty text if the present text can't be checked."""
        if self._analysis is None:
            text = "\n".join(self.lines)
            self._problem = self._reason_against(text)
            try:
                self._analysis = Analysis("" if self._problem else text, self._trial, self._files(), MAX_MADE)
            except TooMuchMade:
                self._problem = SourceError(1, 1, f"macros and repetitions make too many statements; {UNCHECKED}")
                self._analysis = Analysis("", self._trial)
            except Exception as error:  # pylint: disable=broad-except  # no text may end an editor's server
                self._problem = SourceError(1, 1, f"this source can't be checked: {type(error).__name__}: {error}")
                self._analysis = Analysis("", self._trial)
        return self._analysis

    @property
    def findings(self) -> list[Finding]:
        """The diagnostics of the present text. If the text can't be checked, the only one is a hint with the reason."""
        if self._findings is None:
            analysis = self.analysis
            self._findings = [self._unread(self._problem)] if self._problem else findings(analysis)
        return self._findings

    def _reason_against(self, text: str) -> SourceError | None:
        """Return the reason why a text can't be checked; None if there is none.

        A text can't be checked if it is too large, or if it has lines for the C preprocessor.
        """
        if len(text) > MAX_CHARACTERS:
            return SourceError(1, 1, f"there are more than {MAX_CHARACTERS:,} characters; {UNCHECKED}")
        if len(self.lines) + text.count(";") > MAX_STATEMENTS:
            return SourceError(1, 1, f"there are more than {MAX_STATEMENTS:,} lines or statements; {UNCHECKED}")
        if self._path is not None and self._path.suffix == ".S":
            try:
                refuse_preprocessor_lines(text)
            except SourceError as error:
                return SourceError(error.line, error.column, f"{error.message}; {UNCHECKED}")
        return None

    def _unread(self, problem: SourceError) -> Finding:
        """Return the hint that the text can't be checked. problem: the reason"""
        span = range_of(self.lines, problem.line, problem.column, 1)
        return Finding({"range": span, "severity": HINT, "source": SOURCE, "message": problem.message})

    def _files(self) -> FileReader | None:
        """Return a reader of the files in the document's folder, which the source may include; None if the document isn't a file."""
        return files_beside(self._path) if self._path is not None else None


def path_of(uri: str) -> pathlib.Path | None:
    """Return the path of the file that a URI names; None if the URI doesn't name a file of this computer."""
    parts = urlsplit(uri)
    return pathlib.Path(unquote(parts.path)) if parts.scheme == "file" and parts.netloc in ("", "localhost") else None

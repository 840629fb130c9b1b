"""Known reliances of a file, and reliances that a command line expects."""

import pathlib
from collections.abc import Sequence
from dataclasses import dataclass
from typing import NamedTuple

from .. import LabError
from .report import RelianceForm
from .rules import RULES


class Pattern(NamedTuple):
    """Reliances that match: a kind; a mnemonic, or "" for all; and a function, a line as `sum.c:12` or a register, or "" for all."""

    kind: str
    mnemonic: str = ""
    place: str = ""

    def matches(self, form: RelianceForm) -> bool:
        """Return whether a reliance is one of these."""
        name, _, place = form["name"].partition(" ")
        kind, _, mnemonic = name.partition("@")
        line = form["instruction"]["line"] if "instruction" in form else ""
        return kind == self.kind and self.mnemonic in ("", mnemonic) and self.place in ("", place, line)


@dataclass(frozen=True)
class Known:
    """The reliances that are accepted."""

    patterns: Sequence[Pattern] = ()

    def marked(self, form: RelianceForm) -> RelianceForm:
        """Return a reliance, marked if it is accepted."""
        form["known"] = any(pattern.matches(form) for pattern in self.patterns)
        return form


def pattern_of(text: str) -> Pattern:
    """Return the pattern of a text, as `tail@vadd.vv` or `tail@vadd.vv main`. Raises ValueError for an unknown kind."""
    name, _, place = text.strip().partition(" ")
    kind, _, mnemonic = name.partition("@")
    if kind not in RULES:
        raise ValueError(f"{kind!r} is no kind of reliance; kinds are {', '.join(RULES)}")
    return Pattern(kind, mnemonic, place.strip())


def read_known(path: pathlib.Path) -> Known:
    """Read a file of known reliances: a pattern a line, and comments after `#`. Raises LabError and OSError."""
    patterns = list[Pattern]()
    for number, line in enumerate(path.read_text("utf-8").splitlines(), 1):
        text = line.partition("#")[0].strip()
        try:
            patterns += [pattern_of(text)] if text else []
        except ValueError as error:
            raise LabError(f"{path}:{number}: {error}") from error
    return Known(patterns)

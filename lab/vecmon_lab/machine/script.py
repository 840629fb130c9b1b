"""The script of a session: its lines, digests of them and of the answers, and the part that a new process executes."""

import hashlib
import time
from array import array
from binascii import crc32
from collections.abc import Callable, Iterator, Mapping, Sequence
from dataclasses import dataclass

from .answers import is_refusal
from .lines import words_of

Block = tuple[Sequence[str], Sequence[str]]
"""Lines of a script, and the answer to each. An answer with several lines has newlines between them."""


@dataclass(frozen=True)
class Checkpoint:
    """Lines that bring a new machine into the state after the first `number` lines of a script, and so replace these lines."""

    number: int
    lines: bytes


@dataclass(frozen=True)
class ScriptStart:
    """The first lines of a script, with the data that a session needs if a new process doesn't execute these lines.

    number, size: the number of the lines, and of their bytes
    sent, answers: the digests of the lines and of their answers
    policy: the policy for agnostic elements of each user who is present after the lines, by the user's number
    lines: returns other lines that bring a new machine into the state after the first lines; None if no lines can do that
    """

    number: int
    size: int
    sent: "hashlib._Hash"
    answers: "hashlib._Hash"
    policy: Mapping[int, str]
    lines: Callable[[], bytes | None]


class Script:
    """The lines of a session, with digests of the lines and of their answers.

    text: the lines, each with its newline
    sent, answers: the digests of the lines and of the answers
    marks: the CRC-32 of each answer, with which the answers of a replay are compared
    base: the last checkpoint, and the number of bytes of the script that it replaces
    policy: the policy for agnostic elements of each present user, by the user's number
    total: the seconds in which all lines were executed
    spent: the seconds in which the lines since the checkpoint were executed; a replay takes about as long
    """

    def __init__(self) -> None:
        self.text = bytearray()
        self.marks = array("I")
        self.base = Checkpoint(0, b""), 0
        self.policy: dict[int, str] = {}
        self.spent = self.total = 0.0
        self.sent, self.answers = hashlib.sha256(), hashlib.sha256()

    def shorten(self, checkpoint: Checkpoint, spent: float) -> None:
        """Set the checkpoint that a new process executes in place of the first lines of the script.

        checkpoint: its `number` counts the lines of `Session.short_script`, which begins with the previous checkpoint's lines
        spent: the seconds in which the replaced lines were executed
        """
        before, covered = self.base
        removed = max(0, checkpoint.number - before.lines.count(b"\n"))
        for _ in range(removed):
            covered = self.text.index(b"\n", covered) + 1
        self.base = Checkpoint(before.number + removed, checkpoint.lines), covered
        self.spent -= spent

    def start(self, lines: Callable[[], bytes | None]) -> ScriptStart:
        """Return the whole script as the start of a longer one. lines: as in `ScriptStart`"""
        return ScriptStart(
            len(self.marks), len(self.text), self.sent.copy(), self.answers.copy(), dict(self.policy), lines
        )

    def begin(self, start: ScriptStart, lines: bytes, whole: "Script") -> None:
        """Begin this script, which is empty, with the first lines of another script.

        start: the first lines; lines: the lines that a new process executes instead; whole: the other script
        """
        self.text, self.marks = whole.text[: start.size], whole.marks[: start.number]
        self.sent, self.answers = start.sent.copy(), start.answers.copy()
        self.policy.update(start.policy)
        self.base = Checkpoint(start.number, lines), start.size

    def record(self, lines: Sequence[str], answers: Sequence[str]) -> None:
        """Add lines and their answers."""
        self.add_replayed(lines, answers)
        # The text is extended last, so that another thread's spare process finds a mark for each line.
        self.text += "\n".join([*lines, ""]).encode("ascii")

    def add_replayed(self, lines: Sequence[str], answers: Sequence[str]) -> None:
        """Add replayed lines and their answers to the digests, the marks and the policies, but not to the text."""
        self.sent.update("\n".join([*lines, ""]).encode("latin-1"))
        self.answers.update("\n".join([*answers, ""]).encode("latin-1"))
        self.marks.extend(marks(answers))
        for line, answer in zip(lines, answers):
            if line[2:3] in "elp ":
                self._follow_policy(line, answer)

    def spend(self, started: float) -> None:
        """Add the time since `started`, a result of `time.monotonic`, to `spent` and `total`."""
        seconds = time.monotonic() - started
        self.spent, self.total = self.spent + seconds, self.total + seconds

    def _follow_policy(self, line: str, answer: str) -> None:
        if line[0] == "*" or is_refusal([answer]):
            return
        match words_of(line):
            case ["enter"] | ["load", _]:
                self.policy[int(line[0])] = "keep"
            case ["policy", choice]:
                self.policy[int(line[0])] = choice
            case ["leave"]:
                del self.policy[int(line[0])]


def marks(answers: Sequence[str]) -> Iterator[int]:
    """Return an iterator over the CRC-32 of each answer."""
    return map(crc32, map(str.encode, answers))

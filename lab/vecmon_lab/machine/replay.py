"""Start new processes, which execute a script again, and check that the answers are the same as before."""

from collections import deque
from collections.abc import Callable, Iterator
from dataclasses import dataclass

from .. import LabError
from .answers import OutOfStep, Users, read
from .lines import DIGITS
from .process import Process, ProgramGone
from .script import Block, Script, marks

NEW_MACHINE = Users(dict.fromkeys(DIGITS, "-"))
Progress = Callable[[int], object]
"""A function that is called with the percentage of a script that a process has executed, from 0 to 100."""
DIFFERS = "a new process answers the script otherwise than the one before"


class ReplayDiffers(LabError):
    """A new process answered the script differently from the one before."""


@dataclass
class Copy:
    """A process that executes a session's script again.

    number, size: the number of lines, and of their bytes, up to which it has executed the script
    """

    process: Process
    number: int
    size: int


class Replayer:
    """Starts processes that execute a session's script again. has_ended: whether the session has ended, which the session sets"""

    def __init__(self, script: Script, start: Callable[[], Process], check: Callable[[], object]) -> None:
        """script: the session's script; start: starts a process; check: raises an error if the program mustn't be used"""
        self._script, self._start, self._check = script, start, check
        self.has_ended = False

    def copy(self) -> Copy:
        """Return a new process. If the script has a checkpoint, the process has executed its lines in place of the script's first lines."""
        process, (checkpoint, covered) = self._start(), self._script.base
        try:
            if read(process.ask(["* list"])[0]) != NEW_MACHINE:
                raise OutOfStep("the program doesn't begin with a new machine")
            self._check()
            deque(self.piped(process, checkpoint.lines), 0)
        except BaseException:
            process.close()
            raise
        return Copy(process, checkpoint.number, covered)

    def bring_up(self, copy: Copy, tell: Progress = lambda percent: None) -> None:
        """Execute the lines of the script that a copy hasn't executed. Raises ReplayDiffers if an answer differs from the recorded one.

        Also raises as `piped` does. After any error the process is closed. tell: is called with the executed percentage
        """
        script = bytes(self._script.text[copy.size :])
        try:
            for lines, answers in self.piped(copy.process, script, tell):
                for line, answer, mark in zip(lines, answers, marks(answers)):
                    if mark != self._script.marks[copy.number]:
                        message = f"line {copy.number + 1}, {line[:60]!r}, now with {answer[:60]!r}"
                        raise ReplayDiffers(f"{DIFFERS}: {message}")
                    copy.number += 1
        except BaseException:
            copy.process.close()
            raise
        copy.size += len(script)

    def piped(self, process: Process, script: bytes, tell: Progress = lambda percent: None) -> Iterator[Block]:
        """Execute lines in a process, and yield blocks of lines with their answers as the answers arrive.

        script: the lines of a session's script; tell: is called with the executed percentage

        Raises ProgramGone, and OutOfStep if there are more answers than lines, or fewer.
        """
        lines, number, stops = script.decode("ascii").split("\n")[:-1], 0, ""
        left = iter(lines)
        line = next(left, "")
        for block in process.stream(script) if lines else ():
            if self.has_ended:
                raise ProgramGone("the session has ended")
            tell(min(99, 100 * number // len(lines)))
            answers = list[str]()
            for part in block.decode("latin-1").split("\n")[:-1]:
                if line[:1] == "*" != part[:1]:  # stop lines precede the answer to an operator's line
                    stops += f"{part}\n"
                    continue
                if not line:
                    raise OutOfStep(f"after the answers to a script there came {part[:60]!r}")
                answers.append(stops + part if stops else part)
                line, stops = next(left, ""), ""
            number += len(answers)
            yield lines[number - len(answers) : number], answers
        if line:
            raise OutOfStep("the program hasn't answered all lines of a script")
        if lines:
            tell(100)

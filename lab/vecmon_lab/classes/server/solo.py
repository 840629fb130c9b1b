"""One student's part of a class: a script that gives the student the same answers on a private machine."""

import argparse
import pathlib
import sys
from collections import deque
from collections.abc import Iterator, Sequence

from ... import LabError
from ...guest.runner import MAX_SLICES
from ...machine.answers import Granted, is_refusal, read
from ...machine.lines import DIGITS, words_of
from ...machine.program import find_program
from ...machine.session import Session
from .store import Store

PATIENCE = 30.0


def add_arguments(parser: argparse.ArgumentParser) -> None:
    """Add the arguments of `vecmon-lab solo`."""
    help_text = "the folder of a class, which may be running"
    parser.add_argument("folder", metavar="DIR", type=pathlib.Path, help=help_text)
    parser.add_argument("seat", metavar="SEAT", help="A1 to L8")


def run(arguments: argparse.Namespace) -> int:
    """Print a student's script; return the exit status. Raises LabError as `solo` does."""
    store = Store(arguments.folder, find_program(), is_reading=True)
    script = solo(store, arguments.seat)
    for sentence in store.damage.sentences:
        print(f"vecmon-lab: warning: {sentence}", file=sys.stderr)
    sys.stdout.writelines(f"{line}\n" for line in script)
    return 0


def solo(store: Store, seat: str) -> list[str]:
    """Return a script with only one student's lines, which gives the student the same answers as in the class.

    Raises LabError if there is no such seat, or if the script's answers differ.
    """
    machine, digit = seat[:-1], seat[-1:]
    if not machine or machine not in list(store.machines) or digit not in list(DIGITS):
        raise LabError(f"there is no seat {seat}; A1 is one")
    part = OwnScript(digit)
    for set_up, script in store.scripts.parts(machine):
        with store.session(PATIENCE) as whole, store.session(PATIENCE) as single:
            for session in (whole, single):
                deque(session.do_script(set_up), 0)
            part.follow(whole, single, script)
    with store.session(PATIENCE) as session:
        if own_lines(session, part.script, digit) != part.answers:
            raise LabError(f"the lines of {seat} alone are others than in the class")
    return part.script


def own_lines(session: Session, lines: Sequence[str], digit: str) -> list[str]:
    """Execute lines; return the parts of their answers that are for one user. digit: the digit of this user"""
    script = "".join(f"{line}\n" for line in lines).encode("ascii")
    return [part for _, answer in session.do_script(script) for part in answer if part[0] == digit]


class OwnScript:
    """A user's part of the scripts of a machine.

    script: the user's lines, with lines that grant the slices that the user received; answers: the answers to the user
    """

    def __init__(self, digit: str) -> None:
        self.script, self.answers = list[str](), list[str]()
        self._digit, self._running, self._last = digit, set[str](), DIGITS[-1]  # programs that run take slices in turn
        self._granted = 0  # since the user's last line

    def follow(self, whole: Session, single: Session, script: bytes) -> None:
        """Execute a script on two machines that are in the state in which the script starts.

        whole: executes all lines
        single: executes only lines that are needed to find the slice in which a program stops. If a program stops in a line with several slices,
            it executes the lines before this line, and then the slices one at a time.
        """
        waiting = bytearray()
        for line, answer in whole.do_script(script):
            self.answers += [part for part in answer if part[0] == self._digit]
            granted = read(answer) if line[0] == "*" else None
            if isinstance(granted, Granted) and granted.stops and words_of(line)[0] == "slices":
                deque(single.do_script(bytes(waiting)), 0)
                waiting.clear()
                for _ in range(granted.slices):
                    self._grant("* slices 1", single.do("* slices 1"))
                continue
            waiting += line.encode("ascii") + b"\n"
            if line[0] == "*":
                self._grant(line, answer)
            elif line[0] == self._digit:
                self.script += [*self._slices(), line]
            self._follow_running(line, answer)
        self.script += self._slices()

    def _slices(self) -> Iterator[str]:
        """Yield lines that grant the slices that the user received since the user's last line."""
        while self._granted:
            number = min(self._granted, MAX_SLICES)
            self._granted -= number
            yield f"* slices {number}"

    def _grant(self, line: str, answer: Sequence[str]) -> None:
        """Count the slices that an operator's line grants. A program may stop only in the line's last slice."""
        granted, words = read(answer), words_of(line)
        if not isinstance(granted, Granted) or not granted.slices:
            return
        if words[0] == "run":
            self._granted += words[1] == self._digit
        else:
            place = DIGITS.index(self._last) + 1
            order = [digit for digit in DIGITS[place:] + DIGITS[:place] if digit in self._running]
            rounds, rest = divmod(granted.slices, len(order))
            self._granted += rounds * (self._digit in order) + (self._digit in order[:rest])
            self._last = order[rest - 1]
        self._running -= {digit for digit, _ in granted.stops}

    def _follow_running(self, line: str, answer: Sequence[str]) -> None:
        """Update the set of running programs after a line of any user."""
        match words_of(line):
            case ["go"] if line[0] != "*" and not is_refusal(answer):
                self._running.add(line[0])
            case ["stop"] | ["leave"] if line[0] != "*" and not is_refusal(answer):
                self._running.discard(line[0])

"""A user's run as legs: lines that set registers or memory, and the instructions that the program executed after them."""

from collections.abc import Sequence
from dataclasses import dataclass, field

from ..guest.guest import SET_UP_ADDRESS
from ..machine.answers import Output, Position, Refused, Stop, read
from ..machine.lines import words_of

TRYING = " "  # the end of a `step` line during which the program may stop
# Kinds of stops at which the instruction was executed, and may have changed something.
TRIED = ("fault", "ebreak", "exit")
_WRITES = ("set", "vset", "setpc", "poke", "asm", "map", "policy")


@dataclass
class Leg:
    """Lines, and the consecutive instructions that the program executed after them.

    lines: the lines, with the user's digit, that bring a machine from the end of the previous leg to the start of this leg. A `step` line
        during which the program may stop ends with a space (TRYING).
    count: the number of instructions; None if the lines don't show it and it isn't counted yet
    most: an upper bound of an unknown count: the number of granted steps or ticks
    ticks: the number of ticks that were granted to the program while it ran; None if it was only stepped, or if the number is unknown
    breaks: the addresses of the user's breakpoints during the leg
    stop: the program's stop at the end of the leg; None if a line stopped the program, or if it was only stepped
    """

    lines: list[str] = field(default_factory=list)
    count: int | None = 0
    most: int = 0
    ticks: int | None = None
    breaks: frozenset[int] = frozenset()
    stop: Stop | None = None

    @property
    def is_blank(self) -> bool:
        """Whether the leg has no instruction."""
        return self.count == 0 and self.stop is None


@dataclass
class Place:
    """A place in the legs: after the lines of leg number `leg`, and after `offset` instructions of this leg.

    has_tried: whether the machine has also executed the instruction at which the leg stops
    """

    leg: int = -1
    offset: int = 0
    has_tried: bool = False


class Legs:
    """The legs of a user since the user's machine started, derived from the lines of a script and their answers.

    number: the number of times that the history has started anew
    is_running: whether the program runs
    written: the number of bytes of the program's output that `out` has taken
    """

    def __init__(self, digit: str, quantum: int) -> None:
        self.legs = list[Leg]()
        self.number, self.is_running, self.written = 0, False, 0
        self.digit, self._quantum = digit, quantum
        self._breaks = frozenset[int]()
        # Whether the lines are those of a checkpoint. Instructions that these lines step don't count as instructions of the program.
        self._has_set_up = False
        self._is_preparing = (
            False  # whether the program counter is at the instruction that prepares a case of an exercise
        )

    def set_up(self, is_on: bool) -> None:
        """Note that lines of a checkpoint follow (`is_on` is true), or that they have ended. They come before instruction 0."""
        self._has_set_up = is_on

    def follow(self, line: str, answer: Sequence[str]) -> None:
        """Take up the user's next line and its answer."""
        reply, words = read(answer), words_of(line)
        if isinstance(reply, Refused):
            return
        match words:
            case ["enter"]:
                self._restart([line])
            case ["load", _]:
                self._restart([f"{self.digit} enter", line])
            case ["leave"]:
                self._restart([])
            case ["break", address]:
                self._breaks |= {int(address, 16)}
            case ["unbreak", address]:
                self._breaks -= {int(address, 16)}
            case ["go"]:
                self._go(is_resumed=line.endswith(" "))
            case ["stop"]:
                self.is_running = False
            case _ if self._has_set_up and words[0] in (*_WRITES, "step", "out"):
                self.legs[-1].lines.append(line + TRYING if words[0] == "step" else line)
            case ["setpc", address]:
                self._is_preparing = int(address, 16) == SET_UP_ADDRESS
                self._add_line(line)
            case ["step", "1"] if self._is_preparing and isinstance(reply, Position):
                self._add_line(line)
            case ["step", number]:
                self._step(int(number), reply)
            case ["out"] if isinstance(reply, Output) and reply.data:
                self.written += len(reply.data)
                self._add_line(line)
            case _ if words[0] in _WRITES:
                self._add_line(line)

    def grant(self, slices: int | None, stop: Stop | None) -> None:
        """Take up slices that were granted to the user's program. Do nothing if the program doesn't run.

        slices: the number of slices; None if it is unknown. stop: the stop that ended the last slice; None if the program still runs
        """
        if not self.is_running:
            return
        leg = self.legs[-1]
        leg.most += (slices or 1000) * self._quantum
        leg.ticks = None if leg.ticks is None or slices is None else leg.ticks + slices * self._quantum
        if stop:
            leg.stop, self.is_running = stop, False

    def _restart(self, lines: list[str]) -> None:
        """Start the history anew. lines: the lines of the first leg; if there are none, the user has left, and there are no legs"""
        self.legs = [Leg(lines)] if lines else []
        self.number += 1
        self._breaks, self.is_running, self.written = frozenset(), False, 0
        self._is_preparing = False

    def _last(self) -> Leg:
        """Return the leg to which instructions are added: the last one, or a new one if the last one has an unknown count or a stop."""
        last = self.legs[-1]
        if last.count is None or last.stop:
            self.legs.append(Leg())
        return self.legs[-1]

    def _add_line(self, line: str) -> None:
        """Add a line to the last leg, or to a new one if the last one has instructions."""
        if not self.legs[-1].is_blank:
            self.legs.append(Leg())
        self.legs[-1].lines.append(line.rstrip())

    def _go(self, is_resumed: bool) -> None:
        """Note that the program runs. is_resumed: whether the server resumed it after it had stopped it to read its state"""
        self.is_running, last = True, self.legs[-1]
        if is_resumed and last.count is None and last.stop is None and last.breaks == self._breaks:
            return
        if not last.is_blank:
            self.legs.append(Leg())
        last = self.legs[-1]
        last.count, last.ticks, last.breaks = None, 0, self._breaks

    def _step(self, number: int, reply: object) -> None:
        """Take up a `step` line. number: the number of instructions in the line; reply: the answer, as `answers.read` returns it"""
        if isinstance(reply, Position):
            last = self._last()
            last.count = (last.count or 0) + reply.number
        elif isinstance(reply, Stop) and number == 1:
            self._last().stop = reply
        elif isinstance(reply, Stop):
            if not self.legs[-1].is_blank:
                self.legs.append(Leg())
            last = self.legs[-1]
            last.count, last.most, last.breaks, last.stop = None, number, self._breaks, reply

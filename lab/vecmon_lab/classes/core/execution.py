"""The execution of a seat's program: its last stop, its output, and the slices that it was granted."""

from collections.abc import Mapping
from dataclasses import dataclass, field
from typing import Literal

from ...machine.answers import Stop, read
from ...page.state import State

BLOCK_DIGITS, BLOCKS = 2048, 64  # digits in a block of output, and the most blocks: a page has the last 64 KB

Condition = Literal["Not begun", "Ready", "Running", "Paused", "Ended", "Fault"]
"""The condition of a machine. Ready: its program hasn't executed anything"""
# The conditions after stops of these kinds. After any other stop the program is paused.
_ENDS: Mapping[str, Condition] = {"fault": "Fault", "exit": "Ended", "ebreak": "Ended"}


@dataclass(eq=False)
class Execution:
    """The execution of a program since its machine began.

    stop: the last stop line, without the digit; "" once the student has resumed the program
    has_started: whether the program has executed anything
    output: the output of the program in hexadecimal digits, in blocks by number
    slices: the approximate number of slices that the program was granted since its last stop, or since the student resumed it
    last_seen: the event loop's time, in seconds, when somebody last looked at the running program; 0 if nobody did
    """

    stop: str = ""
    has_started: bool = False
    output: dict[str, str] = field(default_factory=dict)
    slices: float = 0.0
    last_seen: float = 0.0

    def resume(self) -> None:
        """Forget the last stop and the slices, since the student resumes the program."""
        self.stop, self.slices, self.last_seen = "", 0.0, 0.0

    def add_output(self, digits: str) -> None:
        """Append output of the program. digits: hexadecimal, two for each byte"""
        self.output = output_blocks(self.output, digits)

    def condition(self, state: State) -> Condition:
        """Return the condition of the machine. state: what is known of its user"""
        if state["run"] != "stopped":
            return "Not begun" if state["run"] == "absent" else "Running"
        stop = read([f"1 {self.stop}"]) if "stop" in state and self.stop else None
        return condition_after(stop if isinstance(stop, Stop) else None, self.has_started)


def condition_after(stop: Stop | None, has_started: bool) -> Condition:
    """Return the condition of a stopped program.

    stop: the reason, if the program stopped by itself and nothing has changed since
    has_started: whether it has executed anything since its machine began
    """
    return _ENDS.get(stop.kind if stop else "", "Paused" if has_started else "Ready")


def output_blocks(before: Mapping[str, str], digits: str) -> dict[str, str]:
    """Return blocks of output, by number, after digits are appended to the last block; at most BLOCKS blocks remain.

    before: the blocks up to now. Full blocks don't change, so that pages don't receive them again.
    """
    *full, last = list(before.items()) or [("0", "")]
    text = last[1] + digits
    blocks = (text[at : at + BLOCK_DIGITS] for at in range(0, len(text), BLOCK_DIGITS))
    new = {f"{number}": block for number, block in enumerate(blocks, int(last[0]))}
    return dict([*full, *new.items()][-BLOCKS:])

"""The lines that the server sends for a seat: they fetch the output of its program, stop it and resume it.

`server_line` marks them with a trailing space. The machine ignores the space; in a recorded script it distinguishes the
server's lines from those of students, so that a replay restores both.
"""

from collections.abc import Iterable, Sequence

from ...checkpoints.set_up import TRACED
from ...machine.answers import first_word, is_refusal, is_stop
from ...machine.lines import words_of
from ...page.state import State

_MARKED = {command: f"{command} " for command in ("out", "stop", "go")}


def server_line(digit: str, command: str) -> str:
    """Return the server's line for the seat of this digit. command: `out`, `stop` or `go`"""
    return f"{digit} {_MARKED[command]}"


def is_servers(line: str) -> bool:
    """Return whether a user's line has the mark of `server_line`."""
    return line[0] != "*" and line[2:] in _MARKED.values()


def with_output(done: Iterable[tuple[str, Sequence[str]]], states: dict[str, State]) -> dict[str, bool]:
    """Find the users whose programs have stopped and may have written output, after lines were executed.

    done: the executed lines, each with its answer
    states: the state of each user before these lines, by the user's digit

    Returns a mapping from the digit of each of these users to whether the program should resume once its output was taken: True if the
    program ran and stopped because its output buffer was full, and False otherwise.
    """
    steps = dict.fromkeys(states, 0)
    still: dict[str, bool] = {}
    for line, answer in done:
        match [line[0], *words_of(line)]:
            case [digit, "go" | "enter" | "leave" | "load", *_] if digit in states and not is_refusal(answer):
                still.pop(digit, None)
            case [digit, "stop"] if digit in states and not is_refusal(answer):
                still[digit] = False
            case [digit, "step", number] if digit in states and not is_refusal(answer):
                steps[digit] += int(number)
                if _calls(states[digit], steps[digit]):
                    still[digit] = False
        for part in filter(is_stop, answer):
            still[part[0]] = line[0] == "*" and first_word(part) == "outfull"
    return still


def _calls(state: State, steps: int) -> bool:
    """Return whether one of the next `steps` instructions after a state may be a system call. The instructions are those of the state's listing."""
    code = state.get("code", {})
    if steps == 1:
        return code.get(state.get("pc", ""), "ecall").endswith("ecall")
    # a listing has at most TRACED executed instructions
    return steps > TRACED or any(text.endswith("ecall") for text in code.values())

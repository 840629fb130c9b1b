"""Compare another device's log of an image with the machine.

Report the first instruction that differs, and what the standard allows there.
"""

import argparse
import itertools
import pathlib
import re
from collections import deque
from collections.abc import Iterator, Sequence

from .. import LabError, mistakes_in
from ..arguments import add_any_vlen
from ..guest.changes import Retired, Stepper, vtype_text
from ..guest.guest import Guest, started
from ..guest.symbols import Symbols
from ..instructions.accesses import REGISTER_BYTES
from ..instructions.calls import ECALL
from ..machine.target import report_target
from ..runs.dataflow import Cell
from .differences import differences
from ..runs.logs import Commit, Kind, Log
from .origins import LOOKS_BACK, LoggedStep, origin

_NUMBER = re.compile(r"\b([xv])(\d+)\b")


def add_arguments(parser: argparse.ArgumentParser) -> None:
    """Add the arguments of `vecmon-lab lockstep`."""
    parser.add_argument("image", metavar="IMAGE", type=pathlib.Path, help="an ELF file")
    logs = "Spike's --log-commits, vecmon-record's --log, or QEMU's -d nochain,cpu,vpu,strace (7.2: without vpu)"
    parser.add_argument("log", metavar="LOG", type=pathlib.Path, help=logs)
    parser.add_argument(
        "--policy", choices=("keep", "ones"), default="keep", help="the policy for agnostic elements; by default keep"
    )
    add_any_vlen(parser)


def run(arguments: argparse.Namespace) -> int:
    """Print the first difference, and return 1; or print the number of instructions that agree, and return 0.

    Raises LabError and OSError.
    """
    image, symbols = arguments.image, Symbols.read(arguments.image)
    report_target(image, arguments.any_vlen)
    with arguments.log.open(errors="replace") as lines, started(image, policy=arguments.policy) as guest:
        lockstep = _Lockstep(guest, Log(lines), symbols)
        with mistakes_in(arguments.log):
            status = lockstep.run()
    if not lockstep.number:
        raise LabError(f"{arguments.log} has no instruction where {image} begins")
    return status


class _Lockstep:
    """The machine, and a log to compare it with.

    number: the number of compared instructions
    """

    def __init__(self, guest: Guest, log: Log, symbols: Symbols) -> None:
        self.number = 0
        self._guest, self._log, self._symbols = guest, log, symbols
        self._stepper, self._steps, self._shift = Stepper(guest), deque[LoggedStep](maxlen=LOOKS_BACK), 0

    def run(self) -> int:
        """Compare all instructions, from the machine's program counter on. Return the exit status. Raises LabError."""
        commits = itertools.dropwhile(lambda commit: commit.pc != self._guest.pc, self._log.commits())
        for commit, following in itertools.pairwise(itertools.chain(commits, [None])):
            assert commit
            status = self._compare(commit, following)
            if status is not None:
                return status
        return self._finish() if self.number else 2

    def _compare(self, commit: Commit, following: Commit | None) -> int | None:
        """Execute an instruction and compare it with the log's. Raises LabError.

        Return the exit status if the comparison ends, or else None. following: the log's next instruction, or None
        """
        if commit.pc != self._guest.pc:  # Spike's log has no line for an instruction that isn't executed
            commit, following = Commit(self._guest.pc, commit.word, is_done=False), commit
        if not commit.is_done and following is None and self._log.end is Kind.TRUNCATED:
            raise self._truncated(commit.pc)
        step = self._step(commit)
        trap = self._trap(step, following)
        if trap:
            return self._report({trap: {("vstart", 0)}}, is_trap=True)
        lines = dict(differences(step, self._stepper.registers, self._shift, self._guest.peek))
        if lines:
            return self._report(lines, is_trap=False)
        return self._agree(step) if step.retired.stop else None

    def _step(self, commit: Commit) -> LoggedStep:
        """Execute an instruction on the machine; return it as a step of the log. commit: the log's instruction"""
        before = self._stepper.registers.copy()
        self.number += 1
        if self.number == 1 and commit.stack is not None:
            self._shift = commit.stack - before.x[2]
        step = LoggedStep(_retire(self._stepper, commit), before, self.number, commit)
        self._steps.append(step)
        return step

    def _finish(self) -> int:
        """Return the exit status after all instructions of a log in Spike's form agree. Raises LabError if the log is truncated.

        The log and the program must end together.
        """
        if self._log.end is Kind.LIMITED:
            print(f"{self.number:,} instructions agree, up to the limit of ticks of the log")
            return 0
        if self._log.end is Kind.TRUNCATED:
            raise self._truncated(self._guest.pc)
        step = self._step(Commit(self._guest.pc, is_done=False))
        if step.retired.stop:
            self.number -= 1
            return self._agree(step)
        if self._log.end is Kind.OPEN:
            self.number -= 1
            raise self._truncated(step.retired.pc)
        return self._report({f"executed here, {self._log.end_text} in the log": {("vstart", 0)}}, is_trap=True)

    def _agree(self, step: LoggedStep) -> int:
        """Print that all instructions up to a stop agree, and return 0."""
        print(f"{self.number:,} instructions agree; {self._stop_text(step)}")
        return 0

    def _stop_text(self, step: LoggedStep) -> str:
        """Return where and why the program stopped."""
        return self._guest.describe(step.retired.stop, self._symbols.place(self._guest.pc))

    def _truncated(self, pc: int) -> LabError:
        """Return the error that the log ends before the instruction at an address."""
        place = f"{pc:x} {self._symbols.place(pc)}".rstrip()
        agreed = f"{self.number:,} instructions agree, and then the log is truncated"
        return LabError(f"{agreed}: the program goes on at {place}. Record all of it, or less of the program")

    def _trap(self, step: LoggedStep, following: Commit | None) -> str | None:
        """Return a text about how one device refused an instruction that the other executed; None if both executed it. Raises LabError.

        following: the log's next instruction; None at the log's end
        """
        commit, stop, log = step.commit, step.retired.stop, self._log
        if stop:
            has_advanced = commit.is_done and (commit.word is not None or following and following.pc == commit.pc + 4)
            return f"{stop.kind} here, executed in the log" if has_advanced and stop.kind != "exit" else None
        if commit.is_done and (following is None or commit.word is not None or following.pc == self._guest.pc):
            return None
        if following:
            return f"executed here, and the log goes on at {following.pc:x}"
        if log.end is Kind.ENDED:
            return f"executed here, {log.end_text} in the log"
        if log.has_calls:  # so a signal would be in the log
            self.number -= 1
            raise self._truncated(step.retired.pc)
        return (
            "executed here, the end of the log: refused there, or the log is truncated (QEMU's -d strace shows which)"
        )

    def _report(self, lines: dict[str, set[Cell]], is_trap: bool) -> int:
        """Print a difference, and return 1. is_trap: whether only one device executed the instruction"""
        print(*_report(self._steps, lines, is_trap, self._symbols), sep="\n")
        return 1


def _retire(stepper: Stepper, commit: Commit) -> Retired:
    """Execute an instruction. The result of a call is taken from the log, since it depends on the other device's system."""
    before, retired = stepper.registers.x[10], stepper.step()
    if retired.word == ECALL and commit.is_done:
        stepper.guest.ask(f"set x10 {commit.x.get(10, before):x}")
        stepper.look()
    return retired


def _report(steps: Sequence[LoggedStep], lines: dict[str, set[Cell]], is_trap: bool, symbols: Symbols) -> Iterator[str]:
    """Yield lines about a difference: the instruction, the parts that differ, and where the standard leaves them open."""
    yield from _shown(steps[-1], symbols)
    yield from lines
    places = set[Cell]().union(*lines.values())
    found = origin(steps, places, is_trap) or origin(steps, places, is_trap, is_part=True)
    if found and found[0] is not steps[-1]:
        yield "it was left otherwise before:"
        yield from _shown(found[0], symbols)
    yield found[1] if found else "not allowed: the standard leaves nothing open here"


def _shown(step: LoggedStep, symbols: Symbols) -> Iterator[str]:
    """Yield lines about an instruction, with the control registers and its registers before it."""
    pc, control, sources = step.retired.pc, step.before.control, []
    yield f"instruction {step.number:,}: {f'{pc:x} {symbols.place(pc)}'.rstrip()}: {step.retired.text}"
    for kind, number in dict.fromkeys((kind, int(digits)) for kind, digits in _NUMBER.findall(step.retired.text)):
        data = step.before.v[REGISTER_BYTES * number : REGISTER_BYTES * (number + 1)]
        sources.append(f"x{number}={step.before.x[number]:x}" if kind == "x" else f"v{number}={data.hex()}")
    state = f"vl={control.vl} vtype={vtype_text(control.vtype)} vstart={control.vstart} vxrm={control.vxrm}"
    yield " ".join(["before:", state, *sources])

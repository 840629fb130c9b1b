"""Run an image to its end. Its output goes to standard output, and its exit status becomes the command's."""

import argparse
import contextlib
import functools
import io
import itertools
import os
import pathlib
import re
import stat
import sys
from collections import Counter
from collections.abc import Callable, Iterator, Sequence
from contextlib import AbstractContextManager
from typing import Any

from .. import LabError
from ..arguments import add_image, between, check_outputs
from ..guest.guest import QUANTUM, Guest, started
from ..guest.calls import unshown_calls
from ..guest.image_start import image_start
from ..guest.runner import Report, Reporter, unreported
from ..guest.symbols import Symbols
from ..instructions.calls import ECALL
from ..instructions.reasons import describe_stop
from ..machine.answers import Stop
from ..machine.start_state import RETURN
from ..output import write_out
from .choices import Choices, add_choices, choices_of
from .counts import Counts
from .initial_state import initial_state_of, with_settings
from .open_runs import MAX_TICKS, OpenProgram
from .recorder import Record, record
from .trace import trace
from .writes import short_write

LINES_AT_ONCE = 1000  # lines of a trace to write at once
TICKS_RAN_OUT, BREAKPOINT, FAULT = 124, 133, 139  # the statuses of timeout, and of shells for SIGTRAP and SIGSEGV


def add_arguments(parser: argparse.ArgumentParser) -> None:
    """Add the arguments of `vecmon-lab run`."""
    add_image(parser)
    number = between(1, 1 << 63)
    parser.add_argument("--policy", choices=("keep", "ones"), default="keep", help="policy for agnostic elements")
    parser.add_argument("--trace", metavar="FILE", type=pathlib.Path, help="write a line for each instruction to FILE")
    parser.add_argument(
        "--log", metavar="FILE", type=pathlib.Path, help="write the recorder's log, in Spike's form, to FILE"
    )
    first, last = (
        "the first instruction of trace and log; by default 1",
        "the last instruction of trace and log; by default the run's last",
    )
    parser.add_argument("--from", dest="first", metavar="N", type=number, help=first)
    parser.add_argument("--to", dest="last", metavar="N", type=number, help=last)
    parser.add_argument(
        "--count", action="store_true", help="print the number of instructions and ticks on standard error"
    )
    parser.add_argument("--stats", action="store_true", help="the same, by name, and by vector type and length")
    add_choices(parser)
    help_text = "start with another value in a register, or with other bytes at an address"
    parser.add_argument(
        "--set", dest="settings", metavar="PLACE=DIGITS", type=_setting, action="append", default=[], help=help_text
    )


def run(arguments: argparse.Namespace) -> int:
    """Run the image. Return its exit status, or a status for the way it stopped. Raises LabError and OSError for bad input."""
    named, symbols, choices = arguments.named, Symbols.read(arguments.image), choices_of(arguments)
    _check_window(arguments)
    check_outputs([arguments.trace, arguments.log], named, *filter(None, [arguments.input]))
    if choices.options() or arguments.settings:
        return _run_open(arguments, choices, symbols)
    with arguments.trace.open("ab", buffering=0) if arguments.trace else contextlib.nullcontext() as file:
        counts = counted(arguments, write_out, [*_logs(arguments)])
        report_calls(arguments, counts, symbols)
        lines = [*stats(counts)] if arguments.stats else [total(counts)] if arguments.count else []
        is_exit = counts.stop is not None and counts.stop.kind == "exit"
        if not is_exit:
            lines.append(f"vecmon-lab: {named}: {ending(arguments, counts, symbols)}")
        if counts.short_writes:
            with _begun(arguments) as guest:
                short = short_write(guest, counts, symbols)
            lines += [f"vecmon-lab: {named}: {short}"] if short else []
        sys.stderr.writelines(f"{line}\n" for line in lines)
        window = _window(arguments, counts)
        if file:
            start = functools.partial(_begun, arguments)
            _write_trace(arguments.trace, file, trace(start, symbols, window))
    return counts.stop.number if counts.stop and is_exit else status_of(counts.stop, arguments.image)


def _setting(word: str) -> str:
    """Return an argument of `--set`, if it has the right form."""
    if not re.fullmatch("(x[0-9]+|v[0-9]+|vxrm|vxsat)=[0-9a-f]+|[0-9a-f]{1,16}=([0-9a-f]{2})+", word):
        raise argparse.ArgumentTypeError(f"{word!r} sets nothing; x12=1f does, and 11000=00ff of two bytes")
    return word


def _run_open(arguments: argparse.Namespace, choices: Choices, symbols: Symbols) -> int:
    """Run the image with choices and initial values. Return its exit status, or a status for the way it stopped.

    Raises LabError and OSError for bad input.
    """
    if arguments.policy != "keep" or arguments.trace or arguments.count or arguments.stats:
        raise LabError("--open and --set can't be combined with --policy ones, --trace, --count or --stats")
    initial_state = initial_state_of(
        arguments.image, [arguments.image.name, *arguments.words], arguments.input, "keep", arguments.named
    )
    initial_state = with_settings(initial_state, arguments.settings)
    end = OpenProgram(initial_state, arguments.ticks or MAX_TICKS).run(choices, write_out, [*_logs(arguments)])
    if end.kind != "exit":
        place = f"{end.pc:x} {symbols.place(end.pc)}".rstrip()
        what = describe_stop(end) if isinstance(end, Stop) else "the ticks ran out"
        print(f"vecmon-lab: {arguments.named}: {place}: {what}", file=sys.stderr)
    if isinstance(end, Stop) and end.kind == "exit":
        return end.number
    return status_of(end if isinstance(end, Stop) else None, arguments.image)


def counted(
    arguments: argparse.Namespace,
    write: Callable[[bytes], object] | None = None,
    more: Sequence[Record] = (),
) -> Counts:
    """Return the counts of an image's run. Raises LabError and OSError for bad input.

    arguments: a command's arguments, which name the image and its input; write: called with the output; more: further records
    """
    words = [arguments.image.name, *arguments.words]
    initial_state = initial_state_of(arguments.image, words, arguments.input, arguments.policy, arguments.named)
    return record(initial_state, arguments.ticks, write, more)


def ending(arguments: argparse.Namespace, counts: Counts, symbols: Symbols) -> str:
    """Return a line about the end of a counted run. To explain a stop, the image runs again on a machine up to this stop."""
    stop, place = counts.stop, f"{counts.end.pc:x} {symbols.place(counts.end.pc)}".rstrip()
    if stop is None:
        return f"the ticks ran out at {place}"
    if stop.kind == "exit":
        return f"status {stop.number}"
    with _begun(arguments) as guest:
        if guest.go(counts.ticks + QUANTUM) == stop:
            return guest.describe(stop, symbols.place(stop.pc))
    return f"{place}: {describe_stop(stop)}"


def report_calls(arguments: argparse.Namespace, counts: Counts, symbols: Symbols) -> None:
    """Print the unsupported calls of a run on standard error.

    If the code doesn't show that all its calls are supported, the image runs again on a machine to find them.
    """
    executed = [place.address for place in counts.places if place.word == ECALL]
    if executed and unshown_calls(arguments.image.read_bytes(), executed):
        with _begun(arguments, Reporter(symbols.place)) as guest:
            guest.go(counts.ticks + QUANTUM, lambda: guest.runner.looks_left == 0)


def total(counts: Counts) -> str:
    """Return a text with the numbers of executed instructions and of ticks."""
    return f"{counts.instructions:,} instructions in {counts.ticks:,} ticks"


def stats(counts: Counts) -> Iterator[str]:
    """Yield lines with the numbers of instructions by name, and of vector instructions by length and type, the greatest first."""
    names = Counter[str]()
    for place in counts.places:
        names[counts.texts[place.word].split()[0]] += place.times
    yield total(counts)
    yield from (f"{times:>12,}  {name}" for name, times in names.most_common())
    yield f"{counts.lengths.total():,} vector instructions"
    yield from (f"{times:>12,}  vl={vl}  {kind}" for (kind, vl), times in counts.lengths.most_common())


def status_of(stop: Stop | None, image: pathlib.Path) -> int:
    """Return the exit status for the stop of an image's program: 0 for an exit and for a return.

    stop: None if the ticks ran out
    """
    start = image_start(image)
    if stop and stop.kind == "ebreak" and start.commands and stop.pc in (RETURN, start.end):
        return 0
    return TICKS_RAN_OUT if stop is None else {"exit": 0, "fault": FAULT}.get(stop.kind, BREAKPOINT)


def _begun(arguments: argparse.Namespace, report: Report = unreported) -> AbstractContextManager[Guest]:
    """Return a guest with the image that a command's arguments name. Its output is discarded."""
    image, words = arguments.image, [arguments.image.name, *arguments.words]
    given: dict[str, Any] = {"policy": arguments.policy, "arguments": words, "file": arguments.input}
    given["name"] = arguments.named
    return started(image, **given, write=lambda data: None, report=report)


def _check_window(arguments: argparse.Namespace) -> None:
    """Raise LabError if the arguments have a window but neither a trace nor a log, or if the window contains no instruction."""
    trace, log = arguments.trace, arguments.log
    if log and not (arguments.ticks or arguments.last or f"{log}".startswith("/dev/")):
        raise LabError("a log needs --ticks or --to, so that it has an end, unless FILE begins with /dev/")
    if arguments.first or arguments.last:
        if not trace and not log:
            raise LabError("--from and --to are of a trace or a log: --trace FILE or --log FILE names its file")
        if arguments.last and arguments.last < (arguments.first or 1):
            raise LabError(f"from instruction {arguments.first:,} to {arguments.last:,} there is none")


def _logs(arguments: argparse.Namespace) -> Iterator[Record]:
    """Yield the log that the recorder writes, with its window, if the arguments ask for one."""
    if arguments.log:
        window = {"--from": arguments.first, "--to": arguments.last}
        words = [word for option, number in window.items() if number for word in (option, f"{number}")]
        yield Record([*words, "--log"], arguments.log.open("ab", buffering=0))  # emptied by the recorder


def _write_trace(path: pathlib.Path, file: io.FileIO, lines: Iterator[str]) -> None:
    """Empty a file, and write lines to it. Raises LabError if they can't be written. path: the file's path, for the message"""
    try:
        if stat.S_ISREG(os.fstat(file.fileno()).st_mode):
            file.truncate(0)
        while block := "".join(f"{line}\n" for line in itertools.islice(lines, LINES_AT_ONCE)).encode():
            while block:
                block = block[file.write(block) :]
    except OSError as error:
        raise LabError(f"{path}: {error.strerror}") from error


def _window(arguments: argparse.Namespace, counts: Counts) -> range:
    """Return the numbers of the instructions in a trace of a run. Raises LabError if the run ends before them."""
    stops = (
        counts.stop is not None and counts.stop.kind != "exit"
    )  # the instruction that stops the run isn't counted, but has a line
    first, last = arguments.first or 1, counts.instructions + stops
    if first > last:
        raise LabError(f"the run has {last:,} instructions, and none from {first:,} on")
    return range(first, min(last, arguments.last or last) + 1)

"""Measure the time until the language server sends the diagnostics of a changed source: `python lab/tools/language_times.py [--lines N]`.

Prints the median over some changes of a line, and over some that insert a line: the time by the clock, and the server's time of processor.
"""

import argparse
import os
import pathlib
import statistics
import time
from collections.abc import Callable

from support.language_client import Editor

CHANGES = 15
_LOOP = """\
l{n}:   vsetvli t0, a0, e32, m1, ta, mu
        vle32.v v8, (a1)        # a comment
        vadd.vv v8, v8, v16
        vse32.v v8, (a2)

        sub a0, a0, t0
        bnez a0, l{n}
        # a line without an instruction
"""


def processor_seconds(process: int) -> float:
    """The time of processor that a process has taken."""
    fields = pathlib.Path(f"/proc/{process}/stat").read_text("ascii").rpartition(")")[2].split()
    return (int(fields[11]) + int(fields[12])) / os.sysconf("SC_CLK_TCK")


def measure(editor: Editor, change: Callable[[int], None]) -> tuple[float, float]:
    """The median of the seconds by the clock, and the mean seconds of processor, of changes until their diagnostics."""
    times, before = list[float](), processor_seconds(editor.process.pid)
    for number in range(CHANGES):
        start = time.monotonic()
        change(number)
        editor.diagnostics()
        times.append(time.monotonic() - start)
    return statistics.median(times), (processor_seconds(editor.process.pid) - before) / CHANGES


def main() -> None:
    """Print the times of both kinds of changes."""
    parser = argparse.ArgumentParser(description="Measure the time until diagnostics of a changed source.")
    parser.add_argument("--lines", type=int, default=2000, help="of the source (default: %(default)s)")
    lines = parser.parse_args().lines
    text = "_start:\n" + "".join(_LOOP.format(n=number) for number in range(lines // _LOOP.count("\n")))
    with Editor() as editor:
        editor.set_text(text)
        kinds: dict[str, Callable[[int], None]] = {
            "a line changed": lambda number: editor.change(
                (lines // 2, 0, lines // 2, number % 2, " " * (1 - number % 2))
            ),
            "a line inserted": lambda number: editor.change((lines // 2, 0, lines // 2, 0, "        nop\n")),
        }
        for name, change in kinds.items():
            clock, processor = measure(editor, change)
            print(
                f"{text.count(chr(10)):,} lines, {name}: {1000 * clock:.0f} ms, {1000 * processor:.0f} ms of processor"
            )


if __name__ == "__main__":
    main()

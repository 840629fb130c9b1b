"""How long a call of a function from Python takes: `python lab/tools/call_times.py`, with VECMON as for the lab; needs clang-19.

Prints microseconds of processor a call, of the lab and its programs together, for `add_scaled` of 37 numbers: the least and the median
of rounds, plain and with `counted=True`.
"""

import resource
import statistics
import time
from array import array

from support.places import TOP
from vecmon_lab import Kernel

ROUNDS, CALLS = 5, 200
SOURCE = TOP / "lab" / "examples" / "tested" / "add_scaled.c"
NUMBERS, SUMS = array("i", range(37)), array("i", range(37))  # two arrays: one given twice would be one in memory


def children() -> float:
    """Return the seconds of processor of the processes that have ended."""
    used = resource.getrusage(resource.RUSAGE_CHILDREN)
    return used.ru_utime + used.ru_stime


def seconds(counted: bool) -> float:
    """Return the seconds of processor of one round in a process of its own machine."""
    with Kernel(SOURCE) as kernel:
        kernel.call("add_scaled", 37, 3, NUMBERS, SUMS, counted=counted)
        of_lab, of_others = time.process_time(), children()
        for _ in range(CALLS):
            kernel.call("add_scaled", 37, 3, NUMBERS, SUMS, counted=counted)
        of_lab = time.process_time() - of_lab
    return of_lab + children() - of_others


def main() -> None:
    """Measures, and prints."""
    for counted in (False, True):
        rounds = sorted(seconds(counted) * 1e6 / CALLS for _ in range(ROUNDS))
        print(f"counted={counted}: {rounds[0]:.0f} microseconds a call, median {statistics.median(rounds):.0f}")


if __name__ == "__main__":
    main()

"""Compare the lab's assembler with GNU as and clang: `python lab/tools/compare_assemblers.py [--sources N] [--first N]`.

It draws sources (support/drawn_sources.py), 2,000 by default, and compares the bytes in the machine with those that both stock tools make of
them. Then it compares the third column of lab/tests/data/assembler_forms.txt with what the stock tools take. It prints each difference, and
has the status 1 if there is one. It wants binutils-riscv64-linux-gnu, clang-19 and lld-19.
"""

import argparse
import sys
from collections.abc import Iterator

from support.assembler_forms import FORMS
from support.drawn_sources import END_OF_SECTIONS, drawn_source
from support.stock_assemblers import differences, machine_bytes, stock_bytes
from vecmon_lab.assembler.source import read_source
from vecmon_lab.machine.program import find_program
from vecmon_lab.machine.session import Session

BATCH = 50  # sources that are assembled as one
TOOLS = ("gnu", "clang")


def problems(numbers: range) -> Iterator[str]:
    """What differs for the sources with these numbers, which are assembled as one."""
    text = "\n".join(drawn_source(number, f"s{number}_") for number in numbers) + END_OF_SECTIONS
    own = read_source(text)
    if own.mistakes:
        yield f"sources {numbers}: the lab refuses line {own.mistakes[0]}"
        return
    with Session(find_program()) as session:
        areas = machine_bytes(session, own)
    for tools in TOOLS:
        stock = stock_bytes(text, tools)
        found = [stock] if isinstance(stock, str) else differences(areas, stock)
        yield from (f"sources {numbers}: {tools}: {each}" for each in found[:3])


def form_problems() -> Iterator[str]:
    """The rows of the table of forms whose third column isn't what the stock tools take."""
    for form in FORMS:
        taken = "".join(tools[0] for tools in TOOLS if isinstance(stock_bytes(form.source, tools, links=False), bytes))
        if (taken or "-") != form.tools and form.treatment != "accepted":
            yield f"{form.name}: {taken or '-'} take it, and the table has {form.tools}: {form.source!r}"


def main() -> int:
    """Compare, and print what differs."""
    parser = argparse.ArgumentParser(description=__doc__)
    parser.add_argument("--sources", type=int, default=2000, help="how many sources are drawn")
    parser.add_argument("--first", type=int, default=0, help="the number of the first one")
    arguments = parser.parse_args()
    end, count = arguments.first + arguments.sources, 0
    for first in range(arguments.first, end, BATCH):
        for problem in problems(range(first, min(first + BATCH, end))):
            count += 1
            print(problem)
    for problem in form_problems():
        count += 1
        print(problem)
    print(
        f"{arguments.sources:,} sources and {len(FORMS)} forms compared with {' and '.join(TOOLS)}: {count} differences"
    )
    return 1 if count else 0


if __name__ == "__main__":
    sys.exit(main())

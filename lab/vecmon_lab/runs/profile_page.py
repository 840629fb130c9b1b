"""The page of a profile: the summary, a flame graph, tables, vector lengths, and the instructions with bars."""

import itertools
from collections.abc import Iterator, Sequence

from ..page.build.html_elements import Html, bar, cell, element, elements_bar, joined, legend, share_text
from ..page.build.pages import filled_page
from ..page.build.texts import page_text
from .callers import CallFrame
from .tick_profile import Table, TableRow

Length = tuple[str, int, int]
"""A vector type, a vector length, and the number of instructions that executed with both."""


def profile_page(
    title: str,
    summary: Sequence[str],
    tables: Sequence[Table],
    lengths: Sequence[Length],
    frames: Sequence[CallFrame],
    rows: Sequence[TableRow],
) -> str:
    """Return the HTML of the page.

    rows: for each instruction its address, place, source line, text, number of executions, ticks, and elements
    """
    limit = max((times for _, _, times in lengths), default=1)
    length_rows = [
        (cell(kind), cell(f"vl={vl}", "number"), cell(times), bar({"ticks": times / limit}))
        for kind, vl, times in lengths
    ]
    has_calls = any(frame.callees for frame in frames)
    return filled_page(
        "profile",
        title,
        legend=legend(),
        summary=joined([element("p", f"{line}.") for line in summary]),
        is_without_calls="" if has_calls else "hidden",
        flame=_flame_graph(frames) if has_calls else "",
        tables=joined([_section(table) for table in tables]),
        lengths=joined([element("tr", *cells) for cells in length_rows]),
        rows=joined([*_instructions(rows)]),
    )


def _section(table: Table) -> Html:
    """Return a table of loops, functions, calls or source lines, with its title."""
    kinds = ["" if place < table.texts else "number" for place in range(len(table.head))]
    head = [element("th", name, class_=kind) for name, kind in zip(table.head, kinds)]
    body = [element("tr", *(cell(it, kind) for it, kind in zip(row, kinds))) for row in table.rows]
    made = element("table", element("thead", element("tr", *head)), element("tbody", *body))
    return element("section", element("h2", table.name), element("div", made, class_="scroll"), aria_label=table.name)


def _instructions(rows: Sequence[TableRow]) -> Iterator[Html]:
    """Yield rows of instructions by address. Each symbol has a row above its first instruction."""
    most = max((int(row[5]) for row in rows), default=1)
    groups = itertools.groupby(rows, lambda row: f"{row[1]}".partition("+")[0])
    for place, (symbol, own) in enumerate(groups):
        if symbol or place:
            name = symbol or page_text("profile.no-symbol")
            yield element("tr", element("th", name, colspan=11), class_="label")
        yield from (_instruction(row, most) for row in own)


def _instruction(row: TableRow, most: int) -> Html:
    """Return the row of an instruction. most: the ticks of a bar that fills its cell"""
    address, _, source, text, times, ticks, *elements = row
    cells = [cell(address, tag="th"), cell(text, "text"), cell(source), cell(times), cell(ticks)]
    cells.append(bar({"ticks": int(ticks) / most}))
    if "" not in elements:
        numbers = [int(number) for number in elements[:3]]
        cells += [*map(cell, numbers), cell(elements[3], "number"), elements_bar(numbers)]
    return element("tr", *cells, data_ticks=ticks)


def _flame_graph(frames: Sequence[CallFrame]) -> Html:
    """Return a flame graph: a bar for all ticks, and below it the functions that no other function calls."""
    whole = sum(frame.total for frame in frames)
    first = CallFrame(page_text("flame.all"), 0, whole, tuple(frames))
    return element("div", _frame_list([first], whole, whole), class_="flame")


def _frame_list(frames: Sequence[CallFrame], above: int, whole: int) -> Html:
    """Return a list of bars, each with the bars of its callees below it.

    above: the ticks of the bar above, which is as wide as the list; whole: all ticks
    """
    items = []
    for frame in frames:
        text = f"{frame.name} {round(1000 * frame.total / whole) / 10:g} %"
        title = page_text("flame.bar.title", name=text, total=f"{frame.total:,}", own=f"{frame.own:,}")
        callees = [_frame_list(frame.callees, frame.total, whole)] if frame.callees else []
        items.append(
            element("li", element("button", text, title=title), *callees, data_share=share_text(frame.total / above))
        )
    return element("ul", *items)

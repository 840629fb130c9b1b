"""The picture of a lesson in an index: some elements of a register after an instruction, or words of the program."""

from collections.abc import Iterator, Sequence
from itertools import pairwise
from typing import TypedDict

from ..page.build.html_elements import Html, content_of, element
from ..page.register_groups import element_width
from ..page.state import ABSENT, State
from ..page.build.texts import page_text
from .frames import Frame

VLEN, MAX_CELLS, MAX_WORDS = 256, 16, 6

Strip = TypedDict("Strip", {"name": str, "text": str, "cells": list[tuple[str, str]]})
"""A picture.

name: the name of a register, or `program`; text: the instruction that wrote the register, or ""
cells: the digits of each element or word, and the kind of the element: `active`, `masked`, `tail` or `prestart`; "" without a vector type
"""


def strip_of(frames: Sequence[Frame]) -> Strip:
    """Return the picture of a lesson: elements of a vector register after the instruction that wrote it.

    frames: all frames of the lesson, in order

    Of all registers that a frame changes, the picture shows the one with the most kinds of elements (active, masked off and so on). Of several
    such registers it shows the one with the most different values, and of these the one that is changed last. If no frame changes a vector
    register, the picture shows the first words of the program.
    """
    strips = [strip for old, new in pairwise(frames) for strip in _written(old, new)]
    if strips:
        return max(reversed(strips), key=_rank)
    code = frames[-1].states.get(frames[-1].user, ABSENT).get("code", {})
    words = [line[:8] for _, line in sorted(code.items(), key=lambda item: int(item[0], 16))]
    return {"name": "program", "text": "", "cells": [(word, "") for word in words if word.strip("0")][:MAX_WORDS]}


def strip_picture(strip: Strip) -> Html:
    """Return a picture with its cells, a name for screen readers, and a description."""
    cells = [element("span", digits, class_=kind) for digits, kind in strip["cells"]]
    names = [f"{digits} {page_text(f'outcome.{kind}')}" if kind else digits for digits, kind in strip["cells"]]
    label = f"{strip['name']}: {', '.join(names)}"
    picture = element("span", *cells, class_="strip", role="img", aria_label=label)
    caption = register = element("code", strip["name"])
    if strip["text"]:
        caption = content_of("strip.after", register=register, instruction=element("code", strip["text"]))
    return element("p", picture, element("small", caption), class_="picture")


def _rank(strip: Strip) -> tuple[bool, int, int]:
    """Return the rank of a picture: whether the instruction that wrote the register is known, and its numbers of kinds and values."""
    elements, forms = zip(*strip["cells"])
    return strip["text"] != "", len({*forms}), len({*elements})


def _written(old: Frame, new: Frame) -> Iterator[Strip]:
    """Yield the picture of each user whose vector registers differ between two successive frames."""
    for user, state in new.states.items():
        before = old.states.get(user, ABSENT)
        if "v" in before and "v" in state:
            changes = [_changes(data, before["v"][number]) for number, data in state["v"].items()]
            written = [
                it["register"] for it in state["operands"].get(state.get("instruction", ""), ()) if it["written"]
            ]
            if any(changes):
                yield _strip(state, next((each for each in written if changes[each]), changes.index(max(changes))))


def _changes(data: str, before: str) -> int:
    """Return the number of bytes that differ. data, before: bytes, in two hexadecimal digits each"""
    return sum(data[at : at + 2] != before[at : at + 2] for at in range(0, len(data), 2))


def _strip(state: State, number: int) -> Strip:
    """Return the picture of the first elements of a vector register. number: the number of the register

    The elements have the width with which the instruction uses them. If no instruction uses the register, the vector type gives their
    width. The elements of a mask are bits.
    """
    vtype, address = int(state["vtype"], 16), state.get("instruction", "")
    is_set = vtype >> 63 == 0
    writes = [it for it in state["operands"].get(address, ()) if it["written"] and it["register"] == number]
    is_masked = any(it["masked"] for it in writes)
    width = element_width(state["groups"], number) or (8 << (vtype >> 3 & 7) if is_set else 8)
    register = int.from_bytes(bytes.fromhex(state["v"][f"{number}"]), "little")
    cells = []
    for place in range(min(MAX_CELLS, VLEN // width)):
        element = register >> place * width & (1 << width) - 1
        cells.append((f"{_signed(element, width)}", _kind(state, place, is_masked) if is_set else ""))
    return {"name": f"v{number}", "text": state["code"].get(address, "")[9:] if writes else "", "cells": cells}


def _signed(element: int, width: int) -> int:
    """Return the signed value of an element, which pages show before other forms. A bit of a mask is 0 or 1."""
    return element - (1 << width) if width > 1 and element >> (width - 1) else element


def _kind(state: State, element: int, is_masked: bool) -> str:
    """Return the kind of an element, such as `active` or `tail`, which depends on vl, vstart and v0.

    element: the index of the element; is_masked: whether the instruction is masked
    """
    if element >= state["vl"]:
        return "tail"
    if element < state["vstart"]:
        return "prestart"
    mask = int.from_bytes(bytes.fromhex(state["v"]["0"]), "little")
    return "masked" if is_masked and not mask >> element & 1 else "active"

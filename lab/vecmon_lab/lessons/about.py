"""The content of a lesson's first frame: the subjects of the lesson, and the initial contents of memory."""

import json
import re
from collections.abc import Sequence
from typing import TypedDict

from ..assembler.data_runs import DataRun
from ..assembler.source import Program
from ..page.build.texts import page_text
from .frames import Frame
from .script import Script

MAX_POINTS, MAX_NUMBERS, MAX_LETTERS, MAX_PLACES = 3, 12, 40, 8


class About(TypedDict):
    """Sentences of a lesson's first frame, with backquotes around code.

    points: the subjects of the lesson; memory: the data of its source, or its global variables
    """

    points: list[str]
    memory: list[str]


def about(frames: Sequence[Frame], script: Script) -> About:
    """Return the content of the first frame.

    It has the first sentences of the first comments after it, and descriptions of the source's data.
    """
    notes = dict.fromkeys(frame.note for frame in frames[1:] if frame.note and frame.note != frames[0].note)
    memory = [f"`{variable.declaration}`" for variable in script.variables if not variable.function]
    if script.program:
        memory += _data(script.program)
    return {"points": [_first_sentence(note) for note in notes][:MAX_POINTS], "memory": memory[:MAX_PLACES]}


def _first_sentence(note: str) -> str:
    """Return a text up to its first full stop, question mark or exclamation mark that a space follows."""
    return re.split(r"(?<=[.!?]) ", note, maxsplit=1)[0]


def _data(program: Program) -> list[str]:
    """Return descriptions of the numbers and texts that the source's directives define, each with its label."""
    contents, names = dict[int, int](), program.names()
    for _, start, digits in (line.split() for line in program.lines if line.startswith("poke ")):
        contents |= {int(start, 16) + place: byte for place, byte in enumerate(bytes.fromhex(digits))}
    described = []
    for address, run in program.data.items():
        size = run.count if run.type == "text" else run.count * int(run.type[1:]) // 8
        content = bytes(contents.get(address + place, 0) for place in range(size))
        label = names.get(f"{address:x}", [f"0x{address:x}"])[0]
        described.append(f"`{label}`: {_described(run, content)}")
    return described


def _described(run: DataRun, content: bytes) -> str:
    """Return a description of the numbers or the text of a run: the first ones, and how many there are. content: the run's bytes"""
    if run.type == "text":
        text = content.rstrip(b"\0").decode("ascii", "replace")
        return page_text("lesson.data.text", text=json.dumps(text[:MAX_LETTERS]) + " …" * (len(text) > MAX_LETTERS))
    bits = int(run.type[1:])
    places = range(0, len(content), bits // 8)
    signed = run.type[0] == "i"
    numbers = [int.from_bytes(content[at : at + bits // 8], "little", signed=signed) for at in places]
    if len(numbers) == 1:
        return page_text("lesson.data.number", number=_number(numbers[0]), bits=bits)
    if len(set(numbers)) == 1:
        return page_text("lesson.data.alike", number=_number(numbers[0]), length=len(numbers), bits=bits)
    shown = ", ".join(_number(number) for number in numbers[:MAX_NUMBERS]) + ", …" * (len(numbers) > MAX_NUMBERS)
    return page_text("lesson.data.numbers", numbers=shown, length=len(numbers), bits=bits)


def _number(number: int) -> str:
    """Return a number, with the minus sign that pages show."""
    return f"{number}".replace("-", "−")

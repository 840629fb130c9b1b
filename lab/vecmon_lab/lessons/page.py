"""A lesson as one page. The states of its frames are stored as differences."""

from collections.abc import Mapping, Sequence
from typing import NotRequired, TypedDict

from ..assembler.source import LineType
from ..compilers.compiled import CompiledProgram
from ..page.build.html_elements import Html, element, joined, prose
from ..page.build.pages import merge_patch, page_with_data
from ..page.state import SourceNames
from ..page.variables import shown_variables
from .about import about
from .frames import Frame
from .script import Script
from .series_links import Series, marks_of, neighbours_of, place_of
from .used_registers import UsedRegisters


class FrameData(TypedDict):
    """A frame of a lesson, with the fields of `Frame`. states: a merge patch of the states of the frame before, by user"""

    user: str
    line: str
    more: int
    note: str
    log: list[str]
    states: dict[str, object]


class LessonData(SourceNames):
    """The data of a lesson's page: the names of its source, and its frames.

    text: the text of the source, as it was written
    name: the name of a series and of the lesson in it; the browser stores under this name that the lesson was read
    used: the registers that the lesson uses, by user
    types: the vector types at the lines of an assembler source
    """

    frames: list[FrameData]
    used: NotRequired[Mapping[str, UsedRegisters]]
    text: NotRequired[str]
    types: NotRequired[Sequence[LineType]]
    name: NotRequired[str]


def lesson_page(
    title: str,
    frames: Sequence[Frame],
    script: Script = Script("", []),
    series: Series | None = None,
    is_introduced: bool = True,
) -> str:
    """Return the page of a lesson, in HTML.

    script: the lesson's script; for the lesson of a source, its names, data and variables are shown
    series: the place of the lesson in a series; None if it has none
    is_introduced: whether the first frame shows the lesson's subjects and initial memory, as far as the script has them
    """
    before: list[Mapping[str, object]] = [{}, *(frame.states for frame in frames)]
    data: LessonData = {
        "labels": script.labels,
        "lines": script.said,
        "starts": script.starts,
        "variables": shown_variables(script.variables),
        "frames": [_frame_data(frame, merge_patch(old, frame.states)) for old, frame in zip(before, frames)],
    }
    if frames:
        data["used"] = frames[-1].used
    if script.text:
        data["text"] = script.text
        if frames and frames[-1].types:
            data["types"] = frames[-1].types
    if script.program and not isinstance(script.program, CompiledProgram):
        data["line_numbers"] = script.program.line_numbers()
        if aliases := script.program.aliases():
            data["aliases"] = aliases
    if script.program and script.program.data:
        runs = script.program.data.items()
        data["data"] = {f"{address:x}": {"type": run.type, "count": run.count} for address, run in runs}
    contents = {"has_no_series": "" if series else "hidden"}
    if series:
        data["name"] = f"{series['name']}/{series['lessons'][series['place']]['name']}"
        contents |= {"place": place_of(series), "marks": marks_of(series), "neighbours": neighbours_of(series)}
    if is_introduced:
        content = about(frames, script)
        contents |= {"points": _items(content["points"]), "memory": _items(content["memory"])}
    return page_with_data("lesson", title, data, **contents)


def _items(texts: Sequence[str]) -> Html:
    """Return items of a list, from texts with backquotes around code."""
    return joined([element("li", prose(text)) for text in texts])


def _frame_data(frame: Frame, states: dict[str, object]) -> FrameData:
    return {
        "user": frame.user,
        "line": frame.line,
        "more": frame.more,
        "note": frame.note,
        "log": frame.log,
        "states": states,
    }

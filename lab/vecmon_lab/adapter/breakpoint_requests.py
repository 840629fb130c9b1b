"""Requests about breakpoints: at lines, functions and addresses, and at data."""

import dataclasses
import pathlib
from typing import Any

from .. import LabError
from . import expressions
from .breakpoints import FUNCTIONS, INSTRUCTIONS, Breakpoint, Breakpoints
from .debuggee import Body, Debuggee, Handlers
from .program import Line, Program
from .requests import (
    BadArguments,
    BreakpointLocations,
    DataBreakpointInfo,
    NoArguments,
    SetBreakpoints,
    SetDataBreakpoints,
    SetFunctionBreakpoints,
    SetInstructionBreakpoints,
)


class BreakpointRequests:
    """Sets the client's breakpoints, and decides whether a breakpoint that the program meets stops it.

    breakpoints: all breakpoints
    """

    def __init__(self, debuggee: Debuggee) -> None:
        self._debuggee, self._reports = debuggee, debuggee.reports
        self.breakpoints = Breakpoints(expressions.check, debuggee.address, self._changed)

    @property
    def handlers(self) -> Handlers:
        """The handlers of these requests, by the request's name."""
        return {
            "setBreakpoints": (SetBreakpoints, self._set_breakpoints),
            "setFunctionBreakpoints": (SetFunctionBreakpoints, self._set_function_breakpoints),
            "setInstructionBreakpoints": (SetInstructionBreakpoints, self._set_instruction_breakpoints),
            "setExceptionBreakpoints": (NoArguments, lambda _: {}),  # there are no filters to choose
            "breakpointLocations": (BreakpointLocations, self._locations),
            "dataBreakpointInfo": (DataBreakpointInfo, self._data_breakpoint_info),
            "setDataBreakpoints": (SetDataBreakpoints, self._set_data_breakpoints),
        }

    def holds(self, each: Breakpoint) -> bool:
        """Return whether a breakpoint that was met stops the program. One with a log message prints the message, and doesn't stop it."""
        if each.condition and not self.holds_text(each.condition):
            return False
        if not each.log_message:
            return True
        self._reports.output(f"{self._debuggee.now().filled_in(each.log_message)}\n")
        return False

    def holds_text(self, condition: str) -> bool:
        """Return whether a condition holds. If it can't be evaluated, report why to the client, and return True."""
        try:
            return bool(self._debuggee.now().number(condition))
        except LabError as error:
            self._reports.output(f"the condition {condition} can't be evaluated: {error}\n", "important")
            return True

    def _set_breakpoints(self, wanted: SetBreakpoints) -> Body:
        path = pathlib.Path(wanted.source.path or wanted.source.name)
        if not path.name:
            raise BadArguments("the source has no path")
        if self._debuggee.program:
            self._debuggee.program.show_at(path)
        each = [self._line_from_client(it) for it in wanted.breakpoints]
        return {"breakpoints": [self._row(it) for it in self.breakpoints.replace(f"{path}", each)]}

    def _line_from_client(self, each: Any) -> Any:
        """Return a breakpoint of the client's with its line counted from 1."""
        return each if self._debuggee.client.lines_start_at_1 else dataclasses.replace(each, line=each.line + 1)

    def _set_function_breakpoints(self, wanted: SetFunctionBreakpoints) -> Body:
        return {"breakpoints": [self._row(it) for it in self.breakpoints.replace(FUNCTIONS, wanted.breakpoints)]}

    def _set_instruction_breakpoints(self, wanted: SetInstructionBreakpoints) -> Body:
        return {"breakpoints": [self._row(it) for it in self.breakpoints.replace(INSTRUCTIONS, wanted.breakpoints)]}

    def _locations(self, wanted: BreakpointLocations) -> Body:
        shift = 0 if self._debuggee.client.lines_start_at_1 else 1
        first, last = wanted.line + shift, (wanted.end_line or wanted.line) + shift
        stops = self.breakpoints.lines(pathlib.Path(wanted.source.path or wanted.source.name))
        return {"breakpoints": [{"line": line - shift} for line in sorted(stops) if first <= line <= last]}

    def _data_breakpoint_info(self, wanted: DataBreakpointInfo) -> Body:
        program = self._debuggee.stopped()
        address, size, problem = self._watched(program, wanted)
        if address is None:
            return {"dataId": None, "description": problem}
        kinds = ["read", "write", "readWrite"]
        description = f"{size} byte{'s' * (size > 1)} at {program.place(address)}"
        return {"dataId": f"{address:x}:{size}", "description": description, "accessTypes": kinds, "canPersist": False}

    def _watched(self, program: Program, wanted: DataBreakpointInfo) -> tuple[int | None, int, str]:
        """Return the address and the number of bytes of the data that the client wants to watch, and "".

        If the data isn't in memory, return None, 0 and the reason.
        """
        if wanted.bytes is not None and wanted.bytes < 1:
            raise BadArguments("bytes is 1 or more")
        if wanted.as_address:
            return self._debuggee.address(wanted.name), wanted.bytes or 8, ""
        shown = self._debuggee.instant()
        if wanted.variables_reference:
            place = shown.place_of(wanted.variables_reference, wanted.name)
        else:
            place = shown.place_of_expression(wanted.frame_id, wanted.name)
        if place:
            return place[0], wanted.bytes or place[1], ""
        if wanted.name in program.symbols.addresses:
            address = program.symbols.addresses[wanted.name]
            return address, wanted.bytes or program.symbols.sizes.get(wanted.name) or 8, ""
        return None, 0, f"{wanted.name} isn't in memory"

    def _set_data_breakpoints(self, wanted: SetDataBreakpoints) -> Body:
        self._debuggee.current()
        found = self.breakpoints.replace_data(wanted.breakpoints)
        rows = ({"id": each.number, "verified": not each.problem} | _message(each.problem) for each in found)
        return {"breakpoints": list(rows)}

    def _row(self, each: Breakpoint) -> Body:
        """Return a breakpoint in the protocol's form."""
        body: Body = {"id": each.number, "verified": not each.problem} | _message(each.problem)
        if each.line:
            body |= self._debuggee.line_fields(Line(each.file, each.line), "source")
        if each.addresses:
            body["instructionReference"] = f"{each.addresses[0]:#x}"
        return body

    def _changed(self, each: Breakpoint) -> None:
        self._reports.event("breakpoint", reason="changed", breakpoint=self._row(each))


def _message(problem: str) -> Body:
    """Return the field `message` with the problem of a breakpoint; no field if the problem is ""."""
    return {"message": problem} if problem else {}

"""Requests that inspect the stopped program, or change its variables and its memory."""

from .. import LabError
from .debuggee import Body, Debuggee, Handlers
from .instants import Frame
from .memory import disassemble, read_memory, write_memory
from .requests import (
    Completions,
    Disassemble,
    Evaluate,
    NoArguments,
    ReadMemory,
    Scopes,
    SetExpression,
    SetVariable,
    StackTrace,
    Variables,
    WriteMemory,
)
from .running import THREAD


class Inspection:
    """Answers requests about the stopped program: its frames, variables, expressions, memory and instructions."""

    def __init__(self, debuggee: Debuggee) -> None:
        self._debuggee = debuggee

    @property
    def handlers(self) -> Handlers:
        """The handlers of these requests, by the request's name."""
        return {
            "threads": (NoArguments, self._threads),
            "stackTrace": (StackTrace, self._stack_trace),
            "scopes": (Scopes, self._scopes),
            "variables": (Variables, self._variables),
            "setVariable": (SetVariable, self._set_variable),
            "setExpression": (SetExpression, self._set_expression),
            "evaluate": (Evaluate, self._evaluate),
            "completions": (Completions, self._completions),
            "readMemory": (ReadMemory, self._read_memory),
            "writeMemory": (WriteMemory, self._write_memory),
            "disassemble": (Disassemble, self._disassemble),
            "loadedSources": (NoArguments, self._loaded_sources),
            "source": (NoArguments, self._no_source),
        }

    def _threads(self, _: NoArguments) -> Body:
        return {"threads": [{"id": THREAD, "name": self._debuggee.current().path.name}]}

    def _stack_trace(self, wanted: StackTrace) -> Body:
        frames = self._debuggee.instant().instant.frames
        end = wanted.start_frame + wanted.levels if wanted.levels else len(frames)
        rows = [self._frame(number, each) for number, each in enumerate(frames, 1)]
        return {"stackFrames": rows[wanted.start_frame : end], "totalFrames": len(frames)}

    def _frame(self, number: int, frame: Frame) -> Body:
        """Return a frame in the protocol's form. number: the frame's number, 1 for the innermost frame"""
        body: Body = {"id": number, "name": frame.name or f"{frame.call.address:#x}", "column": 0, "line": 0}
        body["instructionPointerReference"] = f"{frame.call.address:#x}"
        line = self._debuggee.line_fields(frame.line, "source") if frame.line else {"presentationHint": "subtle"}
        return body | line

    def _scopes(self, wanted: Scopes) -> Body:
        return {"scopes": self._debuggee.instant().scopes(wanted.frame_id)}

    def _variables(self, wanted: Variables) -> Body:
        return {"variables": self._debuggee.instant().variables(wanted)}

    def _set_variable(self, wanted: SetVariable) -> Body:
        self._debuggee.instant().set_variable(wanted)
        self._debuggee.changed()
        return self._debuggee.instant().value_again(wanted.variables_reference, wanted.name, wanted.format)

    def _set_expression(self, wanted: SetExpression) -> Body:
        self._debuggee.instant().set_expression(wanted)
        self._debuggee.changed()
        again = Evaluate(wanted.expression, wanted.frame_id, "watch", wanted.format)
        body = self._debuggee.instant().evaluate(again)
        return {"value": body.pop("result"), **body}

    def _evaluate(self, wanted: Evaluate) -> Body:
        return self._debuggee.instant().evaluate(wanted)

    def _completions(self, wanted: Completions) -> Body:
        starts_at_1 = self._debuggee.client.columns_start_at_1
        return {"targets": self._debuggee.instant().completions(wanted, starts_at_1)}

    def _read_memory(self, wanted: ReadMemory) -> Body:
        program, address = self._debuggee.stopped(), self._debuggee.address(wanted.memory_reference, wanted.offset)
        return read_memory(program, address, wanted.count)

    def _write_memory(self, wanted: WriteMemory) -> Body:
        program, address = self._debuggee.stopped(), self._debuggee.address(wanted.memory_reference, wanted.offset)
        written = write_memory(program, address, wanted.data, wanted.allow_partial)
        self._debuggee.changed()
        return {"bytesWritten": written}

    def _disassemble(self, wanted: Disassemble) -> Body:
        program, start = self._debuggee.stopped(), self._debuggee.address(wanted.memory_reference, wanted.offset)
        first = (start & ~3) + 4 * wanted.instruction_offset
        fields = lambda line: self._debuggee.line_fields(line, "location")  # noqa: E731
        return {"instructions": disassemble(program, first, wanted.instruction_count, fields)}

    def _loaded_sources(self, _: NoArguments) -> Body:
        return {"sources": [self._debuggee.source(file) for file in self._debuggee.current().files]}

    def _no_source(self, _: NoArguments) -> Body:
        raise LabError("the source isn't on this computer")

"""Requests that load, start, move and end the program."""

import pathlib
from collections.abc import Callable
from functools import partial

from .. import LabError
from .breakpoint_requests import BreakpointRequests
from .debuggee import NO_PROGRAM, Body, Debuggee, Handlers
from .instants import Instant
from .halts import Client, Halt, Halts
from .movement import Movement, StepKind
from .program import Program
from .requests import Launch, NoArguments, Resume
from .shown import Shown

THREAD = 1


class Running:
    """Moves the program, and reports where it has stopped.

    is_free_running: whether a movement that may take long is under way; false during a step
    """

    def __init__(self, debuggee: Debuggee, breakpoints: BreakpointRequests, client: Client) -> None:
        self.is_free_running = False
        self._debuggee, self._reports, self._client = debuggee, debuggee.reports, client
        self._breakpoints, self._is_configured = breakpoints, False
        self._movement: Movement | None = None

    @property
    def handlers(self) -> Handlers:
        """The handlers of these requests, by the request's name."""
        return {
            "launch": (Launch, self._launch),
            "configurationDone": (NoArguments, self._configuration_done),
            "restart": (NoArguments, self._restart),
            "terminate": (NoArguments, lambda _: {"start": lambda: self._reports.event("terminated")}),
            "continue": (NoArguments, self._continue),
            "next": (Resume, partial(self._step, "over")),
            "stepIn": (Resume, partial(self._step, "into")),
            "stepOut": (Resume, partial(self._step, "out")),
            "stepBack": (Resume, self._step_back),
            "reverseContinue": (NoArguments, lambda _: self._start(self._moving().back_to_halt)),
            "exceptionInfo": (NoArguments, self._exception_info),
        }

    def _launch(self, launch: Launch) -> Body:
        if self._debuggee.program:
            raise LabError("a program was launched before: restart it, or start another session")
        self._load(launch)
        return {"start": lambda: self._reports.event("initialized")}

    def _load(self, launch: Launch) -> None:
        """Build and load a program. If that raises LabError or OSError, the program that was loaded before is unchanged."""
        debuggee, reports, name = self._debuggee, self._reports, pathlib.Path(launch.program).name
        reports.building(name, False)
        try:
            program = Program(
                launch,
                reports.write,
                lambda pc, sentence: reports.unsupported(program.place(pc), sentence),
                reports.advance,
                lambda text: reports.output(f"{text}\n", "stderr"),
            )
        finally:
            reports.building(name, True)
        debuggee.close()
        debuggee.launch, debuggee.program, debuggee.shown = launch, program, None
        reports.forget_program()
        own = self._breakpoints
        halts = Halts(program, own.breakpoints, self._client, own.holds, own.holds_text)
        self._movement = Movement(halts, debuggee.frames_now)
        own.breakpoints.attach(program)

    def _configuration_done(self, _: NoArguments) -> Body:
        self._debuggee.current()
        if self._is_configured:
            raise LabError("configurationDone was sent before")
        self._is_configured = True
        return {"start": self._begin}

    def _begin(self) -> None:
        """Start the program that was loaded. It stops at its start if the client wants that; otherwise it runs."""
        program, movement, launch = self._debuggee.program, self._movement, self._debuggee.launch
        assert program and movement and launch
        if not launch.stop_on_entry or launch.no_debug:
            self._move(movement.go)
        elif entry := _main(program):
            self._move(partial(movement.go_to, entry))
        else:
            self._stopped(Halt("entry"))

    def _restart(self, _: NoArguments) -> Body:
        if self._debuggee.launch is None:
            raise LabError(NO_PROGRAM)
        self._load(self._debuggee.launch)
        return {"start": self._begin_again}

    def _begin_again(self) -> None:
        """Start the program again. First report that it goes on, since the client has seen it stopped."""
        self._reports.event("continued", threadId=THREAD, allThreadsContinued=True)
        self._begin()

    def _moving(self) -> Movement:
        """Return the object that moves the program. Raises LabError if the program is running, or if `configurationDone` hasn't come yet."""
        self._debuggee.stopped()
        assert self._movement
        if not self._is_configured:
            raise LabError("configurationDone comes first")
        return self._movement

    def _start(self, move: Callable[[], Halt]) -> Body:
        """Return the body of a response after which the program moves by a step. move: executes the step, and returns the halt"""
        return {"start": lambda: self._move(move, is_free=False)}

    def _move(self, move: Callable[[], Halt], is_free: bool = True) -> None:
        """Move the program, and report where it has stopped.

        move: executes the movement, and returns the halt; is_free: whether the movement may take long
        """
        self._debuggee.is_running, self.is_free_running, self._debuggee.shown = True, is_free, None
        try:
            halt = move()
        except LabError as error:
            self._reports.output(f"{error}\n", "important")
            halt = Halt("step")
        finally:
            self._debuggee.is_running = self.is_free_running = False
        self._reports.end_progress()
        self._stopped(halt)

    def _stopped(self, halt: Halt) -> None:
        """Report where the program has stopped. If it is at its exit and needn't stop there, end the session instead."""
        program, launch = self._debuggee.program, self._debuggee.launch
        assert program and launch
        self._debuggee.shown = Shown(Instant(program, halt.stop, self._debuggee.wants_stop))
        if halt.reason == "exit" and (launch.no_debug or not launch.stop_on_exit):
            self._exit(halt)
            return
        text = halt.text
        if halt.reason == "exit":
            text = f"{halt.text} Continue ends it; Step Back and Reverse go back."
        if halt.text and halt.reason != "data breakpoint":
            self._reports.output(f"{text}\n", "important" if halt.reason == "exception" else "console")
        extra: Body = {"text": text, "description": text} if text else {}
        extra |= {"hitBreakpointIds": list(halt.numbers)} if halt.numbers else {}
        self._reports.event("stopped", reason=halt.reason, threadId=THREAD, allThreadsStopped=True, **extra)

    def _exit(self, halt: Halt) -> None:
        """Report the program's exit status, and the end of the session."""
        self._reports.event("exited", exitCode=halt.stop.number if halt.stop and halt.stop.kind == "exit" else 0)
        self._reports.event("terminated")

    def _continue(self, _: NoArguments) -> Body:
        movement = self._moving()
        if movement.halt.reason == "exit":
            return {"allThreadsContinued": True, "start": lambda: self._exit(movement.halt)}
        return {"allThreadsContinued": True, "start": lambda: self._move(movement.go)}

    def _step(self, kind: StepKind, resume: Resume) -> Body:
        movement = self._moving()
        if movement.halt.reason == "exit":
            return {"start": lambda: self._exit(movement.halt)}
        return self._start(lambda: movement.step(kind, resume.granularity != "instruction"))

    def _step_back(self, resume: Resume) -> Body:
        movement = self._moving()
        return self._start(lambda: movement.back(resume.granularity != "instruction"))

    def _exception_info(self, _: NoArguments) -> Body:
        program = self._debuggee.stopped()
        stop = self._movement.halt.stop if self._movement else None
        if stop is None or stop.kind != "fault":
            raise LabError("the program isn't stopped at a fault")
        text = program.guest.explain(stop)
        return {
            "exceptionId": f"fault, cause {stop.cause}",
            "description": text,
            "breakMode": "always",
            "details": {"message": text, "typeName": program.guest.word_at(stop.pc)[1]},
        }


def _main(program: Program) -> int:
    """Return the address of the first breakpoint of `main`, so that a launch runs through the runtime before it.

    Return 0 if `main` has no source lines, or if the program counter is at this address.
    """
    entries = program.symbols.source.functions.get("main", {})
    first = min((address for each in entries.values() for address in each), default=program.pc)
    return 0 if first == program.pc else first

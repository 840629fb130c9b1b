"""A session with a client. It passes the client's requests to their handlers, also during a movement of the program."""

from .. import LabError
from .breakpoint_requests import BreakpointRequests
from .debuggee import Body, Debuggee, Handlers
from .inspection import Inspection
from .reports import Reports
from .requests import Initialize, NoArguments, read_arguments
from .running import Running
from .wire import Message, Wire

CAPABILITIES = (
    "supportsBreakpointLocationsRequest",
    "supportsCancelRequest",
    "supportsCompletionsRequest",
    "supportsConditionalBreakpoints",
    "supportsConfigurationDoneRequest",
    "supportsDataBreakpoints",
    "supportsDataBreakpointBytes",
    "supportsDelayedStackTraceLoading",
    "supportsDisassembleRequest",
    "supportsEvaluateForHovers",
    "supportsExceptionInfoRequest",
    "supportsFunctionBreakpoints",
    "supportsInstructionBreakpoints",
    "supportsLoadedSourcesRequest",
    "supportsLogPoints",
    "supportsReadMemoryRequest",
    "supportsRestartRequest",
    "supportsSetExpression",
    "supportsSetVariable",
    "supportsStepBack",
    "supportsSteppingGranularity",
    "supportsTerminateRequest",
    "supportsValueFormattingOptions",
    "supportsWriteMemoryRequest",
)
STOPPING = ("pause", "cancel", "disconnect", "terminate", "restart")
"""Requests that end a movement of the program."""

MEANWHILE = ("setBreakpoints", "setFunctionBreakpoints", "setInstructionBreakpoints", "setDataBreakpoints", "threads")
"""Requests that are answered during a step. All requests except these and those of STOPPING wait for the end of the step."""

STARTING = ("launch", "attach")
"""Requests whose failure ends the session, since there is no program."""

REST_SECONDS = 3.0
"""Time after a failed launch, in seconds, after which the session ends if the client sends no request, such as `disconnect`."""

NO_ATTACH = "there is no running program to attach to: launch one, with the path of a source or an image in `program`"


class Session:
    """A session with one client, from its first request to its last."""

    def __init__(self, wire: Wire) -> None:
        self._wire, self._is_open, self._is_initialized = wire, True, False
        self._has_failed = False  # whether a launch has failed
        self._reports = Reports(wire)
        self._debuggee = Debuggee(self._reports, self.wants_stop)
        breakpoints = BreakpointRequests(self._debuggee)
        self._running = Running(self._debuggee, breakpoints, self)
        own: Handlers = {
            "initialize": (Initialize, self._initialize),
            "disconnect": (NoArguments, self._disconnect),
            "cancel": (
                NoArguments,
                lambda _: {},
            ),  # the request has ended the movement already, as each of STOPPING does
            "pause": (NoArguments, lambda _: {}),
        }
        parts = (own, self._running.handlers, breakpoints.handlers, Inspection(self._debuggee).handlers)
        self._handlers: Handlers = {name: handler for part in parts for name, handler in part.items()}

    def serve(self) -> None:
        """Answer requests until the client ends the session, has gone, or is silent after a failed launch.

        Raises LabError for a message that isn't a request.
        """
        try:
            while self._is_open:
                if self._has_failed and not self._debuggee.program and not self._wire.comes_within(REST_SECONDS):
                    break
                self._answer(self._wire.receive())
        except (EOFError, BrokenPipeError, ConnectionError):
            pass
        finally:
            self._debuggee.close()

    # The methods of `Client`, which a movement of the program calls

    def has_requests(self) -> bool:
        """Return whether the client has sent a request that is answered during the present movement, or has gone."""
        return any(self._is_urgent(each) for each in self._wire.waiting()) or self._wire.has_ended

    def is_stopping(self) -> bool:
        """Answer the requests that are answered during the present movement. Return whether the client wants it to end, or has gone.

        Of the requests that end a movement, `pause` is answered here, and the others after the end.
        """
        while urgent := [each for each in self._wire.waiting() if self._is_urgent(each)]:
            if any(each["command"] in STOPPING for each in urgent):
                for each in urgent:
                    if each["command"] == "pause":
                        self._wire.take(each)
                        self._answer(each)
                return True
            self._wire.take(urgent[0])
            self._answer(urgent[0])
        return self._wire.has_ended

    def wants_stop(self) -> bool:
        """Return whether the client wants long work to end, or has gone. No request is answered."""
        return any(each["command"] in STOPPING for each in self._wire.waiting()) or self._wire.has_ended

    def _is_urgent(self, message: Message) -> bool:
        """Return whether a request is answered during the present movement, or ends it.

        A step is short, so during a step this holds only for the requests in STOPPING and MEANWHILE.
        """
        return self._running.is_free_running or message["command"] in (*STOPPING, *MEANWHILE)

    # Requests

    def _answer(self, message: Message) -> None:
        """Answer a request, and then call the function `start` of the response's body, if it has one."""
        command, fields = message["command"], {"request_seq": message["seq"], "command": message["command"]}
        try:
            if not self._is_initialized and command not in ("initialize", "disconnect"):
                raise LabError("the first request is initialize")
            if command == "attach":
                raise LabError(NO_ATTACH)
            if command not in self._handlers:
                raise LabError(f"the request {command} isn't supported")
            kind, handle = self._handlers[command]
            body = handle(read_arguments(kind, message.get("arguments") or {}))
        except (LabError, OSError) as error:
            self._refuse(command, _text_of(error), fields)
            return
        start = body.pop("start", None)
        self._wire.send("response", success=True, body=body, **fields)
        if start:
            start()

    def _refuse(self, command: str, text: str, fields: Message) -> None:
        """Send the response to a request that failed. fields: the request's number and command

        After a failed launch the reason is also sent as output, since some clients don't show it from the response. If there is no program, the
        session is over, and the client is expected to send `disconnect`.
        """
        if command in (*STARTING, "restart"):
            self._reports.output(f"{text}\n", "stderr")
        details = {"id": 1, "format": text.replace("{", "(").replace("}", ")"), "showUser": True}
        self._wire.send("response", success=False, message=text, body={"error": details}, **fields)
        if command in STARTING and self._is_initialized and self._debuggee.program is None:
            self._has_failed = True
            self._reports.event("terminated")

    def _initialize(self, client: Initialize) -> Body:
        if self._is_initialized:
            raise LabError("initialize was sent before")
        self._debuggee.client, self._is_initialized = client, True
        self._reports.shows_progress = client.supports_progress_reporting
        return dict.fromkeys(CAPABILITIES, True) | {
            "supportsHitConditionalBreakpoints": False,
            "exceptionBreakpointFilters": [],
        }

    def _disconnect(self, _: NoArguments) -> Body:
        self._is_open = False
        return {}


def _text_of(error: Exception) -> str:
    """Return the text of an error for the client."""
    if isinstance(error, OSError) and error.filename:
        return f"{error.filename}: {error.strerror}"
    return str(error)

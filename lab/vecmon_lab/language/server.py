"""The language server. It handles an editor's messages one after another, and sends diagnostics while no message is waiting."""

from collections.abc import Callable, Mapping
from typing import Any

from .. import LabError, __version__
from ..assembler.trial import Trial
from ..json_messages import BadContent
from ..machine.process import Vecmon
from . import completion, hovers, navigation
from .actions import code_actions
from .documents import Document
from .hints import hints
from .positions import Position, Range, lines_of
from .wire import Wire

PARSE_ERROR, INVALID_REQUEST, NO_METHOD, INVALID_PARAMS = -32700, -32600, -32601, -32602
NOT_INITIALIZED, REQUEST_FAILED = -32002, -32803
_INCREMENTAL = 2  # changes of documents come as ranges

CAPABILITIES: Mapping[str, object] = {
    "positionEncoding": "utf-16",
    "textDocumentSync": {"openClose": True, "change": _INCREMENTAL},
    "hoverProvider": True,
    "completionProvider": {"triggerCharacters": [" ", ",", "(", "."], "resolveProvider": True},
    "definitionProvider": True,
    "referencesProvider": True,
    "documentHighlightProvider": True,
    "renameProvider": {"prepareProvider": True},
    "documentSymbolProvider": True,
    "codeActionProvider": {"codeActionKinds": ["quickfix"]},
    "inlayHintProvider": True,
}

Params = Mapping[str, Any]


class RequestError(LabError):
    """A request is answered with an error. code: the protocol's number of the error"""

    def __init__(self, code: int, message: str) -> None:
        super().__init__(message)
        self.code = code


class Server:
    """A server for one editor.

    status: the exit status after the editor has sent `exit`; None before
    """

    def __init__(self, wire: Wire, vecmon: Vecmon) -> None:
        self.status: int | None = None
        self._wire, self._trial = wire, Trial(vecmon)
        self._documents: dict[str, Document] = {}
        self._is_initialized = self._is_shut_down = self._has_markdown = False
        self._requests: dict[str, Callable[[Params], object]] = {
            "initialize": self._initialize,
            "shutdown": self._shut_down,
            "textDocument/hover": self._hover,
            "textDocument/completion": lambda it: completion.completions(self._document(it).analysis, it["position"]),
            "completionItem/resolve": lambda it: completion.resolved(it),  # type: ignore[arg-type]
            "textDocument/definition": lambda it: self._places(it, navigation.definition),
            "textDocument/references": self._references,
            "textDocument/documentHighlight": lambda it: navigation.highlights(
                self._document(it).analysis, it["position"]
            ),
            "textDocument/prepareRename": self._prepare_rename,
            "textDocument/rename": self._rename,
            "textDocument/documentSymbol": lambda it: navigation.symbols(self._document(it).analysis),
            "textDocument/codeAction": self._code_actions,
            "textDocument/inlayHint": self._hints,
        }
        self._notifications: dict[str, Callable[[Params], None]] = {
            "textDocument/didOpen": self._open,
            "textDocument/didChange": self._change,
            "textDocument/didClose": self._close,
            "exit": self._exit,
        }

    def run(self) -> int:
        """Serve the editor until it ends the session or goes away, and return the exit status. Raises LabError for a message without a length."""
        with self._trial:
            while self.status is None:
                unread = next((each for each in self._documents.values() if not each.is_read), None)
                try:
                    if unread is not None and not self._wire.is_waiting():
                        self._publish(unread)
                    else:
                        self._receive()
                except (EOFError, BrokenPipeError, ConnectionResetError):
                    return 0 if self._is_shut_down else 1
        return self.status

    def _receive(self) -> None:
        """Wait for the next message, and handle it."""
        try:
            received = self._wire.receive()
        except BadContent as error:
            self._wire.send(_failure(None, PARSE_ERROR, str(error)))
            return
        if not isinstance(received, dict) or not isinstance(received.get("method", ""), str):
            self._wire.send(_failure(None, INVALID_REQUEST, "a message is an object with a method"))
        elif "method" not in received:  # a response; the server has sent no request
            return
        elif "id" in received:
            self._wire.send(self._answer(received["id"], received["method"], received.get("params")))
        else:
            self._notify(received["method"], received.get("params"))

    def _answer(self, number: object, method: str, params: object) -> object:
        """Return the response to a request: its result, or an error."""
        try:
            return {"jsonrpc": "2.0", "id": number, "result": self._result(method, params)}
        except RequestError as error:
            return _failure(number, error.code, str(error))
        except LabError as error:
            return _failure(number, REQUEST_FAILED, str(error))
        except (KeyError, TypeError, AttributeError, ValueError) as error:
            return _failure(number, INVALID_PARAMS, f"{method}: the parameters are malformed: {error!r}")

    def _result(self, method: str, params: object) -> object:
        if not self._is_initialized and method != "initialize":
            raise RequestError(NOT_INITIALIZED, "the first request is initialize")
        if self._is_shut_down:
            raise RequestError(INVALID_REQUEST, "the server is shut down")
        if method not in self._requests:
            raise RequestError(NO_METHOD, f"there is no method {method}")
        return self._requests[method](params if isinstance(params, dict) else {})

    def _notify(self, method: str, params: object) -> None:
        """Handle a notification. The protocol has no response to a notification, so an unknown one is ignored, and a malformed one is logged."""
        if method == "exit" or self._is_initialized and not self._is_shut_down and method in self._notifications:
            try:
                self._notifications[method](params if isinstance(params, dict) else {})
            except (LabError, KeyError, TypeError, AttributeError, ValueError) as error:
                self._log(f"{method}: {error}")

    def _log(self, text: str) -> None:
        """Write a line to the editor's log."""
        self._wire.send(_notification("window/logMessage", {"type": 2, "message": text}))

    def _publish(self, document: Document) -> None:
        """Send the diagnostics of a document."""
        diagnostics = [each.diagnostic for each in document.findings]
        params = {"uri": document.uri, "version": document.version, "diagnostics": diagnostics}
        self._wire.send(_notification("textDocument/publishDiagnostics", params))

    def _initialize(self, params: Params) -> object:
        self._is_initialized = True
        hover = ((params.get("capabilities") or {}).get("textDocument") or {}).get("hover") or {}
        self._has_markdown = "markdown" in (hover.get("contentFormat") or [])
        return {"capabilities": CAPABILITIES, "serverInfo": {"name": "vecmon-lab", "version": __version__}}

    def _shut_down(self, params: Params) -> None:
        self._is_shut_down = True

    def _exit(self, params: Params) -> None:
        self.status = 0 if self._is_shut_down else 1

    def _open(self, params: Params) -> None:
        it = params["textDocument"]
        self._documents[it["uri"]] = Document(str(it["uri"]), str(it["text"]), int(it["version"]), self._trial)

    def _change(self, params: Params) -> None:
        self._document(params).change(params["contentChanges"], int(params["textDocument"]["version"]))

    def _close(self, params: Params) -> None:
        document = self._documents.pop(params["textDocument"]["uri"], None)
        if document is not None:
            empty: dict[str, object] = {"uri": document.uri, "diagnostics": []}
            self._wire.send(_notification("textDocument/publishDiagnostics", empty))

    def _document(self, params: Params) -> Document:
        """Return the open document that a message names. Raises RequestError if it isn't open."""
        uri = params["textDocument"]["uri"]
        if uri not in self._documents:
            raise RequestError(INVALID_PARAMS, f"{uri} isn't open")
        return self._documents[uri]

    def _hover(self, params: Params) -> object:
        found = hovers.hover(self._document(params).analysis, params["position"])
        if found is None:
            return None
        text = "\n".join(found[0])
        if self._has_markdown:
            return {"contents": {"kind": "markdown", "value": f"```text\n{text}\n```"}, "range": found[1]}
        return {"contents": {"kind": "plaintext", "value": text}, "range": found[1]}

    def _places(self, params: Params, find: Callable[..., list[Range]], *others: object) -> object:
        """Return the ranges that `find` returns for the position of a request, each with the document's URI."""
        document = self._document(params)
        where: Position = params["position"]
        return [{"uri": document.uri, "range": each} for each in find(document.analysis, where, *others)]

    def _references(self, params: Params) -> object:
        return self._places(params, navigation.references, bool(params["context"]["includeDeclaration"]))

    def _prepare_rename(self, params: Params) -> object:
        return navigation.rename_range(self._document(params).analysis, params["position"])

    def _rename(self, params: Params) -> object:
        document = self._document(params)
        edits = navigation.renamed(document.analysis, params["position"], str(params["newName"]))
        return {"changes": {document.uri: edits}}

    def _code_actions(self, params: Params) -> object:
        document = self._document(params)
        return code_actions(document.uri, document.findings, params["range"])

    def _hints(self, params: Params) -> object:
        span: Range = params["range"]
        return hints(self._document(params).analysis, span["start"]["line"] + 1, span["end"]["line"] + 1)


def _failure(number: object, code: int, message: str) -> object:
    """Return the response to a request that failed. The message of the error is written in one line."""
    return {"jsonrpc": "2.0", "id": number, "error": {"code": code, "message": " ".join(lines_of(message))}}


def _notification(method: str, params: object) -> object:
    return {"jsonrpc": "2.0", "method": method, "params": params}

"""The machine of a page: WebAssembly instances, which the page's worker runs (web/worker.js)."""

import pathlib
from collections.abc import Iterator, Mapping, Sequence
from itertools import count

import _host  # a module of webassembly/python.c

from ..machine.answers import OutOfStep, is_whole
from ..machine.process import BLOCK_BYTES, Process, ProgramGone

_numbers = count(1)


class PageProcess:
    """An instance of vecmon.wasm, which receives lines and returns their answers at once."""

    def __init__(self, arguments: Sequence[str]) -> None:
        self.fed, self.number = 0, next(_numbers)
        _host.start(self.number, "\n".join(arguments))

    def ask(self, lines: Sequence[str]) -> list[list[str]]:
        """Send lines together; return the answer to each, as a list of lines. Raises ProgramGone and OutOfStep."""
        output = self._ask("".join(f"{line}\n" for line in lines).encode("ascii")).decode("latin-1").split("\n")
        rest, answers = iter(output[:-1]), list[list[str]]()
        for line in lines:
            answer = [next(rest, "")]
            while not is_whole(line, answer):
                answer.append(next(rest, ""))
            answers.append(answer)
        if more := next(rest, None):
            raise OutOfStep(f"after the answer to {lines[-1][:60]!r} there came {more[:60]!r}")
        return answers

    def stream(self, script: bytes) -> Iterator[bytes]:
        """Send the lines of a script; yield blocks of whole lines of their answers. Raises ProgramGone."""
        at = 0
        while at < len(script):
            end = script.rfind(b"\n", at, at + BLOCK_BYTES) + 1
            yield self._ask(script[at:end])
            at = end

    def kill(self) -> None:
        """End the instance."""
        _host.end(self.number)

    close = kill

    def _ask(self, data: bytes) -> bytes:
        self.fed += len(data)
        answers: bytes | None = _host.ask(self.number, data)
        if answers is None:
            raise ProgramGone("the machine ended")
        return answers


class PageProgram:
    """The page's vecmon.wasm. Images are files that the worker has by their paths."""

    def start(self, arguments: Sequence[str], images: Mapping[str, pathlib.Path]) -> Process:
        """Start an instance. arguments: the program's arguments; images: ignored, since the arguments have the paths of the images"""
        return PageProcess(arguments)

    def __str__(self) -> str:
        return "vecmon"


def put_file(path: pathlib.Path, content: bytes) -> None:
    """Make a file with this path and content, for Python and for machines."""
    _host.file(str(path), content)

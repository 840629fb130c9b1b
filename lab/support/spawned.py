"""A program that starts without `subprocess`, as one of a page does: by `os.posix_spawn`, with blocking pipes."""

import os
import pathlib
import signal
from collections.abc import Iterator, Mapping, Sequence

from vecmon_lab.machine.answers import is_whole
from vecmon_lab.machine.process import Process, ProgramGone


class SpawnedProcess:
    """A process of the program."""

    def __init__(self, program: pathlib.Path, arguments: Sequence[str]) -> None:
        (given, feed), (source, said) = os.pipe(), os.pipe()
        actions = [(os.POSIX_SPAWN_DUP2, given, 0), (os.POSIX_SPAWN_DUP2, said, 1)]
        self.fed, self.number = 0, os.posix_spawn(program, [str(program), *arguments], os.environ, file_actions=actions)
        os.close(given)
        os.close(said)
        self._feed, self._source = feed, os.fdopen(source, "rb")

    def ask(self, lines: Sequence[str]) -> list[list[str]]:
        """The answers to lines that go in together. Raises ProgramGone."""
        data = "".join(f"{line}\n" for line in lines).encode("ascii")
        self.fed += os.write(self._feed, data)
        return [self._answer(line) for line in lines]

    def stream(self, script: bytes) -> Iterator[bytes]:
        """Feeds lines, and gives their answers. Raises ProgramGone."""
        for line in script.decode("ascii").splitlines():
            yield "".join(f"{part}\n" for part in self.ask([line])[0]).encode("latin-1")

    def kill(self) -> None:
        """Ends the process."""
        os.kill(self.number, signal.SIGKILL)

    def close(self) -> None:
        """Ends the process, and its pipes."""
        self.kill()
        os.close(self._feed)
        self._source.close()
        os.waitpid(self.number, 0)

    def _answer(self, line: str) -> list[str]:
        answer = [self._line()]
        while not is_whole(line, answer):
            answer.append(self._line())
        return answer

    def _line(self) -> str:
        if not (line := self._source.readline()):
            raise ProgramGone("the program ended")
        return line[:-1].decode("latin-1")


class SpawnedProgram:
    """The program of a path."""

    def __init__(self, path: pathlib.Path) -> None:
        self._path = path

    def start(self, arguments: Sequence[str], images: Mapping[str, pathlib.Path]) -> Process:
        """Starts a process with the program's arguments."""
        return SpawnedProcess(self._path, arguments)

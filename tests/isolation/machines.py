"""One machine of eight users, and eight machines of one user each."""

import pathlib
import subprocess
from types import TracebackType
from typing import Self

from tests.program import difference, sync_line, run

DATA = pathlib.Path(__file__).parent / "data"
IMAGES = [f"{name}={name}" for name in ("good", "short", "sortgcc")]
USERS = range(1, 9)
MAX_PENDING = 32_768  # bytes of lines that are written at once; a pipe takes them all, so nobody waits for a reader


class PrivateMachine:
    """A private machine of one user: a process that takes lines and grants one slice at a time."""

    def __init__(self, program: pathlib.Path, user: int, quantum: int) -> None:
        words = [str(program), "--quantum", str(quantum), "/dev/stdin", *IMAGES]
        self._process = subprocess.Popen(words, cwd=DATA, stdin=subprocess.PIPE, stdout=subprocess.PIPE)
        self._user = user
        self._is_idle = True  # whether the program is known not to run: it printed nothing since it stopped
        self._pending: list[tuple[str, list[str]]] = []
        self._size = 0

    def tell(self, line: str) -> list[str]:
        """Queue a line, which the machine executes before the next slice. Its answer is added to the list."""
        answer: list[str] = []
        self._pending.append((line, answer))
        self._size += len(line)
        self._is_idle = False
        if self._size > MAX_PENDING:
            self.execute()
        return answer

    def execute(self) -> None:
        """Execute all queued lines."""
        assert self._process.stdin and self._process.stdout
        lines = (part for line, _ in self._pending for part in (line, sync_line(line)[0]))
        self._process.stdin.write("".join(f"{line}\n" for line in lines).encode("latin-1"))
        self._process.stdin.flush()
        for line, answer in self._pending:
            end = f"{sync_line(line)[1]}\n".encode("latin-1")
            while (output := self._process.stdout.readline()) != end:
                assert output.endswith(b"\n"), "a private machine has ended"
                answer.append(output.decode("latin-1"))
        self._pending, self._size = [], 0

    def slice(self) -> list[str] | None:
        """Takes a slice; the stop line, if there is one. None where the program doesn't run."""
        if self._is_idle:
            return None
        answer = self.tell(f"* run {self._user}")
        self.execute()
        *stop, granted = answer
        self._is_idle = bool(stop) or granted == "* granted 0\n"
        return None if granted == "* granted 0\n" else stop

    def end(self) -> None:
        """End the process after executing all queued lines."""
        self.execute()
        self._process.communicate()


class Machines:
    """The script of the machine with all users, and its expected answers, which the private machines give."""

    def __init__(self, program: pathlib.Path, quantum: int) -> None:
        self.commands = 0
        self.slices = 0
        self._program = program
        self._quantum = quantum
        self._private = {user: PrivateMachine(program, user, quantum) for user in USERS}
        self._last = USERS[-1]  # whose slice was the last in turn
        self._script: list[str] = []
        self._wanted: list[list[str]] = []

    def __enter__(self) -> Self:
        return self

    def __exit__(self, kind: type[BaseException] | None, fault: BaseException | None, at: TracebackType | None) -> None:
        for machine in self._private.values():
            machine.end()

    def line(self, user: int, line: str) -> None:
        """A line of a user, or one that a user writes who isn't in good faith: it comes to both machines."""
        self._add(line, self._private[user].tell(line))

    def command(self, user: int, command: str) -> None:
        """A user's command."""
        self.line(user, f"{user} {command}")

    def show(self, everything: list[str]) -> None:
        """Commands of each user, which show all that a user has."""
        for user in USERS:
            for command in everything:
                self.command(user, command)

    def operators(self, user: int) -> list[str]:
        """Send `* list` to a user's private machine; the answer is added to the list."""
        return self._private[user].tell("* list")

    def slices_in_turn(self, count: int) -> None:
        """The operator grants up to this number of slices in turn."""
        collected: list[str] = []
        granted = 0
        while granted < count and (stop := self._turn()) is not None:
            collected += stop
            granted += 1
        self._grant(f"* slices {count}", collected, granted)

    def run(self, user: int) -> None:
        """The operator grants a slice to a user, out of turn."""
        stop = self._private[user].slice()
        self._grant(f"* run {user}", stop or [], 0 if stop is None else 1)

    def difference(self) -> tuple[str, str]:
        """The answers of the machine with all users, and the first difference from the expected ones."""
        for machine in self._private.values():
            machine.execute()
        script = "".join(f"{line}\n" for line in self._script)
        output = run(self._program, ["--quantum", str(self._quantum), "/dev/stdin", *IMAGES], script, DATA).stdout
        return output, difference(output, "".join(part for answer in self._wanted for part in answer))

    def _turn(self) -> list[str] | None:
        """A slice of the first user whose program runs, behind the one whose turn was last. None if there is none."""
        for user in (*range(self._last + 1, USERS.stop), *range(1, self._last + 1)):
            stop = self._private[user].slice()
            if stop is not None:
                self._last = user
                return stop
        return None

    def _grant(self, line: str, answer: list[str], granted: int) -> None:
        """An operator's line that grants slices, and the answers."""
        self.slices += granted
        self._add(line, [*answer, f"* granted {granted}\n"])

    def _add(self, line: str, expected: list[str]) -> None:
        """A line of the script, and its answer."""
        self.commands += 1
        self._script.append(line)
        self._wanted.append(expected)

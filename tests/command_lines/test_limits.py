"""Images and scripts of the greatest lengths and a byte more, input without an end, and lines that are answered before more is read."""

import os
import pathlib
import pty
import resource
import subprocess
import threading

import pytest

from tests.program import built

MAX_IMAGE = 4_194_304  # bytes
MAX_SCRIPT = 16_777_216  # bytes
MAX_MEMORY = 64 << 20  # bytes of a process: its users' 8 MiB, an image and more
SECONDS = 180
LOADS = b"1 enter\n1 load a\n1 load b"
LOADED = b"1 entered\n1 E09 Magic\n1 E08\n"


def run_program(*arguments: str | bytes, script: bytes = b"") -> tuple[int, bytes, bytes]:
    """The status, the output and the errors of a run in `MAX_MEMORY`."""

    def limit() -> None:
        resource.setrlimit(resource.RLIMIT_AS, (MAX_MEMORY, MAX_MEMORY))

    completed = subprocess.run(
        [built(), *arguments], input=script, capture_output=True, preexec_fn=limit, timeout=SECONDS, check=False
    )
    return completed.returncode, completed.stdout, completed.stderr


def write_zeros(folder: pathlib.Path, length: int) -> str:
    """The path of a file of zeros."""
    with open(folder / "zeros", "wb") as it:
        it.truncate(length)
    return str(folder / "zeros")


def test_longest_image_is_accepted(tmp_path: pathlib.Path) -> None:
    image = write_zeros(tmp_path, MAX_IMAGE)
    assert run_program("/dev/stdin", f"a={image}", script=LOADS) == (0, LOADED, b"")


def test_image_above_limit_is_refused(tmp_path: pathlib.Path) -> None:
    image = write_zeros(tmp_path, MAX_IMAGE + 1)
    assert run_program("/dev/stdin", f"a={image}", script=LOADS) == (4, b"", b"vecmon: bad image list\n")


def test_endless_image_is_refused() -> None:
    assert run_program("/dev/stdin", "a=/dev/zero", script=LOADS) == (4, b"", b"vecmon: bad image list\n")


@pytest.mark.parametrize(
    "length, text, output",
    [
        (MAX_SCRIPT, b"", b""),
        (MAX_SCRIPT, b"1 enter", b"1 entered\n"),
        (MAX_SCRIPT + 1, b"", b""),
        (MAX_SCRIPT + 1, b"1 enter\n", b""),  # the newline that would end the line is one byte too far
        (MAX_SCRIPT + 1, b"1 enter\n ", b"1 entered\n"),
    ],
)
def test_script_length_limit_is_enforced(tmp_path: pathlib.Path, length: int, text: bytes, output: bytes) -> None:
    script = tmp_path / "script"
    script.write_bytes(b"\n" * (length - len(text)) + text)
    expected = (0, output, b"") if length == MAX_SCRIPT else (3, output, b"vecmon: script too long\n")
    assert run_program(str(script)) == expected


def test_endless_script_is_refused() -> None:
    assert run_program("/dev/zero") == (3, b"", b"vecmon: script too long\n")


def test_argument_outside_utf8_is_refused() -> None:
    message = b"error: invalid UTF-8 was detected in one or more arguments\n"
    assert run_program("missing", b"\xff") == (2, b"", message)


def start(stdin: int) -> tuple[subprocess.Popen[bytes], threading.Timer]:
    """A run whose input stays open, and the timer that kills it if it doesn't end in time."""
    running = subprocess.Popen([built()], stdin=stdin, stdout=subprocess.PIPE)
    timer = threading.Timer(SECONDS, running.kill)
    timer.start()
    return running, timer


def test_reading_stops_after_end() -> None:
    """A terminal gives one end of file and then waits for more, so a second read never ends."""
    terminal, end = pty.openpty()
    running, timer = start(end)
    os.write(terminal, b"1 enter\n\x04")
    output, _ = running.communicate()
    timer.cancel()
    os.close(terminal)
    os.close(end)
    assert (running.returncode, output) == (0, b"1 entered\n")


def test_line_is_answered_before_more_is_read() -> None:
    running, timer = start(subprocess.PIPE)
    assert running.stdin and running.stdout
    lines = [(b"1 enter\n", b"1 entered\n"), (b"2 enter\n1 le", b"2 entered\n"), (b"ave\n", b"1 left\n")]
    for line, answer in lines:
        running.stdin.write(line)
        running.stdin.flush()
        assert running.stdout.readline() == answer
    rest, _ = running.communicate()
    timer.cancel()
    assert (running.returncode, rest) == (0, b"")

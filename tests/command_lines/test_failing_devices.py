"""An output that takes some bytes and then fails, and a script whose reading fails after some bytes, at each place."""

import os
import pathlib
import resource
import signal
import subprocess

import pytest

from tests.program import built

SCRIPT = b"1 enter\n1 state\n"
ANSWERS = (b"1 entered\n", b"1 state stopped pc=0000000000000000\n")
OUTPUT = b"".join(ANSWERS)
SECONDS = 180


@pytest.mark.parametrize("taken", range(len(OUTPUT)))
def test_output_that_fails_has_first_bytes(tmp_path: pathlib.Path, taken: int) -> None:
    """A file that may have `taken` bytes takes a part of a write, and fails the next one."""

    def limit() -> None:
        signal.signal(signal.SIGXFSZ, signal.SIG_IGN)
        resource.setrlimit(resource.RLIMIT_FSIZE, (taken, taken))

    path = tmp_path / "output"
    with path.open("wb") as output:
        ended = subprocess.run(
            [built()],
            input=SCRIPT,
            stdout=output,
            stderr=subprocess.PIPE,
            preexec_fn=limit,
            timeout=SECONDS,
            check=False,
        )
    assert (ended.returncode, ended.stderr) == (5, b"vecmon: cannot write output\n")
    assert path.read_bytes() == OUTPUT[:taken]


@pytest.mark.parametrize("given", range(len(SCRIPT) + 1))
def test_script_that_fails_has_answers_of_lines_read(given: int) -> None:
    """An open pipe that doesn't block gives `given` bytes and then fails. A line without its newline isn't executed."""
    reading, writing = os.pipe()
    os.write(writing, SCRIPT[:given])
    os.set_blocking(reading, False)
    ended = subprocess.run([built()], stdin=reading, capture_output=True, timeout=SECONDS, check=False)
    os.close(reading)
    os.close(writing)
    expected = b"".join(ANSWERS[: SCRIPT[:given].count(b"\n")])
    assert (ended.returncode, ended.stdout, ended.stderr) == (3, expected, b"vecmon: cannot read script\n")

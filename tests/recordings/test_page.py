"""Run the examples of the recorder's page, which is its manual page too, as written."""

import os
import pathlib
import re
import subprocess

from tests.program import TOP, difference
from tests.recordings.recorder import built_recorder

PAGE = (TOP / "docs/RECORDER.md").read_text("utf-8")
SESSIONS = [block for block in re.findall(r"^```sh\n(.*?)^```$", PAGE, re.MULTILINE | re.DOTALL) if block[:2] == "$ "]


def test_page_examples_are_reproduced(tmp_path: pathlib.Path) -> None:
    """A command follows `$ `, and its output is below it."""
    (tmp_path / "vecmon-record").symlink_to(built_recorder())
    environment = {**os.environ, "PATH": f"{tmp_path}:{os.environ['PATH']}"}
    for session in SESSIONS:
        output = ""
        for line in re.findall(r"^\$ (.*)\n", session, re.MULTILINE):
            completed = subprocess.run(
                line,
                shell=True,
                cwd=tmp_path,
                env=environment,
                stdout=subprocess.PIPE,
                stderr=subprocess.STDOUT,
                check=False,
            )
            output += f"$ {line}\n{completed.stdout.decode()}"
        assert not difference(output, session), difference(output, session)


def test_page_has_examples() -> None:
    assert len(SESSIONS) == 5


def test_page_has_options_of_help() -> None:
    completed = subprocess.run([built_recorder(), "--help"], capture_output=True, check=True)
    words = re.compile(r"--[a-z]+")
    synopsis = PAGE.split("```text\n", 1)[1].split("```", 1)[0]
    assert set(words.findall(completed.stdout.decode())) - {"--help"} == set(words.findall(synopsis))

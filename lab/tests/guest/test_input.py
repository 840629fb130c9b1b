"""A file at a program's symbols: the data that the program finds there; and images without them, or without room."""

import pathlib
import subprocess

import pytest

from support.commands import Lab
from support.places import SUM
from vecmon_lab.compilers.compiler import C_SOURCE, IMAGE, Compiler

NEEDED = "a program needs input and input_size to get a file"
ECHO = """
#include "vecmon.h"
char input[300], behind = 7;
size_t input_size;
int main(void)
{
    for (size_t written = 0; written < input_size;)
        written += put(input + written, input_size - written);
    return behind;
}
"""


@pytest.fixture
def made(clang: Compiler, tmp_path: pathlib.Path, request: pytest.FixtureRequest) -> pathlib.Path:
    """The image that clang makes of a source."""
    (tmp_path / C_SOURCE).write_text(request.param)
    subprocess.run(clang.words(0), cwd=tmp_path, check=True)
    return tmp_path / IMAGE


@pytest.mark.parametrize("made", [ECHO], indirect=True)
@pytest.mark.parametrize("data", [b"", b"a line\n", bytes(range(256)) + b"\xff" * 44])
def test_program_reads_input_file(lab: Lab, made: pathlib.Path, data: bytes) -> None:
    (made.parent / "file").write_bytes(data)
    assert lab("run", "--in", made.parent / "file", made, "word") == (7, data, "")
    assert (
        lab("compare", "--in", made.parent / "file", made)[1]
        .split(b"\n")[0]
        .split(b"; ")[1]
        .startswith(f"{len(data)} bytes".encode())
    )


@pytest.mark.parametrize(
    "made, size, expected",
    [
        (ECHO, 301, "{file} has more than the 300 bytes of the symbol input"),
        (ECHO, None, "No such file or directory"),
        ("int main(void) { return 0; }", 5, f"symbol input not found; {NEEDED}"),
        ("char input[9]; int main(void) { return 0; }", 5, f"symbol input_size not found; {NEEDED}"),
        ("char input[9]; int input_size; int main(void) { return 0; }", 5, "symbol input_size has fewer than 8 bytes"),
    ],
    indirect=["made"],
)
def test_oversized_input_is_refused(lab: Lab, made: pathlib.Path, size: int | None, expected: str) -> None:
    file = made.parent / "file"
    if size is not None:
        file.write_bytes(bytes(size))
    status, output, errors = lab("run", "--in", file, made)
    assert (status, output, errors.count("\n")) == (2, b"", 1) and expected.format(file=file) in errors


def test_image_without_input_symbols_is_refused(lab: Lab) -> None:
    assert lab("run", "--in", SUM, SUM)[2] == f"vecmon-lab: {SUM}: symbol input not found; {NEEDED}\n"


def test_message_names_source(lab: Lab, tmp_path: pathlib.Path) -> None:
    """A source is named, and not the image in a temporary folder that it is compiled to."""
    source = tmp_path / "adds.c"
    source.write_text("int main(void) { return 0; }\n")
    for command in ("run", "compare", "profile"):
        assert lab(command, "--in", source, source)[2] == f"vecmon-lab: {source}: symbol input not found; {NEEDED}\n"
        expected = f"vecmon-lab: {source}: arguments take 8,192 bytes of the stack at most, and these take "
        assert lab(command, source, "x" * 9000)[2].startswith(expected)

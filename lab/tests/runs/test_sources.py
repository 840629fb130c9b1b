"""Sources in C in place of images, as in docs/RUNNING.md: of kernels, compared with images, and with mistakes."""

import pathlib
import shutil
import subprocess
import sys
import tempfile

import pytest

from support.commands import Lab
from support.places import DOCS, EXAMPLES
from vecmon_lab import Kernel
from vecmon_lab.compilers.compiler import RUNTIME, Compiler
from vecmon_lab.compilers.compiling import compiled_image
from vecmon_lab.compilers.hints import NO_MAIN
from vecmon_lab.guest.symbols import Symbols

GREY = EXAMPLES / "kernels" / "grey.c"
ARGUMENTS = """
#include "vecmon.h"
int main(int argc, char **argv)
{
    for (char **each = argv; *each; each++) {
        size_t length = 0;
        while ((*each)[length])
            length++;
        put(*each, length);
        put("\\n", 1);
    }
    return argc | (argv[argc] != 0) << 7;
}
"""
PUTS = """
#include "vecmon.h"
static char text[1000];
int main(void)
{
    for (size_t i = 0; i < sizeof text; i++)
        text[i] = 'a' + i % 26;
    return put(text, sizeof text) != 1000 || put(text, 0) != 0 || put((char *)8, 5) != -14;
}
"""

MEMORY = """
#include "vecmon.h"
static char text[600], one[] = "a\\x7f", other[] = "a\\x80";
static volatile size_t count = 200, two = 2;
int main(void)
{
    for (size_t i = 0; i < sizeof text; i++)
        text[i] = (char)(7 * i);
    __builtin_memmove(text + 100, text + 50, count);
    __builtin_memmove(text + 300, text + 310, count);
    put(text, sizeof text);
    return (__builtin_memcmp(one, other, two) < 0) | (__builtin_memcmp(other, one, two) > 0) << 1
        | (__builtin_memcmp(one, one, two) == 0) << 2;
}
"""


@pytest.fixture(autouse=True)
def images(tmp_path_factory: pytest.TempPathFactory, monkeypatch: pytest.MonkeyPatch) -> None:
    """Images are in a folder that goes with the tests, as a worker among tests ends without a word."""
    monkeypatch.setattr(tempfile, "tempdir", str(tmp_path_factory.mktemp("images")))


def test_commands_accept_c_source(lab: Lab, clang: Compiler, tmp_path: pathlib.Path) -> None:
    """Beside an image by the page's command; of 45 pixels 32 have room in a round, so six instructions have 19 in the tail."""
    page = (DOCS / "RUNNING.md").read_text("utf-8").partition("### C sources instead of images")[2]
    command = page.partition("$ clang-19 ")[2].partition("\n```")[0]
    words = command.replace("\\\n", "").replace("$runtime", f"{RUNTIME}").replace("=lld-19", "=lld").split()
    shutil.copy(GREY, tmp_path)
    subprocess.run([clang.name, *words], cwd=tmp_path, check=True)
    expected = [lab("profile", image) for image in (tmp_path / "grey", tmp_path / "grey.c")]
    row = expected[1][1].decode().splitlines()[1].split()
    assert expected[0] == expected[1] and expected[1][0] == 0
    assert row[3:5] == ["grey.c:14-20", "2"] and row[-5:] == ["270", "0", "114", "70", "%"]
    status, output, _ = lab("run", GREY)
    pixels = [(5 * i % 256, (255 - 3 * i) % 256, i * i % 256) for i in range(45)]
    assert (status, output) == (0, bytes((77 * r + 150 * g + 29 * b) >> 8 for r, g, b in pixels))


def test_main_receives_arguments(lab: Lab, clang: Compiler, tmp_path: pathlib.Path) -> None:
    """As the standard has them (C11, 5.1.2.2.1): argv[0] names the program, and argv[argc] is null."""
    source = tmp_path / "arguments.c"
    source.write_text(ARGUMENTS, "ascii")
    assert lab("run", source, "one", "--stats")[:2] == (3, b"arguments\none\n--stats\n")
    assert b"; 11 bytes: b'arguments\\n\\n'; " in lab("compare", source, "")[1].splitlines()[0]
    assert lab("profile", source, "one")[1].endswith(b"ticks; status 2\n")
    source.write_text("int main(void) { return 7; }", "ascii")
    assert lab("run", source, "one") == (7, b"", "")


def test_put_writes_all_bytes(lab: Lab, clang: Compiler, tmp_path: pathlib.Path) -> None:
    """A call writes 256 bytes at most, and returns -14 for bytes that can't be read."""
    source = tmp_path / "puts.c"
    source.write_text(PUTS, "ascii")
    assert lab("run", source) == (0, bytes(97 + number % 26 for number in range(1000)), "")


def test_memory_functions_are_linked_if_needed(lab: Lab, clang: Compiler, tmp_path: pathlib.Path) -> None:
    """Areas overlap in both directions, and bytes are compared without a sign; a source that needs neither is as it was."""
    moved = bytearray(7 * number % 256 for number in range(600))
    moved[100:300] = moved[50:250]
    moved[300:500] = moved[310:510]
    source = tmp_path / "memory.c"
    source.write_text(MEMORY, "ascii")
    assert lab("run", source) == (7, bytes(moved), "")
    source.write_text(PUTS, "ascii")
    assert not {"memmove", "memcmp"} & {*Symbols.read(compiled_image(source)).addresses}


def test_source_with_start_label_runs(lab: Lab, clang: Compiler, tmp_path: pathlib.Path) -> None:
    """It is linked to nothing. A slip of two, and the same mended: a line has fewer ticks, and nothing is relied on."""
    slip = (EXAMPLES / "searches" / "dot_product.c").read_text("ascii")
    mended = tmp_path / "dot_product.c"
    mended.write_text(slip.replace("_vmacc_vv_u32m2", "_vmacc_vv_u32m2_tu"))
    status, output, _ = lab("compare", EXAMPLES / "searches" / "dot_product.c")
    assert status == 1 and b" dot_product.c:12: vmacc.vv " in output
    assert lab("compare", mended)[0] == 0
    status, output, _ = lab("profile", "--against", EXAMPLES / "searches" / "dot_product.c", mended)
    assert status == 0 and output.startswith(b"source            ticks  against  change\n")


def test_source_mistakes_and_missing_compiler_are_reported(
    lab: Lab, clang: Compiler, tmp_path: pathlib.Path, monkeypatch: pytest.MonkeyPatch
) -> None:
    bad = tmp_path / "bad.c"
    bad.write_text("int main(void)\n{\n    int x = y;\n    return z;\n}\n")
    expected = [f"{bad}:3:13: use of undeclared identifier 'y'", f"{bad}:4:12: use of undeclared identifier 'z'"]
    assert lab("run", bad) == (2, b"", "".join(f"vecmon-lab: {line}\n" for line in expected))
    bad.write_text("int twice(int x) { return 2 * x; }\n")
    assert lab("profile", bad) == (2, b"", f"vecmon-lab: {bad}: undefined symbol: main: {NO_MAIN}\n")
    assert lab("run", tmp_path / "none.c") == (2, b"", f"vecmon-lab: {tmp_path}/none.c: No such file or directory\n")
    status, _, errors = lab("run", "--trace", GREY, GREY)
    assert status == 2 and errors.startswith(f"vecmon-lab: {GREY} would be overwritten")
    monkeypatch.setattr(shutil, "which", lambda name, path=None: None)
    errors = f"vecmon-lab: {GREY}: there is no compiler for C: sudo apt install clang-19 lld-19 bubblewrap\n"
    assert lab("gdb", GREY) == lab("console", GREY) == (2, b"", errors)


def test_temporary_files_are_removed(clang: Compiler, tmp_path: pathlib.Path, monkeypatch: pytest.MonkeyPatch) -> None:
    monkeypatch.setenv("TMPDIR", str(tmp_path))
    lines = b"until main\nlist\nlist _start\n"
    run = subprocess.run([sys.executable, "-m", "vecmon_lab", "console", GREY], input=lines, stdout=subprocess.PIPE)
    assert run.returncode == 0 and not [*tmp_path.iterdir()]
    assert b"=>   25  {\n" in run.stdout and b"exit(main((int)*stack, (char **)(stack + 1)));" in run.stdout


def test_bytes_that_are_not_utf_8_are_compiled(lab: Lab, clang: Compiler, tmp_path: pathlib.Path) -> None:
    """C compilers copy the bytes of a string, here Latin-1, as they are."""
    source = tmp_path / "latin.c"
    source.write_bytes(
        b'#include "vecmon.h"\n/* \xe9 */ char text[] = "\xff\xe9";\nint main(void) { put(text, 2); return 4; }\n'
    )
    assert lab("run", source)[:2] == (4, b"\xff\xe9")
    with Kernel(source, compiler=clang.name) as kernel:
        assert kernel.call("main").output == b"\xff\xe9"
    status, page, errors = lab("lesson", source)
    assert (status, errors) == (0, "") and "poke" in page.decode("utf-8") and "ffe9" in page.decode("utf-8")

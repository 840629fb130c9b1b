"""targets/process.c and linux.c, compared with the kit's C library: both are linked to a program that prints what the functions return."""

import shutil
import subprocess
from collections.abc import Sequence
from pathlib import Path

import pytest

from tests.program import TOP
from tests.webassembly.tools import load

COMPILER = "clang-19"
ARGUMENTS = ["", "abc", "abcd", "abcde", "ä"]
EXPECTED = """\
4 prog----
0 --------
3 abc-----
4 abcd----
-2 abcd----
2 \N{LATIN SMALL LETTER A WITH DIAERESIS}------
-1 --------
-1 --------
1 8
1 8 16
0 1
0 1
12
"""
"""By the contracts of these functions: the length of an argument, -2 if it is too long, and then the buffer is full, -1 without one."""

SOURCE = r"""
#include <stdint.h>
#include <stdio.h>
#include <string.h>

struct allocation { int64_t succeeded; uint64_t block; };
int64_t rattle_arg(uint64_t index, uint8_t *bytes, uint64_t size);
struct allocation rattle_alloc(uint64_t size, uint64_t alignment);
struct allocation rattle_realloc(void *old, uint64_t old_size, uint64_t size, uint64_t alignment);
void rattle_dealloc(void *block);
void rattle_set_errno(int32_t number);
int32_t rattle_errno(void);

int main(void)
{
    for (int index = 0; index < 8; index++) {
        char bytes[9] = "--------";
        long length = rattle_arg(index == 7 ? UINT64_MAX : (uint64_t)index, (uint8_t *)bytes, 4);
        printf("%ld %s\n", length, bytes);
    }
    struct allocation block = rattle_alloc(8, 8), failed;
    memcpy((void *)block.block, "1234567", 8);
    printf("%ld %zu\n", (long)block.succeeded, strlen((char *)block.block) + 1);
    block = rattle_realloc((void *)block.block, 8, 1 << 20, 8);
    printf("%ld %zu %d\n", (long)block.succeeded, strlen((char *)block.block) + 1, block.block % 16 ? 0 : 16);
    failed = rattle_realloc((void *)block.block, 1 << 20, INT64_MAX, 8);
    printf("%ld %d\n", (long)failed.succeeded, failed.block != 0);
    rattle_dealloc((void *)block.block);
    failed = rattle_alloc(INT64_MAX, 8);
    printf("%ld %d\n", (long)failed.succeeded, failed.block != 0);
    rattle_dealloc((void *)rattle_alloc(0, 8).block);
    rattle_set_errno(12);
    printf("%d\n", rattle_errno());
    return 0;
}
"""

pytestmark = pytest.mark.skipif(not shutil.which(COMPILER), reason=f"{COMPILER} isn't installed")


def output(folder: Path, *parts: str | Path) -> str:
    """Return what the program of SOURCE and these other files prints."""
    source, program = folder / "main.c", folder / "prog"
    source.write_text(SOURCE, encoding="utf-8")
    subprocess.run([COMPILER, "-O2", source, *parts, "-o", program], check=True)
    run = subprocess.run(["prog", *ARGUMENTS], executable=program, capture_output=True, text=True, check=True)
    return run.stdout


def own_parts(folder: Path, right: str = "", wrong: str = "") -> Sequence[str | Path]:
    """Return the sources of targets/ as arguments of the compiler, with a text in process.c replaced."""
    source = (TOP / "targets/process.c").read_text(encoding="utf-8")
    assert not right or source.count(right) == 1
    (folder / "process.c").write_text(source.replace(right, wrong) if right else source, encoding="utf-8")
    return ['-DORIGIN="of a test"', "-I", TOP / "targets", folder / "process.c", TOP / "targets/linux.c"]


def test_process_equals_that_of_the_kit(tmp_path: Path) -> None:
    kit = load("linked_kit").installed_kit()
    assert output(tmp_path, f"{kit}/c/libos_c.a", f"{kit}/c/liblibc_c.a") == EXPECTED
    assert output(tmp_path, *own_parts(tmp_path)) == EXPECTED


@pytest.mark.parametrize(
    "right, wrong",
    [
        ("length < size ?", "length <= size + 1 ?"),
        ("length > size ?", "length >= size ?"),
        ("index >= argument_count", "index > argument_count + 1"),
    ],
)
def test_planted_mistake_is_found(tmp_path: Path, right: str, wrong: str) -> None:
    try:
        assert output(tmp_path, *own_parts(tmp_path, right, wrong)) != EXPECTED
    except subprocess.CalledProcessError:
        pass  # a read or a write of other memory


def test_origin_is_in_the_program(tmp_path: Path) -> None:
    """`vecmon-lab check` reads it there, between zero bytes."""
    output(tmp_path, *own_parts(tmp_path))
    assert b"\0of a test\0" in (tmp_path / "prog").read_bytes()

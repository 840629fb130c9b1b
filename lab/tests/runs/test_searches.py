"""The programs of docs/DEBUGGING.md with a mistake each: that they have it, and that the commands of that page show where."""

import pathlib
import subprocess
from collections.abc import Mapping

from support.commands import Lab
from support.images import MARCH
from support.places import EXAMPLES
from vecmon_lab.compilers.compiler import Compiler

SEARCHES = EXAMPLES / "searches"
SQUARES = "".join(f"{number * number}\n" for number in range(200)).encode()


def compiled(clang: Compiler, source: pathlib.Path) -> pathlib.Path:
    """The image of a source, in a folder of its own, by the command of that page."""
    words = (
        f"{clang.name} --target=riscv64-linux-gnu {MARCH} -mabi=lp64 -O2 -ffreestanding -fno-pic -fno-vectorize".split()
    )
    more = "-gdwarf-4 -nostdlib -static -fuse-ld=lld -Wl,--build-id=none".split()
    image = source.with_suffix("")
    subprocess.run([*words, *more, "-o", image, source], check=True)
    return image


def copied(folder: pathlib.Path, name: str, changes: Mapping[str, str] = {}) -> pathlib.Path:
    """One of the sources in a folder, with changes to some texts that are in it once."""
    text = (SEARCHES / name).read_text("utf-8")
    for old, new in changes.items():
        assert text.count(old) == 1
        text = text.replace(old, new)
    folder.mkdir(exist_ok=True)
    (folder / name).write_text(text, "utf-8")
    return folder / name


def test_recomputed_length_is_found(lab: Lab, clang: Compiler, tmp_path: pathlib.Path) -> None:
    """A fifth of the text, so a 25th of a hundred million instructions. Of 22 characters that repeat 15 are small letters,
    and the function is called once more than there are bytes; each takes four instructions."""
    shorter = {"BYTES 5000": "BYTES 1000"}
    letters = compiled(clang, copied(tmp_path / "first", "letters.c", shorter))
    once = {"i = 0; i < length(bytes)": "i = 0, end = length(bytes); i < end"}
    better = compiled(clang, copied(tmp_path / "once", "letters.c", shorter | once))
    status, _, errors = lab("run", "--count", letters)
    assert status == 68 and int(errors.split()[0].replace(",", "")) > 4 * 1000 * 1001
    rows = [table.splitlines()[1].split() for table in lab("profile", letters)[1].decode().split("\n\n")]
    assert rows[0][3] == "letters.c:12-13" and int(rows[0][4]) >= 1000 * 1001
    assert rows[1][:2] == ["length", "1001"] and rows[2][:3] == ["_start", "enlarge", "1"]
    assert rows[3][0] == "letters.c:12"
    status, output, _ = lab("profile", "--against", letters, better)
    assert status == 0 and output.decode().splitlines()[1].split()[0] == "letters.c:12"
    assert lab("run", better)[0] == 68


def test_strip_mined_pieces_are_found(lab: Lab, clang: Compiler, tmp_path: pathlib.Path) -> None:
    """Two writes, of 994 bytes and of 60; 256 of the first come out. All commands execute equally many instructions."""
    pieces, trace = compiled(clang, copied(tmp_path / "first", "pieces.c")), tmp_path / "trace"
    status, output, errors = lab("run", "--count", "--trace", trace, "--from", "18001", pieces)
    assert (status, output) == (0, SQUARES[:256] + SQUARES[994:]) and len(SQUARES) == 1054
    lines = trace.read_text().splitlines()
    assert [line.split()[-1] for line in lines if " ecall" in line][:2] == ["x10=100", "x10=3c"]
    number = errors.split()[0]
    assert (
        int(number.replace(",", "")) == 18_000 + len(lines)
        and ": the call was given 994 bytes and wrote 256, " in errors
    )
    assert lab("profile", pieces)[1].decode().splitlines()[-1].startswith(f"{number} instructions ")
    loop = "    for (long done; count > 0; bytes += done, count -= done)\n        done = call(64"
    whole = compiled(clang, copied(tmp_path / "whole", "pieces.c", {"    call(64": loop}))
    assert lab("run", whole) == (0, SQUARES, "")


def test_tail_is_found(lab: Lab, clang: Compiler, tmp_path: pathlib.Path) -> None:
    """4 of 16 elements are multiplied at last; the sums keep what they had only where that is asked for."""
    assert sum(number * (99 - number) for number in range(100)) == 161_700
    slip = compiled(clang, copied(tmp_path / "slip", "dot_product.c"))
    assert lab("run", slip)[0] == 0 and lab("run", "--policy", "ones", slip)[0] == 1
    status, output, _ = lab("compare", slip)
    assert status == 1 and b"  first read at " in output and b": vredsum.vs " in output
    assert b"relies on tail elements: tail@vmacc.vv " in output and b", element 4\n" in output
    mended = compiled(clang, copied(tmp_path / "mended", "dot_product.c", {"_vmacc_vv_u32m2": "_vmacc_vv_u32m2_tu"}))
    assert lab("run", "--policy", "ones", mended)[0] == 0 == lab("compare", mended)[0]

"""The stored CPython for the playground belongs to its sources, and tools/building/python_wasm refuses another one."""

import hashlib
import lzma
import pathlib
import shutil
import subprocess

import pytest

from support.places import TOP

STORED = TOP / "webassembly"


def recorded() -> dict[str, str]:
    """The SHA-256 of each file by its name, as webassembly/python.sha256 has it."""
    rows = (line.split("  ") for line in (STORED / "python.sha256").read_text().splitlines())
    return {name: digest for digest, name in rows}


def test_digests() -> None:
    module = lzma.decompress((STORED / "python.wasm.xz").read_bytes())
    assert module.startswith(b"\0asm\1\0\0\0")
    sources = ("webassembly/build_python", "webassembly/python.c")
    contents = {"python.wasm": module, **{name: (TOP / name).read_bytes() for name in sources}}
    assert recorded() == {name: hashlib.sha256(content).hexdigest() for name, content in contents.items()}


@pytest.mark.parametrize(
    "file, message",
    [
        ("webassembly/python.c", "webassembly/python.c has changed since webassembly/python.wasm.xz was built: run "),
        ("webassembly/python.wasm.xz", "webassembly/python.wasm.xz can't be decompressed"),
    ],
)
def test_a_change_is_refused(file: str, message: str, tmp_path: pathlib.Path) -> None:
    clone = tmp_path / "clone"
    shutil.copytree(STORED, clone / "webassembly")
    tools = clone / "tools/building"
    tools.mkdir(parents=True)
    for name in ("python_wasm", "debian_packages"):
        shutil.copy(TOP / "tools/building" / name, tools)
    command = [tools / "python_wasm", tmp_path / "out"]
    done = subprocess.run(command, capture_output=True, text=True)
    assert (done.returncode, done.stderr) == (0, "") and recorded()["python.wasm"] in done.stdout
    with open(clone / file, "r+b") as changed:
        changed.seek(100)
        changed.write(b"\0")
    done = subprocess.run(command, capture_output=True, text=True)
    refusal = done.stderr.splitlines()[-1]
    assert done.returncode == 2 and refusal.startswith(f"tools/building/python_wasm: {message}") and done.stdout == ""

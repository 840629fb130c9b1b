"""The stored golden vectors: a changed byte of one of their files is noticed."""

import hashlib
import lzma
import pathlib

import pytest

from tools.golden.golden_cases import changed_files

LINES = b'{"id": 1, "word": "00000013", "after": {"end": "ran", "pc": "10000804"}}\n'
ROW = "| `{}` | {} |\n"


@pytest.mark.parametrize("name", ["keep.jsonl.xz", "ones.jsonl.xz"])
def test_changed_byte_is_noticed(name: str, tmp_path: pathlib.Path) -> None:
    """In the compressed file; in a result that is compressed anew; and in the digest of README.md. So is a missing file."""
    files = [tmp_path / each for each in ("keep.jsonl.xz", "ones.jsonl.xz")]
    digest, data, file = hashlib.sha256(LINES).hexdigest(), lzma.compress(LINES), tmp_path / name
    text = "".join(ROW.format(each.name, digest) for each in files)
    readme = tmp_path / "README.md"
    readme.write_text(text)
    for each in files:
        each.write_bytes(data)
    assert changed_files(tmp_path) == []
    for changed in (
        data[:40] + bytes([data[40] ^ 1]) + data[41:],
        lzma.compress(LINES.replace(b"10000804", b"10000808")),
        data[:-1],
        b"",
    ):
        file.write_bytes(changed)
        assert changed_files(tmp_path) == [file]
    file.write_bytes(data)
    readme.write_text(text.replace(ROW.format(name, digest), ROW.format(name, digest[:-1] + "0")))
    assert changed_files(tmp_path) == ([] if digest.endswith("0") else [file])
    readme.write_text(text)
    file.unlink()
    assert changed_files(tmp_path) == [file]

"""The extensions of instructions, and the tools that lack them; here some instructions are taken to be of other extensions."""

import importlib.util
from dataclasses import replace

import pytest

from support.places import TOP
from vecmon_lab import LabError
from vecmon_lab.meanings import extensions as extensions_module
from vecmon_lab.meanings.describe import section_of
from vecmon_lab.meanings.extensions import added_archs, extension_of, extensions, names_lacked_by
from vecmon_lab.meanings.record import Record, record_of

OTHERS = {"vand.vx": "Zvkb", "vand.vv": "Zvkb", "and": "Zbb"}


def record_of_other_extension(name: str) -> Record:
    """The record of a mnemonic, for those of OTHERS with the extension there."""
    return replace(record_of(name), extension=OTHERS.get(name, record_of(name).extension))


@pytest.fixture
def others(monkeypatch: pytest.MonkeyPatch) -> None:
    """Take the instructions of OTHERS to be of other extensions."""
    monkeypatch.setattr(extensions_module, "record_of", record_of_other_extension)


def test_each_instruction_has_an_extension() -> None:
    found = [extension_of(name).name for name in ("add", "mul", "csrrw", "vadd.vv", "vsetvli")]
    assert found == ["I", "M", "Zicsr", "V", "V"]
    assert list(extensions())[0] == "I" and all(not it.lacked_by - {"as", "qemu"} for it in extensions().values())
    with pytest.raises(LabError, match="^there is no instruction vadd$"):
        extension_of("vadd")


@pytest.mark.usefixtures("others")
def test_names_that_tools_lack() -> None:
    for tool in ("as", "qemu"):
        assert {name for name in names_lacked_by.__wrapped__(tool) if record_of(name).extension == "V"} == {
            "vand.vv",
            "vand.vx",
        }
        assert "zbb" in added_archs.__wrapped__(tool) and "zvkb" not in added_archs.__wrapped__(tool)
    assert [arch for arch in added_archs.__wrapped__() if arch in ("zbb", "zvkb")] == ["zbb", "zvkb"]


def test_section_has_manual_of_other_extension() -> None:
    record = record_of("vand.vv")
    assert section_of(record) == record.section
    assert section_of(replace(record, extension="Zvkb", section="2.1")) == "2.1 of the Vector Cryptography extensions"


def test_stock_source_allows_extension_for_its_own_line(monkeypatch: pytest.MonkeyPatch) -> None:
    """Lines around an instruction of another extension; the other lines and the operands stay."""
    spec = importlib.util.spec_from_file_location("stock_records", TOP / "lab/tools/stock_records.py")
    assert spec and spec.loader
    tool = importlib.util.module_from_spec(spec)
    spec.loader.exec_module(tool)
    before = tool.instructions().splitlines()
    monkeypatch.setattr(tool, "extension_of", lambda name: extensions()[OTHERS.get(name, extension_of(name).name)])
    after = tool.instructions().splitlines()
    place = next(at for at, line in enumerate(after) if line.split()[:1] == ["vand.vx"])
    assert [line.strip() for line in after[place - 2 : place + 2 : 3]] == [".option push", ".option pop"]
    assert after[place - 1] == "        .option arch, +zvkb" and after[place] in before
    assert [line for line in after if ".option" not in line] == [line for line in before if ".option" not in line]

"""The extension for Visual Studio Code: it offers the adapter's launch arguments, colours sources, and is packed."""

import dataclasses
import json
import pathlib
import re
import subprocess
import zipfile
from xml.etree import ElementTree

import pytest

from support.places import EXAMPLES, TOP
from vecmon_lab import __version__
from vecmon_lab.adapter.requests import Launch
from vecmon_lab.compilers.compiler import CHOICES
from vecmon_lab.instructions.table import instruction_table

FOLDER = TOP / "editors" / "vscode"
PACKAGE = json.loads((FOLDER / "package.json").read_text("utf-8"))
GRAMMAR = json.loads((FOLDER / "riscv-vector.tmLanguage.json").read_text("utf-8"))
(DEBUGGER,) = PACKAGE["contributes"]["debuggers"]


def in_json(name: str) -> str:
    """The protocol's name of a field."""
    return re.sub("_([a-z])", lambda found: found[1].upper(), name)


def scope_of(text: str, line: str) -> str:
    """The scope of the first pattern that matches a text at its place in a line, as an editor tries them from the left."""
    patterns = [
        (each["name"], re.compile(_for_python(each.get("match", each.get("begin"))))) for each in GRAMMAR["patterns"]
    ]
    at = 0
    while at < len(line):
        found = [
            (match.start(), number, match, name)
            for number, (name, form) in enumerate(patterns)
            if (match := form.search(line, at))
        ]
        if not found:
            break
        start, _, match, name = min(found, key=lambda each: each[:2])
        if match[0] == text:
            return str(name)
        at = max(match.end(), start + 1)
    return ""


def _for_python(form: str) -> str:
    """A regular expression of Oniguruma, whose looks behind may have several lengths."""
    return re.sub(
        r"\(\?<=\^\|([^()]*)\)",
        lambda found: "(?:^|" + "|".join(f"(?<={each})" for each in found[1].split("|")) + ")",
        form,
    )


def test_launch_arguments_are_those_of_the_adapter() -> None:
    own = DEBUGGER["configurationAttributes"]["launch"]["properties"]
    fields = {in_json(field.name) for field in dataclasses.fields(Launch)}
    assert {*own} == fields - {"noDebug"}  # which the editor itself sets
    assert own["options"]["enum"] == [choice.name for choice in CHOICES]
    assert {*DEBUGGER["initialConfigurations"][0]} - {"type", "request", "name"} <= fields
    page = (TOP / "docs" / "EDITORS.md").read_text("utf-8")
    assert {*re.findall(r"^\| `(\w+)` \| ", page.split("## Launch")[1].split("\n## ")[0], re.MULTILINE)} == fields


def test_version_is_that_of_the_lab() -> None:
    assert PACKAGE["version"] == __version__


@pytest.mark.parametrize(
    "text, line, scope",
    [
        ("vmacc.vx", "        vmacc.vx v9, t1, v8, v0.t", "support.function.mnemonic.vector.riscv"),
        ("v0.t", "        vmacc.vx v9, t1, v8, v0.t", "variable.language.register.vector.riscv"),
        ("t1", "        vmacc.vx v9, t1, v8, v0.t", "variable.language.register.riscv"),
        ("next", "next:   vsetvli t0, a0, e32, m1, ta, mu", "entity.name.label.riscv"),
        ("e32", "next:   vsetvli t0, a0, e32, m1, ta, mu", "support.type.vector-type.riscv"),
        ("mu", "next:   vsetvli t0, a0, e32, m1, ta, mu", "support.type.vector-type.riscv"),
        (".word", "x:      .word 9, 0x1f # numbers", "keyword.other.directive.riscv"),
        ("0x1f", "x:      .word 9, 0x1f # numbers", "constant.numeric.hex.riscv"),
        ("# numbers", "x:      .word 9, 0x1f # numbers", "comment.line.number-sign.riscv"),
        ("bnez", "        bnez a0, next", "keyword.control.jump.riscv"),
        ("addi", "        addi a0, a0, -1", "support.function.mnemonic.riscv"),
        ("-1", "        addi a0, a0, -1", "constant.numeric.decimal.riscv"),
    ],
)
def test_parts_of_a_line_have_their_scopes(text: str, line: str, scope: str) -> None:
    assert scope_of(text, line) == scope


def test_each_vector_instruction_is_coloured() -> None:
    names = [name for name in instruction_table() if name.startswith("v")]
    assert len(names) > 300
    scopes = {scope_of(name, f"        {name} v1, v2, v3") for name in names}
    assert scopes == {"support.function.mnemonic.vector.riscv"}


def test_package_has_all_files_and_is_reproducible(tmp_path: pathlib.Path) -> None:
    packed = []
    for name in ("one.vsix", "other.vsix"):
        subprocess.run(["tools/releasing/vsix", tmp_path / name], cwd=TOP, check=True)
        packed.append((tmp_path / name).read_bytes())
    assert packed[0] == packed[1]
    with zipfile.ZipFile(tmp_path / "one.vsix") as archive:
        assert archive.testzip() is None
        for path in FOLDER.iterdir():
            assert archive.read(f"extension/{path.name}") == path.read_bytes()
        types = ElementTree.fromstring(archive.read("[Content_Types].xml"))
        known = {each.get("Extension") for each in types}
        assert {pathlib.Path(name).suffix for name in archive.namelist()} - {".xml"} <= known
        manifest = ElementTree.fromstring(archive.read("extension.vsixmanifest"))
        assert {each.get("Path") for each in manifest.iter() if each.get("Path")} <= {*archive.namelist()}
    named = [PACKAGE["contributes"][kind][0] for kind in ("languages", "grammars")]
    assert all((FOLDER / each).is_file() for each in (named[0]["configuration"], named[1]["path"]))
    assert (EXAMPLES / "strip_mined.s").suffix in named[0]["extensions"]

"""The archive that a student takes home from a class opens in the playground: source, versions and machine are unchanged."""

import io
import json
import pathlib
import zipfile
from typing import Any

import pytest

from playground.test_page_desk import Page
from support.class_tabs import served
from support.places import SUM
from vecmon_lab.playground import page_desk

SOURCE = "li t0, 7\nloop: vsetivli x0, 4, e32, m1, ta, ma\nvid.v v1\naddi t0, t0, -1\nbnez t0, loop\nebreak\n"
SHOWN = ("run", "pc", "x", "v", "vtype", "vl", "breaks", "labels", "lines")


async def taken_home(room: Any, seat: str) -> dict[str, Any]:
    """The texts of the file for the playground, as its page reads them."""
    status, data = await room.get(f"{seat}/home", seat)
    assert status == 200
    work = json.loads(zipfile.ZipFile(io.BytesIO(data)).read(f"{seat}/playground.json"))
    assert (work["format"], work["version"]) == ("vecmon work", 1)
    return {each["name"]: [each["text"], each["time"]] for each in work["texts"]}


@pytest.mark.asyncio
async def test_it_opens_as_it_was(
    tmp_path: pathlib.Path, program: pathlib.Path, monkeypatch: pytest.MonkeyPatch
) -> None:
    monkeypatch.setattr(page_desk, "ROOM", tmp_path / "images")
    async with served(tmp_path / "class", {"sum": SUM}, quantum=50) as room:
        tab, other, loading = await room.sit("A3"), await room.sit("A4"), await room.sit("A5")
        await other.do("enter", "set x5 1")
        await loading.do("enter", "load sum", "step 3")
        assert (await tab.ask("source", text=SOURCE))["mistakes"] == []
        await tab.do("step 3", "break 10010", "set x11 1f", "go", slices=4)
        await tab.ask("draft", text="nop\n", number=tab.view["source"]["number"])
        registers, image_registers = (await tab.do("regs"))[0], (await loading.do("regs"))[0]
        view = tab.view
        texts, loaded = await taken_home(room, "A3"), await taken_home(room, "A5")
    page = Page(program, tmp_path, texts)
    assert page.desk.lost == [] and page.ask("lines", do=["regs"])["do"][0] == registers
    state, source = page.view["state"], page.view["source"]
    assert {name: state.get(name) for name in SHOWN} == {name: view["state"].get(name) for name in SHOWN}
    assert source["text"] == "nop\n" == view["source"]["text"]
    assert [each["why"] for each in source["versions"]] == [each["why"] for each in view["source"]["versions"]]
    assert page.ask("version", number=source["versions"][-1]["number"])["text"] == SOURCE
    page.close()
    page = Page(program, tmp_path, loaded)
    assert page.desk.lost == [] and page.ask("lines", do=["regs"])["do"][0] == image_registers
    assert page.view["images"] == ["sum"]
    page.close()

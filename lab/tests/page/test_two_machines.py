"""Two machines on one page: the panels of each find their elements below their own root."""

import json
import os.path
import pathlib
from typing import TYPE_CHECKING

import pytest

from vecmon_lab.page.build.pages import WEB, Page

if TYPE_CHECKING:
    from selenium.webdriver import Chrome

BODY = """<body>
<template id="parts">
$bench
<p id="step"></p><p id="stop"></p></template>
<div class="host"></div><div class="host"></div>
<script type="application/json" id="data">$data</script>
"""
SCRIPT = """\
import { byId } from "WEB/common/dom.js";
import { MachineView } from "WEB/panels/view.js";

for (const [place, state] of JSON.parse(byId("data").textContent).entries()) {
  const root = document.querySelectorAll(".host")[place].attachShadow({ mode: "open" });
  root.append(document.querySelector("template").content.cloneNode(true));
  const view = new MachineView(root);
  const paint = () => view.paint(state, undefined, new Set());
  view.machine.addEventListener("change", paint);
  paint();
}
"""
SHOWN = """return [...document.querySelectorAll(".host")].map(({ shadowRoot: root }) => {
  const cell = root.querySelector("[data-edit='set x5']");
  const [listing, output] = ["#listing .text", "#output"].map((it) => root.querySelector(it).textContent);
  return [cell.previousSibling.firstChild.data, cell.textContent, listing, output];
});"""
NAME = """const list = document.querySelector(".host").shadowRoot.querySelector("#names");
list.value = "x";
list.dispatchEvent(new Event("change", { bubbles: true }));"""


def state(x5: str, line: str, output: str) -> dict[str, object]:
    """A stopped machine with one instruction at 10000, of VLEN = 256 and the type e32, m1, ta, ma."""
    registers = {f"{number}": "0" for number in range(32)} | {"5": x5}
    vectors = {f"{number}": "00" * 32 for number in range(32)}
    control = {"vtype": "d0", "vl": 8, "vstart": 0, "vxrm": 0, "vxsat": 0, "policy": "keep", "v": vectors}
    program: dict[str, object] = {"code": {"10000": line}, "operands": {}, "memory": {}, "breaks": []}
    return {"run": "stopped", "pc": "10000", "x": registers, **control, **program, "output": output}


@pytest.fixture
def pair(browser: "Chrome", tmp_path: pathlib.Path) -> "Chrome":
    """A page with two machines, each in a shadow tree of its own."""
    (tmp_path / "pair.html").write_text(BODY, "utf-8")
    (tmp_path / "pair.js").write_text(SCRIPT.replace("WEB", os.path.relpath(WEB, tmp_path)), "utf-8")
    states = [state("7", "00128293 addi x5, x5, 1", "61"), state("1f", "00730313 addi x6, x6, 7", "62")]
    (tmp_path / "page.html").write_text(Page("pair", tmp_path).text("x", json.dumps(states)), "utf-8")
    browser.get((tmp_path / "page.html").as_uri())
    return browser


def test_each_machine_has_its_own_state(pair: "Chrome") -> None:
    assert pair.execute_script(SHOWN) == [["t0", "7", "addi t0, t0, 1", "a"], ["t0", "31", "addi t1, t1, 7", "b"]]


def test_choice_in_one_machine_leaves_the_other(pair: "Chrome") -> None:
    pair.execute_script(NAME)
    assert pair.execute_script(SHOWN) == [["x5", "7", "addi x5, x5, 1", "a"], ["t0", "31", "addi t1, t1, 7", "b"]]

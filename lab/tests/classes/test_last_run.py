"""A request for the registers before the end of a run, in a class with its clock: other seats go on meanwhile."""

import pathlib

import pytest

from support.class_tabs import LOOP, served

pytestmark = pytest.mark.asyncio

DOUBLED = """
        li x5, 20000
        vsetivli x0, 4, e16, m1, ta, ma
        vmv.v.i v1, 3
round:  addi x5, x5, -1
        bnez x5, round
        vadd.vv v1, v1, v1
        ebreak
"""


async def test_request_completes_a_run_of_slices(tmp_path: pathlib.Path) -> None:
    async with served(tmp_path / "class", clock=True) as room:
        tab, other = await room.sit("A1"), await room.sit("A2")
        await other.do(*LOOP, "go")
        await tab.ask("run", text=DOUBLED)
        await tab.until(lambda view: view["stop"].startswith("ebreak"))
        assert tab.view["state"]["read"]["v"] == {} and "vstart" not in tab.view["state"]["read"]
        assert "error" not in await tab.ask("last-instruction")
        read = tab.view["state"]["read"]
        assert read["v"] == {"1": 4 * "0300" + 48 * "0"}
        assert (read["vl"], read["vtype"], read["vstart"]) == (4, "c8", 0)
        assert tab.view["state"]["v"]["1"] == 4 * "0600" + 48 * "0"
        assert (await other.do("stop"))[0][0].startswith("stopped")
        await room.check_replay()

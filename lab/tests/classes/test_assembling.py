"""Sources of seats that take long to assemble, and faults of the lab itself: the tab gets one line, and the class goes on."""

import logging
import pathlib
from typing import Any

import pytest

from support.class_tabs import served
from vecmon_lab.language import apart
from vecmon_lab.classes.server import tab_requests
from vecmon_lab.classes.server.worker_pool import WorkerEnded, WorkerPool

pytestmark = pytest.mark.asyncio
REPEATED = ".rept 300\naddi x5, x5, 1\n.endr\nebreak\n"


async def test_repeated_source_is_assembled_apart(tmp_path: pathlib.Path, monkeypatch: pytest.MonkeyPatch) -> None:
    """Small ones aren't: no process is started for them."""
    started, run = list[str](), WorkerPool.run

    async def counted(self: WorkerPool, module: str, *words: str, script: bytes = b"") -> bytes:
        started.append(module)
        return await run(self, module, *words, script=script)

    monkeypatch.setattr(WorkerPool, "run", counted)
    async with served(tmp_path / "class") as room:
        tab = await room.sit("A1")
        assert "error" not in await tab.ask("source", text="addi x5, x5, 1\nebreak\n")
        assert not started
        assert "error" not in await tab.ask("source", text=REPEATED)
        assert started == [apart.MODULE]
        assert await tab.do("step 256") == [["stepped 256 pc=0000000000010400"]]
        text = f"vsetivli x0, 4, e8, m1, ta, ma\n{REPEATED}add a0, a1, x32\nj nowhere\n"
        problems = await tab.ask("problems", text=text)
        assert [each["line"] for each in problems["mistakes"]] == [6, 7]
        assert problems["types"] == [{"line": 1, "types": ["c0"], "vl": 4}]


async def test_source_beyond_the_limits_has_one_line(tmp_path: pathlib.Path, monkeypatch: pytest.MonkeyPatch) -> None:
    """Other seats, and the same one, go on."""

    async def ended(self: WorkerPool, *words: str, script: bytes) -> bytes:
        raise WorkerEnded("the process of language.apart was ended by the signal SIGXCPU")

    async with served(tmp_path / "class") as room:
        tab, other = await room.sit("A1"), await room.sit("A2")
        with monkeypatch.context() as limited:
            limited.setattr(WorkerPool, "run", ended)
            assert (await tab.ask("source", text=REPEATED))["error"] == apart.TOO_LONG
        for each in (tab, other):
            assert "error" not in await each.ask("source", text="nop\nebreak\n")


async def test_fault_of_the_lab_is_told(
    tmp_path: pathlib.Path, monkeypatch: pytest.MonkeyPatch, caplog: pytest.LogCaptureFixture
) -> None:
    """The tab stays open; the log has the traceback once, however often a client repeats the request."""

    def fail(*words: Any) -> Any:
        raise KeyError("x")

    async with served(tmp_path / "class") as room:
        tab = await room.sit("A1")
        with monkeypatch.context() as faulty:
            faulty.setattr(tab_requests, "read_request", fail)
            for _ in range(3):
                assert (await tab.ask("draft", text=""))["error"] == "this is a fault of the lab: KeyError: 'x'"
        assert "error" not in await tab.ask("name", name="Ada")
    records = [record for record in caplog.records if record.levelno >= logging.ERROR]
    assert [record.exc_info[0] for record in records if record.exc_info] == [KeyError] and len(records) == 1

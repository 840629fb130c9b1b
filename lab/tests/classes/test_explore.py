"""`explore`: a private page for a source, served only to this computer."""

import asyncio
import os
import pathlib
import re
import shutil
import signal
import subprocess

import aiohttp
import pytest

from support.class_pages import lab_command
from support.class_tabs import SECONDS, Tab
from support.commands import Lab
from support.skips import NO_SANDBOX, leave_out
from support.places import EXAMPLES, TOP
from vecmon_lab.classes.server.builds import builds_by
from vecmon_lab.classes.core.languages import LANGUAGES
from vecmon_lab.compilers.compiler import Compiler

GREY = EXAMPLES / "kernels" / "grey.c"


async def _check_listings(session: aiohttp.ClientSession, url: str, code: str, tab: Tab, clang: Compiler) -> None:
    """The listings of two compilations are served side by side; errors and unknown pages have no listings."""
    source = tab.view["source"]
    other = tab.view["against"].index(f"{clang.name} O0")
    reply = await tab.ask("listings", text=source["text"], language=source["language"], other=other)
    page = await _listings(session, f"{url}listings/{reply['listings']}")
    assert re.findall("<h2>(.*?)</h2>", page) == [f"{clang.name} O1", f"{clang.name} O0"]
    lines = [line.partition("</tr>") for line in page.split('<th scope="rowgroup"')]
    [(text, _, sides)] = [line for line in lines if ">vse8.v" in line[2]]
    assert "vse8" in text and re.findall('>vse8.v.*?title="([0-9]+) active', sides) == ["45", "45"], "pixels, by each"
    reply = await tab.ask("listings", text="int main(void)\n{", language=1, other=other)
    async with session.get(f"{url}listings/{reply['listings']}") as answer:
        assert answer.status == 404 and f"{clang.name} O2:2:2: " in await answer.text()
    async with session.get(f"{url}listings/{code}") as answer:
        assert answer.status == 404 and "no such page" in await answer.text()
    for number, text in ((len(tab.view["against"]), "int x;"), (-1, "int x;")):
        assert "error" in await tab.ask("listings", text=text, language=1, other=number)
    assert "error" in await tab.ask("listings", text="nop", language=0, other=0)


@pytest.mark.asyncio
@pytest.mark.by_command("explore")
async def test_explore_serves_file_to_one_seat(clang: Compiler, tmp_path: pathlib.Path) -> None:
    """The file is the source of its one seat; another site gets nothing; and nothing is left of it. Root compiles as nobody."""
    if shutil.which("bwrap") is None:
        leave_out(NO_SANDBOX)
    account = [] if os.geteuid() else ["--as", "nobody"]
    arguments = [*lab_command(False), "explore", str(GREY), "--options", "O1", "--cc", clang.name, *account]
    environment = {"PATH": "/usr/bin:/bin", "TMPDIR": str(tmp_path)}
    child = await asyncio.create_subprocess_exec(
        *arguments, cwd=TOP, stdout=subprocess.PIPE, env=_with_program(environment)
    )
    assert child.stdout
    try:
        line = (await asyncio.wait_for(child.stdout.readline(), SECONDS)).decode()
        found = re.fullmatch(r"page: (http://127\.0\.0\.1:\d+/)#([a-z2-9]{14})\n", line)
        assert found, line
        async with aiohttp.ClientSession() as session:
            for headers in ({"Host": "else.example"}, {"Origin": "http://else.example"}):
                async with session.get(found[1], headers=headers) as answer:
                    assert answer.status == 403
            socket = await session.ws_connect(f"{found[1]}socket", max_msg_size=0)
            await socket.send_json({"code": found[2]})
            tab = Tab(socket)
            assert (await tab.receive())["who"] == "A1"
            source = tab.view["source"]
            assert (source["text"], LANGUAGES[source["language"]].name) == (GREY.read_text("ascii"), "C, O1")
            assert tab.view["state"]["run"] == "absent" and tab.view["clock"]
            reply = await tab.ask("source", text=source["text"], language=source["language"])
            assert reply["mistakes"] == [] and tab.view["state"]["run"] == "stopped"
            await tab.do("go")
            await tab.until(lambda view: view["stop"].startswith("exit 0"))
            await _check_listings(session, found[1], found[2], tab, clang)
        child.send_signal(signal.SIGTERM)
        assert await asyncio.wait_for(child.wait(), SECONDS) == 0 and not list(tmp_path.iterdir())
    finally:
        if child.returncode is None:
            child.kill()


async def _listings(session: aiohttp.ClientSession, address: str) -> str:
    """The page of listings, in HTML."""
    async with session.get(address) as answer:
        page = await answer.text()
        assert answer.status == 200 and "script-src 'sha256-" in answer.headers["Content-Security-Policy"], page
    return page


def _with_program(environment: dict[str, str]) -> dict[str, str]:
    """An environment in which the lab and the program are found."""
    from vecmon_lab.machine.program import find_program

    return environment | {"VECMON": str(find_program()), "PYTHONPATH": str(TOP / "lab")}


def test_explore_refuses_unsuitable_file(
    lab: Lab, clang: Compiler, tmp_path: pathlib.Path, monkeypatch: pytest.MonkeyPatch
) -> None:
    status, _, errors = lab("explore", tmp_path / "kernel.txt")
    assert status == 2 and errors.endswith("kernel.txt: the name of a source ends in .c or .s\n")
    assert lab("explore", GREY, "--cc", "@file")[0] == 2
    assert "stock is for assembler" in lab("explore", GREY, "--options", "stock")[2]
    monkeypatch.setattr("os.geteuid", lambda: 0)
    status, _, errors = lab("explore", GREY)
    assert status == 2 and ("as root" in errors or "bubblewrap" in errors) and errors.count("\n") == 1
    assert builds_by(None).no_c  # so that a source in assembler is served all the same

"""The parts of an exercise on a seat's page: neither its good answers nor its hidden cases."""

import json
import pathlib
import tomllib

import aiohttp
import pytest

from support.class_tabs import Message, Tab, served
from vecmon_lab.exercises.exercise import OURS

pytestmark = pytest.mark.asyncio

NAMES = ["doubles", "byte_sum", "saturating_sum"]
ANSWERS = ["li a0, 1\nret", "ebreak", "", "j .", "li a0"]  # wrong ones


class RecordingTab(Tab):
    """A tab that has the text of each message."""

    def __init__(self, socket: aiohttp.ClientWebSocketResponse) -> None:
        super().__init__(socket)
        self.messages: list[str] = []

    async def receive(self) -> Message:
        message = await super().receive()
        self.messages.append(json.dumps(message, ensure_ascii=False))
        return message


def secrets(name: str) -> set[str]:
    """Lines of good answers and references, and numbers of hidden cases; but none of the text, hints and starting sources."""
    folder = OURS / name
    exercise = tomllib.loads((folder / "exercise.toml").read_text("utf-8"))
    starts = [file.read_text("utf-8") for file in folder.glob("start.*")]
    shown = "\n".join([exercise["text"], *exercise["hints"], *starts])
    files = [file for kind in ("good.*", "reference.*") for file in folder.glob(kind)]
    lines = {line.strip() for file in files for line in file.read_text("utf-8").splitlines()}
    hidden = [place for case in exercise["cases"] if case.get("hidden") for place in case.get("memory", [])]
    numbers = {", ".join(map(str, value)) for place in hidden for value in place.values() if isinstance(value, list)}
    return {text for text in lines | numbers if len(text) > 12 and text not in shown}


async def ask_all(tab: Tab, name: str) -> None:
    """Asks for what a student can get of an exercise, and for its files."""
    await tab.ask("open", exercise=name)
    for text in ANSWERS:
        assert "error" not in await tab.ask("check", exercise=name, text=text)
        await tab.until(lambda view: not view["exercises"][name]["checking"])
    for number in range(-1, 4):
        await tab.ask("answer", exercise=name, number=number)
    await tab.ask("case", exercise=name, text=ANSWERS[0])
    for asked in (f"{name}/good.c", "../good.c", f"{name}/exercise.toml"):
        assert "error" in await tab.ask("answer", exercise=asked, number=1)
        assert "error" in await tab.ask("open", exercise=asked)


async def test_seat_receives_no_exercise_secret(tmp_path: pathlib.Path) -> None:
    async with served(tmp_path / "class", exercises=map(pathlib.Path, NAMES)) as room:
        for seat, name in zip(("A1", "A2", "A3"), NAMES):
            tab = RecordingTab((await room.open(room.codes[seat])).socket)
            await tab.receive()
            await ask_all(tab, name)
            reply, expected = "\n".join(tab.messages), secrets(name)
            assert len(expected) > 3 and "cases" in reply
            assert [secret for secret in expected if json.dumps(secret, ensure_ascii=False)[1:-1] in reply] == []
            for path in (f"{name}/good.c", f"{name}/exercise.toml", "exercises.json", f"answers/{seat}.{name}.1.json"):
                assert (await room.get(path, seat))[0] == 404

"""The interface to the worker, with a test double of the worker whose machines are native processes."""

import importlib
import json
import pathlib
import pickle
import sys
import types
from collections.abc import Iterator
from typing import Any

import pytest

from vecmon_lab.machine.pipe import PipedProcess
from vecmon_lab.playground import page_desk
from vecmon_lab.playground.exercises import LESSONS, write_exercises

SOURCE = "li t0, 3\nloop: addi t0, t0, -1\nbnez t0, loop\nebreak\n"


class Worker:
    """What `_host` has, and the messages that Python sends."""

    def __init__(self, program: pathlib.Path) -> None:
        self.kept: dict[str, Any] = {}
        self.machines: dict[int, PipedProcess] = {}
        self.program = program
        self.host = types.ModuleType("_host")
        for name in ("start", "ask", "end", "file", "keep"):
            setattr(self.host, name, getattr(self, name))

    def start(self, number: int, words: str) -> None:
        """Starts a machine."""
        self.machines[number] = PipedProcess([str(self.program), *words.split("\n")], 30.0)

    def ask(self, number: int, lines: bytes) -> bytes | None:
        """The answers to lines; None of a machine that has ended."""
        machine = self.machines.get(number)
        if machine is None:
            return None
        answers = machine.ask(lines.decode("ascii").splitlines())
        return "".join(f"{part}\n" for answer in answers for part in answer).encode("latin-1")

    def end(self, number: int) -> None:
        """Ends a machine."""
        if machine := self.machines.pop(number, None):
            machine.close()

    def file(self, path: str, content: bytes) -> None:
        """Writes a file."""
        pathlib.Path(path).parent.mkdir(parents=True, exist_ok=True)
        pathlib.Path(path).write_bytes(content)

    def keep(self, entry: str) -> None:
        """Keeps a text."""
        name, text, when = json.loads(entry)
        self.kept[name] = [text, when]


@pytest.fixture
def worker(program: pathlib.Path, monkeypatch: pytest.MonkeyPatch, tmp_path: pathlib.Path) -> Iterator[Worker]:
    """A worker, whose machines have ended behind the test."""
    it = Worker(program)
    monkeypatch.setitem(sys.modules, "_host", it.host)
    monkeypatch.setattr(page_desk, "ROOM", tmp_path / "images")
    yield it
    for number in [*it.machines]:
        it.end(number)
    for name in ("in_page", "main"):
        sys.modules.pop(f"vecmon_lab.playground.{name}", None)


def say(main: Any, **message: object) -> tuple[Any, bool]:
    """The message that Python answers, and whether there is more work."""
    answer, is_busy = json.loads(main.answer(json.dumps(message)))
    return answer, is_busy


def test_messages(worker: Worker) -> None:
    main = importlib.import_module("vecmon_lab.playground.main")
    hello, is_busy = say(main, begin={})
    assert (hello["kind"], hello["who"], hello["lost"], is_busy) == ("hello", "A1", [], False)
    answer, _ = say(main, request=json.dumps({"id": 1, "ask": "source", "text": SOURCE}))
    assert (answer["id"], answer["mistakes"]) == (1, [])
    answer, is_busy = say(main, request=json.dumps({"id": 2, "ask": "lines", "do": ["go"]}))
    assert is_busy and answer["do"][0][0].startswith("running")
    while is_busy:
        news, is_busy = say(main, turn=True)
    assert news["patch"]["stop"].startswith("ebreak") and worker.kept == {}
    say(main, keep=True)
    assert worker.kept["A1.s"][0] == SOURCE and "1 go\n" in worker.kept["A.script"][0]
    again, _ = say(main, begin=worker.kept)
    assert again["patch"]["source"]["text"] == SOURCE and again["patch"]["state"]["run"] == "stopped"
    assert say(main, lesson="none")[0]["error"].startswith("this lesson is gone")
    say(main, forget=True)
    assert main._desk is None


def test_a_machine_that_has_ended_is_replaced(worker: Worker) -> None:
    main = importlib.import_module("vecmon_lab.playground.main")
    say(main, begin={})
    say(main, request=json.dumps({"id": 1, "ask": "lines", "do": ["enter", "set x5 7"]}))
    for number in [*worker.machines]:
        worker.end(number)
    answer, _ = say(main, request=json.dumps({"id": 2, "ask": "lines", "do": ["regs"]}))
    assert " x5 7" in " ".join(answer["do"][0]) or "x5 0000000000000007" in " ".join(answer["do"][0])


def test_exercises_are_worked_out_once(program: pathlib.Path, tmp_path: pathlib.Path) -> None:
    write_exercises(program, tmp_path / "exercises.pickle", tmp_path / "lessons")
    kept = pickle.loads((tmp_path / "exercises.pickle").read_bytes())
    exercise = kept["exercises"]["doubles"]
    assert len(kept["exercises"]) == 12 and kept["starts"]["doubles"][0]["text"]
    assert exercise.files == {"lesson": LESSONS / "doubles.s"} and exercise.cases[0].expected.memory[0].numbers
    assert len([*(tmp_path / "lessons").iterdir()]) == 12

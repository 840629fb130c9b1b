"""The synchronous core: a student's request needs no event loop, thread, subprocess or socket."""

import json
import pathlib
import subprocess
import sys
from typing import Any

import pytest

from support.architecture import names_in
from support.desk import Desk, untimed
from support.places import TOP

BLOCKED = ["asyncio", "fcntl", "resource", "select", "socket", "subprocess", "threading"]
MODULES = [f"classes.core.{name}" for name in names_in("## The synchronous core")]
OTHERS = ["assembler.trial", "exercises.check", "lessons.frames", "lessons.page", "machine.session"]
BLOCK = f"""
import importlib, json, pathlib, sys
for name in {BLOCKED}:
    sys.modules[name] = None
"""
IMPORT = """
for name in {}:
    importlib.import_module(f"vecmon_lab.{{name}}")
"""
ANSWER = """
from support.desk import Desk
from support.spawned import SpawnedProgram
desk = Desk(SpawnedProgram(pathlib.Path({!r})), {{}}, 100_000)
print(json.dumps([[desk.respond(request), desk.settle()] for request in {}]))
"""
SOURCE = "li t0, 3\nloop: vsetivli x0, 8, e32, m1, ta, ma\nvid.v v1\naddi t0, t0, -1\nbnez t0, loop\nebreak"
REQUESTS: list[dict[str, object]] = [
    {"ask": "source", "text": SOURCE},
    {"ask": "lines", "do": ["step 3", "break 10010"], "look": ["regs", "vreg v1 32"]},
    {"ask": "lines", "do": ["go"], "slices": 3},
    {"ask": "again"},
    {"ask": "lines", "do": ["unbreak 10010", "go"]},
    {"ask": "source", "text": "addq x1, x2"},
    {"ask": "draft", "text": "nop", "number": 1},
    {"ask": "nonsense"},
]


def imported(*modules: str) -> str:
    """Imports modules of the lab while others are blocked; "" where that goes well, else what Python complains of."""
    command = [sys.executable, "-c", BLOCK + IMPORT.format(modules)]
    completed = subprocess.run(command, stderr=subprocess.PIPE, text=True)
    return completed.stderr if completed.returncode else ""


def test_core_imports_without_server_libraries() -> None:
    assert "classes.core.student" in MODULES and imported(*MODULES, *OTHERS) == ""


@pytest.mark.parametrize(
    "module, needed",
    [("classes.server.room", "asyncio"), ("classes.server.folder_lock", "fcntl"), ("machine.pipe", "select")],
)
def test_server_module_outside_core_is_detected(module: str, needed: str) -> None:
    assert f"import of {needed} halted" in imported(module)


def test_core_answers_without_server_libraries(program: pathlib.Path) -> None:
    """A machine is spawned by other means, and answers as one behind pipes."""
    requests = [json.dumps(dict(request, id=number)) for number, request in enumerate(REQUESTS)]
    command = [sys.executable, "-c", BLOCK + ANSWER.format(str(program), requests)]
    completed = subprocess.run(command, stdout=subprocess.PIPE, check=True, cwd=TOP / "lab")
    desk = Desk(program, {}, 100_000)
    answers: list[list[Any]] = [[desk.respond(request), desk.settle()] for request in requests]
    desk.close()
    assert answers[1][0]["do"] == [["stepped 3 pc=000000000001000c"], ["ok"]]
    assert untimed(json.loads(completed.stdout)) == untimed(json.loads(json.dumps(answers)))

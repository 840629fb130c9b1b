"""The interface to the worker of a page: `answer` takes a message from the worker in JSON, and returns JSON with a message for the page.

`{"begin": TEXTS}` makes the desk from the saved texts: by name, a list of a text and its time.
`{"request": "..."}` executes a request of the page (docs/CLASS_PROTOCOL.md).
`{"turn": true}` does a part of the work that needs no request.
`{"keep": true}` sends each changed text to the worker, which saves it.
`{"join": TEXTS}` takes up the changes of another tab. TEXTS is as for `begin`, with null for a removed text.
`{"image": NAME, "path": P}` loads an image that was dropped on the page; P is its file.
`{"lesson": TICKET}` returns a lesson, in HTML.
`{"forget": true}` removes the desk, so that a snapshot can be taken.
"""

import gc
import json
import pathlib
import pickle
import sys
import types
from typing import Any

import _host  # a module of webassembly/python.c

from .. import LabError
from ..lessons.page import lesson_page
from ..lessons.script import Script
from ..meanings.record import records
from ..tables.absent import absent
from .in_page import PageProgram, put_file
from .kept_texts import KeptTexts
from .page_desk import PageDesk

EXERCISES = pathlib.Path("/exercises.pickle")
LATER = "/later.zip"  # modules that are needed only for images
STAND_INS: dict[str, list[str]] = {
    "logging.config": ["valid_ident"],
    "pdb": [],
    "zlib": ["decompress", "decompressobj"],
}
"""Functions by module that pyelftools 0.29 imports. It calls those of zlib only for compressed sections, and the others never."""
STARTS, BY_NAME = "starts", "exercises"

_desk: PageDesk | None = None
_exercises: dict[str, Any] = {STARTS: {}, BY_NAME: {}}


def prepare() -> None:
    """Read all files before the snapshot is taken. Later, only lessons and tables that aren't read here can be read."""
    if EXERCISES.exists():
        _exercises.update(pickle.loads(EXERCISES.read_bytes()))
    lesson_page("", [], Script("", []))  # reads the files of pages, and texts
    records()
    absent()
    for name, functions in STAND_INS.items():
        sys.modules[name] = types.ModuleType(name)
        for function in functions:
            setattr(sys.modules[name], function, _refuse_compressed)
    sys.path.insert(0, LATER)  # before the standard library's archive, which isn't there later


def _refuse_compressed(*data: object) -> None:
    """Raise ValueError: a section of an image is compressed, and the page has no module for that."""
    raise ValueError("its debug data is compressed, which this page can't read: compile with -gz=none")


def answer(text: str) -> str:
    """Return JSON with the message for the page, and whether there is work that needs no request. text: the worker's message"""
    asked = json.loads(text)
    if sys.path_importer_cache.get(LATER, LATER) is None:
        del sys.path_importer_cache[LATER]  # an import looked there before the archive was loaded
    message = _message(asked)
    if "keep" in asked and _desk:
        _desk.keep()
    return json.dumps([message, _desk is not None and _desk.is_busy], separators=(",", ":"))


def _message(asked: dict[str, Any]) -> object:
    """Return the message for the page that responds to a message of the worker."""
    global _desk
    match asked:
        case {"begin": texts}:
            kept = KeptTexts(texts, lambda *entry: _host.keep(json.dumps(entry)))
            _desk = PageDesk(PageProgram(), kept, _exercises[BY_NAME], _exercises[STARTS], put_file)
            hello: dict[str, object] = {**_desk.hello()}
            return hello | {"lost": _desk.lost}
        case {"forget": _}:
            _desk = None
            gc.collect()
            return {}
    assert _desk
    match asked:
        case {"request": request}:
            return _desk.respond(request)
        case {"image": name, "path": path}:
            return _desk.drop(name, pathlib.Path(path).read_bytes())
        case {"lesson": ticket}:
            return {"kind": "lesson", **_lesson(_desk, ticket)}
        case {"join": theirs}:
            news: dict[str, object] = {**_desk.join(theirs)}
            return news | {"joined": True}
        case {"turn": _}:
            return _desk.turn() or {}
    return {}


def _lesson(desk: PageDesk, ticket: str) -> dict[str, str]:
    """Return a lesson (`page`), or the reason why there is none (`error`)."""
    try:
        return {"page": desk.lesson(ticket)}
    except LabError as error:
        return {"error": f"{error}"}

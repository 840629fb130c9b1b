"""The work of a seat as a file that the playground opens (docs/PLAYGROUND.md). Its texts have the names of the playground's only seat."""

import base64
import json
import time
from collections.abc import Iterator, Sequence

from ...machine.lines import words_of
from .checks import ANSWERS, found_answers
from .store import Store

FORMAT, VERSION = "vecmon work", 1
SEAT, DIGIT = "A1", "1"  # of the playground
SCRIPT, QUANTUM, IMAGE, IMAGES = "A.script", "A.quantum", "A1.image", "images"
PLACES = ("", "drafts/", "sources/")  # where a class's folder has texts of a seat


def work_file(store: Store, seat: str, lines: Sequence[str]) -> str:
    """Return the text of a file with a seat's sources, versions, tries, images and script. lines: the script that `solo` returns"""
    entries = [{"name": name, "text": text, "time": when} for name, text, when in _texts(store, seat, lines)]
    return json.dumps({"format": FORMAT, "version": VERSION, "texts": entries}, indent=1)


def _texts(store: Store, seat: str, lines: Sequence[str]) -> Iterator[tuple[str, str, float]]:
    """Yield the name, the text and the time of each text; times are in seconds since 1970."""
    now = time.time()
    for place in PLACES:
        for file, when in sorted(store.texts.files(f"{place}{seat}.*")):
            yield file.replace(f"{place}{seat}.", f"{place}{SEAT}.", 1), store.texts.read_text(file), when
    for of, exercise, number, done in found_answers(store):
        if of == seat:
            yield f"{ANSWERS}/{SEAT}.{exercise}.{number}.json", json.dumps(done), float(done["time"])
    loaded = [words_of(line)[1] for line in lines if words_of(line)[:1] == ["load"] and words_of(line)[1:]]
    for name in sorted({*loaded} & {*store.images}):
        yield f"{IMAGES}/{name}", base64.b64encode(store.images[name].read_bytes()).decode("ascii"), now
    yield SCRIPT, "".join(f"{_own(line, seat[-1])}\n" for line in lines), now
    yield QUANTUM, f"{store.quantum}", now


def _own(line: str, digit: str) -> str:
    """Return a seat's line with the digit of the playground's seat."""
    if line[0] == digit:
        return f"{DIGIT}{line[1:]}"
    return f"* run {DIGIT}" if line == f"* run {digit}" else line

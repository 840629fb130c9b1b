"""The archive that a student takes home: the source, the script with its images, a lesson of it, answers to exercises, and a file
for the playground."""

import contextlib
import io
import os
import pathlib
import sys
import time
import zipfile
from collections.abc import Mapping, Sequence
from dataclasses import replace

from ... import LabError
from ...assembler.source import assemble
from ...compilers.compiled import CompiledProgram
from ...lessons.frames import make_frames
from ...lessons.page import lesson_page
from ...lessons.script import Script, Step, add_line, read_assembled, read_compiled
from ...machine.lines import words_of
from .checks import kept_answers
from .stored_files import texts
from ..core.languages import SourceText
from ..core.live import is_servers
from ..core.names import NAMES
from .solo import solo
from ..core.sources import kept_program, kept_source
from .store import Store
from .work_file import work_file

MAX_FRAMES, MAX_ENTRIES = 500, 200  # of a lesson; and of a frame's log
FIRST_DATE, LAST_DATE = (1980, 1, 1, 0, 0, 0), (2107, 12, 31, 23, 59, 58)  # of a ZIP archive


def steps_of(lines: Sequence[str]) -> list[Step]:
    """Return a student's script as steps of a lesson with at most MAX_FRAMES frames. If it has more, its first lines become one step."""
    steps, left = list[Step](), MAX_FRAMES - 1
    for line in lines:
        joins = line[0] == "*" or is_servers(line)  # the program runs on, or its output is taken
        if steps and joins and not _frames(steps[-1]):
            steps[-1].lines.append(line)
        else:
            add_line(steps, line)
    for place in reversed(range(len(steps))):
        left -= _frames(steps[place]) or 1
        if left < 0:
            return [Step([line for step in steps[: place + 1] for line in step.lines]), *steps[place + 1 :]]
    return steps


def _frames(step: Step) -> int:
    """Return the most frames that a step makes: N if its first line is `step N`; 0 for other lines."""
    words = words_of(step.lines[0])
    return int(words[1]) if words[0] == "step" and words[1:] and words[1].isdecimal() and len(words[1]) < 4 else 0


def archive(store: Store, seat: str) -> bytes:
    """Return the archive of a seat. Raises LabError if nothing was done there."""
    lines, own = solo(store, seat), kept_source(store.texts, seat)
    files = _played(store, seat, lines, own) if lines else {}
    files |= {f"{seat}.{own.suffix}": own.text} if own.text else {}
    answers = kept_answers(store, seat)
    files |= {f"answers/{name}.{answer.suffix}": answer.text for name, answer in sorted(answers.items())}
    if not files:
        raise LabError(f"nothing was done at seat {seat}")
    files["playground.json"] = work_file(store, seat, lines)
    return zipped({f"{seat}/{name}": content for name, content in files.items()}, time.time())


def zipped(files: Mapping[str, str | bytes], seconds: float) -> bytes:
    """Return a ZIP archive of files by name. seconds: the time of all files since 1970, limited to the years that an archive can have"""
    date = time.localtime(seconds)[:6]
    data = io.BytesIO()
    with zipfile.ZipFile(data, "w") as packed:
        for name, content in files.items():
            entry = zipfile.ZipInfo(name, min(max(date, FIRST_DATE), LAST_DATE))
            entry.external_attr = 0o600 << 16
            packed.writestr(entry, content, zipfile.ZIP_DEFLATED)
    return data.getvalue()


def _played(store: Store, seat: str, lines: Sequence[str], own: SourceText) -> dict[str, str | bytes]:
    """Return files on a student's work at the machine, by name: the script, a lesson of it, and the images that it loads.

    lines: the lines of the script that `solo` returns; own: the present source
    """
    name = store.texts.read(NAMES, texts).get(seat)
    script = Script(f"Seat {seat}, {name}" if name else f"Seat {seat}", steps_of(lines))
    with contextlib.suppress(LabError):  # the source may be unfinished
        written, program = kept_program(store.texts, seat)
        if isinstance(program, CompiledProgram):
            named = read_compiled(written.text, seat, program, written.suffix.endswith(".c"))
        else:
            text = written.text or own.text
            named = replace(read_assembled(text, seat), said=assemble(text).source_lines(text))
        script = replace(named, title=script.title, steps=script.steps, source="", statements={}, program=None)
    frames = make_frames(script, store.program, store.images, store.quantum)
    frames = [replace(frame, log=frame.log[-MAX_ENTRIES:]) for frame in frames]
    files: dict[str, str | bytes] = {f"{seat}.script": "".join(f"{line}\n" for line in lines)}
    files |= {f"{seat}.html": lesson_page(script.title, frames, script, is_introduced=False)}
    loaded = {words_of(line)[1] for line in lines if words_of(line)[:1] == ["load"] and words_of(line)[1:]}
    return files | {f"{name}.elf": path.read_bytes() for name, path in store.images.items() if name in loaded}


if __name__ == "__main__":
    os.nice(10)
    folder, program, wanted = sys.argv[1:]
    sys.stdout.buffer.write(archive(Store(pathlib.Path(folder), pathlib.Path(program), is_reading=True), wanted))

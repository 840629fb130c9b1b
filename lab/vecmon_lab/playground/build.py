"""Build the site from its parts: `python3 -m vecmon_lab.playground.build PARTS OUT`.

PARTS is a folder with python.wasm and the snapshot of its memory (`memory`), vecmon.wasm and the file PROVENANCE of
tools/building/programs, later.zip, and the folder lessons. OUT is the folder for playground.html, which is a single file, for play/, which
is the same page with its parts as separate files, and for index.html. The same parts give the same bytes.
"""

import base64
import gzip
import hashlib
import html
import json
import pathlib
import sys
from collections.abc import Mapping
from itertools import pairwise

from .. import LabError
from ..classes.core.example_sources import ExampleSource, example_sources
from ..lessons.frames import make_frames
from ..lessons.script import read_assembled
from ..machine.process import Vecmon
from ..machine.program import find_program
from ..page.build.modules import join_modules
from ..page.build.pages import CONNECTION, Page, merge_patch, page_file
from ..page.build.reference import reference_text
from ..page.state import State
from ..page.build.texts import page_text
from ..places import EXAMPLES

WEB = pathlib.Path(__file__).with_name("web")
DIGEST_BYTES = 32
DATA, DATA_COUNT = 11, 12  # numbers of sections of WebAssembly
LATER = "later"  # the part that is loaded only when it is needed
LAB = pathlib.Path(__file__).parents[1]
STEPPED = "strip_mined.s"  # the example of the start page


def without_data(module: bytes) -> bytes:
    """Return a WebAssembly module without the initial contents of its memory, since a snapshot replaces them."""
    made, at = module[:8], 8
    while at < len(module):
        start, size, shift, at = at, 0, 0, at + 1
        while module[at] & 0x80:
            size, shift, at = size | (module[at] & 0x7F) << shift, shift + 7, at + 1
        at += 1 + (size | module[at] << shift)
        made += b"" if module[start] in (DATA, DATA_COUNT) else module[start:at]
    return made


def parts_of(folder: pathlib.Path) -> dict[str, bytes]:
    """Return the parts of a page by name. folder: PARTS. Raises LabError if the snapshot belongs to another module."""
    python, memory = (folder / "python.wasm").read_bytes(), (folder / "memory").read_bytes()
    if memory[:DIGEST_BYTES] != hashlib.sha256(python).digest():
        raise LabError(
            f"{folder / 'memory'} is no snapshot of {folder / 'python.wasm'}: build both again with tools/site"
        )
    module = without_data(python)
    lessons = {f"lessons/{path.name}": path.read_text("utf-8") for path in sorted((folder / "lessons").iterdir())}
    tables = (path for path in sorted((LAB / "tables").glob("*.txt")) if not path.name.startswith("texts."))
    lessons |= {
        f"lab/{path.relative_to(LAB.parent)}": path.read_text("utf-8") for path in tables
    }  # all other files are in the snapshot
    return {
        "python": module,
        "memory": memory[DIGEST_BYTES:],
        "machine": (folder / "vecmon.wasm").read_bytes(),
        "lessons": json.dumps(lessons).encode(),
        LATER: (folder / "later.zip").read_bytes(),
    }


def about(provenance: str) -> str:
    """Return the text about the machine and its proofs, for the playground's Help and for the foot of index.html.

    provenance: the content of the file PROVENANCE
    """
    is_proved = "of the proved program" in provenance
    machine = page_text("playground.proved") if is_proved else page_text("playground.unproved")
    return " ".join([machine, page_text("playground.practice")])


def examples() -> list[ExampleSource]:
    """Return the examples in assembler; the page has no compiler for others."""
    return [example for example in example_sources() if example["language"] == 0]


def stepped_example(program: Vecmon) -> dict[str, object]:
    """Return a loop, stepped from its first vector instruction on, for the start page. Raises LabError.

    The result has the comments of the frames (`notes`), their states as merge patches (`states`), the numbers of the vector registers that
    the loop uses (`used`), and the index of the frame with the first masked result, which the page shows first (`first`).
    """
    script = read_assembled((EXAMPLES / STEPPED).read_text("utf-8"), STEPPED)
    frames = make_frames(script, program)
    executed = [frame for frame in frames if "instruction" in frame.states["1"]]
    names = [each.states["1"]["code"][each.states["1"]["instruction"]][9:] for each in executed]
    shown = executed[next(place for place, name in enumerate(names) if name.startswith("v")) :]
    states = [frame.states["1"] for frame in shown]
    used = {number for state in states for number, data in state["v"].items() if data.strip("0")}
    all_states: list[Mapping[str, object]] = [{}, *states]
    patches = [merge_patch(before, after) for before, after in pairwise(all_states)]
    first = next(place for place, state in enumerate(states) if _writes_masked(state))
    return {"notes": [frame.note for frame in shown], "states": patches, "used": sorted(map(int, used)), "first": first}


def _writes_masked(state: State) -> bool:
    """Whether the executed instruction of a state is masked and writes elements of a register."""
    operands = state["operands"].get(state.get("instruction", ""), ())
    return any(it["written"] and it["masked"] and not it["bits"] for it in operands)


def playground(page: Page, entries: Mapping[str, object], words: str, connect: str) -> str:
    """Return the page in HTML.

    entries: the place of each part, by name
    words: the text about the machine
    connect: the source of `connect-src` in the content security policy
    """
    lesson = Page("lesson")  # opens in a tab that has the policy of this page
    policy = "; ".join(
        [
            "default-src 'none'; img-src data:; base-uri 'none'; form-action 'none'; worker-src blob:",
            f"style-src {page.style_source} {lesson.style_source}; connect-src {connect}",
            f"script-src {page.script_source} {lesson.script_source} 'wasm-unsafe-eval'",
        ]
    )
    meta = f'<meta http-equiv="Content-Security-Policy" content="{html.escape(policy)}">'
    worker = join_modules(str(WEB / "worker.js"), page_file)
    return page.text(page_text("playground.page"), reference_text(), meta) + "".join(
        f'<script type="application/json" id="{name}">{_as_json(it)}</script>\n'
        for name, it in (("parts", {"files": entries, "about": words, "examples": examples()}), ("worker", worker))
    )


def build(folder: pathlib.Path, out: pathlib.Path) -> None:
    """Write the pages. folder: PARTS; out: OUT. Raises LabError and OSError."""
    parts, page = parts_of(folder), Page("class", replaced={CONNECTION: WEB / "connection.js"})
    provenance = (folder / "PROVENANCE").read_text("utf-8")
    words = about(provenance)
    packed = {name: gzip.compress(part, 9, mtime=0) for name, part in parts.items()}
    (out / "play").mkdir(parents=True, exist_ok=True)
    (out / "PROVENANCE").write_text(provenance, "utf-8")
    files = {name: f"{name}-{hashlib.sha256(part).hexdigest()[:12]}.gz" for name, part in parts.items()}
    for name, file in files.items():
        (out / "play" / file).write_bytes(packed[name])
    apart = {name: {"url": file} for name, file in files.items()}
    (out / "play" / "index.html").write_text(playground(page, apart, words, "'self'"), "utf-8")
    within = {name: {"id": f"part-{name}"} for name in parts}
    blocks = "".join(
        f'<script type="text/plain" id="part-{name}">{base64.b64encode(part).decode("ascii")}</script>\n'
        for name, part in packed.items()
    )
    (out / "playground.html").write_text(playground(page, within, words, "'none'") + blocks, "utf-8")
    start = Page("start", WEB)
    meta = f'<meta http-equiv="Content-Security-Policy" content="{html.escape(start.policy)}">'
    data = {"about": words} | stepped_example(find_program())
    (out / "index.html").write_text(start.text("vecmon", _as_json(data), meta), "utf-8")


def _as_json(it: object) -> str:
    """Return JSON that a page can contain in a script element."""
    return json.dumps(it).replace("<", "\\u003c")


if __name__ == "__main__":
    try:
        build(*map(pathlib.Path, sys.argv[1:3]))
    except LabError as error:
        sys.exit(f"vecmon_lab.playground.build: {error}")

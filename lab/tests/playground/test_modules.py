"""Modules of the page under node: links that carry sources, and files of exported work, malformed ones among them."""

import json
import pathlib
import shutil
import subprocess
from typing import Any

import pytest

from support.skips import NO_NODE, leave_out
from support.places import TOP
from vecmon_lab.page.build.modules import join_modules
from vecmon_lab.page.build.pages import WEB, page_file

PLAYGROUND = TOP / "lab" / "vecmon_lab" / "playground" / "web"
OPTIONS = '{options: [{text: "assembler"}, {text: "C, O2"}]}'

pytestmark = pytest.mark.site


def evaluated(module: pathlib.Path, script: str) -> Any:
    """The JSON output of a script, in which the module is `it`."""
    if not shutil.which("node"):
        leave_out(NO_NODE)
    whole = f"{join_modules(str(module), page_file)}const it = ${module.stem}; {script}"
    done = subprocess.run(["node", "--input-type=module"], input=whole, stdout=subprocess.PIPE, text=True, check=True)
    return json.loads(done.stdout)


def test_links() -> None:
    """A source comes back as it was; what is no link, damaged or too long is null."""
    text = "# <b>& ünïcode\n\tnop\n"
    hashes = [
        "#source=",
        "#source=%%%",
        "#source=bnVsbA",
        "#source=e30",
        "#source=eyJ0ZXh0IjoxfQ",
        "#source=" + "A" * 100_000,
    ]
    script = f"""
        const link = it.linkOf({{text: {json.dumps(text)}, language: 1}}, {OPTIONS});
        console.log(JSON.stringify([it.sourceOf(link, {OPTIONS}), /^#source=[\\w-]+$/.test(link),
            it.linkOf({{text: "x".repeat(90000), language: 0}}, {OPTIONS}), ...{json.dumps(hashes)}.map((hash) => it.sourceOf(hash, {OPTIONS}))]));
    """
    source, is_plain, *others = evaluated(WEB / "editor" / "links.js", script)
    assert (source, is_plain) == ({"text": text, "language": 1}, True) and others == [None] * 7


def test_files_of_exported_work() -> None:
    """Texts come back with their times; entries of another form are left out, and other files are refused with a sentence."""
    texts = {"A1.s": ["nop\n", 1.5], "sources/A1.1.typed.s": ["# ü", 2], "odd/../name": ["", 1], "b": [1, 1]}
    contents = [
        "{",
        "[]",
        '{"format": "vecmon work", "version": 2, "texts": []}',
        '{"format": "vecmon work", "version": 1, "texts": []}',
    ]
    script = f"""
        const file = it.fileOf({json.dumps(texts)});
        const refusals = [];
        for (const content of {json.dumps(contents)}) {{
            const bad = Object.assign(new Blob([content]), {{name: "work.json"}});
            await it.textsOf(bad).catch((error) => refusals.push(error.message));
        }}
        await it.textsOf({{size: 1e9, name: "large.json"}}).catch((error) => refusals.push(error.message));
        console.log(JSON.stringify([await it.textsOf(file), refusals]));
    """
    found, refusals = evaluated(PLAYGROUND / "kept_work.js", script)
    assert found == {name: entry for name, entry in texts.items() if name.startswith(("A1", "sources"))}
    assert refusals == [
        "work.json isn't a file of exported work.",
        "work.json isn't a file of exported work.",
        "work.json was exported by a newer playground: open it there.",
        "work.json has no work that can be read.",
        "large.json has more than 67,108,864 bytes.",
    ]

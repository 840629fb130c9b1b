"""A folder with all that shows a program's reliances to others: for a bug report of a compiler, for example."""

import json
import pathlib
import shlex
import shutil
import subprocess
from collections.abc import Sequence

from .. import LabError, __version__
from ..machine.program import RECORDER, digest_of, find_recorder
from ..runs.initial_state import InitialState
from .compare import Comparison
from .report import RelianceForm, Report
from .text import reliance_lines

AROUND = 20
"""Instructions before and after a choice in the logs."""


def save(folder: pathlib.Path, comparison: Comparison, report: Report, source: pathlib.Path | None) -> None:
    """Write a folder with the image, the source, the report, the logs around each choice, and the versions.

    source: the file that was compiled, if any. Raises LabError if the folder has files, and OSError.
    """
    if folder.is_dir() and any(folder.iterdir()):
        raise LabError(f"{folder} isn't empty: name a new folder")
    folder.mkdir(parents=True, exist_ok=True)
    shutil.copyfile(comparison.image, folder / "image")
    if source:
        shutil.copyfile(source, folder / source.name)
    (folder / "report.json").write_text(json.dumps(report, indent=1) + "\n", "utf-8")
    lines = [line for form in report["reliances"] for line in reliance_lines(form)]
    (folder / "report.txt").write_text("".join(f"{line}\n" for line in lines), "utf-8")
    options = _write_start(folder, comparison.initial_state)
    scripts = list[list[str]]()
    for at, form in enumerate(report["reliances"], 1):
        other = comparison.starts.get(form["name"])
        scripts.append(_script(at, form, options, _write_start(folder, other, f"{at}.") if other else options))
    commands = [line for script in scripts for line in script]
    script = ["#!/bin/sh", f"# Shows the runs in this folder, with {RECORDER} on PATH.", *commands]
    (folder / "show.sh").write_text("\n".join(script) + "\n", "utf-8")
    (folder / "versions").write_text("\n".join(_versions(comparison)) + "\n", "utf-8")
    made = subprocess.run(["sh", "-e", "show.sh"], cwd=folder, env={"PATH": _path()}, capture_output=True)
    if made.returncode:
        raise LabError(f"{folder}/show.sh fails: {made.stderr.decode('utf-8', 'replace').strip()}")


def _path() -> str:
    """Return a search path on which the recorder comes first."""
    return f"{find_recorder().parent}:/usr/bin:/bin"


def _write_start(folder: pathlib.Path, initial_state: InitialState, prefix: str = "") -> list[str]:
    """Write the start of runs, and return the recorder's options for it. prefix: of the files' names"""
    options = list[str]()
    for at, (address, permissions, data) in enumerate(initial_state.memory, 1):
        name = f"{prefix}memory{at}"
        (folder / name).write_bytes(data)
        options += ["--memory", f"{address:x}:{permissions}:{name}"]
    (folder / f"{prefix}registers").write_text("".join(f"{line}\n" for line in initial_state.registers), "ascii")
    return [*options, "--registers", f"{prefix}registers"]


def _script(at: int, form: RelianceForm, options: Sequence[str], other: Sequence[str]) -> list[str]:
    """Return the commands that make both runs: their outputs, and their logs around a choice and its first effect.

    options, other: the recorder's options for the start of each run
    """
    if form["kind"] == "slices":  # which are the machine's
        return []
    numbers = [form["instruction"]["number"]] if "instruction" in form else []
    numbers += [form["read"]["instruction"]["number"]] if "read" in form else []
    window = ["--from", f"{max(1, min(numbers) - AROUND)}", "--to", f"{max(numbers) + AROUND}"] if numbers else []
    lines = [f"# {form['name']}"]
    for name, start, chosen in zip(("without", "with"), (options, other), form["options"] or [[], []]):
        log = ["--log", f"log{at}.{name}", *window] if window else []
        words = [RECORDER, *start, *chosen, *log, "image"]
        lines.append(f"{shlex.join(words)} > output{at}.{name}")
    return lines


def _versions(comparison: Comparison) -> list[str]:
    """Return lines with the versions of the programs."""
    return [
        f"vecmon-lab {__version__}",
        f"{RECORDER} sha256 {digest_of(find_recorder())}",
        f"image sha256 {digest_of(comparison.image)}",
    ]

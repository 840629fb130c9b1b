"""Builds the book: checks the arguments, fills the folder of sources, runs Sphinx, and moves its HTML to its place."""

import importlib.util
import os
import shutil
import subprocess
import sys
import tempfile
from pathlib import Path

from tools.documents.book_html.definition_pages import write_definition_pages
from tools.documents.book_html.instruction_pages import write_instruction_pages
from tools.documents.book_html.navigation import NavigationError, read_groups
from tools.documents.book_html.sources import stage_sources
from tools.documents.book_html.theme import finish_theme

TOP = Path(__file__).resolve().parents[3]
# Files that depend on the build's folder, or that no page of the book reads.
UNUSED = (
    ".buildinfo",
    "objects.inv",
    "_static/jquery.js",
    "_static/underscore.js",
    "_static/_sphinx_javascript_frameworks_compat.js",
)


def problem_with(arguments: list[str]) -> str | None:
    """Return what is wrong with the arguments or the system; None if nothing is."""
    if len(arguments) != 1 or arguments[0].startswith("-"):
        return "usage: tools/documents/book OUT"
    missing = [name for name in ("sphinx", "myst_parser", "furo") if not importlib.util.find_spec(name)]
    if missing:
        return f"Python package {missing[0]} not found; run tools/building/debian_packages book"
    out = Path(arguments[0])
    if out.is_dir() and any(out.iterdir()) and not (out / "searchindex.js").is_file() or out.is_file():
        return f"{out} exists and isn't a book; name a new folder"
    return None


def run_sphinx(sources: Path, html: Path, scratch: Path) -> int:
    """Builds HTML from the folder of sources; returns Sphinx's exit status, 0 if it gave no warning."""
    settings = TOP / "tools/documents/book_html"
    options = ["-q", "-W", "--keep-going", "-b", "html", "-c", str(settings), "-d", str(scratch)]
    command = [sys.executable, "-m", "sphinx", *options, str(sources), str(html)]
    environment = os.environ | {"PYTHONHASHSEED": "0", "PYTHONDONTWRITEBYTECODE": "1", "LC_ALL": "C.UTF-8"}
    completed = subprocess.run(command, env=environment, stderr=subprocess.PIPE, encoding="utf-8", check=False)
    sys.stderr.write(completed.stderr.replace(f"{sources}/", ""))  # paths from the top of the repository
    return completed.returncode


def build(out: Path, room: Path, top: Path = TOP) -> int:
    """Builds the book of the repository `top` in the empty folder `room`, and moves it to `out`; returns the exit status."""
    sources, html = room / "sources", room / "html"
    sources.mkdir()
    try:
        stage_sources(top, read_groups(top), sources)
        write_instruction_pages(sources)
        write_definition_pages(sources)
    except NavigationError as error:
        print(f"tools/documents/book: {error}", file=sys.stderr)
        return 1
    if run_sphinx(sources, html, room / "doctrees"):
        print("tools/documents/book: Sphinx printed warnings; correct the pages", file=sys.stderr)
        return 1
    for name in UNUSED:
        (html / name).unlink(missing_ok=True)
    finish_theme(html / "_static")
    if out.exists():
        shutil.rmtree(out)
    shutil.copytree(html, out)
    return 0


def main(arguments: list[str], usage: str) -> int:
    """Runs `tools/documents/book` with these arguments; `usage` is its help text. Returns the exit status."""
    if arguments in (["--help"], ["-h"]):
        print(usage)
        return 0
    if problem := problem_with(arguments):
        print(f"tools/documents/book: {problem}", file=sys.stderr)
        return 2
    with tempfile.TemporaryDirectory() as room:
        return build(Path(arguments[0]), Path(room).resolve())

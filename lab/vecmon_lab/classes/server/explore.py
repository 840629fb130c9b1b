"""The command `explore`: an author writes, compiles and steps a source on a page, at a private machine."""

import argparse
import asyncio
import os
import pathlib
import tempfile

from ... import LabError, mistakes_in
from ...arguments import add_compiler, between
from ...assembler.line import refuse_preprocessor_lines
from ...assembler.own_files import files_beside
from ...compilers.account import account_named, add_account
from ...compilers.compiler import PREPROCESSED_SUFFIX, choice_for, find_compilers, refuse_cxx
from ...machine.program import find_program
from ...page.build.texts import page_text
from .builds import builds_by
from ..core.example_sources import example_sources
from ..core.languages import LANGUAGES, SourceText
from .store import Store
from .served_class import Class

HOST, SEAT = "127.0.0.1", "A1"
PATIENCE = 10.0  # seconds of silence


def add_arguments(parser: argparse.ArgumentParser) -> None:
    """Add the arguments of `vecmon-lab explore`."""
    help_text = "a source in C (.c) or assembler (.s); without it the page offers examples"
    parser.add_argument("source", metavar="FILE", type=pathlib.Path, nargs="?", help=help_text)
    parser.add_argument(
        "--port", metavar="P", type=between(0, 65535), default=0, help="the port; by default a free one"
    )
    add_compiler(parser)
    add_account(parser)
    parser.add_argument("--quantum", metavar="N", type=int, help="ticks of a slice, 1 to 1000; by default 100")


def run(arguments: argparse.Namespace) -> int:
    """Serve the page until a signal arrives; return the exit status.

    Raises LabError and OSError if the source is bad, or if it is in C and there is no compiler.
    """
    from .server import listening, serve  # which needs aiohttp; --help doesn't

    os.umask(0o077)
    path: pathlib.Path | None = arguments.source
    account = account_named(arguments.account)
    source = read(path, arguments.options) if path else SourceText()
    builds = builds_by(arguments.cc, is_needed=path is not None and path.suffix == ".c", account=account)
    builds.others = find_compilers()
    with tempfile.TemporaryDirectory(prefix="vecmon-") as folder:
        store = Store(pathlib.Path(folder) / "own", find_program(), quantum=arguments.quantum)
        members = Class(store, PATIENCE, builds=builds)
        members.title = path.name if path else page_text("author.page")
        if path:
            members.students[SEAT].source.give(source)
            members.read_files(files_beside(path))
        else:
            members.examples = example_sources()
        asyncio.run(serve(members, HOST, listening(HOST, arguments.port), {HOST}, SEAT))
    return 0


def read(path: pathlib.Path, options: str | None) -> SourceText:
    """Read the source in a file. options: the name of the compiler's options; None for the default

    Raises LabError if the options don't exist, or if the file isn't in C or assembler, or needs a preprocessor.
    """
    refuse_cxx(path)
    if path.suffix not in (".c", ".s", ".S"):
        raise LabError(f"{path}: the name of a source ends in .c or .s")
    choices = [language.choice for language in LANGUAGES]
    text = path.read_text("utf-8", "replace")
    if path.suffix == PREPROCESSED_SUFFIX:  # a page's source isn't preprocessed, whatever assembles it
        with mistakes_in(path):
            refuse_preprocessor_lines(text)
    return SourceText(text, choices.index(choice_for(path, options)))

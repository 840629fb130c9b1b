"""Make a lesson: one page, without a server, that steps forward and back through a script, or a source in assembler or C."""

import argparse
import pathlib
import sys
from collections.abc import Mapping

from .. import LabError
from ..arguments import add_any_vlen, add_compiler, check_output
from ..compilers.compiling import compile_c, read_own_source
from ..compilers.compiler import ASSEMBLER_SUFFIXES, C_SUFFIX, PREPROCESSED_SUFFIX, choice_for, find_compiler
from ..machine.program import find_program, images_of
from .frames import make_frames
from .listings import CompiledListing, listing_of, listings_page
from .page import lesson_page
from .script import print_warnings, read_assembled, read_compiled, read_script


def add_arguments(parser: argparse.ArgumentParser) -> None:
    """Add the arguments of `vecmon-lab lesson` to its parser."""
    help_text = "a script, or a source in assembler (.s, .S) or C (.c)"
    parser.add_argument("script", metavar="SCRIPT", type=pathlib.Path, help=help_text)
    parser.add_argument(
        "images", metavar="NAME=PATH", nargs="*", default=[], help="images that the script loads by name"
    )
    parser.add_argument(
        "-o",
        dest="output",
        metavar="FILE",
        type=pathlib.Path,
        help="write the page to FILE; by default to standard output",
    )
    parser.add_argument("--title", help="the title; by default the line of the file that starts with ##, or its name")
    add_compiler(parser)
    against = "write two listings instead of a lesson: one with --options, one with these options or this compiler"
    parser.add_argument("--against", metavar="[NAME:]OPTIONS", help=against)
    add_any_vlen(parser)
    parser.add_argument("--quantum", metavar="N", type=int, help="ticks of a slice, 1 to 1000; by default 100")


def run(arguments: argparse.Namespace) -> int:
    """Write the page. Raises LabError and OSError for bad input."""
    path, images = arguments.script, images_of(arguments.images, arguments.any_vlen)
    check_output(arguments.output, path, *images.values())
    page = _listings(arguments) if arguments.against else _lesson(arguments, images)
    if arguments.output is None:
        sys.stdout.buffer.write(page.encode("utf-8"))
    else:
        arguments.output.write_text(page, "utf-8")
    return 0


def _lesson(arguments: argparse.Namespace, images: Mapping[str, pathlib.Path]) -> str:
    """Return the page of a lesson. Raises LabError if the source has mistakes, or no compiler for it is found."""
    path: pathlib.Path = arguments.script
    text = path.read_text("utf-8", "replace")
    if "\0" in text:
        raise LabError(f"{path} isn't a text; a lesson needs a script, or a source in assembler (.s, .S) or C (.c)")
    choice = choice_for(path, arguments.options)
    if choice is not None:
        is_preprocessed = path.suffix == PREPROCESSED_SUFFIX
        own, compiler = read_own_source(path), find_compiler(arguments.cc)
        program = compile_c(own, compiler, choice, path.parent, is_preprocessed=is_preprocessed)
        script = read_compiled(text, path.name, program, path.suffix == C_SUFFIX)
    else:
        script = read_assembled(text, path.name) if path.suffix in ASSEMBLER_SUFFIXES else read_script(text)
        print_warnings(script)
    if not script.steps:
        raise LabError(f"{path}: a lesson needs a line of a script, and this file has none")
    frames = make_frames(script, find_program(), images, arguments.quantum)
    title = arguments.title or script.title or path.name
    return lesson_page(title, frames, script)


def _listings(arguments: argparse.Namespace) -> str:
    """Return the page with two listings side by side. Raises LabError as `_lesson` does."""
    path: pathlib.Path = arguments.script
    text, machine, listings = path.read_text("utf-8", "replace"), find_program(), list[CompiledListing]()
    if path.suffix != C_SUFFIX:
        raise LabError(f"--against is for a source in C, and {path} is none")
    name, _, options = arguments.against.rpartition(":")
    for cc, each in ((arguments.cc, arguments.options), (name or arguments.cc, options)):
        compiler, choice = find_compiler(cc), choice_for(path, each)
        assert choice is not None, "a source in C has options"
        program = compile_c(read_own_source(path), compiler, choice, path.parent)
        program.check(f"{compiler.title(choice)}: {path.name}")
        listings.append(listing_of(program, compiler.title(choice), machine))
    return listings_page(arguments.title or path.name, text, listings)

"""Command-line arguments that several commands share."""

import argparse
import os
import pathlib
import re
import sys
from collections.abc import Callable, Iterable, Sequence
from itertools import combinations
from typing import Any

from . import LabError
from .compilers.compiler import ASSEMBLER_SUFFIXES, CHOICES, choice_for


def add_compiler(parser: argparse.ArgumentParser) -> None:
    """Add the options that choose the compiler of a source and the compiler's options."""
    parser.add_argument("--cc", metavar="NAME", help="the compiler, such as clang-19")
    help_text = "options of the compiler; by default O2 for C, and the lab's assembler for .s"
    parser.add_argument("--options", choices=[choice.name for choice in CHOICES], help=help_text)


def image_path(word: str, arguments: argparse.Namespace, assembles: bool = True) -> pathlib.Path:
    """Return the path of the image that an argument names. If the argument names a source, build the image first.

    Print warnings about the instruction set of an image that isn't built here.

    arguments: the parsed options of `add_compiler` and `add_any_vlen`
    assembles: whether to build an image from an assembler source that no compiler takes; otherwise return the path of the source

    Raises LabError and OSError.
    """
    path = pathlib.Path(word)
    choice = choice_for(path, arguments.options)
    if choice is not None:
        from .compilers.compiling import compiled_image  # not needed for an image

        return compiled_image(path, arguments.cc, choice)
    if arguments.cc:
        raise LabError(f"{path}: --cc is for a source that is compiled: in C, or with --options stock in assembler")
    if path.suffix not in ASSEMBLER_SUFFIXES:
        if path.is_file():  # a missing file is reported where it is read
            from .machine.target import report_target

            report_target(path, arguments.any_vlen)
    elif assembles:
        from .harness.assembled import assembled_image

        return assembled_image(path)
    return path


def add_any_vlen(parser: argparse.ArgumentParser) -> None:
    """Add the option that accepts images for longer vector registers than the machine has."""
    help_text = "run images that are compiled for longer vector registers, whose results may be wrong"
    parser.add_argument("--any-vlen", action="store_true", help=help_text)


class _Program(argparse.Action):
    """Store the image, as `named` the argument that names it, and as `words` the arguments after it.

    If an argument after the image looks like an option of the command, print that the program gets it. A `--` before the image
    prevents this message.
    """

    def __call__(
        self,
        parser: argparse.ArgumentParser,
        namespace: argparse.Namespace,
        values: str | Sequence[Any] | None,
        option: object = None,
    ) -> None:
        words = list(values or ())
        has_separator = words[0] == "--"
        path, *namespace.words = words[1:] if has_separator else words
        options = re.findall(r"(?<![\w-])-[\w-]+", parser.format_usage())
        for word in [] if has_separator else namespace.words:
            if word.partition("=")[0] in options:
                help_text = (
                    f"{word} after {path} is an argument of the program; options of {parser.prog} go before {path}"
                )
                print(f"vecmon-lab: {help_text}", file=sys.stderr)
        namespace.named = pathlib.Path(path)
        if self.const != UNBUILT:
            namespace.image = image_path(path, namespace, self.const == ASSEMBLED)


UNBUILT, ASSEMBLED, UNASSEMBLED = "unbuilt", "assembled", "unassembled"
"""What is made of a program that a command line names: nothing yet; an image, also of an assembler source; or of no such source."""


SOURCES = "a source in C (.c) or assembler (.s, .S)"


def add_program(
    parser: argparse.ArgumentParser,
    help_text: str = f"an ELF file, or {SOURCES}",
    is_needed: bool = True,
    assembles: bool = False,
    builds: bool = True,
) -> None:
    """Add the arguments of a program: the image, the arguments after it, the compiler of a source, and a file as the image's input.

    All arguments after the image are the program's, even those that look like options of the command.

    help_text: the help about the image; is_needed: whether the image is required
    assembles: whether to build an image from an assembler source, too
    builds: whether to build the image when the arguments are parsed; otherwise only `named` is set
    """
    parser.allow_abbrev = False  # so that no argument of the program is looked up among the options
    help_text = f"{help_text}; the arguments after it are the program's"
    metavar = "IMAGE" if is_needed else "[IMAGE]"
    made = ASSEMBLED if assembles else UNASSEMBLED
    image = parser.add_argument(
        "image",
        metavar=metavar,
        nargs=argparse.PARSER,
        action=_Program,
        const=made if builds else UNBUILT,
        help=help_text,
    )
    image.required = is_needed
    add_compiler(parser)
    parser.set_defaults(words=[])
    add_any_vlen(parser)
    help_text = "write FILE to the image's memory at the symbol input, and its size to input_size"
    parser.add_argument("--in", dest="input", metavar="FILE", type=pathlib.Path, help=help_text)


def add_image(parser: argparse.ArgumentParser) -> None:
    """Add the arguments of the commands that run an image to its end."""
    add_program(parser, assembles=True)
    parser.set_defaults(policy="keep")
    parser.add_argument("--ticks", metavar="N", type=between(1, 1 << 63), help="stop after N ticks")


def check_output(output: pathlib.Path | None, *inputs: pathlib.Path) -> None:
    """Raise LabError if the output would overwrite one of the inputs. An output of None is no file."""
    if output and any(output.exists() and path.exists() and output.samefile(path) for path in inputs):
        raise LabError(f"{output} would be overwritten, and it is read here: name another file")


def check_outputs(outputs: Iterable[pathlib.Path | None], *inputs: pathlib.Path) -> None:
    """Raise LabError if an output is the same file as an input or as another output. Devices may be outputs more than once."""
    named = [output for output in outputs if output]
    for output in named:
        check_output(output, *inputs)
    for one, other in combinations(named, 2):
        is_linked = one.exists() and other.exists() and one.samefile(other)
        if (is_linked or os.path.realpath(one) == os.path.realpath(other)) and not one.is_char_device():
            raise LabError(f"{one} and {other} are one file: name another one for an output")


def between(minimum: int, maximum: int) -> Callable[[str], int]:
    """Return a function that parses an argument as a decimal number, which must be from `minimum` to `maximum`."""

    def number(word: str) -> int:
        if not word.isdecimal() or not minimum <= int(word) <= maximum:
            raise argparse.ArgumentTypeError(f"{word} is no number from {minimum} to {maximum}")
        return int(word)

    return number

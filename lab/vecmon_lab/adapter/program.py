"""A program that is debugged: its machine, its symbols, its source files and its variables."""

import argparse
import contextlib
import io
import itertools
import pathlib
from collections.abc import Callable, Iterable, Mapping, Sequence
from functools import cached_property
from typing import NamedTuple

from .. import LabError, SourceMistakes
from ..arguments import image_path
from ..assembler.own_files import files_beside
from ..assembler.trial import read_tried_source
from ..compilers.compiler import ASSEMBLER_SUFFIXES, C_SUFFIX, CHOICES, RUNTIME, install_compilers
from ..compilers.compiling import read_own_source
from ..compilers.variables import TypedVariable, typed_variables
from ..guest.guest import Guest, started
from ..guest.runner import Report
from ..guest.symbols import Symbols
from ..instructions.accesses import PAGE_BYTES
from ..machine.answers import ControlRegisters, ScalarRegisters, Word
from ..machine.program import find_program
from ..replay import timeline
from ..replay.timeline import Timeline
from .requests import BadArguments, Launch
from .unwinding import CallFrames

_RUNTIME_FILES = {path.name for path in RUNTIME.glob("*")}


class Line(NamedTuple):
    """A line of a source: the file's name without its folder, and the number, from 1."""

    file: str
    number: int


class Program:
    """A program on its own machine, until `close` ends the machine.

    path: the image or source that was launched; image: the image that the machine has loaded
    guest: the running program; timeline: moves the program forwards and back
    """

    def __init__(
        self,
        launch: Launch,
        write: Callable[[bytes], object],
        report: Report,
        advance: timeline.Report,
        note: Callable[[str], object],
    ) -> None:
        """Build and load the program. Raises LabError and OSError, and BadArguments for options that don't exist.

        write: called with the program's output; report: called with the address of a system call that isn't supported, and the reason
        advance: called with the progress of long work; note: called with warnings about the program
        """
        self.path = pathlib.Path(launch.program).expanduser()
        self.image = _built(self.path, launch, note)
        self.symbols = Symbols.read(self.image)
        self._stack = contextlib.ExitStack()
        own, file = [self.image.name, *launch.args], pathlib.Path(launch.input) if launch.input else None
        self.guest: Guest = self._stack.enter_context(
            started(
                self.image,
                policy=launch.policy,
                arguments=own,
                file=file,
                write=write,
                report=report,
                name=self.path,
            )
        )
        self.timeline = Timeline(self.guest, advance)
        self._shown = dict[str, pathlib.Path]()  # paths by which the client names files
        if self.symbols.warning:
            note(self.symbols.warning)

    def close(self) -> None:
        """End the program's machine."""
        self._stack.close()

    @property
    def pc(self) -> int:
        """The address of the next instruction."""
        return self.guest.pc

    def scalars(self) -> Sequence[int]:
        """Return the values of x0 to x31."""
        return self.guest.query("regs", ScalarRegisters).x

    def control(self) -> ControlRegisters:
        """Return the vector control registers."""
        return self.guest.query("vcsr", ControlRegisters)

    def place(self, address: int) -> str:
        """Return an address as text: relative to the symbol before it, such as `main+0x8`, or in digits if there is no symbol."""
        return self.symbols.place(address) or f"{address:#x}"

    def words(self, addresses: Iterable[int]) -> dict[int, Word]:
        """Return the words at addresses, by address. Addresses without memory are left out."""
        pages = itertools.groupby(sorted({*addresses}), lambda address: address // PAGE_BYTES)
        return {word.address: word for _, page in pages for word in self.guest.words(page)}

    def line(self, address: int) -> Line | None:
        """Return the source line of the instruction at an address; None if it is unknown."""
        name, _, number = self.symbols.line(address).rpartition(":")
        return Line(name, int(number)) if name else None

    @cached_property
    def stops(self) -> Mapping[str, Mapping[int, Sequence[int]]]:
        """The addresses at which a breakpoint at a source line stops, by the file's name and the line's number."""
        found = dict[str, dict[int, Sequence[int]]]()
        for text, addresses in self.symbols.source.stops.items():
            file, _, number = text.rpartition(":")
            found.setdefault(file, {})[int(number)] = addresses
        return found

    @property
    def files(self) -> Sequence[str]:
        """The names of the source files that have instructions, without their folders."""
        return sorted(self.stops)

    def show_at(self, path: pathlib.Path) -> None:
        """Record the path that the client has for a source file. `path_of` returns it if it doesn't find a file of this name.

        path: the path in a request of the client, with the file's name as its last part
        """
        self._shown[path.name] = path

    def path_of(self, file: str) -> pathlib.Path | None:
        """Return the path of a source file. If the file isn't found, return its path in `show_at`; None if `show_at` has recorded none.

        file: the file's name without its folder. Symbolic links in the path are resolved, except in the path of the launched source, which
        the client has chosen.
        """
        if self.path.name == file and self.path.is_file():
            return self.path.absolute()
        named = self.symbols.source.files.get(file, pathlib.PurePath(file))
        places = (pathlib.Path(named), self.path.parent / named, self.path.parent / file, RUNTIME / file)
        shown = self._shown.get(file)
        return next((path.resolve() for path in places if path.is_file()), shown)

    @cached_property
    def variables(self) -> Sequence[TypedVariable]:
        """The variables of the source files, except those of the lab's runtime."""
        from elftools.elf.elffile import ELFFile

        with self.image.open("rb") as file:
            return typed_variables(ELFFile(file), _is_own, has_frames=True)

    @cached_property
    def call_frames(self) -> CallFrames:
        """The call frame information, by which the callers of functions are found."""
        return CallFrames(self.image)


def _is_own(name: str) -> bool:
    """Return whether a source file belongs to the program, not to the lab's runtime. name: its path"""
    return pathlib.PurePath(name).name not in _RUNTIME_FILES


def _built(path: pathlib.Path, launch: Launch, note: Callable[[str], object]) -> pathlib.Path:
    """Return the path of the program's image, which is built first if `path` is a source. Raises LabError and OSError.

    launch: the arguments of the launch, with the compiler and its options; note: called with the compiler's warnings
    """
    if launch.options is not None and launch.options not in [choice.name for choice in CHOICES]:
        raise BadArguments(f"options is one of {', '.join(choice.name for choice in CHOICES)}")
    if path.suffix == C_SUFFIX:
        install_compilers()
    arguments = argparse.Namespace(options=launch.options, cc=launch.compiler, any_vlen=launch.any_vlen)
    warnings = io.StringIO()
    try:
        with contextlib.redirect_stderr(warnings):
            image = image_path(f"{path}", arguments)
    except LabError:
        if path.suffix in ASSEMBLER_SUFFIXES and launch.options is None:
            _list_mistakes(path)
        raise
    if warnings.getvalue():
        note(warnings.getvalue().rstrip("\n"))
    return image


def _list_mistakes(path: pathlib.Path) -> None:
    """Raise SourceMistakes with all mistakes of an assembler source, including those that only the machine finds; return if there are none."""
    program = read_tried_source(read_own_source(path), find_program(), files_beside(path))
    if program.mistakes:
        raise SourceMistakes("\n".join(mistake.diagnostic(f"{path}") for mistake in program.mistakes))

"""C sources of a class's seats: compiled in a sandbox, outside the machines, one at a time for a seat."""

import asyncio
import os
import sys
from collections.abc import Sequence
from dataclasses import replace

from ... import LabError
from ...assembler.line import SourceError
from ...compilers.account import OWN, Account
from ...compilers.compiled import IMAGE_BYTES, CompiledProgram, read_compiled_program
from ...compilers.compiler import Compiler
from ...compilers.compiling import words_for
from ...compilers.failures import ToolError
from ...compilers.sandbox import run_in_sandbox_async, sandboxed_compiler
from .worker_pool import exclusive
from ..core.bad_request import BadRequest


class Builds:
    """Compiles as many sources at once as there are cores; later ones wait.

    no_c: the reason why the class takes no C; "" if it does
    compiler: compiles the sources; None without one; others: compilers whose listings may be compared with those of `compiler`
    """

    def __init__(
        self,
        compiler: Compiler | None = None,
        no_c: str = "no compiler was named",
        limit: int = IMAGE_BYTES,
        account: Account = OWN,
    ) -> None:
        """limit: the maximum of bytes in an image that aren't zeros; account: the system user that runs the compiler"""
        self.compiler, self._limit, self._account = compiler, limit, account
        self.others: Sequence[Compiler] = ()
        self.no_c = "" if compiler else no_c
        self._places = asyncio.Semaphore(os.cpu_count() or 1)
        self._busy = set[str]()

    async def compile(
        self, seat: str, text: str, choice: int, other: Compiler | None = None, is_answer: bool = False
    ) -> CompiledProgram:
        """Compile a seat's source; return the program, which has the source's mistakes.

        choice: the number of the compiler's options; other: a compiler to use in place of `compiler`
        is_answer: whether the source answers an exercise
        Raises BadRequest without a compiler, or if a source of the seat is being compiled, and LabError if the compiler fails.
        """
        compiler = other or self.compiler
        if compiler is None:
            raise BadRequest(f"this class takes no C: {self.no_c}")
        with exclusive(seat, self._busy, BadRequest("a source of this seat is being compiled")):
            words = words_for(text, compiler, choice, is_answer)
            async with self._places:
                answer = await run_in_sandbox_async(words, text, self._account)
            program = await asyncio.to_thread(read_compiled_program, answer, self._limit)
        return replace(program, warnings=[*lesson_lines(text), *program.warnings])


def lesson_lines(text: str) -> list[SourceError]:
    """Return a warning for each line of a compiled source that only a lesson executes: `//> step 5`, or `#> step 5`."""
    found = [(number, line, line.lstrip()[:3]) for number, line in enumerate(text.split("\n"), 1)]
    return [
        SourceError(
            number, line.index(">") - len(mark) + 2, f"{mark} lines are for lessons: set values in the source itself"
        )
        for number, line, start in found
        for mark in ("//>", "#>")
        if start.startswith(mark)
    ]


def builds_by(name: str | None, limit: int = IMAGE_BYTES, is_needed: bool = False, account: Account = OWN) -> Builds:
    """Return the builds of a class, without a compiler if none is available.

    name: the compiler's name; None for the first one that is found; limit, account: as for `Builds`
    Raises LabError if the compiler is unavailable, and is named or needed.
    """
    try:
        return Builds(sandboxed_compiler(name, account), limit=limit, account=account)
    except LabError as error:
        if name or is_needed:
            raise
        if isinstance(error, ToolError):  # what is installed doesn't work
            print(f"vecmon-lab: no source in C is compiled: {error}", file=sys.stderr)
        return Builds(None, str(error))

"""Compile sources: your own next to their headers, and those of others in a sandbox."""

import atexit
import pathlib
import struct
import tempfile

from .. import LabError, mistakes_in
from ..instructions.accesses import PAGE_BYTES
from ..machine.start_state import EBREAK, RETURN
from .compiled import CompiledProgram, Isolation, read_compiled_program
from .compiler import ASSEMBLER_SOURCE, FUNCTION, IMAGE, PREPROCESSED_SOURCE, Compiler, find_compiler, source_of
from .sandbox import run_unsandboxed, run_sandboxed

SOURCE_BYTES = 1 << 16
ENTRY_AT = 24  # the offset of e_entry in an image
_TABLE_AT, _COUNT_AT = 32, 56  # the offsets of e_phoff and e_phnum
_LOADED = struct.Struct(
    "<IIQQQQQQ"
)  # a row of that table: p_type, p_flags, p_offset, p_vaddr, p_paddr, p_filesz, p_memsz, p_align
_PT_LOAD, _READ_EXECUTE = 1, 5


def read_own_source(path: pathlib.Path) -> str:
    """Read your own source for a compiler. Raises OSError.

    Bytes that aren't UTF-8 become surrogates, so that the compiler gets them unchanged.
    """
    return path.read_text("utf-8", "surrogateescape")


def compile_c(
    text: str,
    compiler: Compiler,
    choice: int,
    headers: pathlib.Path | None = None,
    is_answer: bool = False,
    isolation: Isolation | None = None,
    saved: pathlib.Path | None = None,
    is_preprocessed: bool = False,
) -> CompiledProgram:
    """Compile a source. The returned program has the source's mistakes. Raises LabError and ToolError.

    choice: the number of the options
    headers: the folder of your own source, which is compiled without a sandbox; None for a source of others
    is_answer: whether the source answers an exercise
    isolation: compiles sources of others; None for the sandbox
    saved: the folder in which your own source and its image remain; None to delete them
    is_preprocessed: whether the preprocessor reads an assembler source first, as with the suffix .S
    """
    words = [*words_for(text, compiler, choice, is_answer), *[PREPROCESSED_SOURCE] * is_preprocessed]
    isolated = isolation or run_sandboxed
    reply = run_unsandboxed(words, text, headers, saved) if headers else isolated(words, text)
    return read_compiled_program(reply)


def compiled_image(path: pathlib.Path, compiler: str | None = None, choice: int = 0) -> pathlib.Path:
    """Compile your own source; return the path of its image, which exists until this process ends.

    The image has the source's name without the suffix.

    compiler: the compiler's name; None for the first one
    choice: the number of its options

    Raises LabError if there is no compiler, or the source has mistakes, and OSError.
    """
    with mistakes_in(path):
        text = read_own_source(path)
        words = [*words_for(text, find_compiler(compiler), choice), f"{path.absolute()}"]
        saved = tempfile.TemporaryDirectory()
        atexit.register(saved.cleanup)
        folder = pathlib.Path(saved.name)
        program = read_compiled_program(run_unsandboxed(words, text, path.parent, folder))
    program.check(f"{path}")
    (folder / source_of(choice)).rename(folder / path.name)  # debuggers look for its lines there
    image = (folder / IMAGE).rename(folder / path.stem)
    with image.open("r+b") as file:  # an assembler source is linked without an entry address
        file.seek(ENTRY_AT)
        file.write(program.entry.to_bytes(8, "little"))
    if source_of(choice) == ASSEMBLER_SOURCE:
        image.write_bytes(with_return_page(image.read_bytes()))
    return image


def with_return_page(image: bytes) -> bytes:
    """Return the image of an assembler source with the page to which a program returns, as the lab's assembler adds it.

    The table of segments moves to the end.
    """
    (table,), (count,) = struct.unpack_from("<Q", image, _TABLE_AT), struct.unpack_from("<H", image, _COUNT_AT)
    place = -(-len(image) // PAGE_BYTES) * PAGE_BYTES
    row = _LOADED.pack(_PT_LOAD, _READ_EXECUTE, place, RETURN, RETURN, len(EBREAK), PAGE_BYTES, PAGE_BYTES)
    made = bytearray(image.ljust(place, b"\0") + EBREAK.ljust(_LOADED.size, b"\0"))
    struct.pack_into("<Q", made, _TABLE_AT, len(made))
    struct.pack_into("<H", made, _COUNT_AT, count + 1)
    return bytes(made) + image[table : table + count * _LOADED.size] + row


def words_for(text: str, compiler: Compiler, choice: int, is_answer: bool = False) -> list[str]:
    """Return the arguments of `sandbox_main` for a source. Raises LabError if the source is too long."""
    if len(text.encode("utf-8", "surrogateescape")) > SOURCE_BYTES:
        raise LabError(f"a source that is compiled has {SOURCE_BYTES:,} bytes at most")
    return [compiler.name, f"{choice}", *[FUNCTION] * is_answer]

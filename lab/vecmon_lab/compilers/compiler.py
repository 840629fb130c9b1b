"""The installed compilers, and their options, which are chosen by number from a fixed list."""

import os
import pathlib
import re
import shutil
from collections.abc import Sequence
from dataclasses import dataclass

from .. import LabError
from ..machine.image import MARCH
from ..places import tools_advice

RUNTIME = pathlib.Path(__file__).parent / "runtime"
C_SOURCE, ASSEMBLER_SOURCE, PREPROCESSED_SOURCE, IMAGE = "source.c", "source.s", "source.S", "image"
OWN_SOURCES = (C_SOURCE, ASSEMBLER_SOURCE, PREPROCESSED_SOURCE)
"""The names of sources in their folder, with IMAGE; PREPROCESSED_SOURCE occurs only in messages and debug data."""

C_SUFFIX, PREPROCESSED_SUFFIX = ".c", ".S"
ASSEMBLER_SUFFIXES = (".s", PREPROCESSED_SUFFIX)
"""Suffixes of users' assembler sources."""

FUNCTION = "answer"
"""The function that each case calls in an answer to an exercise. Other images start with `main`."""

CXX_SUFFIXES = (".cc", ".cpp", ".cxx", ".c++", ".C")
"""Suffixes of sources in C++, which the lab doesn't compile."""

MIN_CLANG, MIN_GCC = 17, 14  # the first versions with the present names of vector intrinsics

COMPILERS_ADVICE = tools_advice("clang-19", "lld-19", "bubblewrap")
"""How to install the compilers of sources in C, and their sandbox."""

INSTALLER = pathlib.Path(__file__).resolve().parents[3] / "tools/building/debian_packages"
"""The tool of a clone that installs Debian packages. An installed vecmon has no such file."""

_ALL = (MARCH, "-mabi=lp64", "-ffreestanding", "-fno-pic", "-nostdlib", "-static", "-Wl,--build-id=none")
_TOLD = ("-g", "-gdwarf-4", "-Wall", "-fdiagnostics-color=never")
_CLANG = ("--target=riscv64-linux-gnu", "-fno-caret-diagnostics", "-ferror-limit=20", "-fdebug-compilation-dir=.")
_GCC = ("-no-pie", "-Wl,--no-relax", "-fno-diagnostics-show-caret", "-fmax-errors=20")


@dataclass(frozen=True)
class Choice:
    """Options of a compiler that a page offers by name.

    name: the name of the options; clang, gcc: the arguments of a clang and of a gcc for these options
    source: the name of the source in its folder; its suffix shows the language
    """

    name: str
    clang: Sequence[str]
    gcc: Sequence[str]
    source: str = C_SOURCE


_PLAIN_CLANG, _PLAIN_GCC = ("-fno-vectorize", "-fno-slp-vectorize"), ("-fno-tree-vectorize",)
CHOICES = [
    *(Choice(level, (f"-{level}",), (f"-{level}",)) for level in ("O2", "O0", "O1", "O3")),
    *(Choice(f"{it}-scalar", (f"-{it}", *_PLAIN_CLANG), (f"-{it}", *_PLAIN_GCC)) for it in ("O2", "O3")),
    Choice("stock", ("-Wno-unused-command-line-argument",), (), ASSEMBLER_SOURCE),
]


@dataclass(frozen=True)
class Compiler:
    """An installed compiler. name: the name of its program, such as `clang-19`"""

    name: str

    @property
    def is_clang(self) -> bool:
        """Whether the compiler is a clang; otherwise it is a gcc."""
        return self.name.startswith("clang")

    @property
    def has_vectors(self) -> bool:
        """Whether the compiler has vector intrinsics."""
        return self.is_clang or _version(self.name) >= MIN_GCC

    def title(self, choice: int) -> str:
        """Return the text that pages show for the compiler with some options, with a note if the compiler lacks vector intrinsics.

        choice: the number of the options
        """
        lacking = "" if self.has_vectors else " (scalar C alone: it has no intrinsics)"
        return f"{self.name} {CHOICES[choice].name}{lacking}"

    def words(
        self, choice: int, is_answer: bool = False, is_alone: bool = False, named: str = "", has_memory: bool = False
    ) -> list[str]:
        """Return the command that compiles the source in the present folder. Raises LabError for an unknown choice.

        choice: the number of the options
        is_answer: whether the source answers an exercise; then the compiler doesn't vectorize loops by itself
        is_alone: whether the source has its own `_start`, so that no runtime is linked
        named: the path of the source in debug data; "" for the source's name in its folder. If the path ends in .S, the preprocessor reads an
            assembler source first.
        has_memory: whether the runtime's memmove and memcmp are linked as well
        """
        source = source_of(choice)
        if self.is_clang:
            linker = (f"-fuse-ld=lld{self.name.removeprefix('clang')}", "-Wl,--threads=1")
            own = [*_CLANG, *linker, *CHOICES[choice].clang]
        else:
            own = [*_GCC, *CHOICES[choice].gcc]
        if source == ASSEMBLER_SOURCE:
            own.append("-Wl,--entry=0")
        if is_answer:
            plain = _PLAIN_CLANG if self.is_clang else _PLAIN_GCC
            own += ["-DVECMON_ANSWER", f"-Wl,--entry={FUNCTION}", *plain]
        # A named source is debugged on this computer, with the runtime's source. Any other image has the same bytes in each folder.
        places = {source: named} if named else {str(RUNTIME): "runtime", source: source}
        # A line marker sets this source's name, since assemblers map only folders.
        if named and source == ASSEMBLER_SOURCE:
            places = {**places, ".": str(pathlib.PurePath(named).parent)}
        folder = (f"-I{RUNTIME}", *(f"-fdebug-prefix-map={place}={name}" for place, name in places.items()))
        runtime = ("runtime.c", *["memory.c"] * has_memory) if source == C_SOURCE and not is_alone else ()
        linked = (source, *(str(RUNTIME / name) for name in runtime))
        is_preprocessed = source == ASSEMBLER_SOURCE and named.endswith(PREPROCESSED_SUFFIX)
        language = ("-x", "assembler-with-cpp") * is_preprocessed
        return [self.name, *_ALL, *_TOLD, *own, *folder, "-o", IMAGE, *language, *linked]


def source_of(choice: int) -> str:
    """Return the name of a source for options of this number. Raises LabError for an unknown number."""
    if not 0 <= choice < len(CHOICES):
        raise LabError(f"options have numbers from 0 to {len(CHOICES) - 1}")
    return CHOICES[choice].source


def choice_of(name: str) -> int:
    """Return the number of the options of this name. Raises LabError for an unknown name."""
    names = [choice.name for choice in CHOICES]
    if name not in names:
        raise LabError(f"{name} aren't options; there are {', '.join(names)}")
    return names.index(name)


def refuse_cxx(path: pathlib.Path) -> None:
    """Raise LabError for a source in C++."""
    if path.suffix in CXX_SUFFIXES:
        advice = "compile it to an image with clang++-19 and the options in docs/COMPILING.md"
        raise LabError(f"{path} is a source in C++, which the lab doesn't compile: {advice}")


def choice_for(path: pathlib.Path, name: str | None) -> int | None:
    """Return the number of the options of this name for a file. Without a name it is 0 for a C file, and None for other files.

    Raises LabError if the options are for another language, or if the file is in C++.
    """
    refuse_cxx(path)
    if name is None:
        return 0 if path.suffix == C_SUFFIX else None
    choice = choice_of(name)
    is_c = CHOICES[choice].source == C_SOURCE
    if path.suffix not in ((C_SUFFIX,) if is_c else ASSEMBLER_SUFFIXES):
        language, suffix = ("C", C_SUFFIX) if is_c else ("assembler", ASSEMBLER_SUFFIXES[0])
        raise LabError(f"{path}: {name} is for {language}, and the name of such a source ends in {suffix}")
    return choice


def find_compilers() -> list[Compiler]:
    """Return the installed compilers, the newest clang first."""
    clangs = [Compiler(f"clang-{version}") for version in range(MIN_CLANG + 12, MIN_CLANG - 1, -1)]
    gccs = [Compiler(f"riscv64-linux-gnu-gcc{ending}") for ending in ("-16", "-15", "-14", "")]
    gccs.append(Compiler("riscv64-unknown-elf-gcc"))
    return [each for each in (*clangs, *gccs) if _is_installed(each)]


def find_compiler(name: str | None) -> Compiler:
    """Return the compiler of this name, or the first one if there is no name. Raises LabError if it isn't installed."""
    for compiler in find_compilers():
        if name in (None, compiler.name):
            return compiler
    missing = "there is no compiler for C" if name is None else f"{name} is no compiler that is here"
    raise LabError(f"{missing}: {COMPILERS_ADVICE}")


def install_compilers() -> None:
    """Install Debian's compilers in a clone that has none, if this is root, or sudo asks for no password."""
    if find_compilers() or not INSTALLER.is_file():
        return
    import subprocess  # not needed by the synchronous core

    if os.geteuid() == 0 or subprocess.run("sudo -n true", shell=True, capture_output=True).returncode == 0:
        subprocess.run([INSTALLER, "compilers"], stdout=subprocess.DEVNULL)


def _is_installed(compiler: Compiler) -> bool:
    """Return whether a compiler is in /usr/bin. For a clang, the linker of the same version must be there too."""
    linker = f"ld.lld{compiler.name.removeprefix('clang')}" if compiler.is_clang else compiler.name
    return all(shutil.which(name, path="/usr/bin") for name in (compiler.name, linker))


def _version(name: str) -> int:
    """Return the version number at the end of a program's name, after symbolic links were followed; 0 if there is none."""
    found = re.search(r"-(\d+)[.\d]*$", str(pathlib.Path("/usr/bin", name).resolve()))
    return int(found[1]) if found else 0

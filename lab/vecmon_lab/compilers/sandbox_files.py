"""The files in the sandbox of a compiler: a fixed list, as arguments of bwrap.

The list has the compiler with its headers and libraries, Python with its standard library and pyelftools, the lab's modules that run in the
sandbox, and the runtime with `vecmon.h`. It has no folder of exercises and no file of a user.
"""

import atexit
import functools
import importlib.util
import os
import pathlib
import re
import shutil
import subprocess
import tempfile
from collections.abc import Iterable, Iterator, Sequence
from subprocess import DEVNULL

from ..places import install_command
from .compiler import Compiler
from .failures import ToolError

LAB = pathlib.Path(__file__).resolve().parents[2]
PLACE = "/lab"  # the folder of the lab's modules in the sandbox
MODULES = (
    "vecmon_lab/__init__.py",
    *(f"vecmon_lab/compilers/{name}.py" for name in ("__init__", "c_types", "compiler", "debug")),
    *(
        f"vecmon_lab/compilers/{name}.py"
        for name in ("failures", "hints", "layouts", "sandbox_main", "locations", "variables")
    ),
    "vecmon_lab/compilers/runtime/memory.c",
    "vecmon_lab/compilers/runtime/runtime.c",
    "vecmon_lab/compilers/runtime/vecmon.h",
    *(f"vecmon_lab/guest/{name}.py" for name in ("__init__", "entries", "jumps", "source_lines", "symbols")),
    "vecmon_lab/machine/__init__.py",
    "vecmon_lab/machine/image.py",
    "vecmon_lab/places.py",
)
"""The files of the lab in the sandbox: `sandbox_main.py`, the modules that it imports, and what is linked to a source."""

TRUE = "/usr/bin/true"  # the sandbox runs it once to check that it starts
IS_ROOT = os.geteuid() == 0
_PROGRAMS_OF_ROOT = ("/usr/bin/setpriv", "/usr/bin/unshare")  # root's sandbox changes its user with these programs
_PROGRAMS = ("/usr/bin/python3", "/usr/bin/prlimit", TRUE)
_LINKS = ("--symlink", "usr/lib", "/lib", "--symlink", "usr/lib64", "/lib64")
_LIBRARY = re.compile(r"(/\S+) \(0x[0-9a-f]+\)")  # matches a line of ldd's output


@functools.cache
def sandbox_files(compiler: Compiler, lab: pathlib.Path, is_of_root: bool) -> Sequence[str]:
    """Return the arguments of bwrap that make a compiler's files visible, read-only. Raises ToolError if one is missing.

    lab: the folder of the lab's files, LAB or the result of `readable_lab`; is_of_root: whether root starts the sandbox
    """
    programs, folders = _gcc_files(compiler) if not compiler.is_clang else _clang_files(compiler)
    programs = [*_PROGRAMS, *_PROGRAMS_OF_ROOT * is_of_root, *programs]
    python = pathlib.Path("/usr/bin/python3").resolve().name
    links, files = dict[str, str](), dict[str, str]()
    for program in programs:
        files |= _followed(program, links)
    # The file doesn't exist if zlib is built into Python.
    extensions = map(str, pathlib.Path("/usr/lib", python, "lib-dynload").glob("zlib.*"))
    files |= {_merged(path): path for path in _libraries([*programs, *_plugins(folders), *extensions])}
    files |= {folder: folder for folder in [*folders, f"/usr/lib/{python}"]}
    files |= {f"{PLACE}/elftools": str(elftools() if lab == LAB else lab / "elftools")}
    files |= {f"{PLACE}/{module}": str(lab / module) for module in MODULES}
    return (*_folders([*files, *links]), *_arguments(links, files), *_LINKS)


@functools.cache
def readable_lab() -> pathlib.Path:
    """Return the folder of a copy of the lab's files that all users can read. It exists until this process ends.

    The lab itself may be in a folder that only root can enter, such as /root, and so may TMPDIR. Raises ToolError if pyelftools is missing.
    """
    folder = tempfile.TemporaryDirectory(prefix="vecmon-lab-", dir="/tmp")
    atexit.register(folder.cleanup)
    copy_lab(pathlib.Path(folder.name))
    return pathlib.Path(folder.name)


def copy_lab(folder: pathlib.Path) -> None:
    """Copy MODULES and pyelftools into a folder, readable for all users. Raises ToolError if pyelftools is missing."""
    for module in MODULES:
        (folder / module).parent.mkdir(parents=True, exist_ok=True)
        shutil.copyfile(LAB / module, folder / module)
    shutil.copytree(elftools(), folder / "elftools", ignore=shutil.ignore_patterns("__pycache__"))
    subprocess.run(["/usr/bin/chmod", "-R", "a+rX", folder], check=True)


def elftools() -> pathlib.Path:
    """Return the folder of Python's package pyelftools. Raises ToolError if it isn't installed."""
    found = importlib.util.find_spec("elftools")
    if found is None or not found.submodule_search_locations:
        raise ToolError(f"Python's package pyelftools isn't installed: {install_command('pyelftools')}")
    return pathlib.Path(found.submodule_search_locations[0])


def _clang_files(compiler: Compiler) -> tuple[list[str], list[str]]:
    """Return the programs of a clang, and the folders that it reads."""
    linker = f"/usr/bin/ld.lld{compiler.name.removeprefix('clang')}"
    return [f"/usr/bin/{compiler.name}", linker], [f"{_asked(compiler, '-print-resource-dir')}/include"]


def _gcc_files(compiler: Compiler) -> tuple[list[str], list[str]]:
    """Return the programs of a gcc, and the folders that it reads."""
    tools = [os.path.normpath(_asked(compiler, f"-print-prog-name={tool}")) for tool in ("cc1", "collect2", "as", "ld")]
    programs = [shutil.which(tool, path="/usr/bin") or tool for tool in tools]
    folders = [pathlib.Path(programs[0]).parent, pathlib.Path(_asked(compiler, "-print-libgcc-file-name")).parent]
    library = pathlib.Path(programs[2]).parent.with_name("include")  # headers of the C library for the machine, if any
    folders += [library] if library.is_dir() and library != pathlib.Path("/usr/include") else []
    return [f"/usr/bin/{compiler.name}", *programs[2:]], list(dict.fromkeys(os.path.normpath(each) for each in folders))


def _asked(compiler: Compiler, option: str) -> str:
    """Return the line that a compiler prints for an option. Raises ToolError if it prints none."""
    completed = _run(f"/usr/bin/{compiler.name}", option)
    if completed.returncode or not completed.stdout.strip():
        raise ToolError(
            f"{compiler.name} {option} fails with status {completed.returncode}: {completed.stderr.strip()[:200]}"
        )
    return completed.stdout.strip()


def _run(*command: str) -> "subprocess.CompletedProcess[str]":
    """Run a program of the system. Raises ToolError if it can't be started, or doesn't end in time."""
    try:
        return subprocess.run(command, stdin=DEVNULL, capture_output=True, text=True, errors="replace", timeout=60)
    except (OSError, subprocess.TimeoutExpired) as error:
        raise ToolError(f"{command[0]} can't be run: {error}") from error


def _followed(path: str, links: dict[str, str]) -> dict[str, str]:
    """Follow the symbolic links of a path, and return the result as a mapping from the resulting path to itself.

    links: receives each link that was followed, as its path with its target. Only links of a path's last part are followed.
    """
    while os.path.islink(path):
        links[path] = os.readlink(path)
        path = os.path.normpath(os.path.join(os.path.dirname(path), links[path]))
    return {path: path}


def _plugins(folders: Iterable[str]) -> Iterator[str]:
    """Return the programs and shared libraries in the folders of a gcc."""
    for path in (path for folder in folders for path in pathlib.Path(folder).iterdir()):
        if path.is_file() and (os.access(path, os.X_OK) or ".so" in path.name):
            yield str(path)


def _libraries(programs: Iterable[str]) -> list[str]:
    """Return the shared libraries that programs load. Raises ToolError if one is missing."""
    completed = _run("/usr/bin/ldd", *programs)
    if missing := re.search(r"\S+(?= => not found)", completed.stdout):
        raise ToolError(f"the compiler's library {missing[0]} isn't installed")
    return sorted(set(_LIBRARY.findall(completed.stdout)))


def _merged(path: str) -> str:
    """Return a library's path below /usr, since /lib is a link to /usr/lib."""
    return path if path.startswith("/usr/") else f"/usr{path}"


def _folders(paths: Iterable[str]) -> Iterator[str]:
    """Yield the arguments of bwrap that make the folders of files in the sandbox, which all users may enter. paths: the paths of the files"""
    folders = {str(folder) for path in paths for folder in pathlib.PurePath(path).parents} - {"/"}
    for folder in sorted(folders):
        yield from ("--perms", "755", "--dir", folder)


def _arguments(links: dict[str, str], files: dict[str, str]) -> Iterator[str]:
    """Yield the arguments of bwrap that make symbolic links and files visible.

    links: the target of each link, by the link's path; files: the path of each file on this computer, by its path in the sandbox
    """
    for path, target in links.items():
        yield from ("--symlink", target, path)
    for path, source in files.items():
        yield from ("--ro-bind", source, path)

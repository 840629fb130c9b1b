"""The paths of the programs vecmon and vecmon-record, and functions for their images."""

import hashlib
import os
import pathlib
import shutil
import struct
from collections.abc import Iterator

from .. import LabError
from ..places import IS_PYTHON_PACKAGE, PROGRAMS, RELEASED, TOP
from ..tables.table import read_table
from .image import rights_of
from .target import report_target

_CRATES = TOP / "crates"
BUILT, BUILT_RECORDER = _CRATES / "vecmon" / "out" / "vecmon", _CRATES / "vecmon_record" / "out" / "vecmon_record"
# tools/run builds into a folder for each state of the sources; the file `current` has the last one's name.
UNPROVED = _CRATES.parent / "build" / "unproved"
RECORDER = "vecmon-record"
PROCESSORS = {"x86_64": "amd64", "aarch64": "arm64", "riscv64": "riscv64"}
"""Debian's names of processors, by those of the kernel."""

HOW_TO_BUILD = dict(read_table("how_to_build"))

PT_LOAD = 1
NO_NODE = 69
"""The exit status of a program as WebAssembly, which tools/building/programs writes, if there is no node to run it."""


class NoProgram(LabError):
    """The program vecmon or vecmon-record isn't found; the text says how to build it."""


def find_program() -> pathlib.Path:
    """Return the path of vecmon.

    It is `$VECMON` if this variable is set. Otherwise it is the first program that exists in the Python package, crates/vecmon/out,
    build/unproved, programs, or a folder of PATH.

    Raises NoProgram if there is none.
    """
    named = os.environ.get("VECMON")
    found = shutil.which(named) if named else _first_built(BUILT, "vecmon")
    if found is None:
        missing = f"VECMON={named} is no program" if named else "there is no program vecmon"
        raise NoProgram(f"{missing}; {_advice('vecmon')}")
    return pathlib.Path(found).absolute()


def find_recorder() -> pathlib.Path:
    """Return the path of vecmon-record.

    It is `$VECMON_RECORD` if this variable is set, or else the program next to `$VECMON`. If neither variable is set, it is the first
    program that exists in the places of `find_program`.

    Raises NoProgram if there is none.
    """
    named = os.environ.get("VECMON_RECORD")
    if not named and os.environ.get("VECMON"):
        named = str(find_program().with_name(RECORDER))
    found = shutil.which(named) if named else _first_built(BUILT_RECORDER, RECORDER)
    if found is None:
        if not os.environ.get("VECMON_RECORD"):
            check_is_vecmon(find_program())  # the recorder is missing next to it
        if not named and _is_building():
            log = UNPROVED / "log"
            raise NoProgram(
                f"tools/run is still building {RECORDER} in the background: try again when {log} says built"
            )
        raise NoProgram(f"there is no program {named or RECORDER}; {_advice(RECORDER)}")
    return pathlib.Path(found).absolute()


def _advice(name: str) -> str:
    """Return advice on how to get a program that isn't found."""
    return HOW_TO_BUILD["packaged" if IS_PYTHON_PACKAGE else name]


def _first_built(built: pathlib.Path, name: str) -> str | None:
    """Return the path of a program in the first place that has it; None if no place has it.

    The places are the Python package, `built`, the folder of tools/run, the folder of programs in a release of the sources, and PATH.

    built: the path of the program that the proved build writes; name: the program's name
    """
    places = (PROGRAMS / name, built, _unproved(name), _released(name), name)
    return next((found for found in (shutil.which(str(place)) for place in places) if found), None)


def _is_building() -> bool:
    """Return whether tools/run is building programs now. It holds a lock until all of them are built."""
    import fcntl  # unavailable in a browser

    try:
        with (UNPROVED / "lock").open("rb") as lock:
            fcntl.flock(lock, fcntl.LOCK_SH | fcntl.LOCK_NB)
    except BlockingIOError:
        return True
    except OSError:
        pass  # tools/run has built nothing here
    return False


def _unproved(name: str) -> pathlib.Path:
    """Return the path of a program that tools/run has built from the sources' last state. The file may not exist."""
    current = UNPROVED / "current"
    return UNPROVED / (current.read_text("ascii").strip() if current.is_file() else "none") / name


def _released(name: str) -> pathlib.Path:
    """Return the path of a program for this processor in the source archive of a release. The file may not exist."""
    import platform  # which the synchronous core does without

    return RELEASED / PROCESSORS.get(platform.machine(), "none") / name


def check_is_vecmon(program: pathlib.Path) -> None:
    """Raise NoProgram if a program's help shows that it isn't vecmon. Call this after an unexpected answer."""
    import subprocess  # which the synchronous core does without

    try:
        completed = subprocess.run([program, "--help"], stdin=subprocess.DEVNULL, capture_output=True, timeout=10)
    except (OSError, subprocess.TimeoutExpired):
        return
    if completed.returncode == NO_NODE:
        raise NoProgram(completed.stderr.decode("utf-8", "replace").strip())
    if not completed.stdout.startswith(b"Runs a script on a trainer machine for the RISC-V vector extension"):
        raise NoProgram(f"{program} is no vecmon; VECMON=PATH names one")


def images_of(words: list[str], any_vlen: bool = False) -> dict[str, pathlib.Path]:
    """Return the paths of images by name, and print warnings about their instruction sets.

    words: arguments of the form NAME=PATH; any_vlen: whether to accept images for longer vector registers

    Raises LabError for an argument of another form, a missing file, and an image that `report_target` refuses.
    """
    images = {}
    for word in words:
        name, separator, path = word.partition("=")
        if not separator:
            raise LabError(f"{word} is no image; NAME=PATH is")
        if not pathlib.Path(path).is_file():
            raise LabError(f"image {name}: there is no file {path}")
        images[name] = pathlib.Path(path)
        report_target(images[name], any_vlen, f"image {name}")
    return images


def image_refusal(name: str, code: str) -> str:
    """Return the message for an image that the machine refuses. name: the image's name; code: the code of its fault, after E09"""
    return f"the machine refuses {name} ({code}): {dict(read_table('image_faults')).get(code)}"


def segments_of(image: bytes) -> Iterator[tuple[int, str, int, bytes]]:
    """Yield each loaded segment of an image: its address, its permissions such as `rx`, its size in memory, and its bytes in the file.

    Raises struct.error if the program headers are cut off.
    """
    (table,), (size, count) = struct.unpack_from("<Q", image, 32), struct.unpack_from("<HH", image, 54)
    for at in range(table, table + size * count, size):
        kind, flags, offset, address, _, in_file, length = struct.unpack_from("<IIQQQQQ", image, at)
        if kind == PT_LOAD and length:
            yield address, rights_of(flags), length, image[offset : offset + in_file]


def digest_of(path: pathlib.Path) -> str:
    """Return the SHA-256 of a file, in hexadecimal digits."""
    return hashlib.sha256(path.read_bytes()).hexdigest()

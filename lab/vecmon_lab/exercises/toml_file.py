"""Read a TOML file from an untrusted author, within limits of its size and form, and show its values in one line."""

import pathlib
import re
import tomllib

from .. import LabError
from ..guest.entries import printable

TOML_BYTES = 1 << 20
MAX_KEY_PARTS = 32  # of a dotted key: the parser's time and memory grow with the square of their number
SHOWN_LETTERS = 200  # the longest value in a message

_PART = r"""(?:[\w-]++|"[^"\n]*+"|'[^'\n]*+')[ \t]*+"""
_LONG_KEY = re.compile(rf"(?<![\w-])(?:{_PART}\.[ \t]*+){{{MAX_KEY_PARTS}}}")


def read_toml(path: pathlib.Path) -> tuple[str, dict[str, object]]:
    """Return the text of a TOML file, and its top-level table. A byte order mark is ignored. Raises LabError and OSError."""
    if (size := path.stat().st_size) > TOML_BYTES:
        raise LabError(f"{path} has {size:,} bytes, and {TOML_BYTES:,} is the maximum")
    try:
        with path.open(encoding="utf-8-sig") as file:
            toml = file.read(TOML_BYTES + 1)
        if len(toml) > TOML_BYTES:  # also if the file has no size, as in /proc
            raise LabError(f"{path} has more than {TOML_BYTES:,} bytes, which is the maximum")
        if found := _LONG_KEY.search(toml):
            line = toml.count("\n", 0, found.start()) + 1
            raise LabError(f"{path}:{line}: a key has more than {MAX_KEY_PARTS} parts")
        return toml, tomllib.loads(toml)
    except RecursionError as error:
        raise LabError(f"{path}: lists or tables are nested too deeply") from error
    except (tomllib.TOMLDecodeError, UnicodeDecodeError) as error:
        raise LabError(f"{path}: {shown(error)}") from error
    except ValueError as error:  # int() raises it, because Python limits the number of digits
        raise LabError(f"{path}: a number has more than 4,300 digits") from error


def shown(value: object) -> str:
    """Return a value for a message: one line of at most SHOWN_LETTERS characters and `...`, without characters that control a terminal."""
    try:
        text = f"{value}"
    except ValueError:
        text = "a number of more than 4,300 digits"
    return printable(text if len(text) <= SHOWN_LETTERS else f"{text[:SHOWN_LETTERS]}...")

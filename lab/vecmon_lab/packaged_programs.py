"""The commands `vecmon` and `vecmon-record` of a Python package (tools/releasing/wheels).

Each command replaces its process with the program inside the package.
"""

import os
import sys
from typing import NoReturn

from .places import PROGRAMS


def run_vecmon() -> NoReturn:
    """Run vecmon with this process's arguments."""
    _become("vecmon")


def run_recorder() -> NoReturn:
    """Run vecmon-record with this process's arguments."""
    _become("vecmon-record")


def _become(name: str) -> NoReturn:
    os.execv(PROGRAMS / name, [name, *sys.argv[1:]])

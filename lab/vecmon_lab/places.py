"""Paths of files outside of the lab's own folder: in the clone or the Debian package around it, or inside a Python package."""

import pathlib

LAB = pathlib.Path(__file__).resolve().parent
IN_PACKAGE = LAB / "packaged"
"""The files inside a Python package, which tools/releasing/wheels builds.

They are those of share/vecmon in a Debian package, the programs and CodeMirror.
"""

IS_PYTHON_PACKAGE = IN_PACKAGE.is_dir()
TOP = IN_PACKAGE if IS_PYTHON_PACKAGE else LAB.parents[1]
"""The top folder of a clone, share/vecmon of a Debian package, or IN_PACKAGE in a Python package."""

PROGRAMS = TOP / "bin"
"""The programs in a Python package; a clone and a Debian package have no such folder."""

RELEASED = TOP / "programs"
"""In the source archive of a release: a folder of programs for each processor, with Debian's name for it (tools/package)."""

EXAMPLES = TOP / "lab" / "examples"
EXAMPLE_IMAGES = TOP / "tests" / "command_lines" / "data" / "images"  # of the examples in COMPILING.md
SITE = TOP / "site"
PROVENANCE = TOP / "PROVENANCE"
"""In a package: its version, the SHA-256 of both programs, and the proofs."""

CODEMIRROR = TOP / "codemirror"


def install_command(library: str) -> str:
    """Return the command that installs a Python library, by its name for pip."""
    if IS_PYTHON_PACKAGE:
        return f"python3 -m pip install {library}"
    return f"sudo apt install python3-{library.replace('_', '-')}"


def tools_advice(*packages: str) -> str:
    """Return how to install programs that aren't Python libraries. packages: the names of their Debian packages"""
    names = " ".join(packages)
    if IS_PYTHON_PACKAGE:
        return f"install {names} with the package manager of your system, since pip doesn't have them"
    return f"sudo apt install {names}"

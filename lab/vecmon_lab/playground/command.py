"""The command `vecmon-lab site`: copy the site with the playground, the tour, the course and the book (docs/PLAYGROUND.md)."""

import argparse
import pathlib
import shutil

from .. import LabError
from ..places import SITE

FIRST = ("index.html", "playground.html")  # a folder that has these files is a site


def add_arguments(parser: argparse.ArgumentParser) -> None:
    """Add the arguments of `vecmon-lab site` to its parser."""
    parser.add_argument("folder", metavar="DIR", type=pathlib.Path, help="a new or empty folder, or an earlier site")


def run(arguments: argparse.Namespace) -> int:
    """Copy the site, and print the paths of its first pages. Raises LabError and OSError."""
    folder = arguments.folder
    if not (SITE / FIRST[0]).is_file():
        raise LabError(f"there is no built site here: in a clone, run tools/site {folder}")
    if folder.exists() and any(folder.iterdir()) and not all((folder / name).is_file() for name in FIRST):
        raise LabError(f"{folder} has other files: name a new or empty folder, or an earlier site")
    shutil.rmtree(folder, ignore_errors=True)
    shutil.copytree(SITE, folder)
    for name in FIRST:
        print(folder / name)
    return 0

"""Copy the sources, images and scripts of the documents' examples into a folder, where the documents' commands can be run."""

import argparse
import pathlib
import shutil

from . import LabError
from .places import EXAMPLE_IMAGES, EXAMPLES, LAB

PLACES = {EXAMPLES: ".", EXAMPLE_IMAGES: ".", LAB / "lessons" / "tours": "tour"}
"""The folders of the examples. Each has the place of its copy, relative to the new folder."""

OTHERS = ("good", "short")  # images that only tests use, and no package has


def add_arguments(parser: argparse.ArgumentParser) -> None:
    """Add the argument of `vecmon-lab examples`."""
    parser.add_argument("folder", metavar="DIR", type=pathlib.Path, help="the new folder")


def run(arguments: argparse.Namespace) -> int:
    """Copy the examples into a new folder. Raises LabError if it exists, and OSError if it can't be written."""
    folder = arguments.folder
    if folder.exists():
        raise LabError(f"{folder} exists: name a new folder")
    for source, place in PLACES.items():
        if not source.is_dir():
            raise LabError(f"there is no folder {source}: a clone and the packages of vecmon have the examples")
        ignored = shutil.ignore_patterns("__pycache__", ".*", *OTHERS)
        shutil.copytree(source, folder / place, copy_function=shutil.copyfile, ignore=ignored, dirs_exist_ok=True)
    print(f"{folder}: the examples, in which the documents' commands run")
    return 0

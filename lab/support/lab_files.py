"""The files of the lab that packages have."""

import subprocess

from support.places import TOP

SITE_ALONE = "lab/vecmon_lab/playground/web/"
"""What only builds the site."""

CHECKED_ALONE = ("lab/vecmon_lab/package.json", ".d.ts")
"""Ends of the names of files that only checks of the sources read."""


def packaged_files(*folders: str) -> set[str]:
    """Return the paths of the lab's files in these folders of the repository, without those that no package needs."""
    command = ["git", "ls-files", *folders]
    listed = subprocess.run(command, cwd=TOP, capture_output=True, text=True, check=True).stdout.split("\n")
    files = {name for name in listed if (TOP / name).is_file()}
    return {name for name in files if not name.startswith(SITE_ALONE) and not name.endswith(CHECKED_ALONE)}

"""The images that machines of a class load. The class's folder has copies of them, from the time when the class began."""

import pathlib
import re
from collections.abc import Mapping

from ...machine.program import digest_of
from .damage import Damage
from .disk_files import replace_file, sync_folder
from .folder_lock import BadFolder


class ClassImages:
    """The copies in `images/`, by name. A digest is the SHA-256 of an image."""

    def __init__(self, folder: pathlib.Path, damage: Damage, is_reading: bool) -> None:
        """is_reading: whether the class is only read, so that no image is copied"""
        self._folder, self._damage, self._is_reading = folder / "images", damage, is_reading

    def digests(self) -> dict[str, str]:
        """Return the digests of the copies in the folder, by name."""
        return {path.stem: digest_of(path) for path in sorted(self._folder.glob("*.elf"))}

    def copy(self, images: Mapping[str, pathlib.Path]) -> dict[str, str]:
        """Copy images into the folder of a new class; return their digests, by name."""
        for name, path in images.items():
            replace_file(self._path(name), path.read_bytes())
        if images:
            sync_folder(self._folder)
        return {name: digest_of(self._path(name)) for name in images}

    def restore(self, digests: Mapping[str, str], given: Mapping[str, pathlib.Path]) -> dict[str, pathlib.Path]:
        """Return the paths of the copies with these digests, by name. A damaged or missing copy is made again from a given image.

        given: the images that are given now, by name. Images that can't be restored are reported as lost, and left out.
        """
        kept = (name for name, digest in digests.items() if self._restore(name, digest, given.get(name)))
        return {name: self._path(name) for name in kept}

    def _path(self, name: str) -> pathlib.Path:
        return self._folder / f"{name}.elf"

    def _restore(self, name: str, digest: str, image: pathlib.Path | None) -> bool:
        """Copy an image again if its copy is damaged or missing; return whether there is an undamaged copy afterwards."""
        path = self._path(name)
        if path.exists() and digest_of(path) == digest:
            return True
        state = f"damaged{self._damage.set_aside(f'images/{path.name}')}" if path.exists() else "lost"
        if self._is_reading or image is None:
            consequence = f"no machine loads it until the class is started with {name}=PATH"
            self._damage.report(f"images/{path.name} is {state}: {consequence}")
            return False
        replace_file(path, image.read_bytes())
        sync_folder(path.parent)
        self._damage.report(f"images/{path.name} was {state}: it is a copy of {image} now")
        return True


def check_image_names(names: Mapping[str, object]) -> None:
    """Raise BadFolder if the name of an image can't be the name of a file. names: the names are the keys"""
    for name in names:
        if not re.fullmatch(r"[A-Za-z0-9._-]{1,32}", name):
            raise BadFolder(f"image {name}: a name has 1 to 32 letters, digits, dots, underscores and hyphens")

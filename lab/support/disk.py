"""A disk whose power may be cut: it records what a server writes, flushes and renames, and makes the states that may be left.

The strictest reading of POSIX: until a file is flushed, any of its writes may be missing, or be there in part; until a folder
is flushed, any of its new names, renames and removals may be missing. Flushed data is there.
"""

import errno
import os
import pathlib
import random
from collections.abc import Callable
from dataclasses import dataclass, field
from typing import Any

Contents = dict[str, bytes]
"""Files of a folder by their names relative to it."""


@dataclass
class Inode:
    """A file without its name: what is on the disk, and the changes since, each a place with data, or a size with None."""

    number: int
    flushed: bytes = b""
    changes: list[tuple[int, bytes | None]] = field(default_factory=list)

    def contents(self, choose: Callable[[int], int]) -> bytes:
        """The contents after a cut. `choose` gets a change's bytes, or 1 for a new size; it returns those on disk."""
        data = bytearray(self.flushed)
        for place, written in self.changes:
            if written is None:
                if choose(1):
                    data[place:] = bytes(max(0, place - len(data)))
                continue
            if left := choose(len(written)):
                data.extend(bytes(max(0, place - len(data))))
                data[place : place + left] = written[:left]
        return bytes(data)

    def zeroed(self) -> bytes:
        """The contents after a cut that leaves the new size, and zeros in place of data that wasn't flushed."""
        data = bytearray(self.contents(every))
        for place, written in self.changes:
            data[place : place + len(written or b"")] = bytes(len(data[place : place + len(written or b"")]))
        return bytes(data)


def every(size: int) -> int:
    """Chooses that each change is left as a whole."""
    return size


def none(_: int) -> int:
    """Chooses that no change is left."""
    return 0


def any_of(drawn: random.Random) -> Callable[[int], int]:
    """Draws whether a change is left, is missing, or is torn."""
    return lambda size: drawn.choice([0, size, drawn.randint(0, size)])


class Disk:
    """The functions of `os` that write below a folder, recorded: it takes the place of `os` in the modules that write there.

    operations: their number so far; `before_each` is called before each one; flushes: whether `fsync` does anything
    failing: whether the flush of a file fails; as on Linux its data isn't on the disk then, and later flushes don't write it
    """

    def __init__(self, folder: pathlib.Path, flushes: bool = True) -> None:
        self.operations, self._flushes = 0, flushes
        self.failing: Callable[[str], bool] = lambda name: False
        self.before_each: Callable[[], object] = lambda: None
        self._folder = folder.resolve()
        self._names: dict[str, Inode] = {}  # that are on the disk
        # Changes of names since then: the folder, the name, and the file or folder that it names.
        self._changes: list[tuple[str, str, Inode | None]] = []
        self._files: dict[int, Inode] = {}
        self._folders: dict[int, str] = {}

    def __getattr__(self, name: str) -> Any:
        return getattr(os, name)

    def open(self, path: str | pathlib.Path, flags: int, mode: int = 0o777) -> int:
        """Opens a file or a folder; a file of another name is a new one."""
        name = self._name(path)
        is_new = flags & os.O_CREAT and not pathlib.Path(path).exists()
        if is_new:
            self._begin()
        file = os.open(path, flags, mode)
        if flags & os.O_DIRECTORY:
            self._folders[file] = name
        elif is_new:
            self._files[file] = Inode(self.operations)
            self._changes.append((str(pathlib.Path(name).parent), name, self._files[file]))
        else:
            self._files[file] = self._now()[name]
            if flags & os.O_TRUNC:
                self._begin()
                self._files[file].changes.append((0, None))
        return file

    def close(self, file: int) -> None:
        """Closes a file, which flushes nothing."""
        self._files.pop(file, None)
        self._folders.pop(file, None)
        os.close(file)

    def pwrite(self, file: int, data: bytes, place: int) -> int:
        """Writes."""
        self._begin()
        written = os.pwrite(file, data, place)
        self._files[file].changes.append((place, bytes(data[:written])))
        return written

    def ftruncate(self, file: int, size: int) -> None:
        """Sets the size."""
        self._begin()
        self._files[file].changes.append((size, None))
        os.ftruncate(file, size)

    def fsync(self, file: int) -> None:
        """Flushes a file or a folder."""
        self._begin()
        if not self._flushes:
            return
        if file in self._folders:
            folder = self._folders[file]
            for change in [each for each in self._changes if each[0] == folder]:
                _rename(self._names, *change[1:])
                self._changes.remove(change)
            return
        inode = self._files[file]
        if any(self.failing(name) for name, named in self._now().items() if named is inode):
            inode.changes = []
            raise OSError(errno.EIO, os.strerror(errno.EIO))
        inode.flushed, inode.changes = inode.contents(every), []

    def replace(self, old: pathlib.Path, new: pathlib.Path) -> None:
        """Renames a file: either both names change, or none does."""
        self._begin()
        source, target = self._name(old), self._name(new)
        inode = self._now()[source]
        self._changes.append((str(pathlib.Path(target).parent), target, inode))
        os.replace(old, new)

    rename = replace

    def unlink(self, path: pathlib.Path) -> None:
        """Removes a file."""
        self._begin()
        os.unlink(path)
        name = self._name(path)
        self._changes.append((str(pathlib.Path(name).parent), name, None))

    def states(self, draws: int, seed: int) -> list[Contents]:
        """States that a cut now may leave: no change since the flush, each one, and a drawn number of them."""
        drawn = random.Random(seed)
        chosen = [none, every, *(any_of(drawn) for _ in range(draws))]
        return [self._state(choose) for choose in chosen]

    WAYS = ("none", "all", "any", "torn prefix", "names without data", "data without names", "zeros")

    def states_by_way(self, seed: int) -> list[Contents]:
        """States that a cut now may leave, one for each of WAYS.

        none, all: of the changes since the flush; any: a drawn number of them, some torn; torn prefix: the first ones of the
        changes of names, and torn data; names without data and data without names: only the changes of one kind, and all of these;
        zeros: sizes without data, as a file system may leave that allocates late
        """
        drawn = random.Random(seed)
        prefix, count = drawn.randint(0, len(self._changes)), 0

        def first_names(_: int) -> int:
            nonlocal count
            count += 1
            return int(count <= prefix)

        states = [self._state(choose) for choose in (none, every, any_of(drawn))]
        pairs = [(first_names, any_of(drawn)), (every, none), (none, every)]
        states += [self._state(data, names) for names, data in pairs]
        return [*states, self._state(every, every, has_zeros=True)]

    def begin_with(self, contents: Contents) -> None:
        """Start with files that are on the disk."""
        self._names = {name: Inode(number, data) for number, (name, data) in enumerate(contents.items())}

    def check(self) -> None:
        """Raises AssertionError where the folder has something else than what was recorded: a write went past this disk."""
        there = {path.relative_to(self._folder).as_posix() for path in self._folder.rglob("*") if path.is_file()}
        now = self._now()
        assert {name: inode.contents(every) for name, inode in now.items() if name in there} == {
            name: (self._folder / name).read_bytes() for name in there
        }

    def _state(
        self, choose: Callable[[int], int], choose_names: Callable[[int], int] | None = None, has_zeros: bool = False
    ) -> Contents:
        """A state after a cut. choose, choose_names: choose changes of data and of names, the same by default

        has_zeros: whether files have the sizes of data that wasn't flushed, and zeros in its place
        """
        names = dict(self._names)
        for _folder, name, inode in self._changes:
            if (choose_names or choose)(1):
                _rename(names, name, inode)
        ordered = sorted(names.items(), key=lambda item: item[1].number)
        return {name: inode.zeroed() if has_zeros else inode.contents(choose) for name, inode in ordered}

    def _now(self) -> dict[str, Inode]:
        names = dict(self._names)
        for _folder, name, inode in self._changes:
            _rename(names, name, inode)
        return names

    def _name(self, path: str | pathlib.Path) -> str:
        return os.path.relpath(pathlib.Path(path).resolve(), self._folder)

    def _begin(self) -> None:
        self.before_each()
        self.operations += 1


def _rename(names: dict[str, Inode], name: str, inode: Inode | None) -> None:
    """Makes a name one of a file, which has no other one then; or removes it."""
    for old in [old for old, named in names.items() if named is inode]:
        del names[old]
    if inode is None:
        names.pop(name, None)
    else:
        names[name] = inode

"""Provides the libraries below crates, as `rt ci` proved them from the sources as they are. `tools/try_edits` uses it.

`rt ci` leaves libraries in crates/*/out/rlib, and stores them next to its kit. `rt ci NAME..` works on a copy of the crates and only stores
them. So the libraries in crates/*/out/rlib may be missing, or older than the sources.
"""

import hashlib
import json
import os
import shutil
from types import ModuleType
from typing import Any

from tools.building.linked_kit import cache, installed_kit


def proving_kit() -> str:
    """Return the folder of the copy of the kit with which tools/building/keep_modules proves, or of the installed kit if there is no
    copy."""
    copy = f"{cache()}/kit"
    return copy if os.path.isfile(f"{copy}/bin/rt") else installed_kit()


def provide(rt: ModuleType, crates: dict[str, Any], names: list[str]) -> list[str]:
    """Lay out the libraries below these crates in their folders `out`, by what `rt ci` stored. Returns the names of those that are lacking.

    A library that is there stays if it is the stored one, if `rt lib` or `rt check` built it from the sources as they are, or if nothing is
    stored for these.
    """
    rt.Crate.allowed = rt.handles_of(os.getcwd())  # a part of the keys of the store
    kept = rt.Kept(list(crates.values()))
    below = {it.name: it for name in names for it in crates[name].below()}
    return [name for name, crate in below.items() if not is_provided(kept, crate)]


def is_provided(kept: Any, crate: Any) -> bool:
    """Lay out a library, after those below it. Returns whether it is there."""
    key = kept.key(crate)
    stored = stored_sum(f"{kept.place(crate, False, key)}/made.json")
    kept.is_built(crate)
    if stored and stored != kept.rlibs[crate.name] and not crate.is_built():
        shutil.rmtree(os.path.dirname(crate.rlib), ignore_errors=True)
        kept.give(crate, False, key)
        kept.is_built(crate)
    return os.path.isfile(f"{crate.rlib}/format")


def stored_sum(file: str) -> str | None:
    """Return the sum of a stored library by the list of its files, as `rt` computes that of a library; None if nothing is stored."""
    try:
        with open(file, encoding="utf-8") as it:
            files = [(path, content) for path, content in json.load(it)["files"]]
    except (OSError, ValueError, KeyError, TypeError):
        return None
    return hashlib.sha256(repr(files).encode()).hexdigest()

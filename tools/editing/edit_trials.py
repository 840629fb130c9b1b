"""Tries the edits of a crate: together, alone, and by a check of the whole crate. `tools/try_edits` uses it."""

import tempfile
from collections.abc import Iterable
from dataclasses import dataclass
from pathlib import Path

from tools.editing.edit_checks import Check, Outcome, Prover, Result, refusal
from tools.editing.edit_plans import Edit, Function, batches, read_edit
from tools.editing.edit_stubs import MANY, stubs
from tools.editing.tried_edits import TriedEdits


@dataclass(frozen=True)
class Options:
    """How edits are shared among checks, as `tools/try_edits --help` says."""

    alone: bool = False
    apart: bool = False
    whole: bool = False
    anew: bool = False
    many: int = MANY  # of tools/editing/edit_stubs.py


@dataclass(frozen=True)
class Trial:
    """An edit, its result, and whether an earlier run tried it."""

    edit: Edit
    result: Result
    is_earlier: bool = False


class Trials:
    """Tries edits with a prover. Results of earlier runs are taken from a store."""

    def __init__(self, prover: Prover, store: TriedEdits, options: Options) -> None:
        self.prover, self.store, self.options = prover, store, options

    def of_crate(self, crate: str, paths: list[Path]) -> list[Trial]:
        """Try the edits of a crate in these files. Returns a trial of each, in this order."""
        edits, found = read_all(crate, paths)
        keys = {it.path: self.store.key(it, whole=self.options.whole) for it in edits}
        if not self.options.anew:
            for edit in edits:
                if (message := self.store.message(keys[edit.path])) is not None:
                    found[edit.path] = Trial(edit, Result(Outcome.REFUSED, message), is_earlier=True)
        for trial in self._new_trials([it for it in edits if it.path not in found]):
            path, key = trial.edit.path, keys[trial.edit.path]
            found[path] = trial
            is_same = path.is_file() and self.store.key(trial.edit, whole=self.options.whole) == key
            if trial.result.outcome is Outcome.REFUSED and is_same:
                self.store.store(key, trial.result.message)
        return [found[it] for it in paths]

    def _new_trials(self, edits: list[Edit]) -> Iterable[Trial]:
        """Try edits by their functions, and then those that aren't refused so by checks of the whole crate."""
        left = {it.path: it for it in edits}
        for trial in self._trials_by_function(lists_of(edits, self.options)):
            del left[trial.edit.path]
            yield trial
        for edit in left.values():
            result = self.prover.check_whole(edit)
            print(f"-- {edit.title}: a check of the whole crate: {result.outcome.value}", flush=True)
            yield Trial(edit, result)

    def _trials_by_function(self, lists: list[list[Edit]]) -> Iterable[Trial]:
        """Try each list of edits in one check or more. Yields the trials of refused edits."""
        with tempfile.TemporaryDirectory(prefix="try-edits-kept-") as room:
            kept = room if len(lists) > 1 else None  # one check needs nothing of an earlier one
            for edits in lists:
                refused = self._refused_of(edits, kept)
                yield from (Trial(it, refused[it.path]) for it in edits if it.path in refused)

    def _refused_of(self, edits: list[Edit], kept: str | None) -> dict[Path, Result]:
        """Try edits together without the bodies that they don't need, those that aren't refused so with all bodies, and then each alone."""
        refused, left = dict[Path, Result](), edits
        if cut := stubs(edits, self.options.many):
            refused = self._refused(edits, kept, cut)
            left = [it for it in edits if it.path not in refused]
        if left:
            refused |= self._refused(left, kept, [])
        if len(left) > 1:
            refused |= self._refused_alone([it for it in left if it.path not in refused], kept)
        return refused

    def _refused_alone(self, edits: list[Edit], kept: str | None) -> dict[Path, Result]:
        """Try each edit in a check of its own: in one check with others, a limit or an error of another one may hide its refusal."""
        refused: dict[Path, Result] = {}
        for edit in edits:
            refused |= self._refused([edit], kept, [])
        return refused

    def _refused(self, edits: list[Edit], kept: str | None, cut: list[Function]) -> dict[Path, Result]:
        """Try edits of one crate in one check, without the bodies of the functions in `cut`. Returns the results of those that are refused,
        by their files."""
        check = self.prover.check(edits, kept, cut)
        without = f" without the bodies of {', '.join(it.name for it in cut)}" if cut else ""
        print(f"-- {edits[0].crate}: {summary(check)}{without}: {', '.join(it.path.stem for it in edits)}", flush=True)
        refused: dict[Path, Result] = {}
        for edit in edits:
            if edit.function and (message := refusal(edit, check)):
                refused[edit.path] = Result(Outcome.REFUSED, f"{edit.function.name}: {message}")
        return refused


def read_all(crate: str, paths: list[Path]) -> tuple[list[Edit], dict[Path, Trial]]:
    """Read edits. Returns those that can be applied, and trials of the others."""
    edits, bad = [], {}
    for path in paths:
        try:
            edits.append(read_edit(crate, path))
        except ValueError as error:
            bad[path] = Trial(Edit(crate, path, {}, None), Result(Outcome.BAD, str(error)))
    return edits, bad


def lists_of(edits: list[Edit], options: Options) -> list[list[Edit]]:
    """Return the lists of edits that one check each tries by their functions."""
    by_function = [it for it in edits if it.function and not options.whole]
    return [[it] for it in by_function] if options.alone else batches(by_function, apart=options.apart)


def summary(check: Check) -> str:
    """Return what a check took, and the last line of what the prover printed if it judged nothing."""
    took = f"a check of {check.seconds:.1f} s of processor, {check.megabytes:,} MB"
    if check.status in (0, 1):
        return took
    last = check.text.rstrip().rpartition("\n")[2]
    return f"{took}, status {check.status}: {last[:300]}"

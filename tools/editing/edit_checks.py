"""Runs the prover on copies of a crate that have edits, and judges what it prints. `tools/try_edits` uses it.

`rattle check --only F` proves the function F, and those that it calls, from nothing. The prover goes on after a refusal, so one check
judges several edits. An edit counts as refused if the check ends by itself with status 1 and

1. the line of the edit's function is `fn F: not proved`, or says that a tactic found no proof of one of its goals; and
2. an error or an open goal is placed in this function, that is, in its lines of `src` or in the files of its own proof in `proofs/F`, and
   isn't about a name that is gone.

A function that only calls a refused one has the line `no proof: it calls F, which is not proved`, and no error of its own. So a harmless
edit next to a refused callee isn't counted. `rt must-fail` asks less: that any function of the crate is refused.
"""

import importlib.machinery
import importlib.util
import os
import re
import shutil
import signal
import subprocess
import sys
import tempfile
from collections.abc import Callable, Mapping, Sequence
from dataclasses import dataclass
from enum import Enum
from pathlib import Path
from types import ModuleType
from typing import Any, TypeVar

from tools.editing.edit_plans import Edit, Function, with_bodies
from tools.editing.edit_stubs import stub_body

Found = TypeVar("Found")
COPY = "try-edits-"  # how the names of the copies' folders begin
TITLES = "edits-of-this-copy"  # a file of a copy: the names of its edits, which tools/measuring/gate_times reads
LIMIT = re.compile(r"antt ran out of |outgrew the memory limit|stopped at the step limit")
VERDICT = re.compile(r"^fn (\S+): (.*)$", re.MULTILINE)
UNPROVED = re.compile(r"not proved|no proof: .* did not prove ")
PLACE = re.compile(r"^(?:note: )?(?:\./)?(?P<file>\S+?):(?P<line>\d+):\d+: (?:error|it is not proved).*$", re.MULTILINE)
HEADING = re.compile(r"^must-fail \S+: (refused, as it must be:?|[A-Z ]+:) ?")  # of a line of `rt`
NAME_GONE = re.compile(r"was not admitted|is not in scope|has no field|has no `")


class Outcome(Enum):
    """The result of trying an edit."""

    REFUSED = "refused"
    NOT_REFUSED = "NOT REFUSED"
    BAD = "BAD EDIT"  # it can't be applied, or the prover can't read or compile the edited text
    NOT_TRIED = "NOT TRIED"  # the prover was ended, or failed


@dataclass(frozen=True)
class Result:
    """The result of an edit, and the first message of the prover about it, or why there is none."""

    outcome: Outcome
    message: str


@dataclass(frozen=True)
class Check:
    """A run of the prover: its exit status, what it printed, its seconds of processor and its greatest memory in MB."""

    status: int
    text: str
    seconds: float
    megabytes: int


def load_rt(kit: str) -> ModuleType:
    """Load the kit's command `rt` as a module, with which its checks are run as `rt` runs them."""
    loader = importlib.machinery.SourceFileLoader("rt", f"{kit}/bin/rt")
    spec = importlib.util.spec_from_loader("rt", loader)
    assert spec
    module = importlib.util.module_from_spec(spec)
    sys.modules["rt"] = module
    loader.exec_module(module)
    return module


class Prover:
    """The prover of a kit, on the crates below the current folder, over their libraries in crates/*/out/rlib."""

    def __init__(self, kit: str) -> None:
        self.rt = load_rt(kit)
        self.rtlib = self.rt.rtlib
        self.rtlib.guarded()  # sets signal handlers, which only the main thread can
        self.crates = {str(it.name): it for it in self.rtlib.crates_below(os.getcwd())}

    def check(self, edits: list[Edit], kept: str | None, cut: Sequence[Function] = ()) -> Check:
        """Check the functions of a crate's edits in a copy that has them all. What the prover proves of others is kept in a folder, if one
        is given. The functions in `cut` have no body and no proof of their own in the copy. A run that the system ended, most likely for
        memory, is tried a second time."""
        crate = self.crates[edits[0].crate]
        with tempfile.TemporaryDirectory(prefix=COPY) as copy:
            for part in self.rtlib.PARTS:
                if os.path.isdir(f"{crate.folder}/{part}"):
                    shutil.copytree(f"{crate.folder}/{part}", f"{copy}/{part}")
            bodies = [(it.function, it.new_body) for it in edits if it.function]
            for path, text in with_bodies(bodies + [(it, stub_body(it)) for it in cut]).items():
                Path(copy, path).write_text(text, encoding="utf-8")
            for function in cut:
                shutil.rmtree(Path(copy, function.proof), ignore_errors=True)
            Path(copy, TITLES).write_text("".join(f"{it.path.stem}\n" for it in edits), encoding="utf-8")
            arguments = ["check", *crate.words(["--jobs", "1"], keeps=False)]
            arguments += [it for edit in edits if edit.function for it in ("--only", edit.function.name)]
            arguments += ["--incremental", kept] if kept else []
            found = self._run(arguments, copy)
            return found if found.status != -signal.SIGKILL else self._run(arguments, copy)

    def _run(self, arguments: list[str], folder: str) -> Check:
        with tempfile.TemporaryFile("w+", errors="replace") as out:
            command = [*self.rtlib.guarded(), self.rtlib.RATTLE, *arguments]
            with subprocess.Popen(
                command, cwd=folder, stdin=subprocess.DEVNULL, stdout=out, stderr=subprocess.STDOUT
            ) as ran:
                _, status, used = os.wait4(ran.pid, 0)
                ran.returncode = os.waitstatus_to_exitcode(status)
            out.seek(0)
            return Check(ran.returncode, out.read(), used.ru_utime + used.ru_stime, used.ru_maxrss // 1024)

    def check_whole(self, edit: Edit) -> Result:
        """Check the whole crate with an edit from nothing, and judge it, as `rt must-fail` does."""
        kind, text = self.rt.must_fail(self.crates[edit.crate], str(edit.path), ["--jobs", "1"])
        rt = self.rt
        outcomes = {rt.REFUSED: Outcome.REFUSED, rt.AT_LIMIT: Outcome.REFUSED, rt.MISSED: Outcome.NOT_REFUSED}
        outcomes |= {rt.BAD: Outcome.BAD, rt.UNSURE: Outcome.NOT_TRIED}
        return Result(outcomes[kind], HEADING.sub("", str(text).replace("\n", " ")))

    def side_by_side(self, calls: Mapping[str, Callable[[], Found]]) -> dict[str, Found]:
        """Run a call for each crate: one a processor, or RT_JOBS at a time, as many as memory holds by the kit's estimate, and those of
        long crates first. Returns what each call returned."""
        tasks: dict[tuple[str, str], tuple[Any, ...]] = {}
        for name, call in calls.items():
            crate = self.crates[name]
            needs = self.rt.need(crate)
            tasks[name, "edits"] = ([], crate.count(rb"\n"), needs, lambda given, jobs, call=call: call())
        return {name: it for (name, _), it in self.rt.in_lanes(tasks).items()}


def refusal(edit: Edit, check: Check) -> str | None:
    """Return the first error in an edit's own function, if the check refused this function for its own lines; otherwise None."""
    assert edit.function
    verdict = dict(VERDICT.findall(check.text)).get(f"{edit.crate}::{edit.function.name}", "")
    if check.status != 1 or LIMIT.search(check.text) or "error[" in check.text or not UNPROVED.match(verdict):
        return None
    own = (it for it in PLACE.finditer(check.text) if is_own(edit, it["file"], int(it["line"])))
    return next((it[0] for it in own if not NAME_GONE.search(it[0])), None)


def is_own(edit: Edit, file: str, line: int) -> bool:
    """Return whether a place belongs to an edit's function: to its lines in `src`, or to the files of its own proof."""
    function = edit.function
    assert function
    if file.startswith(f"{function.proof}/"):
        return True
    first, last = function.lines
    return function.item.path == Path("crates", edit.crate, file) and first <= line <= last

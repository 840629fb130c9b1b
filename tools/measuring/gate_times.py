"""Runs a command and prints the time of its proofs, crate by crate: `tools/measuring/gate_times OUT COMMAND...`, say
`tools/measuring/gate_times /tmp/times bash .ci/run` at the top of a fresh clone.

The file OUT gets a table in seconds of processor: each crate's own proof, with the compilation of a library; the compilation of each proved
program, by LLVM and by Rattle's own compiler; the proof of its tests; and the checks of its edits that must fail, with the
number of these checks. `tools/try_edits` tries several edits in one check. Of the edits in `must-fail`, which `rt ci` tries, the first one
of a crate takes as long as its proof, since the others use what it proved; the last check is of the crate without an edit. Below the table
are the seconds of each check of edits, the largest first. The last line has the processor time of the whole command, with its programs,
tests and compilers, and the time by the clock. Each process of the prover is observed twice a second, with the processes that it starts, so
the last half second of each may be missing above; the whole includes it.
"""

import contextlib
import os
import resource
import subprocess
import sys
import time
from collections import defaultdict
from dataclasses import dataclass, field
from pathlib import Path

from tools.editing.edit_checks import COPY, TITLES
from tools.editing.edit_clauses import files_of_edits
from tools.editing.edit_plans import edited_texts

TICKS_A_SECOND = os.sysconf("SC_CLK_TCK")
KINDS = ("proof", "LLVM", "Rattle's compiler", "tests", "edits")
BACKENDS = {"llvm": "LLVM", "rattle": "Rattle's compiler"}  # of `rattle build` for a program that is proved already


@dataclass
class Check:
    """One process of the prover: its crate, its purpose and the edits it tries."""

    crate: str
    kind: str
    edits: str
    reported: float = 0.0  # seconds of processor by its own record, which has the processes that it has waited for
    observed: dict[str, float] = field(default_factory=dict)  # seconds of each process below it, and its own

    @property
    def seconds(self) -> float:
        """Return its seconds of processor so far. Its record misses running processes; short ones may not be observed."""
        return max(self.reported, sum(self.observed.values()))


def kind_of(words: list[str], folder: str) -> str:
    """The purpose of a check, by its arguments and its working folder."""
    if os.path.basename(folder).startswith(("rt-edit-", COPY)):
        return "edits"
    if "--crate-checked" in words:
        return BACKENDS[words[words.index("--backend") + 1]]
    return "tests" if "--test" in words else "proof"


def edits_in(folder: str, crate: str) -> str:
    """Return the names of the edits that a check in this folder tries: those that the folder lists, as copies of tools/try_edits do, or
    the one whose texts the folder has; "no edit" if there is none."""
    if (titles := Path(folder, TITLES)).is_file():
        return ", ".join(titles.read_text(encoding="utf-8").split())
    for edit in files_of_edits(crate):
        texts = edited_texts(edit)
        if all(Path(folder, path).read_text(encoding="utf-8") == text for path, text in texts.items()):
            return edit.stem
    return "no edit"


def all_fields() -> dict[str, list[str]]:
    """The fields of each process, from its state on (proc(5), "stat")."""
    found: dict[str, list[str]] = {}
    for process in filter(str.isdigit, os.listdir("/proc")):
        with contextlib.suppress(OSError):  # it has ended meanwhile
            found[process] = Path("/proc", process, "stat").read_text(encoding="utf-8").rpartition(")")[2].split()
    return found


def words_of(process: str) -> list[str]:
    """The arguments of a process of the prover; none for any other process."""
    with open(f"/proc/{process}/cmdline", encoding="utf-8", errors="replace") as it:
        program, *words = it.read().rstrip("\0").split("\0")
    return words if os.path.basename(program) == "rattle" and "--crate-name" in words else []


def prover_of(process: str, root: str, fields: dict[str, list[str]]) -> str | None:
    """Return the prover that a process belongs to: the highest one above it, or itself; None if it has none, or isn't the command's."""
    above = []
    while process != root:
        if process not in fields:
            return None
        above.append(process)
        process = fields[process][1]
    return next((it for it in reversed(above) if words_of(it)), None)


def look_at(process: str, root: str, fields: dict[str, list[str]], checks: dict[str, Check]) -> None:
    """Note what a process has taken so far, if it is one of the command's provers or a process that one of them started."""
    prover = prover_of(process, root, fields)
    if not prover:
        return
    name = f"{prover} {fields[prover][19]}"  # its number and when it began, since numbers are used again
    if name not in checks:
        words, folder = words_of(prover), os.readlink(f"/proc/{prover}/cwd")
        crate, kind = words[words.index("--crate-name") + 1], kind_of(words, folder)
        checks[name] = Check(crate, kind, edits_in(folder, crate) if kind == "edits" else "")
    ticks = [int(it) for it in fields[process][11:15]]
    checks[name].observed[f"{process} {fields[process][19]}"] = sum(ticks[:2]) / TICKS_A_SECOND
    if process == prover:
        checks[name].reported = sum(ticks) / TICKS_A_SECOND


def table(checks: list[Check]) -> str:
    """A line a crate, with the most first."""
    taken: dict[str, dict[str, float]] = defaultdict(lambda: dict.fromkeys(KINDS, 0.0))
    edits: dict[str, int] = defaultdict(int)
    for check in checks:
        taken[check.crate][check.kind] += check.seconds
        edits[check.crate] += check.kind == "edits"
    lines = ["| crate | " + " | ".join(KINDS) + " | checks of edits | all |", "|---" * (len(KINDS) + 3) + "|"]
    for crate, seconds in sorted(taken.items(), key=lambda it: -sum(it[1].values())):
        columns = [f"{seconds[kind]:.0f}" for kind in KINDS]
        lines.append(f"| `{crate}` | {' | '.join(columns)} | {edits[crate]} | {sum(seconds.values()):.0f} |")
    sums = [sum(seconds[kind] for seconds in taken.values()) for kind in KINDS]
    lines.append(f"| all | {' | '.join(f'{it:.0f}' for it in sums)} | {sum(edits.values())} | {sum(sums):.0f} |")
    return "\n".join(lines)


def edit_lines(checks: list[Check]) -> str:
    """A line a check of edits, with the dearest first."""
    taken: dict[str, float] = defaultdict(float)
    for check in checks:
        if check.edits:
            taken[f"{check.crate} {check.edits}"] += check.seconds
    return "".join(f"{seconds:6.1f} {edits}\n" for edits, seconds in sorted(taken.items(), key=lambda it: -it[1]))


def main(out: str, command: list[str]) -> int:
    checks: dict[str, Check] = {}
    started = time.monotonic()
    with subprocess.Popen(command) as running:
        while running.poll() is None:
            fields = all_fields()
            for process in fields:
                with contextlib.suppress(OSError, ValueError):  # it has ended meanwhile
                    look_at(process, str(running.pid), fields, checks)
            time.sleep(0.5)
    used = resource.getrusage(resource.RUSAGE_CHILDREN)
    minutes = [(used.ru_utime + used.ru_stime) / 60, (time.monotonic() - started) / 60]
    with open(out, "w", encoding="utf-8") as it:
        it.write(f"{table(list(checks.values()))}\n\n{edit_lines(list(checks.values()))}\n")
        it.write(
            f"{minutes[0]:.1f} minutes of processor in all, {minutes[1]:.1f} by the clock; status {running.returncode}\n"
        )
    return running.returncode


if __name__ == "__main__":
    if len(sys.argv) < 3:
        sys.exit(__doc__)
    sys.exit(main(sys.argv[1], sys.argv[2:]))

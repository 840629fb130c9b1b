"""Tries edits of a small example with the prover: `tools/try_edits --self-test`.

Two wrong edits must be refused: of a function, and of a caller of another one, which has no body in the copy. A harmless edit of a caller of
both, whose proof the prover then lacks, mustn't. The test isn't run again while it passed with the same kit and the same tools.
"""

import contextlib
import hashlib
import tempfile
from pathlib import Path

from tools.editing.edit_checks import Outcome, Prover
from tools.editing.edit_plans import read_edit
from tools.editing.edit_trials import Options, Trials
from tools.editing.tried_edits import TriedEdits

CRATE = "sums"
SOURCE = """\
// Functions; two of them call others.
#![tactic(auto)]

ghost use Rattle.std.specs.Prelude.{◌≡◌, ◌≤◌, ◌+◌};

pub fn next(number: u8) -> u8
    requires { number ≤ 200 }
    ensures { result ≡ number + 1 }
{
    number + 1
}

pub fn next_but_one(number: u8) -> u8
    requires { number ≤ 199 }
    ensures { result ≡ number + 2 }
{
    next(next(same(number)))
}

pub fn same(number: u8) -> u8
    ensures { result ≡ number }
{
    number
}

pub fn previous(number: u8) -> u8
    requires { 1 ≤ number }
    ensures { result + 1 ≡ number }
{
    same(number) - 1
}
"""
WRONG = "file: src/lib.rt\nold:     number + 1\nnew:     number + 3\n"
WRONG_CALLER = "file: src/lib.rt\nold:     same(number) - 1\nnew:     same(number)\n"
HARMLESS = "file: src/lib.rt\nold:     next(next(same(number)))\nnew:     next(next(same(number + 0)))\n"
EXPECTED = {"harmless": Outcome.NOT_REFUSED, "wrong": Outcome.REFUSED, "wrong-caller": Outcome.REFUSED}


def write_example(top: Path) -> list[Path]:
    """Write the example's crate. Returns the files of its edits."""
    folder = top / "crates" / CRATE
    edits = {"harmless": HARMLESS, "wrong": WRONG, "wrong-caller": WRONG_CALLER}
    files = {"src/lib.rt": SOURCE} | {f"edits/{name}.edit": text for name, text in edits.items()}
    for path, text in files.items():
        (folder / path).parent.mkdir(parents=True, exist_ok=True)
        (folder / path).write_text(text, encoding="utf-8")
    (top / "crates.txt").write_text(f"{CRATE}:\n", encoding="utf-8")
    return [Path("crates", CRATE, it) for it in files if it.startswith("edits/")]


def self_test(kit: str) -> int:
    """Try the example's edits, and print whether each came to what it must. Returns the exit status."""
    with tempfile.TemporaryDirectory(prefix="try-edits-self-test-") as top, contextlib.chdir(top):
        paths = write_example(Path(top))
        prover = Prover(kit)
        store = TriedEdits(prover)
        keys = [store.key(read_edit(CRATE, it), whole=False) for it in paths]
        key = hashlib.sha256("".join(keys).encode()).hexdigest()
        if store.message(key):
            print("tools/try_edits: the self-test passed in an earlier run")
            return 0
        is_right = try_example(prover, paths)
        if is_right:
            store.store(key, "the self-test passed")
    print(f"tools/try_edits: the self-test {'passed' if is_right else 'FAILED'}")
    return 0 if is_right else 1


def try_example(prover: Prover, paths: list[Path]) -> bool:
    """Try the example's edits without stored results. Returns whether each came to what it must."""
    trials = Trials(prover, TriedEdits(prover, Path("tried")), Options(many=1)).of_crate(CRATE, paths)
    for it in trials:
        expected = EXPECTED[it.edit.path.stem].value
        print(f"{it.edit.title}: {it.result.outcome.value}, expected: {expected}: {it.result.message[:200]}")
    return {it.edit.path.stem: it.result.outcome for it in trials} == EXPECTED

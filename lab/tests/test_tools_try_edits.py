"""tools/try_edits: the functions of edits, which edits share a check, which count as refused, and what is stored.

The prover's output is recorded from runs of the kit over the example of `tools/try_edits --self-test`, which stage 2 of tools/test runs.
"""

import hashlib
import json
import pathlib
import shutil
import stat
import subprocess
import types
from collections.abc import Sequence
from typing import Any

import pytest

from support.places import TOP
from tools.checks import check_edits
from tools.editing import edit_clauses, edit_libraries, edit_self_test, try_edits
from tools.editing.edit_checks import Check, Outcome, Prover, Result, refusal
from tools.editing.edit_plans import Edit, Function, batches, joined, name_of_impl, read_edit, with_bodies
from tools.editing.edit_self_test import CRATE, EXPECTED, write_example
from tools.editing.edit_stubs import stub_body, stubs
from tools.editing.edit_trials import Options, Trial, Trials
from tools.editing.tried_edits import TriedEdits
from tools.measuring import gate_times

TOOL = TOP / "tools" / "try_edits"
OPEN = "note: src/lib.rt:6:1: it is not proved that what the function ensures holds when it returns (`returns`)"
NO_PROOF = "fn sums::next: no proof: expected answers in ./proofs/next/Answers.antt; `search` did not prove `returns`"
CALLS = "fn sums::next_but_one: no proof: it calls `sums::next`, which is not proved"
BOTH = Check(1, f"{OPEN}\n{NO_PROOF}\n{CALLS}\nonly=2 proved=0\n", 16.9, 653)
OPEN_CALLER = "note: src/lib.rt:26:1: it is not proved that what the function ensures holds when it returns (`returns`)"
NO_PROOF_OF_CALLER = (
    "fn sums::previous: no proof: expected answers in ./proofs/previous/Answers.antt; `search` did not prove `returns`; "
    "it calls `sums::same`, which is not proved"
)
ALL = Check(1, f"{OPEN}\n{NO_PROOF}\n{CALLS}\n{OPEN_CALLER}\n{NO_PROOF_OF_CALLER}\nonly=4 proved=0\n", 17.6, 672)
HARMLESS = Check(0, "fn sums::next: proved\nfn sums::next_but_one: proved\nonly=2 proved=2\n", 11.0, 637)
BAD = Check(1, "src/lib.rt:10:5: error[unknown-name]: cannot find value `nothing` in this scope\n", 0.5, 100)

SOURCE = """\
// A crate with a constant, functions that use one another, and a trait.
#![tactic(auto)]

const STEP: u8 = 1;

/// The number after this one.
#[tactic(auto, using(
    crate::proofs::sums::next))]
pub fn next(number: u8) -> u8
    requires { number ≤ 200 }
    ensures { result ≡ number + 1 }
{
    let step = STEP;
    number + step
}

#[tactic(auto)]
pub fn next_but_one(number: u8) -> u8
    requires { number ≤ 199 }
    ensures { result ≡ number + 2 }
{
    next(next(number))
}

pub trait Twice {
    fn twice(&self) -> u16;
}

impl Twice for Counter {
    fn twice(&self) -> u16 {
        2 * self.count
    }
}
"""


@pytest.fixture
def example(tmp_path: pathlib.Path, monkeypatch: pytest.MonkeyPatch) -> list[pathlib.Path]:
    """A folder with the example of the self-test, in which the test runs. Two of its edits: the harmless one, and a wrong one."""
    monkeypatch.chdir(tmp_path)
    edit_clauses.items.cache_clear()
    *found, caller = write_example(tmp_path)
    caller.unlink()
    return found


@pytest.fixture
def source(example: list[pathlib.Path]) -> pathlib.Path:
    """The same folder, with SOURCE in the example's file."""
    file = pathlib.Path("crates", CRATE, "src/lib.rt")
    file.write_text(SOURCE, encoding="utf-8")
    return file


def edit_with(*pairs: tuple[str, str], name: str = "new") -> Edit:
    """An edit of the example that replaces these texts."""
    path = pathlib.Path("crates", CRATE, "edits", f"{name}.edit")
    lines = [f"old: {old}\nnew: {new}\n" for old, new in pairs]
    path.write_text("".join(["file: src/lib.rt\n", *lines]), encoding="utf-8")
    return read_edit(CRATE, path)


class FakeProver(Prover):
    """A prover that returns recorded checks, by the names of the edits that it checks together, and notes these."""

    def __init__(self, checks: dict[str, Check]) -> None:
        self.checks, self.calls = checks, list[str]()
        self.crates = {CRATE: types.SimpleNamespace(below=lambda: [])}
        self.rt = types.ModuleType("rt")
        setattr(self.rt, "own_sum", lambda crate: pathlib.Path("crates.txt").read_text(encoding="utf-8"))

    def check(self, edits: list[Edit], kept: str | None, cut: Sequence[Function] = ()) -> Check:
        name = " ".join(it.path.stem for it in edits)
        self.calls.append(name + "".join(f" without {it.name}" for it in cut))
        return self.checks[name]

    def check_whole(self, edit: Edit) -> Result:
        self.calls.append(f"whole {edit.path.stem}")
        return Result(EXPECTED.get(edit.path.stem, Outcome.BAD), "of the whole crate")


def tried(prover: Prover, paths: list[pathlib.Path], options: Options = Options()) -> list[Trial]:
    return Trials(prover, TriedEdits(prover, pathlib.Path("tried")), options).of_crate(CRATE, paths)


def test_edit_of_body_has_its_function(source: pathlib.Path) -> None:
    function = edit_with(("    number + step", "    number + 3")).function
    assert function and function.name == "next"
    assert function.lines == (6, 15)  # from its comment to its closing brace, counted in SOURCE
    function = edit_with(("        2 * self.count", "        self.count")).function
    assert function and function.name == "CounterTwice::twice" and function.lines == (30, 32)


def test_method_is_in_the_module_of_its_type(source: pathlib.Path) -> None:
    source.with_name("counters.rt").write_text("pub struct Counter {\n    count: u16,\n}\n", encoding="utf-8")
    methods = "impl Counter {\n    fn thrice(&self) -> u16 {\n        3 * self.count\n    }\n}\n"
    source.write_text(f"{SOURCE}\n{methods}", encoding="utf-8")
    edit = edit_with(("        3 * self.count", "        2 * self.count + 1"))
    assert edit.function and edit.function.name == "counters::Counter::thrice"


@pytest.mark.parametrize(
    "head, name",  # as checks of devices, lane_arith and vec_unit print them, and as the folders of their proofs are named
    [
        ("impl Lane for u8 {", "U8Lane"),
        ("impl From<AllocError> for ReadFault {", "ReadFaultFromAllocError"),
        ("impl<R: Files + Input> Inputs for R {", "AnyInputs"),
        ("impl<'a, S: io::Write> Sink for WriterSink<'a, S> {", "WriterSinkSink"),
        ("impl TwoWidths for WithSources<WithRounding<ClipOp>> {", "WithSourcesWithRoundingClipOpTwoWidths"),
        ("impl<C: CombineTo<L>, L: Lane> fmt::Display for lanes::Total<C, L> where C: Copy {", "TotalDisplay"),
    ],
)
def test_name_of_a_trait_implementation(head: str, name: str) -> None:
    assert name_of_impl(head) == name


@pytest.mark.parametrize(
    "pair",
    [
        ("const STEP: u8 = 1;", "const STEP: u8 = 2;"),
        ("requires { number ≤ 199 }", "requires { number ≤ 99 }"),
        ("    crate::proofs::sums::next))]", "    crate::proofs::sums::other))]"),
        ("#[tactic(auto)]", "#[tactic(auto, using(crate::proofs::sums::other))]"),  # it follows the body of `next`
        ("    fn twice(&self) -> u16;", "    fn twice(&self) -> u32;"),
    ],
)
def test_edit_of_anything_else_has_no_function(source: pathlib.Path, pair: tuple[str, str]) -> None:
    assert edit_with(pair).function is None


def test_edit_of_two_functions_has_none(source: pathlib.Path) -> None:
    assert edit_with(("number + step", "number + 3"), ("next(next(number))", "next(number)")).function is None


def test_edit_with_a_text_that_is_twice_is_refused(source: pathlib.Path) -> None:
    with pytest.raises(ValueError, match=r"occurs 2 times in src/lib.rt: pub fn next"):
        edit_with(("pub fn next", "pub fn other"))


def test_edits_of_different_functions_share_a_check(source: pathlib.Path) -> None:
    callee = edit_with(("number + step", "number + 3"), name="callee")
    other = edit_with(("let step = STEP;", "let step = 2;"), name="other")
    caller = edit_with(("next(next(number))", "next(number)"), name="caller")
    assert batches([callee, other, caller]) == [[callee, caller], [other]]
    assert batches([callee, other, caller], apart=True) == [[callee], [other], [caller]]
    by_hand = SOURCE.replace("number + step", "number + 3").replace("next(next(number))", "next(number)")
    assert joined([callee, caller]) == {"src/lib.rt": by_hand}


def test_functions_that_only_edited_ones_call_have_no_body(source: pathlib.Path) -> None:
    caller = edit_with(("next(next(number))", "next(number)"), name="caller")
    callee = edit_with(("number + step", "number + 3"), name="callee")
    (cut,) = stubs([caller], many=2)  # `next` and the constant that it uses
    assert cut.name == "next" and stubs([caller], many=3) == stubs([caller, callee], many=1) == []
    by_hand = "{\n    unreachable!()\n\n}"  # as many lines as before
    texts = with_bodies([(cut, stub_body(cut))])
    assert texts == {"src/lib.rt": SOURCE.replace("{\n    let step = STEP;\n    number + step\n}", by_hand)}
    method = edit_with(("2 * self.count", "self.count")).function  # whose head has the opening brace
    assert method
    by_hand = SOURCE.replace("        2 * self.count\n    }", "    unreachable!()\n}")
    assert with_bodies([(method, stub_body(method))]) == {"src/lib.rt": by_hand}
    source.write_text(SOURCE.replace("pub fn next(", "pub const fn next("), encoding="utf-8")
    edit_clauses.items.cache_clear()
    assert stubs([edit_with(("next(next(number))", "next(number)"))], many=1) == []


def test_edit_that_is_not_refused_without_other_bodies_is_tried_with_them(example: list[pathlib.Path]) -> None:
    prover = FakeProver({"harmless": Check(1, f"{CALLS}\nonly=1 proved=0\n", 1.0, 1)})
    tried(prover, example[:1], Options(many=1))
    assert prover.calls == ["harmless without next without same", "harmless", "whole harmless"]


def test_harmless_edit_of_a_caller_of_a_refused_function_is_not_refused(example: list[pathlib.Path]) -> None:
    harmless, wrong = (read_edit(CRATE, it) for it in example)
    assert refusal(wrong, BOTH) == OPEN
    assert refusal(harmless, BOTH) is None
    assert refusal(harmless, HARMLESS) is None


@pytest.mark.parametrize(
    "status, text",
    [
        (3, f"{OPEN}\n{NO_PROOF}\nantt ran out of the steps that the check of one declaration may take\n"),
        (1, f"{OPEN}\n{NO_PROOF}\nsrc/lib.rt:20:5: error[unknown-name]: cannot find value `nothing` in this scope\n"),
        (1, f"{OPEN}\n{NO_PROOF}\nsrc/lib.rt:20:1: the check stopped at the step limit\n"),
        (1, f"{OPEN}\nfn sums::next: could not tell\n"),
        (1, f"{OPEN}\nfn sums::next: no proof: it calls `sums::other`, which is not proved\n"),
        (1, f"{OPEN.replace(':6:', ':13:')}\n{NO_PROOF}\n"),  # in next_but_one
        (1, f"proofs/next_but_one/Answers.antt:6:5: error: expected a term\n{NO_PROOF}\n"),
        (1, "proofs/next/Answers.antt:6:5: error: `goal.sum` is not in scope\nfn sums::next: not proved\n"),
        (-9, f"{OPEN}\n{NO_PROOF}\n"),
    ],
)
def test_what_does_not_count_as_refused(example: list[pathlib.Path], status: int, text: str) -> None:
    assert refusal(read_edit(CRATE, example[1]), Check(status, text, 1.0, 1)) is None


def test_error_in_the_own_proof_counts(example: list[pathlib.Path]) -> None:
    line = "proofs/next/Answers.antt:6:5: error: `rw` finds nothing to rewrite"
    assert refusal(read_edit(CRATE, example[1]), Check(1, f"{line}\nfn sums::next: not proved\n", 1.0, 1)) == line


def test_edit_that_is_not_refused_is_tried_alone_and_then_whole(example: list[pathlib.Path]) -> None:
    prover = FakeProver({"harmless wrong": BOTH, "harmless": HARMLESS})
    trials = tried(prover, example)
    assert [it.result.outcome for it in trials] == [Outcome.NOT_REFUSED, Outcome.REFUSED]
    assert prover.calls == ["harmless wrong", "harmless", "whole harmless"]
    assert trials[1].result.message == f"next: {OPEN}"


def test_options_share_edits_among_checks(example: list[pathlib.Path]) -> None:
    wrong = Check(1, f"{OPEN}\n{NO_PROOF}\nonly=1 proved=0\n", 1.0, 1)
    for options in (Options(alone=True, anew=True), Options(apart=True, anew=True)):
        prover = FakeProver({"harmless": HARMLESS, "wrong": wrong})
        tried(prover, example, options)
        assert prover.calls == ["harmless", "wrong", "whole harmless"]
    prover = FakeProver({})
    tried(prover, example, Options(whole=True))
    assert prover.calls == ["whole harmless", "whole wrong"]


def test_bad_edits_fail(example: list[pathlib.Path]) -> None:
    mistyped = edit_with(("    number + 1", "    nothing + 1"), name="mistyped").path
    example[0].write_text("file: src/lib.rt\nold: number + 5\nnew: number\n", encoding="utf-8")
    prover = FakeProver({"mistyped": BAD})
    outcomes = [it.result for it in tried(prover, [example[0], mistyped])]
    assert outcomes[0] == Result(Outcome.BAD, "the text after `old:` occurs 0 times in src/lib.rt: number + 5")
    assert outcomes[1].outcome is Outcome.BAD
    assert prover.calls == ["mistyped", "whole mistyped"]


def test_refused_edits_are_stored_until_something_changes(example: list[pathlib.Path]) -> None:
    checks = {"harmless wrong": BOTH, "harmless": HARMLESS, "wrong": BOTH}
    tried(FakeProver(checks), example)
    prover = FakeProver(checks)
    assert [it.is_earlier for it in tried(prover, example)] == [False, True]
    assert prover.calls == ["harmless", "whole harmless"]
    example[1].write_text(example[1].read_text(encoding="utf-8").replace("+ 3", "+ 4"), encoding="utf-8")
    assert [it.is_earlier for it in tried(FakeProver(checks), example)] == [False, False]
    # The fake computes the crate's sum from this file.
    pathlib.Path("crates.txt").write_text("sums: arrayvec\n", encoding="utf-8")
    assert [it.is_earlier for it in tried(FakeProver(checks), example)] == [False, False]
    assert [it.is_earlier for it in tried(FakeProver(checks), example, Options(anew=True))] == [False, False]
    whole = tried(prover := FakeProver(checks), example, Options(whole=True))
    assert not any(it.is_earlier for it in whole) and prover.calls == ["whole harmless", "whole wrong"]


def test_store_is_private_and_can_be_missing(example: list[pathlib.Path]) -> None:
    folder = pathlib.Path("tried")
    folder.mkdir(mode=0o777)
    store = TriedEdits(FakeProver({}), folder)
    assert stat.S_IMODE(folder.stat().st_mode) == 0o700
    store.store("key", "a message")
    assert store.message("key") == "a message" and store.message("other") is None
    pathlib.Path("link").symlink_to(folder)  # the owner of a link can change its target
    for place in (pathlib.Path("link"), example[0]):
        none = TriedEdits(FakeProver({}), place)
        none.store("key", "a message")
        assert none.folder is None and none.message("key") is None


def test_changed_library_makes_results_void(example: list[pathlib.Path], tmp_path: pathlib.Path) -> None:
    def key(content: str) -> str:
        rlib = tmp_path / content / "low.rlib"
        rlib.mkdir(parents=True)
        (rlib / "format").write_text(content, encoding="utf-8")
        prover = FakeProver({})
        prover.crates[CRATE].below = lambda: [types.SimpleNamespace(name="low", rlib=str(rlib))]
        return TriedEdits(prover, pathlib.Path("tried")).key(read_edit(CRATE, example[1]), whole=False)

    assert key("one") != key("two")


def test_edits_that_check_edits_refuses(source: pathlib.Path) -> None:
    good = edit_with(("number + step", "number + 3")).path
    constant = edit_with(("const STEP: u8 = 1;", "const STEP: u8 = 2;"), name="constant").path
    noted = constant.with_name("notes.txt")
    assert check_edits.fault_of(good) is None
    assert check_edits.fault_of(constant) == (
        "it doesn't change the body of one function only: split it, or move it to must-fail"
    )
    assert "its name doesn't end in .edit" in str(check_edits.fault_of(noted))
    moved = pathlib.Path("crates", CRATE, "must-fail")
    moved.mkdir()
    assert check_edits.fault_of(constant.rename(moved / constant.name)) is None


def test_times_of_checks_name_their_edits(tmp_path: pathlib.Path) -> None:
    (tmp_path / "edits-of-this-copy").write_text("harmless\nwrong\n", encoding="utf-8")
    assert gate_times.edits_in(str(tmp_path), CRATE) == "harmless, wrong"
    assert gate_times.kind_of(["check"], "/tmp/try-edits-abc") == "edits"
    build = ["build", "--crate-name", CRATE, "--crate-checked", "checked", "--backend"]
    assert [gate_times.kind_of([*build, it], "/") for it in ("llvm", "rattle")] == ["LLVM", "Rattle's compiler"]


def command(*arguments: str) -> tuple[int, str]:
    """The status of the tool in the current folder, and its last line."""
    ran = subprocess.run([TOOL, *arguments], capture_output=True, text=True, check=False)
    return ran.returncode, (ran.stdout + ran.stderr).rstrip().rpartition("\n")[2]


def test_command_line(example: list[pathlib.Path]) -> None:
    assert command("--plan") == (0, "edits: 2; crates: 1; checks: 1")
    assert command("--plan", "--alone", CRATE) == (0, "edits: 2; crates: 1; checks: 2")
    assert command("--plan", "--whole", "--edit", "wrong") == (0, "edits: 1; crates: 1; checks: 1")
    error = "tools/try_edits: error: "
    assert command("low") == (2, f"{error}crates/low/edits has no edits: write the name of a crate that has some")
    assert command("--edit", "worng") == (2, f"{error}no edit worng in crates/*/edits")
    assert command("--together") == (2, f"{error}unrecognized arguments: --together")
    for path in example:
        path.unlink()
    assert command() == (2, f"{error}there are no edits in crates/*/edits: run it at the top of the repository")


def test_counts_and_status(example: list[pathlib.Path], capsys: pytest.CaptureFixture[str]) -> None:
    trials = tried(FakeProver({"harmless wrong": BOTH, "harmless": HARMLESS}), example)
    capsys.readouterr()
    assert try_edits.print_results(trials) == 1
    assert capsys.readouterr().out.split("\n")[-3:] == [
        "FAILED: sums/harmless",
        "tools/try_edits: refused edits: 1 of 2; crates: 1; refused in earlier runs: 0",
        "",
    ]
    assert try_edits.print_results(trials[1:]) == 0
    assert capsys.readouterr().out == (
        f"sums/wrong: refused: next: {OPEN}\n"
        "tools/try_edits: refused edits: 1 of 1; crates: 1; refused in earlier runs: 0\n"
    )


def test_example_that_passes_wrongly_is_noticed(
    example: list[pathlib.Path], capsys: pytest.CaptureFixture[str]
) -> None:
    paths, together = write_example(pathlib.Path.cwd()), "harmless wrong wrong-caller"
    prover = FakeProver({together: ALL, "harmless": HARMLESS})
    assert edit_self_test.try_example(prover, paths)
    assert prover.calls == [f"{together} without same", "harmless", "whole harmless"]
    shutil.rmtree("tried")
    careless = Check(
        1, f"{ALL.text}{OPEN.replace(':6:', ':13:')}\n{NO_PROOF.replace('next:', 'next_but_one:')}\n", 1, 1
    )
    assert not edit_self_test.try_example(FakeProver({together: careless}), paths)
    assert "sums/harmless: refused, expected: NOT REFUSED: " in capsys.readouterr().out


class FakeStore:
    """The store of `rt ci`, with one library, whose only file has a text."""

    def __init__(self, text: str | None) -> None:
        self.text, self.rlibs, self.given = text, dict[str, str](), 0
        if text is not None:
            files = [("rlib/low.rlib/format", hashlib.sha256(text.encode()).hexdigest())]
            pathlib.Path("made.json").write_text(json.dumps({"files": files}), encoding="utf-8")

    def key(self, crate: Any) -> str:
        return "key"

    def place(self, crate: Any, tests: bool, key: str) -> str:
        return "."

    def is_built(self, crate: Any) -> None:
        file = pathlib.Path(crate.rlib, "format")
        content = [("rlib/low.rlib/format", hashlib.sha256(file.read_bytes()).hexdigest())] if file.is_file() else []
        self.rlibs[crate.name] = hashlib.sha256(repr(content).encode()).hexdigest()

    def give(self, crate: Any, tests: bool, key: str) -> None:
        self.given += 1
        assert self.text is not None
        pathlib.Path(crate.rlib).mkdir(parents=True)
        pathlib.Path(crate.rlib, "format").write_text(self.text, encoding="utf-8")


@pytest.mark.parametrize(
    "there, stored, is_own, left, given",
    [
        (None, "new", False, "new", 1),
        ("new", "new", False, "new", 0),
        ("old", "new", False, "new", 1),
        ("own", "new", True, "own", 0),  # rt lib built it from the sources as they are
        ("old", None, False, "old", 0),
        (None, None, False, None, 0),
    ],
)
def test_libraries_are_those_that_were_proved(
    example: list[pathlib.Path], there: str | None, stored: str | None, is_own: bool, left: str | None, given: int
) -> None:
    rlib = pathlib.Path("out", "rlib", "low.rlib")
    if there:
        rlib.mkdir(parents=True)
        (rlib / "format").write_text(there, encoding="utf-8")
    store = FakeStore(stored)
    crate = types.SimpleNamespace(name="low", rlib=str(rlib), is_built=lambda: is_own)
    assert edit_libraries.is_provided(store, crate) is (left is not None)
    assert ((rlib / "format").read_text(encoding="utf-8") if left else None) == left and store.given == given

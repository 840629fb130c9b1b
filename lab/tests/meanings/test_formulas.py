"""Each formula on the golden vectors, whose results are QEMU's, and on values by hand, and formulas with an error, which they find."""

import ast
import copy
import pathlib
from collections import Counter, defaultdict
from collections.abc import Iterator
from dataclasses import replace

import pytest

from support.golden import Vector, before_of, differences, drawn_as_vector, drawn_before, golden_vectors, has_formula
from support.values_by_hand import HandValue, formula_result, hand_values, machine_result
from vecmon_lab import LabError
from vecmon_lab.instructions.table import instruction_table
from vecmon_lab.machine.session import Session
from vecmon_lab.meanings.executed import execute
from vecmon_lab.meanings.extensions import names_lacked_by
from vecmon_lab.meanings.formula import Formula
from vecmon_lab.meanings.record import Record, instruction_records, record_of
from vecmon_lab.vectors.command import golden_results

VECTORS, LEAST = (
    13_000,
    2,
)  # that formulas are evaluated on, at least; those of an instruction, or its values by hand, at least
DRAWN, MANY = 2, 100  # cases of a family that are drawn; of an instruction, for an error that the golden vectors miss
MOST = 400  # vectors that an erroneous formula is tried on
WITHOUT = {"fence", "ecall", "ebreak"}  # instructions without a formula


def test_formulas_equal_qemu_results() -> None:
    wrong, counts = list[str](), Counter[str]()
    for policy, vector in golden_vectors():
        if has_formula(vector):
            before = before_of(policy, vector)
            found = list(differences(vector, before, execute(before)))
            wrong += [f"{policy} {vector['id']} {vector['text']}: {', '.join(found)}"] if found else []
            counts[vector["name"]] += 1
    assert wrong == [] and counts.total() > VECTORS
    names = {name for record in instruction_records() for name in record.members} - WITHOUT
    assert names_lacked_by("qemu").isdisjoint(counts)
    counts += Counter(row.name for row in hand_values())
    assert counts.keys() == names and min(counts.values()) >= LEAST


def test_formulas_equal_values_by_hand(session: Session) -> None:
    for row in hand_values():
        word, result = machine_result(session, row)
        assert formula_result(row, word) == row.expected(), row
        assert result == row.expected(), row


def test_wrong_value_by_hand_is_detected(session: Session) -> None:
    """A changed digit of each result, in a register that the instruction writes."""
    for row in hand_values():
        name, values = next(iter(row.after.items()))
        other = f"{int(values[0][-1], 16) ^ 1:x}"
        changed = replace(row, after={**row.after, name: [values[0][:-1] + other, *values[1:]]})
        word, result = machine_result(session, changed)
        assert formula_result(changed, word) != changed.expected() != result, row


def erroneous(record: Record, name: str) -> Iterator[Formula]:
    """Formulas of a mnemonic with one error: another result, or a signed number read as an unsigned one."""
    formula = record.formula_of(name)
    assert formula is not None
    for place, part in enumerate(formula.assignments):
        node = copy.deepcopy(part.value)
        yield _with(formula, place, f"not ({part.text})" if part.kind == "mask" else f"({part.text}) + 4")
        for call in ast.walk(node):
            if isinstance(call, ast.Call) and isinstance(call.func, ast.Name) and call.func.id in ("signed", "sext"):
                call.func.id = "zext"
                yield _with(formula, place, ast.unparse(node))
                call.func.id = "sext"


def _with(formula: Formula, place: int, value: str) -> Formula:
    parts = [part.strip() for part in formula.text.split(";")]
    parts[place] = f"{parts[place].partition(' = ')[0]} = {value}"
    return Formula("; ".join(parts))


@pytest.fixture(scope="module")
def by_name() -> dict[str, list[tuple[str, Vector]]]:
    """The vectors of each mnemonic, each behind its policy."""
    found = defaultdict(list)
    for policy, vector in golden_vectors():
        if has_formula(vector):
            found[vector["name"]].append((policy, vector))
    return found


def test_formulas_equal_machine_on_random_states(program: pathlib.Path) -> None:
    wrong, count = list[str](), 0
    for record in instruction_records():
        name = record.members[-1]
        for drawn in _drawn(program, name, DRAWN) if record.name not in WITHOUT else ():
            found = list(_drawn_differences(drawn))
            wrong += [f"{drawn['text']}: {', '.join(found)}: {drawn}"] if found else []
            count += 1
    assert wrong == [] and count > 500


def _drawn(program: pathlib.Path, name: str, cases: int) -> Iterator[Vector]:
    """Cases of an instruction that end or fault at an access or a jump, with the machine's results."""
    for policy in ("keep", "ones") if name.startswith("v") else ("keep",):
        for drawn in golden_results(program, instruction_table()[name], cases, 1, policy):
            if drawn["end"] == "ran" or drawn["end"] == "fault" and drawn["cause"] in (0, 5, 7):
                yield drawn


def _drawn_differences(drawn: Vector, formula: Formula | None = None) -> Iterator[str]:
    before = drawn_before(drawn)

    def old(address: int) -> int:
        return (before.read(address, 1) or b"\0")[0]

    return differences(drawn_as_vector(drawn), before, execute(before, formula), old)


def test_wrong_formula_is_detected(
    by_name: dict[str, list[tuple[str, Vector]]], program: pathlib.Path, session: Session
) -> None:
    missed, count = list[str](), 0
    for record in instruction_records():
        if record.name in WITHOUT:
            continue
        vectors = [each for name in record.members for each in by_name[name]][:MOST]
        by_hand = [row for row in hand_values() if row.name in record.members]
        for formula in erroneous(record, record.members[0]):
            forms = {name for name in record.members if record.formula_of(name) == record.formula_of(record.members[0])}
            is_found = any(_finds(formula, *each) for each in vectors if each[1]["name"] in forms)
            is_found = is_found or any(_finds_by_hand(formula, row, session) for row in by_hand if row.name in forms)
            if not is_found and not any(
                any(_drawn_differences(it, formula)) for it in _drawn(program, record.members[0], MANY)
            ):
                missed.append(f"{record.name}: {formula.text}")
            count += 1
    assert missed == [] and count > 250


def _finds_by_hand(formula: Formula, row: HandValue, session: Session) -> bool:
    """Whether a value by hand shows that a formula is wrong."""
    word, _ = machine_result(session, row)
    try:
        return formula_result(row, word, formula) != row.expected()
    except (LabError, ValueError):
        return True


def _finds(formula: Formula, policy: str, vector: Vector) -> bool:
    """Whether a vector shows that a formula is wrong."""
    before = before_of(policy, vector)
    try:
        return any(differences(vector, before, execute(before, formula)))
    except (LabError, ValueError):
        return True


@pytest.mark.parametrize(
    "text, problem",
    [
        ("vs2[i]", "assigns nothing"),
        ("vs9[i] = 1", "'vs9[i]' is no part of the language"),
        ("vd[i] = open(1)", "is no part of the language"),
        ("vd[i] = vs2.__class__", "is no part of the language"),
        ("vd[i] = [j for j in active]", "is no part of the language"),
        ("vd[i] = lambda: 1", "is no part of the language"),
        ("vd[i] = 'a'", "is no part of the language"),
        ("vd[i] = 1 +", "isn't an expression"),
        ("vs2[i] = 1", "'vs2[i]' is no target"),
    ],
)
def test_bad_formula_is_refused(text: str, problem: str) -> None:
    with pytest.raises(LabError) as error:
        Formula(text)
    assert problem in str(error.value) and "\n" not in str(error.value)


def test_fence_has_no_formula() -> None:
    assert record_of("fence").formula_of("fence") is None

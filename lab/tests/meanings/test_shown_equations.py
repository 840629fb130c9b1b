"""Equations that are shown, evaluated by an independent reader and compared with QEMU's results for the golden vectors."""

import ast
import random

import pytest

from support.golden import golden_vectors
from support.golden_equations import Tally, check_vectors, clean_vectors, state_of
from support.shown_equations import Equation, LeftOut, Unreadable, evaluate, read_causes, read_equation
from vecmon_lab.meanings import equation, why
from vecmon_lab.meanings.calculation import Notation, Sign, Term
from vecmon_lab.meanings.formula import sext
from vecmon_lab.meanings.record import record_of

SEED, VECTORS, ELEMENTS = 137, 1000, 4
LEAST = {"equations": 4000, "kept": 4000}  # texts in three forms
PLANTED = 20  # vectors of an erroneous core
MIXED = ["vwmulsu.vv", "vwmulsu.vx", "vmulhsu.vv", "vmulhsu.vx", "vwmaccsu.vv", "vwmaccsu.vx", "vwmaccus.vx"]
EQUALITIES = {0x65EFBF57, 0x62983557}  # vmsne.vi and vmseq.vi, each with an element that equals its negative immediate
UNSIGNED = ["vmsgtu.vi", "vmsleu.vi", "vmadc.vi", "vwaddu.wv", "vminu.vx"]


def tally_of(names: list[str] | None = None, most: int = VECTORS, seed: int = SEED) -> Tally:
    """The equations of vectors that are drawn, of all instructions or of these."""
    draws = random.Random(seed)
    vectors = [each for each in clean_vectors(golden_vectors()) if names is None or each[1]["name"] in names]
    return check_vectors(draws.sample(vectors, min(most, len(vectors))), ELEMENTS, draws)


def test_equations_equal_qemu_results() -> None:
    """`lab/tools/equations.py` checks all vectors; here it is a sample."""
    tally = tally_of()
    assert tally.wrong == [] and len(tally.names) > 300
    assert all(tally.counts[kind] > least for kind, least in LEAST.items()), tally.counts


def one_sign(notation: Notation, bits: int, width: int, _: Sign) -> int:
    """As `Notation.taken`, with all numbers of an equation signed if the reader wants signed numbers."""
    return sext(bits, width) if notation.form == "signed" and width > 1 else bits


@pytest.mark.parametrize("name", [*MIXED, *UNSIGNED])
def test_operand_with_wrong_sign_is_found(monkeypatch: pytest.MonkeyPatch, name: str) -> None:
    """An unsigned operand that is shown as a signed number makes equations false."""
    assert tally_of([name], PLANTED).wrong == []
    monkeypatch.setattr(Notation, "taken", one_sign)
    assert any("in signed numbers" in problem for problem in tally_of([name], PLANTED).wrong)


def tally_of_equalities() -> Tally:
    """The equations of all elements that are compared with a negative immediate."""
    vectors = [each for each in clean_vectors(golden_vectors()) if state_of(*each).before.word in EQUALITIES]
    assert {vector["name"] for _, vector in vectors} == {"vmsne.vi", "vmseq.vi"}
    return check_vectors(vectors, 256, random.Random(SEED))


def test_element_equals_negative_immediate() -> None:
    """Both are signed numbers in the signed form, and both unsigned in the others, as QEMU compares their bits."""
    assert tally_of_equalities().wrong == []


def compare_unlike(value: ast.expr, *_: object) -> frozenset[int]:
    """As `_free_terms` for a comparison, but only the immediate is shown as the reader wants."""
    assert isinstance(value, ast.Compare)
    return frozenset([id(value.comparators[0])])


def test_unlike_signs_of_an_equality_are_found(monkeypatch: pytest.MonkeyPatch) -> None:
    """`v30[3] != (-1) = 255 != (-1)` isn't how the instruction compares."""
    monkeypatch.setattr(equation, "_free_terms", compare_unlike)
    assert any("= 255 != (−1) =" in problem for problem in tally_of_equalities().wrong)


def test_signed_name_of_an_unsigned_immediate_is_found(monkeypatch: pytest.MonkeyPatch) -> None:
    """Unsigned numbers of `v30[3] != unsigned(-1) = 255 != 255` under names without `unsigned`."""
    named = Term.named
    monkeypatch.setattr(Term, "named", lambda term, notation: named(term, notation).replace("unsigned(-1)", "-1"))
    assert any("in unsigned numbers" in problem for problem in tally_of_equalities().wrong)


def test_calculation_with_wrong_sign_is_found(monkeypatch: pytest.MonkeyPatch) -> None:
    """The names and numbers of an equation agree, but its result isn't QEMU's: the second factor is signed, too."""
    record = record_of("vwmulsu.vv")
    monkeypatch.setitem(vars(record), "formulas", {"": "vd[i] = signed(vs2[i]) * signed(vs1[i])"})
    problems = tally_of(["vwmulsu.vv"], PLANTED).wrong
    assert any("another source's is" in problem for problem in problems)


def test_name_of_another_element_is_found(monkeypatch: pytest.MonkeyPatch) -> None:
    """The numbers are right, and belong to other elements than those that are named."""
    named = Term.named
    monkeypatch.setattr(Term, "named", lambda term, notation: named(term, notation).replace("[1]", "[2]"))
    assert tally_of(["vadd.vv"], PLANTED).wrong != []


def test_outcome_of_another_element_is_found(monkeypatch: pytest.MonkeyPatch) -> None:
    """An element that is masked off is shown as the tail."""
    monkeypatch.setattr(why, "_cause", lambda execution, outcome, index: f"tail, since {index} >= vl = {index}")
    assert any("doesn't hold" in problem for problem in tally_of(["vadd.vv"], PLANTED).wrong)


@pytest.mark.parametrize(
    "text, value",
    [
        ("6 * 3 + 105", 123),
        ("(−4) * 4294967295 >> 32", -4),  # floor(-17179869180 / 2**32)
        ("(-0x4) * 0xffffffff >> 32", -4),
        ("7 + 24 + 1 >= 2 ** 8", 0),
        ("2 - 3 - 4 << 1 & 7 | 8", 14),  # ((-5 << 1) & 7) | 8 = (-10 & 7) | 8 = 6 | 8
        ("-2 ** 2", -4),
        ("1 < 2 <= 2 and not 3 > 4", 1),
        ("max(1, 10, (-20)) % 3", 1),
        ("not any(0, 1, 0)", 0),
        ("quotient((-7), 2)", -3),
        ("remainder((-7), 2)", -1),
        ("clip(128)", 127),
        ("clip((-129))", -128),
        ("clipu((-1))", 0),
        ("clipu(256)", 255),
        ("sext(200, 8)", -56),
        ("nth(1, 4, 6, 7)", 6),
        ("first()", -1),
        ("bitand(12, 10)", 8),
        *((f"round(6, 2, {mode})", value) for mode, value in enumerate((2, 2, 1, 1))),  # 1.5, by section 3.8
        *((f"round((-6), 2, {mode})", value) for mode, value in enumerate((-1, -2, -2, -1))),  # -1.5
        *((f"round(10, 2, {mode})", value) for mode, value in enumerate((3, 2, 2, 3))),  # 2.5
    ],
)
def test_expressions_equal_values_by_hand(text: str, value: int) -> None:
    assert evaluate(text, 8) == value


@pytest.mark.parametrize("text", ["", "3 +", "(3", "3 4", "v2[0]", "open(1)", "1 // 0", "'a'", "3 = 3", "clip(1, 2)"])
def test_other_text_is_no_expression(text: str) -> None:
    with pytest.raises(Unreadable):
        evaluate(text)


def test_list_with_numbers_left_out_has_no_value() -> None:
    with pytest.raises(LeftOut):
        evaluate("max(1, ..., 3)")


@pytest.mark.parametrize(
    "text, expected",
    [
        ("v8[5] = v2[5] * x11 = 6 * 3 = 18", Equation("v8[5]", ["v2[5] * x11", "6 * 3"], 18, 18)),
        ("v8[4] = v2[1] = −20", Equation("v8[4]", ["v2[1]"], -20, -20)),
        ("v8[3] = 3", Equation("v8[3]", [], 3, 3)),
        ("v8[3] = v2[3] = 0xff (signed: -0x1)", Equation("v8[3]", ["v2[3]"], 255, -1)),
        ("v1[0] = 3 * 7, since x10 < vl (3 < 2) is false", None),
        ("v1[0] = -49103, whose lowest 16 bits are 16433", Equation("v1[0]", [], -49103, 16433)),
        ("v1[0]", None),
    ],
)
def test_equation_is_read(text: str, expected: Equation | None) -> None:
    if expected is not None:
        assert read_equation(text) == expected
        return
    with pytest.raises(Unreadable):
        read_equation(text)


def test_conditions_are_read() -> None:
    text = "v8[5] = 1, since (v2[1] + 3) != 0 ((0 + 3) != 0) is true and x10 < vl (3 < 2) is false and 1 < 2 is true"
    found = [([*sides], verdict) for sides, verdict in read_causes(text)]
    assert found == [(["(v2[1] + 3) != 0", "(0 + 3) != 0"], True), (["x10 < vl", "3 < 2"], False), (["1 < 2"], True)]

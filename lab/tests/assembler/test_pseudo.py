"""Pseudo-instructions whose expansion depends on which operands are the same, also if operands of the same shapes came before."""

import itertools

import pytest

from vecmon_lab.assembler.line import SourceError
from vecmon_lab.assembler.source import assemble

COMPARISONS = {
    "vmsge.vx v8, v4, a0": ["vmslt.vx v8, v4, x10", "vmnand.mm v8, v8, v8"],
    "vmsge.vx v4, v4, a0": ["vmslt.vx v4, v4, x10", "vmnand.mm v4, v4, v4"],
    "vmsge.vx v0, v4, a0": ["vmslt.vx v0, v4, x10", "vmnand.mm v0, v0, v0"],
    "vmsge.vx v8, v4, a0, v0.t": ["vmslt.vx v8, v4, x10, v0.t", "vmxor.mm v8, v8, v0"],
    "vmsge.vx v8, v8, a0, v0.t": ["vmslt.vx v8, v8, x10, v0.t", "vmxor.mm v8, v8, v0"],
    "vmsge.vx v0, v4, a0, v0.t, v2": ["vmslt.vx v2, v4, x10", "vmandn.mm v0, v0, v2"],
    "vmsge.vx v8, v4, a0, v0.t, v2": [
        "vmslt.vx v2, v4, x10",
        "vmandn.mm v2, v0, v2",
        "vmandn.mm v8, v8, v0",
        "vmor.mm v8, v2, v8",
    ],
    "vmsge.vx v8, v0, a0, v0.t, v2": [
        "vmslt.vx v2, v0, x10",
        "vmandn.mm v2, v0, v2",
        "vmandn.mm v8, v8, v0",
        "vmor.mm v8, v2, v8",
    ],
}
"""By the chapter on integer compare instructions of the vector extension's manual."""

REFUSED = ["vmsge.vx v0, v4, a0, v0.t", "vmsge.vx v8, v4, a0, v0.t, v8", "vmsge.vx v8, v4, a0, v0.t, v0"]


def expansion(source: str) -> list[str]:
    """The machine's instructions that an instruction of a source is."""
    return [statement.text for statement in assemble(source).statements]


def test_expansion_depends_on_the_operands_that_are_the_same() -> None:
    for first, second in itertools.permutations([*COMPARISONS, *REFUSED], 2):
        for source in (first, second):
            if source in COMPARISONS:
                assert expansion(source) == COMPARISONS[source]
            else:
                with pytest.raises(SourceError):
                    assemble(source)


def test_expansion_depends_on_the_value_of_a_constant() -> None:
    """Less than 0, and at least 0, are never and always true of unsigned numbers; an immediate is one less otherwise."""
    assert expansion("vmsltu.vi v1, v2, 5") == ["vmsleu.vi v1, v2, 4"]
    assert expansion("vmsltu.vi v1, v2, 0") == ["vmsne.vv v1, v2, v2"]
    assert expansion("vmsltu.vi v1, v2, 5 - 5") == ["vmsne.vv v1, v2, v2"]
    assert expansion("vmsgeu.vi v1, v2, 0") == ["vmseq.vv v1, v2, v2"]
    assert expansion("vmsgeu.vi v1, v2, 7") == ["vmsgtu.vi v1, v2, 6"]

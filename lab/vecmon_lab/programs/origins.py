"""The origin of a difference from another device's log.

It is the instruction whose result the standard leaves open, with what the standard says about it.
"""

from collections.abc import Sequence
from dataclasses import dataclass

from ..instructions.accesses import vector_instruction
from ..instructions.left_open import left_open
from ..instructions.reserved import registers_of_two_widths
from ..machine.answers import CONTROL
from ..runs.dataflow import Cell, Executed, Part, parts
from ..runs.logs import Commit

LOOKS_BACK = 20_000  # the number of instructions that are examined before a difference


@dataclass(frozen=True)
class LoggedStep(Executed):
    """An instruction of the log with its number, and the registers before it on the machine."""

    number: int
    commit: Commit


def origin(
    steps: Sequence[LoggedStep], places: set[Cell], is_trap: bool, is_part: bool = False
) -> tuple[LoggedStep, str] | None:
    """Return the instruction that is the origin of a difference after the last step, and what the standard leaves open there.

    Return None if no step is the origin. The search goes from the last step backwards.

    places: the places that differ; is_trap: whether only one device executed the last instruction
    is_part: whether it is enough that some of the elements in these places are agnostic
    """
    last = steps[-1]
    unseen = (
        {"memory", "v", *CONTROL} - last.commit.compared - ({*CONTROL} if "control" in last.commit.compared else set())
    )
    for step in reversed(steps):
        matching = [part for part in parts(step) if not part[0].isdisjoint(places)]
        if matching or step is last:
            if sentence := _left_open(step, matching, is_trap and step is last, is_part, last):
                return step, sentence
            made_of = (part[1] for part in matching if step is last or step.retired.text.startswith("v"))
            places = places.difference(*(part[0] for part in matching)).union(*made_of)
            places = {place for place in places if place[0] in unseen}
    return None


def _left_open(
    step: LoggedStep, matching: Sequence[Part], is_trap: bool, is_part: bool, last: LoggedStep
) -> str | None:
    """Return what the standard leaves open for an instruction; None if it leaves nothing open.

    matching: the parts of its results that differ; last: the last instruction; is_trap, is_part: as in `origin`
    """
    text, kinds = step.retired.text, {kind for _, _, kind in matching} - {""}
    agnostic = sorted(kinds - {"active"})
    if agnostic and (is_part or len(agnostic) == len(kinds)):
        allowed = "perhaps allowed: some of" if is_part else "allowed:"
        return f"{allowed} these elements are {' and '.join(agnostic)}, and agnostic: each stays or becomes ones"
    written = [place for places, _, _ in matching for place in places]
    names = {name for name, _ in written}
    holds = {"trap": is_trap, "value": "v" in names, "vl": "vl" in names, "order": len(written) > len(set(written))}
    holds |= {"vstart": text.startswith("v") and step.before.control.vstart > 0}
    instruction = vector_instruction(step.retired.word, step.before.control.vtype)
    holds |= {"reserved": instruction is not None and bool(registers_of_two_widths(instruction))}
    holds |= {"control": last.retired.text.startswith("csr") and not names.isdisjoint(CONTROL)}
    found = left_open(text, {kind for kind, is_there in holds.items() if is_there})
    if found is None:
        return None
    return found.sentence if found.kind == "reserved" else f"perhaps allowed: {found.sentence}"

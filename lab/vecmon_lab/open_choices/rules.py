"""What the standard allows for each kind of choice, in words: the manual's section, the rule, and how a program avoids it."""

from typing import NamedTuple


class Rule(NamedTuple):
    """A kind of choice in words.

    title: what a program relies on; section: of the manual, as `V 1.0, 3.4.3`; "" if no manual speaks of it
    rule: what the standard allows; fix: what to change in the program
    """

    title: str
    section: str
    rule: str
    fix: str


RULES = {
    "tail": Rule(
        "tail elements",
        "V 1.0, 3.4.3",
        "With ta, an element from vl on may keep its value or become all ones.",
        "Use tu (the intrinsics with _tu), or read no element from vl on.",
    ),
    "masked": Rule(
        "masked-off elements",
        "V 1.0, 3.4.3",
        "With ma, an element whose mask bit is 0 may keep its value or become all ones.",
        "Use mu (the intrinsics with _mu), or read only elements whose mask bit is 1.",
    ),
    "trim": Rule(
        "the length after a fault-only-first load",
        "V 1.0, 7.7",
        "A fault-only-first load may reduce vl to any length from 1 on, also without a fault.",
        "Read vl again after the load (csrr, or the new_vl of the intrinsic), and count by it.",
    ),
    "length": Rule(
        "the length that a vset instruction gives",
        "V 1.0, 6.3",
        "For an AVL above VLMAX and below 2 VLMAX, vl may be any length from half the AVL, rounded up, to VLMAX.",
        "Count by the length that the instruction returns, in place of VLMAX.",
    ),
    "several": Rule(
        "choices of several kinds together",
        "V 1.0, 3.4.3, 6.3 and 7.7",
        "Each choice is allowed alone; here only several of them make a difference.",
        "Look at the instruction below, and at its operands in both runs.",
    ),
    "ones": Rule(
        "agnostic elements, if all of them are ones",
        "V 1.0, 3.4.3",
        "With ta or ma, elements from vl on or masked-off elements may keep their values or become all ones, also those of loads.",
        "Use tu or mu (the intrinsics with _tu, _mu or _tumu), or read only elements that the instruction writes.",
    ),
    "register": Rule(
        "the initial value of a register",
        "",
        "A register has any value before an instruction writes it.",
        "Write the register before it is read.",
    ),
    "stack": Rule(
        "the initial value of stack memory",
        "",
        "Memory of the stack has any values before a store writes it.",
        "Initialise the variable.",
    ),
    "slices": Rule(
        "the end of a vector store",
        "",
        "A vector store that is interrupted goes on with the element where it stopped, and fetches its word again.",
        "Don't let a vector store overwrite its own word.",
    ),
}
"""The rules by kind: those of the recorder's choices, of its policy, of the start and of slices."""

"""Shortens a copy of a crate to what its edits need. `tools/try_edits` uses it.

`rattle check --only F` proves the function F, and each function below it. For an edit of F only F's own proof counts, and that rests on the
contracts of the functions that F calls, not on their bodies. So in the copy a function that an edited one calls, and that uses several
others, has the body `unreachable!()`. The prover refuses it for one goal, and doesn't reach what only its old body called.
"""

from tools.editing.edit_clauses import reached
from tools.editing.edit_plans import Edit, Function, functions_of

MANY = 5  # functions and constants of the crate: to prove fewer takes no longer than to refuse one


def stubs(edits: list[Edit], many: int = MANY) -> list[Function]:
    """Return functions whose bodies aren't needed to judge these edits of one crate: those that an edited function calls, that no edit
    changes, and that are at least `many` with what they use, directly or through others."""
    edited = {it.function.item for it in edits if it.function}
    called = {callee for item in edited for callee in item.uses} - edited
    known = functions_of(edits[0].crate)
    found = (known[it] for it in called if it in known and len(reached(it) - edited) >= many)
    # The value of a constant function may be needed to compile.
    return sorted((it for it in found if " const fn " not in f" {it.item.text}"), key=lambda it: it.name)


def stub_body(function: Function) -> str:
    """Return the body `unreachable!()`, with as many lines as the function's body, so that places in its file stay the same."""
    begin, end = function.body
    opening = (
        "" if function.text[:begin].rstrip().endswith("{") else "\n{"
    )  # that of a function without a contract is above
    body = f"{opening}\n    unreachable!()"
    return body + "\n" * (function.text[begin:end].count("\n") - body.count("\n")) + "}"

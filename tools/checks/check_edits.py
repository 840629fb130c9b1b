"""Checks that each edit that must fail can be applied, and that docs/PROOFS.md lists it: `tools/checks/check_edits`, at the top of the
repository.

In a file `crates/NAME/edits/*.edit` or `crates/NAME/must-fail/*.edit`, the line `file: ` names a file, in which each text after `old: ` has
to occur exactly once after the pairs before it are applied. An edit in `edits` changes only the body of one function. The list at the end
of docs/PROOFS.md has to be the one that `tools/editing/edit_clauses --page` writes. This needs no proof; only `tools/try_edits` and `rt ci`
show whether the proof refuses an edit. The exit status is 1 if a check fails.
"""

import pathlib
import sys

from tools.editing.edit_clauses import BY_FUNCTION, FOLDERS, PAGE, with_list
from tools.editing.edit_plans import read_edit


def fault_of(edit: pathlib.Path) -> str | None:
    """Return what is wrong with the file of an edit, or None."""
    if edit.suffix != ".edit":
        return "its name doesn't end in .edit, so no check tries it: rename it, or move it elsewhere"
    try:
        function = read_edit(edit.parts[1], edit).function
    except ValueError as error:
        return str(error)
    if edit.parent.name == BY_FUNCTION and not function:
        return "it doesn't change the body of one function only: split it, or move it to must-fail"
    return None


def main() -> int:
    edits = sorted(it for folder in FOLDERS for it in pathlib.Path("crates").glob(f"*/{folder}/*"))
    faults = [(edit, fault) for edit in edits if (fault := fault_of(edit))]
    for edit, fault in faults:
        print(f"{edit}: {fault}")
    page = PAGE.read_text(encoding="utf-8")
    if wrong := page != with_list(page):
        print(f"{PAGE}: the list of edits isn't current: run `tools/editing/edit_clauses --page`")
    print(f"{len(edits)} edits that must fail, {len(faults)} of them with a fault")
    return 1 if faults or wrong or not edits else 0


if __name__ == "__main__":
    sys.exit(main())

"""Lists the edits that can break each clause of a public call: `tools/editing/edit_clauses [CRATE.. | --page]`, at the top of the
repository. The edits are those in `crates/NAME/edits` and `crates/NAME/must-fail`, which the proof must refuse. With `--page` it writes the list of docs/PROOFS.md instead: each edit once, behind the function or constant that it changes.

A public call is a function that a crate exports and whose contract has clauses `ensures`, or a method of another crate's trait that the
crate implements. For each call the tool prints its clauses (`-` for one without a name), the edits of the function itself, and, behind
`below:`, the edits of what it uses: a function that it calls, directly or through others of the crate, or a constant. Then come the edits
that no public call uses, and the number of calls without an edit. Without names the tool reads all crates that have edits.

It reads the text and proves nothing. An edit that isn't listed for a call changes nothing that the call uses, so it can't break the call's
clauses. The check refuses an edit at the function that it changes, by the clauses of that function, so an edit below a call tries the
call's own clauses only where the function that it changes has none. Which clause is broken is in the output of `tools/try_edits CRATE` and
`rt must-fail CRATE`, which name the first goal that stays open. A method counts as called wherever a method of its name is called, so the tool may list too much. It
doesn't list edits of a definition alone.
"""

import re
import sys
import textwrap
from collections import defaultdict
from collections.abc import Iterator
from dataclasses import dataclass, field, replace
from functools import cache
from pathlib import Path

from tools.definitions.definitions import CLAUSE, CRATES, blocks_of, contracts, exported, head_of

BLOCK = re.compile(
    r"(?:pub(?:\(\w+\))? )?(?P<kind>impl|trait)\b(?:<.*?>)? (?:(?P<trait>[\w:]+)(?:<.*>)? for )?(?P<owner>\w+)"
)
CALL = re.compile(r"(?:(?P<qualifier>\w+)(?:::<[^<>]*>)?::|(?P<dot>\.))?\b(?P<name>[A-Za-z_]\w*)\b")
PAGE = Path("docs/PROOFS.md")
BY_FUNCTION = "edits"  # the folder of a crate's edits that change the body of one function each
FOLDERS = (BY_FUNCTION, "must-fail")
LONGEST = 140  # characters of a line
NO_CODE = re.compile(r"//[^\n]*|^\s*ghost [^;]*;", re.MULTILINE)


@dataclass(eq=False)
class Item:
    """A function or a constant, with the type or trait that it belongs to and the trait that it implements, empty if none."""

    name: str
    owner: str
    trait: str
    path: Path
    text: str
    body: str
    uses: "set[Item]" = field(default_factory=set)
    block: str = ""  # the first line of the `impl` or trait that it is in

    @property
    def title(self) -> str:
        return f"{self.owner}::{self.name}" if self.owner else self.name

    @property
    def clauses(self) -> list[str]:
        lines = (CLAUSE.match(it) for it in self.text.split("\n") if re.match(r"\s*ensures", it))
        return [it[1] or "-" for it in lines if it]


def item_of(head: re.Match[str], owner: str, trait: str, path: Path, lines: list[str], indent: str) -> Item:
    """A function, whose contract isn't in its body, or a constant."""
    text = "\n".join(lines)
    return Item(
        head[2], owner, trait, path, text, text.removeprefix(head_of(lines, indent)) if head[1] == "fn" else text
    )


@cache
def items(crate: str) -> list[Item]:
    """The functions and constants of a crate, each with those of the crate that it uses."""
    found: list[Item] = []
    for path in sorted((CRATES / crate / "src").rglob("*.rt")):
        for head, lines in blocks_of(path.read_text(encoding="utf-8"), ""):
            if block := BLOCK.match(lines[0]):
                trait = (block["trait"] or "").rpartition("::")[2] if block["kind"] == "impl" else block["owner"]
                inner = blocks_of("\n".join(lines[1:]), "    ")
                those = [item_of(it, block["owner"], trait, path, body, "    ") for it, body in inner]
                found += [replace(it, block=lines[0]) for it in those]
            elif head[1] in ("fn", "const", "static"):
                found.append(item_of(head, "", "", path, lines, ""))
    link(found)
    return found


def link(found: list[Item]) -> None:
    """Finds what each item uses. A method of a trait uses the functions that implement it."""
    named: dict[str, list[Item]] = defaultdict(list)
    for item in found:
        named[item.name].append(item)
    owners = {it.owner for it in found}
    for item in found:
        for call in CALL.finditer(NO_CODE.sub("", item.body)):
            item.uses.update(it for it in named.get(call["name"], ()) if may_call(item, call, it, owners))
        item.uses.update(it for it in named[item.name] if item.owner == item.trait == it.trait != "")
        item.uses.discard(item)


def may_call(caller: Item, call: re.Match[str], item: Item, owners: set[str]) -> bool:
    """Whether a name in a function's text can mean this item: `.name`, `Type::name`, `module::name` or `name`."""
    qualifier = call["qualifier"] or ""
    if call["dot"]:
        return bool(item.owner)
    if not qualifier[:1].isupper():
        return not item.owner
    type_of = caller.owner if qualifier == "Self" else qualifier
    return item.owner == type_of or bool(item.trait) and (type_of not in owners or type_of == item.trait)


def reached(start: Item) -> set[Item]:
    """The item with all that it uses, directly or through others."""
    todo, found = [start], set[Item]()
    while todo:
        item = todo.pop()
        if item not in found:
            found.add(item)
            todo += item.uses
    return found


def public_calls(crate: str) -> Iterator[tuple[str, list[str], Item]]:
    """The title, the clauses and the function of each public call whose contract promises something."""
    in_library = [it for it in contracts(crate) if it.is_public and it.text.path.name == "lib.rt"]
    names = {(it.name, it.text.path) for it in [*exported(crate), *in_library] if not it.ghost}
    own_traits = {it.trait for it in items(crate) if it.owner == it.trait}
    for item in items(crate):
        if (item.title, item.path) in names and item.clauses:
            yield item.title, item.clauses, item
        elif item.trait and item.trait not in own_traits and (promised := clauses_of_trait(item)):
            yield f"{item.trait} for {item.title}", promised, item


def clauses_of_trait(item: Item) -> list[str]:
    """The clauses of the method that a function implements, of a trait of any crate of the repository."""
    crates = (it.name for it in CRATES.iterdir() if (it / "src").is_dir())
    methods = (it for crate in crates for it in items(crate) if it.owner == it.trait == item.trait)
    return next((it.clauses for it in methods if it.name == item.name), [])


def changed(crate: str, edit: Path) -> set[Item]:
    """The functions and constants that an edit changes."""
    found: set[Item] = set()
    path = Path()
    for line in edit.read_text(encoding="utf-8").splitlines():
        if line.startswith("file: "):
            path = CRATES / crate / line.removeprefix("file: ").strip()
        elif line.startswith("old: "):
            found.update(it for it in items(crate) if it.path == path and line.removeprefix("old: ") in it.text)
    return found


def files_of_edits(crate: str) -> list[Path]:
    """Return the files of a crate's edits in both folders, by their names."""
    found = (it for folder in FOLDERS for it in (CRATES / crate / folder).glob("*.edit"))
    return sorted(found, key=lambda it: it.name)


def crates_with_edits() -> list[str]:
    """Return the names of the crates that have edits, in order."""
    return sorted({it.parent.name for folder in FOLDERS for it in CRATES.glob(f"*/{folder}")})


def edits_of(item: Item, edits: dict[str, set[Item]]) -> str:
    """The edits of a function, and those of what it uses."""
    below = reached(item) - {item}
    own = [name for name, those in edits.items() if item in those]
    others = [name for name, those in edits.items() if item not in those and those & below]
    return ", ".join(own) + (f" below: {', '.join(others)}" if others else "") or "no edit"


def print_crate(crate: str) -> None:
    edits = {it.stem: changed(crate, it) for it in files_of_edits(crate)}
    calls = list(public_calls(crate))
    print(f"{crate}: {len(edits)} edits, {len(calls)} public calls with clauses")
    for title, clauses, item in calls:
        print(f"  {title}: {', '.join(clauses)}: {edits_of(item, edits).strip()}")
    used = {it for _, _, item in calls for it in reached(item)}
    if apart := [name for name, those in edits.items() if not those & used]:
        print(f"  of no public call: {', '.join(apart)}")
    print(f"  {sum(edits_of(item, edits) == 'no edit' for _, _, item in calls)} calls without an edit")


def changed_names(crate: str, edit: Path) -> str:
    """Return the functions and constants that an edit changes, or the files if it changes definitions alone."""
    names = sorted({it.title for it in changed(crate, edit)})
    lines = edit.read_text(encoding="utf-8").splitlines()
    return " and ".join(
        f"`{it}`" for it in names or [it.removeprefix("file: ").strip() for it in lines if it.startswith("file: ")]
    )


def item_of_edits(crate: str) -> str:
    """Return the item of a crate's edits in the page's list: the edits by what they change, in lines of at most LONGEST characters."""
    edits: defaultdict[str, list[str]] = defaultdict(list)
    for edit in files_of_edits(crate):
        edits[changed_names(crate, edit)].append(f"`{edit.stem}`")
    text = "; ".join(f"{names}: {', '.join(edits[names])}" for names in sorted(edits))
    return textwrap.fill(
        f"- `{crate}`: {text}", LONGEST, subsequent_indent="  ", break_long_words=False, break_on_hyphens=False
    )


def with_list(page: str) -> str:
    """Return docs/PROOFS.md with the list of all edits in place of the one that ends it."""
    before, heading, section = page.partition("\n## Edits that must fail\n")
    text = section.partition("\n- `")[0]
    items = [item_of_edits(it) for it in crates_with_edits()]
    return "\n".join([f"{before}{heading}{text}", *items, ""])


def main(names: list[str]) -> int:
    if names == ["--page"]:
        PAGE.write_text(with_list(PAGE.read_text(encoding="utf-8")), encoding="utf-8")
        return 0
    if any(it.startswith("-") for it in names):
        sys.exit(__doc__)
    crates = names or crates_with_edits()
    for crate in crates:
        if not (CRATES / crate / "src").is_dir():
            sys.exit(f"tools/editing/edit_clauses: no crate {crate}; write a name of crates.txt")
        print_crate(crate)
    return 0


if __name__ == "__main__":
    sys.exit(main(sys.argv[1:]))

"""Plans which edits that must fail one check of the prover can try together. `tools/try_edits` uses it.

A proof is modular: if an edit changes only a function's body, only this function's own proof can fail by it. So several edits of different
functions can be in one copy of a crate.
"""

import dataclasses
import re
from collections import defaultdict
from pathlib import Path

from tools.definitions.definitions import head_of
from tools.editing.edit_clauses import BY_FUNCTION, Item, changed, items, reached

TYPE = re.compile(r"^(?:pub(?:\(\w+\))? )?(?:struct|enum|union) (\w+)", re.MULTILINE)


@dataclasses.dataclass(frozen=True)
class Function:
    """A function that an edit changes."""

    name: str  # its path as the prover prints it, without the crate: `users::Users::slice`
    item: Item
    body: tuple[int, int]  # where its body begins and ends in its file, in characters
    lines: tuple[int, int]  # the first and the last line, from 1, of its attributes, contract and body

    @property
    def text(self) -> str:
        """Return the whole text of its file."""
        return self.item.path.read_text(encoding="utf-8")

    @property
    def proof(self) -> str:
        """Return the folder of its own proof, in the crate."""
        return f"proofs/{self.name.replace('::', '/')}"


@dataclasses.dataclass(frozen=True)
class Edit:
    """An edit that must fail. Its function is None if it changes anything else than the body of one function."""

    crate: str
    path: Path
    texts: dict[str, str]  # of the files that it changes, by their path in the crate
    function: Function | None

    @property
    def title(self) -> str:
        return f"{self.crate}/{self.path.stem}"

    @property
    def new_body(self) -> str:
        """Return the function's body after the edit."""
        assert self.function
        begin, end = self.function.body
        (text,) = self.texts.values()
        return text[begin : len(text) - (len(self.function.text) - end)]


def edits_of(crate: str) -> list[Path]:
    """Return the files of a crate's edits, in order."""
    return sorted(Path("crates", crate, BY_FUNCTION).glob("*.edit"))


def read_edit(crate: str, path: Path) -> Edit:
    """Read an edit. Raises ValueError if it can't be applied."""
    texts = edited_texts(path)
    functions = [it for it in map(functions_of(crate).get, changed(crate, path)) if it]
    function = functions[0] if len(functions) == 1 and is_of_body(functions[0], path, texts) else None
    return Edit(crate, path, texts, function)


def edited_texts(edit: Path) -> dict[str, str]:
    """Return the texts of the files that an edit changes, by their path in the crate. Raises ValueError if it can't be applied."""
    crate, texts = edit.parent.parent, dict[str, str]()
    path = old = ""
    pairs = 0
    for line in edit.read_text(encoding="utf-8").splitlines():
        if line.startswith("file: "):
            path = line.removeprefix("file: ").strip()
            if not (crate / path).is_file():
                raise ValueError(f"there is no file {path}")
            texts.setdefault(path, (crate / path).read_text(encoding="utf-8"))
        elif line.startswith("old: "):
            old = line.removeprefix("old: ")
        elif line.startswith("new:"):
            if not path or not old:
                raise ValueError("a line `new:` without `file:` and `old:`")
            found = texts[path].count(old)
            if found != 1:
                raise ValueError(f"the text after `old:` occurs {found} times in {path}: {old.strip()}")
            texts[path] = texts[path].replace(old, line.removeprefix("new:").removeprefix(" "))
            old, pairs = "", pairs + 1
    if not pairs:
        raise ValueError("no pair of `old:` and `new:`")
    return texts


def is_of_body(function: Function, edit: Path, texts: dict[str, str]) -> bool:
    """Return whether an edit changes the function's body, and leaves the rest of the crate as it is."""
    file = str(function.item.path.relative_to(edit.parent.parent))
    if list(texts) != [file]:
        return False
    old, new = function.text, texts[file]
    before, after = old[: function.body[0]], old[function.body[1] :]
    return new.startswith(before) and new.endswith(after) and len(new) > len(before) + len(after)


def functions_of(crate: str) -> dict[Item, Function]:
    """Return the functions of a crate that have a body and a contract of their own, and whose path is unique."""
    found: defaultdict[str, list[Item]] = defaultdict(list)
    types = files_of_types(crate)
    for item in items(crate):
        if re.search(r"\bfn\b", item.text.partition("{")[0]) and not (item.owner and item.owner == item.trait):
            found[path_of(item, crate, types)].append(item)
    placed = [locate(those[0], name) for name, those in found.items() if len(those) == 1]
    return {it.item: it for it in placed if it}


def files_of_types(crate: str) -> dict[str, Path]:
    """Return the file that declares each type of a crate, by the type's name."""
    files = Path("crates", crate, "src").rglob("*.rt")
    return {name: file for file in sorted(files) for name in TYPE.findall(file.read_text(encoding="utf-8"))}


def path_of(item: Item, crate: str, types: dict[str, Path]) -> str:
    """Return the path of a function as the prover prints it: a method is in the module that declares its type, whichever file has the
    `impl`, and a method of a trait in the module of the `impl`."""
    file = item.path if item.trait else types.get(item.owner, item.path)
    file = file.relative_to(Path("crates", crate, "src")).with_suffix("")
    modules = [] if file.name in ("lib", "main") else file.parts
    owner = name_of_impl(item.block) if item.trait else item.owner
    return "::".join(it for it in [*modules, owner, item.name] if it)


def name_of_impl(head: str) -> str:
    """Return the name that the prover gives the `impl` of a trait, by its first line: `GroupOfU8Show` for `impl Show for GroupOf<u8>`. It
    has no lifetimes and no type parameters; a type that is one itself is `Any`."""
    head = head.removeprefix("impl").partition(" where ")[0].rstrip(" {")
    parameters = set[str]()
    if head.startswith("<"):
        ends = (at for at in range(len(head)) if head[:at].count("<") == head[:at].count(">") > 0)
        end = next(ends)
        parameters, head = set(re.findall(r"[<,] *(?:const )?(\w+) *(?=[:,>])", head[:end])), head[end:]
    trait, _, owner = head.strip().partition(" for ")
    names = [it for part in (owner, trait) for it in re.findall(r"(?<!')\b\w+\b(?!::)", part)]
    if names[0] in parameters:
        names[0] = "any"
    return "".join(it[:1].upper() + it[1:] for it in names if it not in parameters)


def locate(item: Item, name: str) -> Function | None:
    """Find a function in its file; None if its text is there twice, or its body isn't laid out over several lines."""
    text = item.path.read_text(encoding="utf-8")
    lines = item.text.split("\n")
    indent = " " * (len(lines[0]) - len(lines[0].lstrip()))
    if text.count(item.text) != 1 or f"{indent}}}" not in lines:
        return None
    start, last = text.index(item.text), lines.index(f"{indent}}}")
    body = start + len(head_of(lines, indent)), start + len("\n".join(lines[: last + 1]))
    above = text[:start].split("\n")[:-1]
    return Function(name, item, body, (first_line(above), len(above) + last + 1))


def first_line(above: list[str]) -> int:
    """Return the first line of an item, by the lines above its head: comments and attributes, some of several lines, belong to it."""
    while above and above[-1].strip() and ("//" in above[-1] or not above[-1].rstrip().endswith(("{", "}", ";"))):
        above = above[:-1]
    return len(above) + 1


def batches(edits: list[Edit], *, apart: bool = False) -> list[list[Edit]]:
    """Return edits with a function in few lists. Each list has a function at most once; if `apart`, no function of it uses another."""
    found: list[list[Edit]] = []
    fit = are_apart if apart else are_different
    for edit in edits:
        having_room = (those for those in found if all(fit(edit, other) for other in those))
        those = next(having_room, None)
        if those is None:
            found.append([edit])
        else:
            those.append(edit)
    return found


def are_different(one: Edit, other: Edit) -> bool:
    assert one.function and other.function
    return one.function.item is not other.function.item


def are_apart(one: Edit, other: Edit) -> bool:
    assert one.function and other.function
    first, second = one.function.item, other.function.item
    return second not in reached(first) and first not in reached(second)


def joined(edits: list[Edit]) -> dict[str, str]:
    """Return the texts of files with all these edits, each of which changes the body of another function."""
    return with_bodies([(it.function, it.new_body) for it in edits if it.function])


def with_bodies(bodies: list[tuple[Function, str]]) -> dict[str, str]:
    """Return the texts of files in which these functions have other bodies, by their path in the crate."""
    found: defaultdict[Path, list[tuple[int, int, str]]] = defaultdict(list)
    texts: dict[str, str] = {}
    for function, body in bodies:
        found[function.item.path].append((*function.body, body))
    for path, those in found.items():
        text = path.read_text(encoding="utf-8")
        for begin, end, body in sorted(those, reverse=True):
            text = text[:begin] + body + text[end:]
        texts[str(path.relative_to(*path.parts[:2]))] = text
    return texts

"""The kit's text that definitions rest on: `tools/definitions/definitions --kit [WORD]`, at the top of the repository.

WORD is a contract, a clause or a definition, as `tools/definitions/definitions` takes it; without it, the headline is meant. The tool
follows each name of the kit that the definitions cite through the kit's modules, past those that hand it on, to the declarations in which
nothing is left but primitives of antt (`Prim`). It prints the types of `src` that the definitions name and the declarations of the kit, by
file and line. Blank lines, comments and `use` lines aren't counted.
"""

import json
import re
import subprocess
from collections import Counter
from collections.abc import Iterable, Iterator
from dataclasses import dataclass, field
from functools import cache
from pathlib import Path

from tools.definitions.definitions import (
    CRATES,
    HEADLINE,
    WORD,
    Name,
    Text,
    closure,
    is_constant,
    key,
    lines_of,
    start_of,
)

LIBRARY = re.compile(r"Rattle\.(\w+)\.(?:specs|proofs)\.?(.*)")
USE = re.compile(r"^ *(?:pub |unfoldable )*use ([\w.\-+]+?)(?:\.\{([^}]*)\}| as (\S+))?$", re.MULTILINE)
BEGIN = re.compile(
    r" *(?:(?:pub|abbrev|unfoldable|pattern) )*(?:(?:record|data) (?P<type>\S+)|axiom (?P<axiom>\S+)|(?P<name>\S+) (?::|\{.*\} :) )"
)


@dataclass(frozen=True, order=True)
class Place:
    """A declaration of the kit: its module and its name."""

    module: str
    name: str


@dataclass
class Module:
    """A file of the kit: its declarations, the declaration of each constructor, and the names that it takes from elsewhere."""

    path: Path
    texts: dict[str, str] = field(default_factory=dict)
    lines: dict[str, int] = field(default_factory=dict)
    owners: dict[str, str] = field(default_factory=dict)
    scope: dict[str, Place] = field(default_factory=dict)
    handed: list[str] = field(default_factory=list)


@cache
def kit() -> Path:
    """The folder of the kit's libraries."""
    return (
        Path(subprocess.run(["rt", "doc"], capture_output=True, text=True, check=True).stdout.split()[0]).parent
        / "rattle"
    )


@cache
def mounts() -> dict[str, Path]:
    """The folder of each library of the logic."""
    project = json.loads((kit() / "logic/antt-project.json").read_text(encoding="utf-8"))
    return {name: (kit() / "logic" / folder).resolve() for name, folder in project["mounts"].items()}


def path_of(module: str) -> Path | None:
    """The file of a module, if it has one."""
    if of_crate := LIBRARY.fullmatch(module):
        base, rest = kit() / of_crate[1] / ("proofs" if ".proofs" in module else "specs"), of_crate[2]
    else:
        library, _, rest = module.partition(".")
        if library not in mounts():
            return None
        base = mounts()[library]
    for folder in (base, base / "src"):
        path = folder.joinpath(*(rest or "Lib").split(".")).with_suffix(".antt")
        if path.exists():
            return path
    return None


@cache
def module_of(name: str) -> Module | None:
    path = path_of(name)
    if path is None:
        return None
    text = path.read_text(encoding="utf-8")
    found = Module(path)
    for origin, names, alias in USE.findall(text):
        for it in filter(None, map(str.strip, names.split(","))):
            original, _, here = it.partition(" as ")
            found.scope[key(here or original)] = Place(origin, key(original))
        if not names and not alias:
            found.handed.append(origin)
    last, type_indent = "", 99  # of the type whose constructors or fields follow
    for number, line in enumerate(text.split("\n"), 1):
        begun, indent = BEGIN.match(line), len(line) - len(line.lstrip())
        type_indent = type_indent if line.strip() else 99
        if indent > type_indent and (constructors := re.match(r" +(?:pub )?([^:({]+) : ", line)):
            for name in constructors[1].split():
                found.owners.setdefault(key(name), last)
        elif begun and indent <= 2 and not re.match(r" *(--|use|pub use|infix)", line):
            last = key(begun["type"] or begun["axiom"] or begun["name"])
            type_indent = indent if begun["type"] else 99
            found.texts.setdefault(last, "")
            found.lines.setdefault(last, number)
            found.owners.setdefault(last, last)
        if last and not re.match(r" *(--|use |pub use |mod |pub mod |infix|module )", line):
            found.texts[last] += f"{line}\n"
    return found


def resolved(place: Place, depth: int = 0) -> Place:
    """Where a name is declared, past the modules that hand it on."""
    module = module_of(place.module)
    if module is None or depth > 20:
        parts = place.module.split(".")
        for end in range(place.module.count("."), 1, -1) if depth <= 20 else ():
            above, last, below = ".".join(parts[:end]), parts[end], parts[end + 1 :]
            facade = module_of(above)
            for origin in facade.handed if facade else []:
                if origin.rpartition(".")[2] == last:
                    return resolved(Place(".".join([origin, *below]), place.name), depth + 1)
        return place
    if place.name in module.owners:
        return Place(place.module, module.owners[place.name])
    if place.name in module.scope:
        return resolved(module.scope[place.name], depth + 1)
    for origin in module.handed:
        there = resolved(Place(origin, place.name), depth + 1)
        if (found := module_of(there.module)) and there.name in found.owners:
            return there
    return place


def rests_on(start: Iterable[Place]) -> tuple[dict[Place, str], set[Place]]:
    """The declarations that names rest on, and the names without one: primitives, types of the kit's `src`, and those not found."""
    todo, found, rest = [*map(resolved, start)], dict[Place, str](), set[Place]()
    while todo:
        place = todo.pop()
        module = module_of(place.module)
        if place in found or place in rest:
            continue
        if module is None or place.name not in module.texts:
            rest.add(place)
            continue
        found[place] = module.texts[place.name]
        for _, word in WORD.findall(re.sub(r"--.*", "", found[place])):
            if word in module.owners:
                todo.append(Place(place.module, module.owners[word]))
            elif word in module.scope:
                todo.append(resolved(module.scope[word]))
    return found, rest


def report(word: str = HEADLINE) -> Iterator[str]:
    """The lines of the types of `src` and of the kit's declarations behind a word, and the primitives."""
    found = closure(start_of(word))
    types = Counter[str]()
    for name, text in found.items():
        if text.text and name.module.startswith("declared") and not is_constant(name):
            types[str(text.path)] += lines_of(text.text)
    yield from (f"{lines:6,}  {path}" for path, lines in sorted(types.items()))
    yield f"{types.total():6,}  in {len(types)} files: types of src"
    start = [
        Place(f"Rattle.{name.crate}.specs.{name.module}", key(name.name))
        for name, text in found.items()
        if not text.text and name.name != "*" and not (CRATES / name.crate).exists()
    ]
    texts, rest = rests_on([*start, *_of_logic(found)])
    counts = Counter[Path]()
    for place, declaration in sorted(texts.items()):
        if module := module_of(place.module):
            lines = sum(bool(line.strip()) for line in declaration.split("\n"))
            counts[module.path] += lines
            yield f"{lines:6,}  {module.path.relative_to(kit())}:{module.lines[place.name]} {place.name}"
    yield f"{counts.total():6,}  in {len(counts)} files: text of the kit"
    yield f"primitives and types of the kit's src: {', '.join(sorted(f'{it.module}.{it.name}' for it in rest))}"


def _of_logic(found: dict[Name, Text]) -> Iterator[Place]:
    """The names of the logic's libraries that files of definitions take."""
    for path in sorted({text.path for text in found.values() if text.text}):
        for origin, names, _ in USE.findall(path.read_text(encoding="utf-8")):
            if not origin.startswith("Rattle."):
                yield from (Place(origin, key(it.strip())) for it in names.split(",") if it.strip())

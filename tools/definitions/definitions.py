"""Counts the definitions that contracts rest on: `tools/definitions/definitions [NAME.. [--case TYPE.VARIANT..]]`, at the top of the
repository.

Without arguments it prints the modules of `rv_model/specs` except `lending`, with the lines of each file; then all other definitions that
contracts of exported items rest on: those of `lending` and of each other crate, and constants of `src`. Last come the lines that the
headline rests on, the lines to read for one vector addition, and the modules of the kit that definitions and contracts cite.

With names it prints, file by file, the definitions they rest on: `monitor_script::run` is a contract, `monitor_script::run.headline` one of
its clauses, `step.Step.step` a definition of `rv_model`. With `--case`, clauses and rows for siblings of these variants are left out.

`tools/definitions/definitions --print WORD` prints the lines themselves, in the reading order of docs/DEFINITIONS.md. WORD is `vadd.vv`,
the hour's path from the headline to one vector addition, `headline`, or a clause as above.

`tools/definitions/definitions --kit [WORD]` prints the types of `src` and the kit's declarations that the headline, or WORD, rests on.

Blank lines, comments and `use` lines aren't counted; the lines that name a module's files are. Of `src` constants
are counted, and types aren't: definitions name their variants and fields.
"""

import re
import sys
from collections import defaultdict
from collections.abc import Container, Iterable, Iterator
from dataclasses import dataclass, field
from functools import cache
from itertools import takewhile
from pathlib import Path

CRATES = Path("crates")
MODEL = CRATES / "rv_model/specs"
HEADLINE = "monitor_script::run.headline"

USE = re.compile(
    r"^ *(?:ghost |pub |unfoldable )*use Rattle\.(\w+)\.(?:specs|proofs)\.([\w.]+?)(?:\.\{([^}]*)\}| as (\w+))",
    re.MULTILINE,
)
RUST_USE = re.compile(r"^ *(?:pub )?use (\w+)::(?:[\w:]*::)?(?:\{([^}]*)\}|(\w+));", re.MULTILINE)
WORD = re.compile(r"(\.?)([^\s(){}\[\].,;:◌&|!<>]+|[^\w\s(){}\[\].,;:◌]+)")
HEAD = re.compile(r"(?:(?:unfoldable|abbrev|pub|record|data) )*(\S+)")
NO_COUNT = re.compile(r"\s*(--.*|//.*|#\[.*\])?$|(unfoldable )?(pub )?use ")
ITEM = re.compile(
    r"(?:pub(?:\(\w+\))? )?(?:const )?(fn|trait|struct|enum|impl|const|static|type)\b (?:[\w:]+ for )?(\w+)"
)
CLAUSE = re.compile(r"\s*(?:requires|ensures\*?) ?(\w*)")
OWN = ("invariant", "coded")


@dataclass(frozen=True, order=True)
class Name:
    """A name in a file of `specs`; in one of `src`, as `declared.FILE`; or in the kit. A module as a whole has the name `*`."""

    crate: str
    module: str
    name: str


@dataclass(frozen=True)
class Text:
    """A declaration: its file, its text, and the meaning of names there."""

    path: Path
    text: str
    scope: dict[str, Name] = field(default_factory=dict, hash=False)


def lines_of(text: str) -> int:
    return sum(not NO_COUNT.match(line) for line in text.split("\n"))


def key(name: str) -> str:
    """How a name is met in a text: `≡` for `◌≡◌`, `if` for `if◌then◌else◌`."""
    return name.strip("◌").split("◌")[0]


def taken(text: str) -> dict[str, Name]:
    """The declaration of each name that a text takes from elsewhere."""
    found: dict[str, Name] = {}
    for crate, module, names, alias in USE.findall(text):
        for name in filter(None, map(str.strip, names.split(","))):
            original, _, here = name.partition(" as ")
            found[key(here or original)] = Name(crate, module, original)
        if alias:
            found[alias] = Name(crate, module, "*")
    return found


@cache
def module_of(crate: str, module: str) -> tuple[dict[str, Text], dict[str, str], dict[str, Name]]:
    """The definitions of a file of `specs`; which of them has each of their constructors; and what the file takes from elsewhere."""
    path = (CRATES / crate / "specs" / Path(*module.split("."))).with_suffix(".antt")
    blocks: dict[str, Text] = {}
    owners: dict[str, str] = {}
    if not path.exists():
        return blocks, owners, {}
    text = path.read_text(encoding="utf-8")
    scope = taken(text)
    for block in re.split(r"\n\s*\n", text):
        body = "\n".join(line for line in block.split("\n") if not NO_COUNT.match(line))
        if head := HEAD.match(re.sub(r"^infix.*\n", "", body)):
            name = key(head[1])
            blocks[name] = Text(path, body, scope)
            constructors = re.findall(r"^  (\w+) :", body, re.MULTILINE) if re.match(r"(pub )?data ", body) else []
            owners |= {it: name for it in [name, *constructors]}
    for name in owners:
        scope.setdefault(name, Name(crate, module, name))
    return blocks, owners, scope


def declared(name: Name) -> tuple[Name, str | None]:
    """The item of `src` that a name below `declared` is of, and the variant that it is, if one."""
    parts = name.module.split(".")[1:]
    path = [*takewhile(lambda it: it[0].islower(), parts)]
    rest = parts[len(path) :]
    item = name.name if rest == ["TheConstants"] or not rest else rest[0]
    return Name(name.crate, ".".join(["declared", *path]), item), name.name if rest[1:] == ["TheVariants"] else None


def resolved(name: Name) -> Name:
    """Where a name is defined, past files that hand it on."""
    if not (CRATES / name.crate).exists():
        return name
    if name.module.startswith(("declared.", "contracts.")):
        return declared(name)[0]
    _, owners, scope = module_of(name.crate, name.module)
    word = key(name.name)
    if word in owners:
        return Name(name.crate, name.module, owners[word])
    return resolved(scope[word]) if word in scope else name


def met(text: Text) -> Iterator[Name]:
    """The names that a text cites, each as it was taken."""
    before: Name | None = None
    for dot, word in WORD.findall(re.sub(r"(--|//).*", "", text.text)):
        if not dot:
            before = text.scope.get(word)
            if before and before.name != "*":
                yield before
        elif before and before.name == "*":
            yield Name(before.crate, before.module, key(word))
            before = None


@cache
def source_of(path: Path) -> str:
    return path.read_text(encoding="utf-8") if path.exists() else ""


def text_of(name: Name) -> Text | None:
    """The declaration of a resolved name; None if it is the kit's."""
    if name.module == "type":
        return types_of(name.crate).get(name.name)
    if not name.module.startswith("declared"):
        return module_of(name.crate, name.module)[0].get(name.name)
    path = (CRATES / name.crate / "src" / Path(*name.module.split(".")[1:])).with_suffix(".rt")
    found = re.search(
        rf"^(?:pub(?:\(\w+\))? )?(?:struct|enum|const|static|type) {name.name}\b.*?(?:;$|^}}$)",
        source_of(path),
        re.MULTILINE | re.DOTALL,
    )
    if not found:
        return None
    constant = r"^(?:pub(?:\(\w+\))? )?(?:const|static) (\w+)"
    constants = re.findall(constant, source_of(path), re.MULTILINE) if is_constant(name) else []
    return Text(path, found[0], {it: Name(name.crate, name.module, it) for it in constants})


def is_constant(name: Name) -> bool:
    return name.module.startswith("declared") and name.name.isupper()


def pieces_of(text: str) -> Iterator[str]:
    """The clauses of a definition; of a table, which has a row behind each `++` at the beginning of a line, its rows."""
    is_table = "\n    ++ " in text
    piece: list[str] = []
    for line in text.split("\n"):
        is_row = is_table and (line.startswith("    ++ ") or bool(piece) and piece[-1].endswith(" ="))
        if piece and (is_row or not line.startswith(" ")):
            yield "\n".join(piece)
            piece = []
        piece.append(line)
    yield "\n".join(piece)


def of_cases(text: Text, cases: frozenset[str]) -> Text:
    """A definition without the clauses that are for siblings of these variants, and without the rows that are for siblings alone."""
    kept: list[str] = []
    is_clause_kept = True
    for piece in pieces_of(text.text):
        first = piece.split("\n")[0]
        if is_row := piece.startswith(" "):
            keep = is_for(met(Text(text.path, piece, text.scope)), cases)
        else:
            head = first.partition(" = ")[0] if " : " not in first else ""
            keep = is_clause_kept = all(is_for([it], cases) for it in met(Text(text.path, head, text.scope)))
        if keep and (is_clause_kept or not is_row):
            kept.append(piece)
    return Text(text.path, "\n".join(kept), text.scope)


def is_for(names: Iterable[Name], cases: frozenset[str]) -> bool:
    """Return whether one of the names is a variant of each type that these names have variants of, the cases too."""
    found: defaultdict[str, set[str]] = defaultdict(set)
    for name in names:
        owner, variant = declared(name) if name.module.startswith("declared.") else (resolved(name), name.name)
        if variant is not None and variant != owner.name:
            found[owner.name].add(variant)
    asked = {owner: {it.partition(".")[2] for it in cases if it.startswith(f"{owner}.")} for owner in found}
    return all(not asked[owner] or asked[owner] & variants for owner, variants in found.items())


@dataclass(frozen=True)
class Part:
    """The part of definitions that is read: clauses of these variants' siblings are left out, and so are these names."""

    cases: frozenset[str] = frozenset()
    left_out: frozenset[str] = frozenset()

    def has(self, name: Name) -> bool:
        return not self.left_out & {name.module, f"{name.module}.{name.name}"}


def closure(start: Iterable[Name], part: Part = Part()) -> dict[Name, Text]:
    """All that these names rest on, of the crates and of the kit: each name with its text, which is empty for one of the kit."""
    todo, found = [*map(resolved, start)], dict[Name, Text]()
    while todo:
        name = todo.pop()
        if name not in found and part.has(name):
            text = text_of(name) or Text(Path(), "")
            found[name] = of_cases(text, part.cases) if part.cases else text
            todo += map(resolved, met(found[name]))
    return found


# One command of one user, which executes `vadd.vv`
CASES = (
    "Kind.Of Event.Command Cmd.Running RunningCommand.Step Instr.Vector VectorInstr.Arith VectorOp.Binary BinaryOp.Vadd "
    "Source.V Form.V VEnd.Done"
)
# How commands are spelt and refused, the operator's lines, how the vector unit is used and counted, which instructions are legal, how
# many ticks one takes, and how the crates hold all this
LEFT_OUT = (
    "type commands.Operator commands.Commands.parse commands.Commands.of_absent commands.Running.stop_line "
    "machine.UserMachine.refuses machine.UserMachine.Use machine.Script.common machine.Grants machine.World.unit_after "
    "machine.VectorUnit legality.Legality step.Step.vector_ticks"
)
ADDITION = Part(frozenset(CASES.split()), frozenset(LEFT_OUT.split()))


# ---- contracts


@dataclass(frozen=True)
class Contract:
    """The head of a function with its clauses; or the fields of a type, or one of its ghosts or of a trait's, by its name."""

    name: str
    ghost: str
    is_public: bool
    text: Text


def item_at(line: str) -> re.Match[str] | None:
    """The head of an item, past the parameters of types."""
    while (shorter := re.sub(r"<[^<>]*>", "", line)) != line:
        line = shorter
    return ITEM.match(line)


def blocks_of(source: str, indent: str) -> Iterator[tuple[re.Match[str], list[str]]]:
    """The items of a file or of a type, as the layout has them."""
    lines: list[str] = []
    head: re.Match[str] | None = None
    for line in source.split("\n"):
        started = item_at(line.removeprefix(indent)) if line.startswith(indent) else None
        if started:
            if head:
                yield head, lines
            head, lines = started, []
        lines.append(line)
    if head:
        yield head, lines


def head_of(lines: list[str], indent: str) -> str:
    """A function up to its body, which begins on a line of its own behind clauses."""
    ends = [at for at, line in enumerate(lines) if line in (indent + "{", indent + "{}")]
    ends += [at + 1 for at, line in enumerate(lines) if re.match(rf"{indent}\S.*\{{$", line)]
    return "\n".join(lines[: min(ends, default=len(lines))])


def statements(lines: list[str]) -> Iterator[tuple[str, str]]:
    """The ghosts of a type or trait, by their names."""
    kept = ""
    for line in lines:
        if kept or re.match(r" +ghost (?!use)\w", line):
            kept += f"{line}\n"
            if line.endswith(";"):
                yield kept.split()[1].strip(":"), kept
                kept = ""


@cache
def contracts(crate: str) -> list[Contract]:
    """The contracts of a crate, and what its types and traits are and promise."""
    found: list[Contract] = []
    for path in sorted((CRATES / crate / "src").rglob("*.rt")):
        source = source_of(path)
        scope = scope_of(crate, source)
        for head, lines in blocks_of(source, ""):
            kind, owner = head[1], head[2]
            is_trait, is_public = kind == "trait", head[0].startswith("pub ")
            if kind == "fn":
                found.append(Contract(owner, "", is_public, Text(path, head_of(lines, ""), scope)))
            elif kind == "struct":
                found.append(Contract(owner, "fields", is_public, Text(path, "\n".join(lines), scope)))
            elif kind in ("impl", "trait"):
                for it, body in blocks_of("\n".join(lines[1:]), "    "):
                    if it[1] == "fn" and (is_trait or it[0].startswith("pub ")):
                        found.append(Contract(f"{owner}::{it[2]}", "", True, Text(path, head_of(body, "    "), scope)))
                for name, text in statements(lines):
                    found.append(Contract(owner, name, is_public or kind == "impl", Text(path, text, scope)))
    return found


def scope_of(crate: str, source: str) -> dict[str, Name]:
    """The meaning of names in a file of `src`: definitions, and types of the crates."""
    types: dict[str, Name] = {}
    for origin, names, one in RUST_USE.findall(source):
        for name in filter(None, map(str.strip, (names or one).split(","))):
            if name[0].isupper() and (CRATES / (origin if origin != "crate" else crate)).exists():
                types[name] = Name(crate if origin == "crate" else origin, "type", name)
    return types | taken(source)


@cache
def types_of(crate: str) -> dict[str, Text]:
    """The definitions that give the values of a crate's types and the ghosts of its traits."""
    found: dict[str, Text] = {}
    for it in contracts(crate):
        if it.ghost not in ("", *OWN):
            there = found.get(it.name, Text(it.text.path, ""))
            found[it.name] = Text(there.path, there.text + it.text.text, there.scope | it.text.scope)
    return found


def exported(crate: str) -> Iterator[Contract]:
    """The contracts of the items that a crate hands out."""
    library = re.sub(r"//.*", "", source_of(CRATES / crate / "src/lib.rt"))
    uses = re.findall(r"^pub use [\w:]*?::(?:\{([^}]*)\}|(\w+));", library, re.MULTILINE)
    handed = {word for several, one in uses for _, word in WORD.findall(several or one)}
    modules = set(re.findall(r"^pub mod (\w+)", library, re.MULTILINE))
    for it in contracts(crate):
        part = it.text.path.relative_to(CRATES / crate / "src").parts[0].removesuffix(".rt")
        if it.is_public and (it.name.partition("::")[0] in handed or part in modules):
            yield it


def clause_of(text: Text, clause: str) -> Text:
    """A contract without its other clauses: the head of the function and this clause; the whole contract if no clause is named."""
    kept: list[str] = []
    is_asked_for = True
    for line in text.text.split("\n"):
        started = CLAUSE.match(line)
        is_asked_for = not clause or started[1] == clause if started else is_asked_for
        kept += [line] if is_asked_for else []
    return Text(text.path, "\n".join(kept), text.scope)


def asked(word: str) -> list[Text]:
    """The contracts that a word names, or the clause of each; none for a definition."""
    crate, _, rest = word.partition("::")
    name, _, clause = rest.partition(".")
    return [clause_of(it.text, clause) for it in exported(crate) if it.name == name]


def start_of(word: str) -> set[Name]:
    """The names with which the closure of a public name begins."""
    crate, is_contract, rest = word.partition("::")
    if not is_contract:
        module, _, name = word.rpartition(".")
        if not text_of(resolved(Name("rv_model", module, name))):
            sys.exit(f"tools/definitions/definitions: rv_model defines no {word}")
        return {Name("rv_model", module, name)}
    found = asked(word)
    if not found:
        sys.exit(f"tools/definitions/definitions: {crate} hands out no {rest.partition('.')[0]}")
    clause = rest.partition(".")[2]
    if clause and not any(it[1] == clause for text in found for it in map(CLAUSE.match, text.text.split("\n")) if it):
        sys.exit(f"tools/definitions/definitions: {word.removesuffix(f'.{clause}')} has no clause {clause}")
    return {it for text in found for it in met(text)}


def is_counted(name: Name) -> bool:
    return name.module != "type" and (not name.module.startswith("declared") or is_constant(name))


def files_of(found: dict[Name, Text]) -> dict[Path, int]:
    """The lines of definitions by their files, and of constants by theirs."""
    lines: defaultdict[Path, int] = defaultdict(int)
    for name, text in found.items():
        if text.text and is_counted(name):
            lines[text.path.relative_to(CRATES)] += lines_of(text.text)
    return dict(sorted(lines.items()))


def modules_of_kit(found: Iterable[Name]) -> dict[tuple[str, str], int]:
    """How many names of each module of the kit are cited, by its crate and its path."""
    modules: defaultdict[tuple[str, str], int] = defaultdict(int)
    for name in found:
        if not (CRATES / name.crate).exists() and name.name != "*":
            modules[name.crate, name.module] += 1
    return dict(sorted(modules.items()))


def module_files() -> dict[str, dict[str, int]]:
    """The lines of each file of `rv_model/specs` by its module, with the one that names the module's files; `lending` isn't among them."""
    folders = sorted(it for it in MODEL.iterdir() if it.is_dir() and it.name != "lending")
    return {
        it.name: {f.stem: lines_of(source_of(f)) for f in (it.with_suffix(".antt"), *sorted(it.glob("*.antt")))}
        for it in folders
    }


def others(left_out: Container[str] = OWN) -> dict[Name, Text]:
    """The names that exported contracts of all crates cite, with those that these rest on. A type's invariant, which its crate is proved to
    keep, and how its values are stored are left out, as the type's own: no contract says more or less by them."""
    crates = sorted(it.name for it in CRATES.iterdir() if not re.match("test_|draws", it.name))
    handed = (it for crate in crates for it in exported(crate) if it.ghost not in left_out)
    return closure({name for it in handed for name in met(it.text)})


def definitions(left_out: Container[str] = OWN) -> dict[Name, Text]:
    """All definitions of `rv_model` but those of `lending`, and what exported contracts cite, with what they rest on."""
    modules = [".".join(it.relative_to(MODEL).with_suffix("").parts) for it in MODEL.rglob("*.antt")]
    model = [
        Name("rv_model", it, name)
        for it in modules
        if not it.startswith("lending")
        for name in module_of("rv_model", it)[0]
    ]
    return closure(model) | others(left_out)


def by_part(files: dict[Path, int]) -> dict[str, int]:
    """The lines of files outside `rv_model/specs`: of other crates, of `lending`, and of constants in `src`."""
    parts: defaultdict[str, int] = defaultdict(int)
    for path, lines in files.items():
        crate, folder, *rest = path.parts
        if folder == "src":
            parts["src"] += lines
        elif crate != "rv_model":
            parts[crate] += lines
        elif rest[0] == "lending":
            parts["lending"] += lines
    return dict(sorted(parts.items()))


def total_of(modules: dict[str, dict[str, int]], parts: dict[str, int]) -> int:
    files = (lines for it in modules.values() for lines in it.values())
    return lines_of(source_of(MODEL / "Lib.antt")) + sum(files) + sum(parts.values())


def addition() -> dict[Path, int]:
    """What is read from the headline to one vector addition."""
    return files_of(closure(start_of(HEADLINE), ADDITION))


def print_files(files: dict[Path, int]) -> None:
    for path, lines in files.items():
        print(f"{lines:6,}  {path}")
    print(f"{sum(files.values()):6,}  in {len(files)} files")


def print_all() -> None:
    modules, found = module_files(), definitions()
    parts = by_part(files_of(found))
    for module, files in modules.items():
        print(
            f"{sum(files.values()):6,}  {module}: {', '.join(f'{name} {lines}' for name, lines in files.items() if lines)}"
        )
    for part, lines in parts.items():
        print(f"{lines:6,}  {'constants of src' if part == 'src' else f'of {part}'}")
    print(f"{total_of(modules, parts):6,}  in all")
    headline, read = files_of(closure(start_of(HEADLINE))), addition()
    print(f"{sum(headline.values()):6,}  in {len(headline)} files: definitions behind the headline")
    print(f"{sum(read.values()):6,}  in {len(read)} files: from the headline to vadd.vv")
    kit = modules_of_kit(definitions(()))
    for crate in sorted({it for it, _ in kit}):
        print(f"kit's {crate}: {', '.join(f'{module} {names}' for (it, module), names in kit.items() if it == crate)}")


def main() -> None:
    words = sys.argv[1:]
    if len(words) == 2 and words[0] == "--print":
        from tools.definitions.definition_texts import texts

        print(texts(words[1]))
        return
    if words and words[0] == "--kit" and len(words) <= 2:
        from tools.definitions.kit_definitions import report

        print(*report(*words[1:]), sep="\n")
        return
    if words and words[0].startswith("-"):
        sys.exit(__doc__)
    if not words:
        print_all()
        return
    at = words.index("--case") if "--case" in words else len(words)
    found = closure({it for word in words[:at] for it in start_of(word)}, Part(frozenset(words[at + 1 :])))
    print_files(files_of(found))
    kit = modules_of_kit(found)
    print(
        f"{sum(is_counted(it) for it, text in found.items() if text.text)} names, and {sum(kit.values())} of {len(kit)} modules of the kit"
    )


if __name__ == "__main__":
    main()

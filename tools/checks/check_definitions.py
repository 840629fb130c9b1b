"""Compares names in pages about definitions with the sources: `tools/checks/check_definitions [OUTPUT]`, at the top of the repository.

In docs/DEFINITIONS.md it compares the files and crates of each row of both tables with those of `tools/definitions/definitions`. In
docs/CONTRACTS.md it looks for each contract that a statement about a crate names, with its clauses, and in docs/GUARANTEES.md for the
modules of the kit that contracts and definitions cite. If OUTPUT is given, the file with the output of `rt ci` that proved `vecmon`, it
also compares the kit's crates and the number of C functions that the proof assumes. The exit status is 1 if something differs.
"""

import re
import sys
from collections.abc import Iterator
from pathlib import Path

from tools.definitions import definitions as counted
from tools.definitions.definition_figures import ALL, HOUR, files_in, hour_files, parts, rows_of


def wrong_hour(page: str) -> Iterator[str]:
    """Yield a message for each file of the hour that the page names and doesn't need, or needs and doesn't name."""
    read = hour_files()
    named = [name for _, files in rows_of(page, HOUR) for name in files_in(files)]
    for name in sorted(read.keys() ^ set(named)):
        yield f"{name} is {'needed and not named' if name in read else 'named and not needed'} in the hour's table"


def wrong_modules(page: str) -> Iterator[str]:
    """Yield a message for each row whose files, crates or folders differ from those with definitions."""
    modules = counted.module_files()
    rows = {name: set(files_in(files)) for name, files, *_ in rows_of(page, ALL)}
    for name, files in rows.items():
        module = modules.get(name.strip("`"), {})
        if module and (others := {it for it in module if module[it] and it != name.strip("`")} ^ files):
            yield f"the row of {name} differs in {', '.join(sorted(others))}"
    outside = [it for name, files in rows.items() if name.strip("`") not in modules for it in files]
    for name in sorted(set(outside) ^ parts().keys()):
        yield f"{name} is {'named and has no definitions' if name in outside else 'not named'} in the last rows"


def wrong_kit(page: str) -> Iterator[str]:
    section = page.partition("\n## Trusted\n")[2].partition("\n## ")[0]
    said = {
        crate: set(re.findall(r"`([\w.]+)`", modules))
        for crate, modules in re.findall(r"^\| `(\w+)` \| (.*) \|$", section, re.MULTILINE)
    }
    actual: dict[str, set[str]] = {}
    for crate, module in counted.modules_of_kit(counted.definitions(())):
        if not module.startswith("declared."):
            actual.setdefault(crate, set()).add(module)
    for crate in sorted(said.keys() | actual.keys()):
        if said.get(crate) != actual.get(crate):
            yield f"of {crate} these modules are cited: {', '.join(f'`{it}`' for it in sorted(actual.get(crate, set())))}"


CITED = re.compile(r"\((`[\w:]+`(?:: `\w+`(?:, `\w+`)*)?(?:; `[\w:]+`(?:: `\w+`(?:, `\w+`)*)?)*)\)")
SUBJECT = re.compile(r"`[\w:]+`(?:(?:, | and )`[\w:]+`)*")


def clauses_of(crate: str) -> dict[str, set[str]]:
    """Return the names of the clauses and ghosts of a crate's contracts, by the names of functions and types."""
    found = dict[str, set[str]]()
    for it in counted.contracts(crate):
        clauses = (counted.CLAUSE.match(line) for line in it.text.text.split("\n"))
        found.setdefault(it.name, set()).update({it.ghost} if it.ghost else {clause[1] for clause in clauses if clause})
    return found


def cited_in(statement: str) -> list[str]:
    """Return the contracts of a statement, each with its clauses: those in parentheses, or else the functions that it begins with."""
    if cells := CITED.findall(statement):
        return [it for cell in cells for it in cell.split("; ")]
    subject = SUBJECT.match(statement)
    return re.findall(r"`[\w:]+`", subject[0]) if subject else []


def wrong_contracts(page: str) -> Iterator[str]:
    """Yield a message for each statement about a crate without a contract, and for each contract that isn't in the crate."""
    for crate, section in re.findall(r"^## `(\w+)`\n(.*?)(?=^## |\Z)", page, re.MULTILINE | re.DOTALL):
        clauses = clauses_of(crate)
        for statement in re.split(r"^- ", section, flags=re.MULTILINE)[1:]:
            contracts = cited_in(re.sub(r"\s+", " ", statement))
            if not contracts:
                yield f"a statement about {crate} names no contract: {statement[:60]}"
            for name, _, cited in (it.partition(": ") for it in contracts):
                if name.strip("`") not in clauses:
                    yield f"{crate} has no contract {name}"
                for clause in set(re.findall(r"\w+", cited)) - clauses.get(
                    name.strip("`"), {*re.findall(r"\w+", cited)}
                ):
                    yield f"the contract {name} of {crate} has no clause {clause}"


def wrong_axioms(page: str, output: str) -> Iterator[str]:
    """Yield a message for each wrong number of C functions and each missing crate of the kit; none if `vecmon` wasn't proved anew."""
    proved = output.partition("\nrt: vecmon proved\n")
    report = proved[0].rpartition(" proved\n")[2] if proved[1] else ""
    for crate, reached, all_of_it in re.findall(
        r"^axioms (\w+): .*\((\d+) of the (\d+) declared\)$", report, re.MULTILINE
    ):
        if f"{reached} of the {all_of_it} of `{crate}`" not in page:
            yield f"the proof of vecmon rests on {reached} of the {all_of_it} of `{crate}`"
    for crate in re.findall(r"^statements (\w+):", report, re.MULTILINE):
        if not (counted.CRATES / crate).exists() and f"`{crate}`" not in page.partition("\n## Trusted\n")[2]:
            yield f"vecmon uses the kit's `{crate}`"


def main() -> int:
    arguments = sys.argv[1:]
    pages = Path("docs/DEFINITIONS.md"), Path("docs/CONTRACTS.md"), Path("docs/GUARANTEES.md")
    guide, contracts, guarantees = (page.read_text(encoding="utf-8") for page in pages)
    output = Path(arguments[0]).read_text(encoding="utf-8") if arguments else ""
    found = {
        "DEFINITIONS.md": [*wrong_hour(guide), *wrong_modules(guide)],
        "CONTRACTS.md": [*wrong_contracts(contracts)],
        "GUARANTEES.md": [*wrong_kit(guarantees), *wrong_axioms(guarantees, output)],
    }
    for page, faults in found.items():
        for fault in faults:
            print(f"docs/{page}: {fault}")
    return 1 if any(found.values()) else 0


if __name__ == "__main__":
    sys.exit(main())

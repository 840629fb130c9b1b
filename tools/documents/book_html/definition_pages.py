"""The book's pages of definitions and contracts, as `tools/definitions/definitions --print` has them, with links from names to
definitions."""

import contextlib
import html
import re
import textwrap
from collections.abc import Callable, Iterable, Iterator
from dataclasses import dataclass
from pathlib import Path
from urllib.parse import quote

from tools.definitions.definition_texts import Definition, by_file, closure_of, counted_of
from tools.definitions.definitions import CRATES, HEADLINE, MODEL, WORD, Name, Text
from tools.definitions.definitions import asked, definitions, exported, key, lines_of, resolved

TOP = Path(__file__).resolve().parents[3]

FOLDER = Path("docs/definitions")
COMMENT = re.compile(r"(?:--|//).*")

Target = Callable[[Name], str | None]
"""The target of the link from a resolved name; None for no link."""


@dataclass(frozen=True)
class Page:
    """A page of the book: its name in the folder, its title, and its first paragraph."""

    name: str
    title: str
    about: str


HEADLINE_PAGE = Page("headline", "Definitions behind the headline", f"All that the clause `{HEADLINE}` rests on.")
ADDITION_PAGE = Page(
    "addition",
    "From the headline to one vector addition",
    "The definitions to read in an hour: the headline, the command `step` and the instruction `vadd.vv`.",
)
ALL_PAGE = Page("all", "All definitions", "The definitions that contracts cite, and all that they rest on.")
CONTRACTS_PAGE = Page(
    "contracts",
    "Contracts",
    "The contracts of the functions that the crates export, and the ghosts of their types and traits.",
)


def write_definition_pages(stage: Path) -> None:
    """Write the pages into the folder of sources, and a group for them into the book's first page."""
    with contextlib.chdir(TOP):
        pages = {
            HEADLINE_PAGE: reading_page(HEADLINE_PAGE, "headline"),
            ADDITION_PAGE: reading_page(ADDITION_PAGE, "vadd.vv"),
            ALL_PAGE: _page(ALL_PAGE, _definitions_of(definitions())),
            CONTRACTS_PAGE: _page(CONTRACTS_PAGE, _contracts(definitions())),
        }
    (stage / FOLDER).mkdir(parents=True)
    for page, text in pages.items():
        (stage / FOLDER / f"{page.name}.md").write_text(text, "utf-8")
    with (stage / "index.md").open("a", encoding="utf-8") as index:
        index.write("\n## Definitions\n\n")
        index.write("".join(f"- **[{it.title}]({FOLDER}/{it.name}.md)**: {it.about}\n" for it in pages))
        entries = "\n".join(f"{FOLDER}/{it.name}" for it in pages)
        index.write(f"\n```{{toctree}}\n:hidden:\n:caption: Definitions\n\n{entries}\n```\n")


def reading_page(page: Page, word: str) -> str:
    """The page of a word of `tools/definitions/definitions --print`: the clause, and the definitions that it rests on, in reading order."""
    found = closure_of(word)
    counted = counted_of(found)
    lines, files = sum(lines_of(it.text) for it in counted.values()), len({it.path for it in counted.values()})
    about = f"These are {lines:,} lines in {files} files, in reading order; `tools/definitions/definitions --print {word}` prints them."
    clause = [f"## {HEADLINE}", *(_block("", it.text, "", it, _here(found)) for it in asked(HEADLINE))]
    return _page(page, [about, *clause, *_definitions_of(found)])


def _page(page: Page, parts: Iterable[str]) -> str:
    about = f"{page.about} Each name links to its definition; [DEFINITIONS](../DEFINITIONS.md) explains the notation."
    return "\n\n".join([f"# {page.title}", about, *parts]) + "\n"


def _definitions_of(found: dict[Name, Text]) -> Iterator[str]:
    """The definitions by file in reading order, then the types of `src` and the ghosts of types."""
    counted, target = counted_of(found), _here(found)
    types = {name: text for name, text in found.items() if text.text and name not in counted}
    for path, those in [*by_file(counted).items(), *by_file(types).items()]:
        yield f"## {title_of(path)}"
        yield from (_definition(it, target) for it in those)


def title_of(path: Path) -> str:
    """The name of a file as DEFINITIONS has it: without the folder for `rv_model/specs`, with the crate for others."""
    folder = MODEL if path.is_relative_to(MODEL) else CRATES
    return str(path.relative_to(folder).with_suffix(""))


def _definition(it: Definition, target: Target) -> str:
    return _block(
        anchor(it.name),
        it.text.text.strip(),
        it.comment,
        it.text,
        lambda name: target(name) if name != it.name else None,
    )


def _contracts(found: dict[Name, Text]) -> Iterator[str]:
    """The contracts of each crate; their names link into the page of all definitions."""
    here = _here(found)

    def there(name: Name) -> str | None:
        return (link := here(name)) and f"{ALL_PAGE.name}.html{link}"

    for crate in sorted(it.name for it in CRATES.iterdir() if not re.match("test_|draws", it.name)):
        contracts = [it for it in exported(crate) if it.ghost not in ("", "fields") or "ensures" in it.text.text]
        if contracts:
            yield f"## {crate}"
            for it in contracts:
                text = textwrap.dedent(it.text.text.strip("\n"))
                yield _block("", text, f"// {crate}::{it.name}\n", it.text, there)


def anchor(name: Name) -> str:
    """The anchor of a definition."""
    return f"{name.crate}.{name.module}.{name.name}"


def _here(found: dict[Name, Text]) -> Target:
    shown = {name for name, text in found.items() if text.text}
    return lambda name: f"#{quote(anchor(name))}" if name in shown else None


def _block(identifier: str, text: str, comment: str, origin: Text, target: Target) -> str:
    """A text with its comment as HTML."""
    head = f' id="{html.escape(identifier)}"' if identifier else ""
    above = f'<span class="comment">{html.escape(comment)}</span>' if comment else ""
    return f'<pre class="definition"{head}>{above}{linked(Text(origin.path, text, origin.scope), target)}</pre>'


def linked(text: Text, target: Target) -> str:
    """A text as HTML, with links from the names that it cites."""
    code = COMMENT.sub(lambda it: " " * len(it[0]), text.text)
    spans = [(it.start(), it.end(), '<span class="comment">', "</span>") for it in COMMENT.finditer(text.text)]
    spans += [
        (start, end, f'<a href="{link}">', "</a>")
        for start, end, name in _citations(code, text.scope)
        if (link := target(name))
    ]
    shown, at = "", 0
    for start, end, before, after in sorted(spans):
        shown += html.escape(text.text[at:start]) + before + html.escape(text.text[start:end]) + after
        at = end
    return shown + html.escape(text.text[at:])


def _citations(code: str, scope: dict[str, Name]) -> Iterator[tuple[int, int, Name]]:
    """The places of the names that a text without comments cites, and each name, resolved."""
    module: Name | None = None
    for found in WORD.finditer(code):
        dot, word = found.groups()
        if not dot:
            name = scope.get(word)
            module = name if name and name.name == "*" else None
            if name and not module:
                yield found.start(2), found.end(2), resolved(name)
        elif module:
            yield found.start(2), found.end(2), resolved(Name(module.crate, module.module, key(word)))
            module = None

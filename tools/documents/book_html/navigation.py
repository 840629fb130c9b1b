"""The pages of the repository in groups by reader, as docs/book.toml lists them, and the book's first page."""

import re
import tomllib
from collections import Counter
from dataclasses import dataclass
from pathlib import Path

LIST = "docs/book.toml"


class NavigationError(Exception):
    """The list names a page that doesn't exist, or a page is in no group or in more than one."""


@dataclass(frozen=True)
class Group:
    """Pages for one kind of reader: paths from the top of the repository, in the order of the navigation."""

    name: str
    title: str
    pages: tuple[str, ...]


def pages_in(top: Path) -> list[str]:
    """Return all pages of the repository, sorted: the Markdown files at its top and in docs/."""
    return sorted(str(path.relative_to(top)) for folder in (top, top / "docs") for path in folder.glob("*.md"))


def read_groups(top: Path) -> list[Group]:
    """Return the groups of docs/book.toml. Raises NavigationError unless each page is in exactly one of them."""
    table = tomllib.loads((top / LIST).read_text("utf-8"))
    groups = [Group(it["name"], it["title"], tuple(it["pages"])) for it in table["groups"]]
    listed = Counter(page for group in groups for page in group.pages)
    pages = pages_in(top)
    faults = [f"{LIST}: {page} not found" for page in listed if page not in pages]
    faults += [f"{LIST}: {page} is listed {times} times; list it once" for page, times in listed.items() if times > 1]
    faults += [f"{LIST}: {page} is in no group; add it to one" for page in pages if page not in listed]
    if faults:
        raise NavigationError("\n".join(faults))
    return groups


def title_of(text: str) -> str:
    """Return a page's title, from its first line."""
    return text.partition("\n")[0].removeprefix("# ")


def first_sentence(text: str) -> str:
    """Return the first sentence of the paragraph below a page's title, without its links; empty if something else is there."""
    paragraph = " ".join(text.partition("\n")[2].strip().partition("\n\n")[0].split("\n"))
    if not re.match(r"[`*\[]?\w", paragraph):
        return ""
    plain = re.sub(r"\[([^\]]*)\]\([^)]*\)", r"\1", paragraph)
    found = re.match(r".*?\.(?= |$)", plain)
    return found[0] if found else ""


def index_page(top: Path, groups: list[Group]) -> str:
    """Return the book's first page in Markdown: each page with its first sentence, and the hidden toctrees of the navigation."""
    text = "# Pages of vecmon\n"
    for group in groups:
        text += f"\n## {group.title}\n\n"
        for page in group.pages:
            source = (top / page).read_text("utf-8")
            text += f"- **[{title_of(source)}]({page})**: {first_sentence(source)}".removesuffix(": ") + "\n"
        entries = "\n".join(page.removesuffix(".md") for page in group.pages)
        text += f"\n```{{toctree}}\n:hidden:\n:caption: {group.title}\n\n{entries}\n```\n"
    return text

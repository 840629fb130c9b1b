"""The declarations of the pages' types: the kinds of elements with ids, compared with the pages' HTML."""

import html.parser
import re

from vecmon_lab.page.build.pages import PAGES, WEB

PLAYGROUND = WEB.parents[1] / "playground" / "web"
KINDS = {  # HTML Living Standard, section 3: the interface of each kind of element
    "a": "HTMLAnchorElement",
    "button": "HTMLButtonElement",
    "dialog": "HTMLDialogElement",
    "dl": "HTMLDListElement",
    "fieldset": "HTMLFieldSetElement",
    "form": "HTMLFormElement",
    "input": "HTMLInputElement",
    "label": "HTMLLabelElement",
    "ol": "HTMLOListElement",
    "output": "HTMLOutputElement",
    "pre": "HTMLPreElement",
    "script": "HTMLScriptElement",
    "select": "HTMLSelectElement",
    "table": "HTMLTableElement",
    "tbody": "HTMLTableSectionElement",
    "template": "HTMLTemplateElement",
    "tr": "HTMLTableRowElement",
    "textarea": "HTMLTextAreaElement",
    "ul": "HTMLUListElement",
}
GROUP = re.compile(r"Ids<\s*([^,]+),([^>]+)>")


class Ids(html.parser.HTMLParser):
    """The interfaces of the elements with an id in pages; those without members of their own are HTMLElement."""

    def __init__(self) -> None:
        super().__init__()
        self.found: dict[str, set[str]] = {}

    def handle_starttag(self, tag: str, attributes: list[tuple[str, str | None]]) -> None:
        if name := dict(attributes).get("id"):
            self.found.setdefault(name, set()).add(KINDS.get(tag, "HTMLElement"))


def test_declared_parts_are_those_of_pages() -> None:
    pages = Ids()
    for path in sorted([*PAGES.glob("*.html"), *PLAYGROUND.glob("*.html")]):
        pages.feed(path.read_text("utf-8"))
    text = (WEB / "parts.d.ts").read_text("utf-8").partition("export type Parts =")[2]
    declared = {
        name: set(kinds.split(" | "))
        for kinds, names in GROUP.findall(text)
        for name in re.findall(r'"([^"]+)"', names)
    }
    assert declared == pages.found

"""Functions that make elements of HTML for pages, and bars of shares, whose widths `bars.js` sets."""

import html
from collections.abc import Mapping, Sequence

from .texts import html_text, page_text

KINDS = ("active", "masked", "tail")


class Html(str):
    """A text in HTML, which isn't escaped again."""


def joined(contents: Sequence[str]) -> Html:
    """Join elements and texts. A text that isn't `Html` is escaped."""
    return Html("".join(it if isinstance(it, Html) else html.escape(it) for it in contents))


def element(tag: str, *contents: str, **attributes: object) -> Html:
    """Return an element with contents and attributes.

    The name of an attribute may end with `_`, as in `class_`. Other `_` become `-`. Attributes with the value "" are left out.
    """
    values = {name.rstrip("_").replace("_", "-"): f"{value}" for name, value in attributes.items()}
    words = "".join(f' {name}="{html.escape(value)}"' for name, value in values.items() if value)
    return Html(f"<{tag}{words}>{joined(contents)}</{tag}>")


def prose(text: str) -> Html:
    """Return an author's text in HTML. Text between backquotes becomes code."""
    return Html(html_text(text))


def content_of(key: str, **values: str) -> Html:
    """Return the page text of a key in HTML, with values in its places. Raises KeyError for an unknown key."""
    text = page_text(key, **{name: f"{{{name}}}" for name in values})
    return Html(html_text(text).format(**{name: joined([value]) for name, value in values.items()}))


def cell(value: str | int, kind: str = "", tag: str = "td") -> Html:
    """Return a cell of a table. kind: the cell's class; by default it is `number` for a number, and a text has no class"""
    text, own_kind = (f"{value:,}", "number") if isinstance(value, int) else (value, "")
    return element(tag, text, class_=kind or own_kind)


def share_text(share: float) -> str:
    """Return a share of a whole, 0 to 1, as a percentage without the sign, for `data-share`. `bars.js` sets a width from it."""
    return f"{100 * share:.5g}"


def bar(shares: Mapping[str, float], kind: str = "", title: str = "") -> Html:
    """Return a cell of a table with a bar that is divided into parts.

    shares: the share of each part in the bar, 0 to 1, by the part's class; kind: the bar's class; title: the cell's tooltip
    """
    parts = [element("span", class_=name, data_share=share_text(share)) for name, share in shares.items()]
    return element("td", element("div", *parts, class_=kind), class_="bar", title=title)


def elements_bar(numbers: Sequence[int]) -> Html:
    """Return a cell with a bar of active, masked-off and tail elements.

    numbers: the number of elements of each kind, in the order of KINDS; if all are 0, the cell is empty
    """
    whole = sum(numbers)
    if not whole:
        return element("td")
    title = ", ".join(f"{it:,} {page_text(f'outcome.{kind}')}" for kind, it in zip(KINDS, numbers))
    return bar({kind: it / whole for kind, it in zip(KINDS, numbers)}, "elements", title)


def legend() -> Html:
    """Return the explanation of the colours in bars of elements."""
    kinds = [element("small", element("span", class_=kind), page_text(f"outcome.{kind}")) for kind in KINDS]
    return element("p", *kinds, class_="kinds")

"""The texts of pages. Files of pages have keys, which the builder replaces by texts of the table for the pages' language."""

import functools
import html
import json
import pathlib
import re
from collections.abc import Mapping

from ...tables.table import read_table

LANGUAGE = "en"  # the language of all pages; its table is tables/texts.LANGUAGE.txt
# Plural categories of Unicode CLDR. The key of a plural form ends with one of them.
NUMBERS = ("zero", "one", "two", "few", "many", "other")
IN_HTML = re.compile(r"\{\{([\w.-]+)\}\}")
IN_SCRIPT = re.compile(r'\b(textOf|contentOf)\(\s*"([\w.-]+)"(\))?')
PLACE = re.compile(r"\{(\w+)\}")
_DECLARATIONS = """\
// Keys of texts and the places in them, from tables/texts.en.txt by `python3 -m support.text_keys`.

export interface Places {{
{rows}}}

/** The arguments after a key: the values of the places in its text, if it has any. */
export type Values<Key extends keyof Places, Value> = [Places[Key]] extends [never] ? [] : [Record<Places[Key], Value>];
"""
_MARKUP = re.compile(r"&lt;(/?(?:em|kbd|strong))&gt;")


@functools.cache
def read_texts(language: str) -> Mapping[str, str]:
    """Return the texts of a language by key. A text that its table lacks is in English."""
    texts = {key: text for key, text in read_table(f"texts.{language}")}
    return texts if language == "en" else {**read_texts("en"), **texts}


def forms_of(key: str, language: str) -> str | dict[str, str]:
    """Return the text of a key, or its plural forms by category. Raises ValueError if there is none."""
    texts = read_texts(language)
    forms = {each: texts[f"{key}.{each}"] for each in NUMBERS if f"{key}.{each}" in texts}
    if key not in texts and not forms:
        raise ValueError(f"text '{key}' not found: add a row to tables/texts.{language}.txt")
    return texts.get(key) or forms


def page_text(key: str, **values: object) -> str:
    """Return the text of a key for a page, with values in its places. Raises KeyError for an unknown key."""
    return read_texts(LANGUAGE)[key].format(**values)


def fill(name: str, text: str) -> str:
    """Return the content of a page's file with texts in place of keys. name: the file's name; text: its content

    In HTML, a key is `{{KEY}}`. In its text, backquotes mark code, and <em>, <kbd> and <strong> are elements. In a script, a text replaces
    the call `textOf("KEY")`, or only the key if the call has values. Raises ValueError if there is no text for a key.
    """
    if pathlib.PurePath(name).suffix == ".html":
        return IN_HTML.sub(lambda found: _as_html(forms_of(found[1], LANGUAGE)), text)
    return IN_SCRIPT.sub(_in_script, text)


def declarations() -> str:
    """Return the TypeScript declaration of the keys, each with the names of the places in its text."""
    places = dict[str, set[str]]()
    for key, text in read_texts("en").items():
        name, _, category = key.rpartition(".")
        is_form = category in NUMBERS
        places.setdefault(name if is_form else key, set()).update(PLACE.findall(text), ["count"] if is_form else [])
    kinds = {key: " | ".join(f'"{name}"' for name in sorted(names)) or "never" for key, names in places.items()}
    rows = [f'  "{key}": {kind};\n' for key, kind in kinds.items()]
    return _DECLARATIONS.format(rows="".join(rows))


def html_text(text: str) -> str:
    """Return a text in HTML. Text between backquotes becomes code."""
    return re.sub("`([^`]*)`", r"<code>\1</code>", html.escape(text))


def _as_html(text: str | dict[str, str]) -> str:
    """Return a text in HTML, where <em>, <kbd> and <strong> stay elements. Raises ValueError for plural forms."""
    if isinstance(text, dict):
        raise ValueError(f"'{text['other']}' depends on a number: let a script show it")
    return _MARKUP.sub(r"<\1>", html_text(text))


def _in_script(found: re.Match[str]) -> str:
    """Return the text that replaces the match of a key in a script: the whole call, or only the key if the call has values."""
    call, key, end = found.groups()
    text = json.dumps(forms_of(key, LANGUAGE), ensure_ascii=False).replace("<", "\\u003c")
    return text if call == "textOf" and end else f"{call}({text}{end or ''}"

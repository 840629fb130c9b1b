"""The texts of pages: the table, the keys that files name, and texts in place of keys, worked out by hand."""

import html.parser
import pathlib
import re
import subprocess
from collections.abc import Iterator

import pytest

from support.text_keys import DECLARATIONS
from tools.checks.prose_texts import c_blocks
from vecmon_lab.page.build import texts
from vecmon_lab.page.build.modules import join_modules
from vecmon_lab.page.build.pages import WEB, Page, page_file
from vecmon_lab.tables.table import read_table

LAB = WEB.parents[1]
TABLES = sorted(path.stem for path in (LAB / "tables").glob("texts.*.txt"))
SOURCES = {
    path: path.read_text("utf-8") for path in sorted([*LAB.rglob("*.html"), *LAB.rglob("*.js"), *LAB.rglob("*.py")])
}
SHOWN = {"title", "aria-label", "placeholder", "alt", "label"}  # attributes of HTML
NO_TEXTS = {"script", "style", "textarea", "pre", "code", "kbd"}  # elements
WORD = re.compile(r"[^\W\d_]{2,}")
SENTENCE = re.compile(r"^[A-Z][a-z]+ [a-z]|[a-z]{2,},? [a-z]+,? [a-z]{2,}|[a-z]{2,} ?[.…:!?]$")
WORDS_OF_CALLS = [  # a word that is shown, or read aloud
    r'\bmake\("\w+", "[^"]*", "([^"\n]*)"',
    r'\b(?:unseen|table|button|ask)\("([^"\n]*)"',
    r'\b(?:header|link|say)\("\w+", "([^"\n]*)"',
    r'\b(?:title|ariaLabel|placeholder|textContent)(?::| =) "([^"\n]*)"',
]
NAMES = {  # of things, and commands: they are no texts
    *("vecmon", "pc", "Not supported", "Not begun", "No connection", "left as it was", "vecmon-lab class DIR --course"),
    *("an instruction without an access has no row of memory", "the lab has failed"),
    *("Python can't be started: ``", "Python ended with ``"),
    *("Replace all:", "Replace with:", "Replace?", "(Use /re/ syntax for regexp search)"),  # phrases of CodeMirror
}
TABLE = {
    "texts.en": [["language", "en"], ["stop", "Stopped & <em>ended</em> at `{line}`."], ["step.one", "{count} step"]]
    + [["step.other", "{count} steps"], ["late", "late"]],
    "texts.pl": [
        ["language", "pl"],
        ["step.one", "{count} krok"],
        ["step.few", "{count} kroki"],
        ["step.many", "{count} kroków"],
    ],
}
SCRIPT = """import { contentOf, textOf } from "./common/texts.js";
const counts = [1, 3, 5].map((count) => textOf("step", { count }));
const pieces = contentOf(
  "stop", { line: /** @type {any} */ ({ node: 7 }) });
console.log(JSON.stringify([counts, textOf("stop", { line: 7 }), pieces, textOf("late")]));
"""


def keys_in(path: pathlib.Path, text: str) -> list[str]:
    """The keys that a file names, with those of plural forms."""
    if path.suffix == ".py":
        return re.findall(r'\b(?:page_text|content_of)\(\s*"([\w.-]+)"', text)
    found = (
        texts.IN_HTML.findall(text) if path.suffix == ".html" else [key for _, key, _ in texts.IN_SCRIPT.findall(text)]
    )
    forms = {key: texts.forms_of(key, "en") for key in found}
    return [
        name
        for key, it in forms.items()
        for name in ([key] if isinstance(it, str) else [f"{key}.{each}" for each in it])
    ]


def test_keys_of_files_are_those_of_table() -> None:
    used = {key for path, text in SOURCES.items() for key in keys_in(path, text)}
    assert used == set(texts.read_texts("en"))


@pytest.mark.parametrize("name", TABLES)
def test_each_key_has_one_text_with_its_places(name: str) -> None:
    rows, english = read_table(name), texts.read_texts("en")
    assert len({key for key, _ in rows}) == len(rows)
    for key, text in rows:
        form = re.sub(rf"\.({'|'.join(texts.NUMBERS)})$", ".other", key)
        places = set(texts.PLACE.findall(text))
        assert (key, places - {"count"}) == (key, set(texts.PLACE.findall(english.get(key, english[form]))) - {"count"})


def test_scripts_name_keys_literally() -> None:
    for path, text in SOURCES.items():
        if path.suffix == ".js" and path.name != "texts.js":
            code = re.sub(r"^import .*$|/\*\*.*?\*/|//.*$", "", text, flags=re.MULTILINE)
            assert len(re.findall(r"\b(?:textOf|contentOf)\b", code)) == len(texts.IN_SCRIPT.findall(code)), path


class LiteralTexts(html.parser.HTMLParser):
    """The texts of HTML that aren't keys or places, but for code."""

    def __init__(self, page: str) -> None:
        super().__init__()
        self.texts, self.tag = list[str](), ""
        self.feed(page)
        self.found = [text for text in self.texts if WORD.search(re.sub(r"\{\{[\w.-]+\}\}|\$\w+", "", text))]

    def handle_starttag(self, tag: str, attributes: list[tuple[str, str | None]]) -> None:
        self.tag = tag
        self.texts += [value for name, value in attributes if name in SHOWN and value]

    def handle_endtag(self, tag: str) -> None:
        self.tag = ""

    def handle_data(self, data: str) -> None:
        if self.tag not in NO_TEXTS:
            self.texts.append(data.strip())


def literals_of(script: str) -> set[str]:
    """The sentences in the strings of a script, and the words that its calls show."""
    strings = [block.lines[0] for block in c_blocks(script, True) if not block.comment and len(block.lines) == 1]
    sentences = {text for text in strings if SENTENCE.search(text) and not re.search(r"[;={}\[]|/\*\*|^zero ra", text)}
    return sentences | {word for call in WORDS_OF_CALLS for word in re.findall(call, script) if WORD.search(word)}


def test_pages_have_texts_from_table_alone() -> None:
    page, script = (
        '<p title="{{a}}">{{b}} or <kbd>Enter</kbd></p>$rest',
        'make("p", "", "Stop"); put(x, `Ends at ${y}.`);',
    )
    assert LiteralTexts(page).found == ["{{b}} or"] and literals_of(script) == {"Stop", "Ends at ``."}
    for path, text in SOURCES.items():
        if path.suffix != ".py":
            found = literals_of(text) if path.suffix == ".js" else set(LiteralTexts(text).found)
            assert (path.name, found - NAMES) == (path.name, set())


def test_declaration_has_keys_of_table() -> None:
    assert DECLARATIONS.read_text("utf-8") == texts.declarations(), "run python3 -m support.text_keys, in lab"


@pytest.fixture
def language(monkeypatch: pytest.MonkeyPatch, request: pytest.FixtureRequest) -> Iterator[str]:
    """A language of small tables."""
    texts.read_texts.cache_clear()
    monkeypatch.setattr(texts, "read_table", TABLE.__getitem__)
    monkeypatch.setattr(texts, "LANGUAGE", request.param)
    yield request.param
    texts.read_texts.cache_clear()


@pytest.mark.parametrize("language", ["en"], indirect=True)
def test_markup_of_html(language: str) -> None:
    assert texts.fill("a.html", "<b title='{{late}}'>{{stop}}</b> {late}") == (
        "<b title='late'>Stopped &amp; <em>ended</em> at <code>{line}</code>.</b> {late}"
    )
    assert texts.page_text("stop", line=7) == "Stopped & <em>ended</em> at `7`."
    with pytest.raises(ValueError, match="'{count} steps' depends on a number: let a script show it"):
        texts.fill("a.html", "{{step}}")
    for name, text in (("a.html", "{{nowhere}}"), ("a.js", 'textOf("nowhere")')):
        with pytest.raises(ValueError, match="text 'nowhere' not found: add a row to tables/texts.en.txt"):
            texts.fill(name, text)


@pytest.mark.parametrize(
    "language, steps",
    [("en", ["1 step", "3 steps", "5 steps"]), ("pl", ["1 krok", "3 kroki", "5 kroków"])],
    indirect=["language"],
)
def test_texts_of_scripts(language: str, steps: list[str]) -> None:
    """Plural forms of English and Polish; a text that the table of a language lacks is English."""
    entry = str(WEB / "main.js")
    script = join_modules(entry, lambda path: texts.fill(path, SCRIPT) if path == entry else page_file(path))
    done = subprocess.run(["node", "-e", script], stdout=subprocess.PIPE, text=True, check=True)
    stop = '"Stopped & <em>ended</em> at `7`.",["Stopped & <em>ended</em> at `",{"node":7},"`."],"late"]'
    assert done.stdout == f"[{str(steps).replace(chr(39), chr(34)).replace(', ', ',')},{stop}\n"


def test_page_has_texts_of_its_script_alone() -> None:
    lesson = Page("tour").text("x")
    assert '<html lang="en">' in lesson and texts.read_texts("en")["page.noscript"] in lesson
    assert "Flame graph" in Page("profile").text("x") and "Flame graph" not in lesson

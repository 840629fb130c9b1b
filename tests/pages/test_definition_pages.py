"""The book's pages of definitions: each name links to its definition, and the text is that of `tools/definitions/definitions --print`."""

import html
import re
from pathlib import Path
from urllib.parse import unquote

import pytest
from tools.definitions.definition_texts import texts
from tools.definitions.definitions import Name, Text
from tools.documents.book_html.definition_pages import ADDITION_PAGE, linked, reading_page, title_of

TOP = Path(__file__).resolve().parents[2]


@pytest.fixture(name="page")
def addition(monkeypatch: pytest.MonkeyPatch) -> str:
    """The page of the hour's path."""
    monkeypatch.chdir(TOP)
    return reading_page(ADDITION_PAGE, "vadd.vv")


def blocks(page: str) -> list[str]:
    return re.findall(r'<pre class="definition".*?</pre>', page, re.DOTALL)


def test_names_are_links() -> None:
    scope = {"f": Name("kit", "List", "f"), "m": Name("kit", "Map", "*")}
    text = Text(Path("x"), "f (m.get a) < m.size -- uses f\n", scope)
    assert linked(text, lambda it: None if it.name == "size" else f"#{it.module}.{it.name}") == (
        '<a href="#List.f">f</a> (m.<a href="#Map.get">get</a> a) &lt; m.size <span class="comment">-- uses f</span>\n'
    )


def test_each_link_has_its_definition(page: str) -> None:
    anchors = [html.unescape(it) for it in re.findall(r'<pre class="definition" id="([^"]*)"', page)]
    links = {unquote(html.unescape(it)) for it in re.findall(r'<a href="#([^"]*)"', page)}
    assert len(anchors) == len(set(anchors)) and links <= set(anchors)
    arith = next(it for it in blocks(page) if 'id="rv_model.step.Step.arith_over"' in it)
    for name in "step.Step.element_wise", "elements.Arithmetic.binary_result", "vector.Groups.GroupType":
        assert f'<a href="#rv_model.{name}">{name.rpartition(".")[2]}</a>' in arith


def test_text_is_that_of_the_tool(page: str) -> None:
    clause, *shown = (html.unescape(re.sub(r"<[^>]*>", "", it)) for it in blocks(page))
    printed = texts("vadd.vv")
    plain = "".join(f"{it}\n\n" for it in shown)
    assert "ensures headline {" in clause
    for definition in re.split(r"\n\n|^---- .*\n|^-- [\d,]+ lines .*", printed, flags=re.MULTILINE):
        assert definition.strip() in plain


def test_hour_has_one_command_and_no_slice(page: str) -> None:
    assert "event setup p (Command line) =" in html.unescape(re.sub(r"<[^>]*>", "", page))
    assert "slice_steps" not in page and "operator_parse" not in page


def test_files_are_named_as_on_the_page() -> None:
    assert title_of(Path("crates/rv_model/specs/step/Hart.antt")) == "step/Hart"
    assert title_of(Path("crates/rv_model/src/vector/sizes.rt")) == "rv_model/src/vector/sizes"

"""tools/documents/book: its list of pages, its sources, its lexers, and its refusals. Stage 1 of tools/test builds the whole book."""

import re
import subprocess
from pathlib import Path

import pytest

pytest.importorskip("pygments")

from tools.documents.book_html.build import run_sphinx
from tools.documents.book_html.lexers import RattleLexer, TranscriptLexer
from tools.documents.book_html.navigation import NavigationError, first_sentence, index_page, read_groups
from tools.documents.book_html.sources import linked_paths, stage_sources
from tools.documents.book_html.theme import finished_styles, join_scripts

TOP = Path(__file__).resolve().parents[2]


@pytest.fixture
def small(tmp_path: Path) -> Path:
    """A repository of two pages, a linked file and a folder."""
    (tmp_path / "docs").mkdir()
    (tmp_path / "lab").mkdir()
    (tmp_path / "lab" / "one.s").write_text("nop\n")
    (tmp_path / "README.md").write_text("# First\n\nIt `is` [so](docs/A.md#x) here. And more.\n")
    (tmp_path / "docs" / "A.md").write_text(
        "# Second\n\n[file](../lab/one.s) [folder](../lab) [net](https://x.example/a)\n"
    )
    (tmp_path / "docs" / "book.toml").write_text(
        '[[groups]]\nname = "users"\ntitle = "Users"\npages = ["README.md", "docs/A.md"]\n'
    )
    return tmp_path


def test_index_lists_pages_with_first_sentences(small: Path) -> None:
    index = index_page(small, read_groups(small))
    assert "- **[First](README.md)**: It `is` so here.\n- **[Second](docs/A.md)**\n" in index
    assert ":caption: Users\n\nREADME\ndocs/A\n```\n" in index


@pytest.mark.parametrize(
    "text, sentence",
    [("# T\n\nOne two.\nThree.\n", "One two."), ("# T\n\n```sh\nx.\n```\n", ""), ("# T\n\nNo stop\n", "")],
)
def test_first_sentence_is_extracted(text: str, sentence: str) -> None:
    assert first_sentence(text) == sentence


@pytest.mark.parametrize(
    "pages, fault",
    [
        ('["README.md"]', "docs/A.md is in no group; add it to one"),
        ('["README.md", "docs/A.md", "docs/B.md"]', "docs/B.md not found"),
        ('["README.md", "docs/A.md", "README.md"]', "README.md is listed 2 times; list it once"),
    ],
)
def test_wrong_list_is_refused(small: Path, pages: str, fault: str) -> None:
    (small / "docs" / "book.toml").write_text(f'[[groups]]\nname = "users"\ntitle = "Users"\npages = {pages}\n')
    with pytest.raises(NavigationError, match=re.escape(fault)):
        read_groups(small)


def test_linked_files_are_copied(small: Path, tmp_path_factory: pytest.TempPathFactory) -> None:
    stage = tmp_path_factory.mktemp("stage")
    stage_sources(small, read_groups(small), stage)
    files = sorted(str(it.relative_to(stage)) for it in stage.rglob("*") if it.is_file())
    assert files == ["README.md", "docs/A.md", "index.md", "lab/one.s"]
    assert list(linked_paths("docs/A.md", "[a](#b) ![c](pictures/d.png) [e](../F.md#g)")) == [
        "docs/pictures/d.png",
        "F.md",
    ]


def kinds(lexer: TranscriptLexer | RattleLexer, text: str) -> list[tuple[str, str]]:
    """The tokens of a text that aren't plain or blank, each with its kind."""
    return [
        (str(kind).removeprefix("Token."), value.strip())
        for kind, value in lexer.get_tokens(text)
        if str(kind) not in ("Token.Text", "Token.Text.Whitespace", "Token.Punctuation", "Token.Name")
    ]


def test_transcript_is_highlighted() -> None:
    assert kinds(TranscriptLexer(), "> 1 asm 10000 vadd.vi v2, v1, 1\n1 E15\n") == [
        ("Generic.Prompt", ">"),
        ("Name.Tag", "1"),
        ("Keyword", "asm"),
        ("Literal.Number.Hex", "10000"),
        ("Name.Function", "vadd.vi"),
        ("Name.Variable", "v2"),
        ("Name.Variable", "v1"),
        ("Literal.Number.Hex", "1"),
        ("Name.Tag", "1"),
        ("Generic.Error", "E15"),
    ]
    assert kinds(TranscriptLexer(), "250 instructions\n  2 more\n") == []


def test_contract_is_highlighted() -> None:
    found = kinds(RattleLexer(), "fn f() requires { 1 ≤ 2 } ensures headline { result ≡ x }")
    assert ("Keyword.Declaration", "requires") in found and ("Name.Label", "headline") in found
    assert ("Operator", "≤") in found and ("Operator", "≡") in found and not [it for it in found if it[0] == "Error"]


def test_theme_has_one_script_and_no_imported_styles(tmp_path: Path) -> None:
    """The module is a classic script with the one that it imports; dark colours are those of a dark system, too."""
    (tmp_path / "furo.js").write_text('import Gumshoe from "./gumshoe-patched.js";\n\nnew Gumshoe();\n')
    (tmp_path / "gumshoe-patched.js").write_text("window.Gumshoe = class {};\n")
    join_scripts(tmp_path)
    assert [it.name for it in tmp_path.iterdir()] == ["furo.js"]
    assert (tmp_path / "furo.js").read_text() == "window.Gumshoe = class {};\n\n\nnew Gumshoe();\n"
    (tmp_path / "x.css").write_text("body { margin: 0 }")
    styles = (
        '@import url(/javascript/x.css);body { --a: white }@media not print { body[data-theme="dark"] { --a: black } }'
    )
    finished = finished_styles(styles, tmp_path)
    assert finished.startswith("body { margin: 0 }body { --a: white }") and "@import" not in finished
    rule = '@media screen and (prefers-color-scheme: dark) {\nbody:not([data-theme="light"]) { --a: black }\n}\n'
    assert finished.endswith(rule)


def test_search_has_texts_of_pages_and_each_title_once(small: Path, tmp_path_factory: pytest.TempPathFactory) -> None:
    pytest.importorskip("furo")
    stage, html = tmp_path_factory.mktemp("stage"), tmp_path_factory.mktemp("html")
    (small / "docs" / "A.md").write_text("# Second\n\nA *part*, <b>of</b> it.\n\n## Below\n\nMore.\n")
    (small / "README.md").write_text("# First\n\nIt is [so](docs/A.md).\n")
    stage_sources(small, read_groups(small), stage)
    assert run_sphinx(stage, html, tmp_path_factory.mktemp("scratch")) == 0
    text = (html / "_static/excerpts/docs-A.js").read_text("utf-8")
    assert text == 'bookText("docs/A", "A part, of it. More.");\n'
    index = (html / "searchindex.js").read_text("utf-8")
    assert index.count("Below") == 1 and index.count("Second") == 1, index  # a title in a page; a page's title
    assert "book_search.js" in (html / "search.html").read_text("utf-8")
    page = (html / "docs/A.html").read_text("utf-8")
    assert "book_search.js" not in page and '<link rel="icon" href="data:,"/>' in page


def test_folder_without_book_is_refused(tmp_path: Path) -> None:
    (tmp_path / "mine").write_text("x")
    completed = subprocess.run([TOP / "tools/documents/book", tmp_path], capture_output=True, text=True, check=False)
    assert completed.returncode == 2 and (tmp_path / "mine").read_text() == "x"
    assert (
        "exists and isn't a book; name a new folder" in completed.stderr
        or "run tools/building/debian_packages book" in completed.stderr
    )

"""tools/checks/check_prose: which texts it reads of each kind of file, and its figures, counted by hand."""

from pathlib import Path

import pytest

from tools.checks import check_prose
from tools.checks.prose_texts import READERS, Block
from tools.documents.book_html.navigation import read_groups


def texts(suffix: str, text: str, comment: bool = False) -> list[str]:
    """The texts, or the comments, that are read of a file."""
    return [" ".join(it.lines) for it in READERS[suffix](text) if it.comment == comment]


def count(*lines: str, allowed: str = "") -> check_prose.Count:
    return check_prose.count_block("a.md", Block(1, lines), check_prose.Allowed(allowed))


@pytest.mark.parametrize(
    "line, forms",
    [
        ("It prints a line, and returns.", 0),
        ("The page tells it, and was told.", 2),
        ("It stands there; what remains is unchanged.", 2),
        ("What is printed, and what are errors.", 0),
        ("Who reads it sees the words of a command.", 2),
        ("The retold standards", 0),
        ("beside the mask, of which so many are carried out", 4),
        ("Where it fails, where no row is, and where nothing was written.", 2),
        ("It is printed where the table is.", 0),
        ("the lines behind it, behind them, and behind a wall", 2),
        ("for tests alone; a lone alonest", 1),
        ("The number of what was sent; None of none, with whether it waited in vain.", 4),
        ("of course; none of them", 0),
    ],
)
def test_forms_are_counted(line: str, forms: int) -> None:
    assert len(count(line).forms) == forms


def test_words_and_sentences_are_counted() -> None:
    thirty, more = " ".join(["word"] * 30), " ".join(["word"] * 31)
    whole = count(f"First {thirty[5:]}. Then", f"{more}. See", "`e.g.` 3.5 - this.")
    assert (whole.words, whole.sentences) == (30 + 1 + 31 + 1 + 3, 3)
    assert [it.partition(" words")[0] for it in whole.long] == ["a.md:1: 32"]


def test_place_is_allowed_by_path_and_text() -> None:
    assert not count("a standing wave", allowed="a.md  standing wave").forms
    assert len(count("a standing wave", allowed="b.md  standing wave").forms) == 1
    assert len(count("a standing wave", allowed="a.md  standing wall").forms) == 1
    assert check_prose.Allowed("# title\na.md  no such").unused()[0].endswith("'no such' not found; remove the entry")


def test_code_of_page_is_skipped() -> None:
    page = "# A title\n\nOne `stood` line\nand more.\n\n```sh\ntold\n```\n- an [item](stood.md)\n\n| a | b c |\n|---|---|\n"
    assert texts(".md", page) == ["A title", "One `` line and more.", "an [item]", "a", "b c"]


@pytest.mark.parametrize(
    "suffix, text, strings, comments",
    [
        (
            ".py",
            '"""A doc string."""\nx = f"no {x} here"  # a note\ny = "word"\n',
            ["no `` here"],
            ["A doc string.", "a note"],
        ),
        (
            ".js",
            "// a note\nf('it is', `so ${x} it is`); /* more notes */",
            ["it is", "so `` it is"],
            ["a note", "more notes"],
        ),
        (".rt", '/// A note.\nfn f<\'a>() { write(b"no such", \'x\', "it") }', ["no such"], ["A note."]),
        (".edit", "file: src/a.rt\nold: f(x)\nnew: g(x) // a note\n", [], ["a note"]),
        (".antt", "-- a note\nname : Type -- no note\n", [], ["a note"]),
        (".html", '<p title="a text">some text<script>let it = 1</script>', ["a text", "some text"], []),
        (".toml", '# a note\ntitle = "A title"\ntext = """\nsome text\n"""\n', ["A title", "some text"], ["a note"]),
        (".txt", "# a note\nname  a cell here  `code it`\n", ["a cell here"], ["a note"]),
        (".steps", "# A lesson line.\n1 map it there\n@steps it is\n", ["A lesson line."], []),
        (".s", "    addi x1, x0, 1  # add it up\n", ["add it up"], []),
    ],
)
def test_texts_and_comments_are_read(suffix: str, text: str, strings: list[str], comments: list[str]) -> None:
    assert (texts(suffix, text), texts(suffix, text, True)) == (strings, comments)


def test_figure_above_limit_is_fault(monkeypatch: pytest.MonkeyPatch) -> None:
    monkeypatch.setitem(check_prose.LIMITS, "users", check_prose.Limits(2, 3, 50))
    files = {"small": check_prose.Count(499, 1, ["it"] * 9), "large": check_prose.Count(2501, 1, ["it"] * 8, ["long"])}
    assert [it.partition(",")[0] for it in check_prose.report("users", files)[1]] == [
        "users: 5.67 forms in 1000 words",
        "large: 3.20 forms in 1000 words",
    ]
    files = {"large": check_prose.Count(3000, 3, ["it"] * 6, ["long", "long"])}
    assert check_prose.report("users", files)[1] == ["users: 66.67 % of the sentences are above 30 words, at most 50 %"]


def test_every_page_is_in_group() -> None:
    top = Path(__file__).resolve().parents[2]
    groups = {group.name for group in read_groups(top)}
    assert groups | {"messages", *check_prose.COMMENTS} == check_prose.LIMITS.keys()
    assert "lab/vecmon_lab/__main__.py" in check_prose.paths_of(top, check_prose.MESSAGES)


def test_comments_of_all_folders_are_read() -> None:
    top = Path(__file__).resolve().parents[2]
    found = {name: check_prose.paths_of(top, patterns) for name, patterns in check_prose.COMMENTS.items()}
    assert {"tools/documents/pages", "tools/checks/check_prose"} <= set(found["comments of tools"])
    assert "tools/test" not in found["comments of tools"] and "tests/program.py" in found["comments of tests"]
    assert {Path(it).suffix for it in found["comments of crates"]} == {".rt", ".antt", ".edit"}


def test_comments_report_lists_files_with_most_forms_first() -> None:
    rows = {name: dict[str, check_prose.Count]() for name in check_prose.COMMENTS}
    rows["comments of tests"] = {"a": check_prose.Count(1000, 1, ["it"]), "b": check_prose.Count(100, 1, ["it"] * 2)}
    lines = check_prose.comments_report(rows).split("\n")
    assert len(lines) == len(rows) + 2
    assert [line.split() for line in lines[-2:]] == ["2 forms 20.0 in 1000 b".split(), "1 forms 1.0 in 1000 a".split()]

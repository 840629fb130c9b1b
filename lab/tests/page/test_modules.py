"""Modules joined: by hand, those of all pages, and the scripts in the pages."""

import base64
import hashlib
import html.parser
import pathlib
import re

import pytest

from vecmon_lab import LabError
from vecmon_lab.__main__ import arguments_of
from vecmon_lab.page.build.modules import join_modules
from vecmon_lab.page.build.pages import CODEMIRROR, PAGES, PIECES, WEB, Page, page_with_data, page_file

NAMES = sorted(
    path.stem for path in PAGES.glob("*.html") if path.stem not in PIECES and path.with_suffix(".js").exists()
)
FILES = {path.stem: path for path in [CODEMIRROR, *WEB.rglob("*.js")]}
FILE = {
    "pages/main.js": 'import { half } from "../numbers.js";\nimport { say, Loud } from "../said/words.js";\n\nsay(half(4));\n',
    "numbers.js": "// Numbers.\n// Some copyright\n\nexport const half = (number) => number / 2;\nconst own = 1;\n",
    "said/numbers.js": "export const twice = 2;\n",
    "said/words.js": 'import { half } from "../numbers.js";\n\nexport function say() {}\nexport class Loud {}\n',
}
JOINED = """\
const $numbers = (() => {
// Some copyright

const half = (number) => number / 2;
const own = 1;
return { half };
})();
const $words = (() => {
const { half } = $numbers;

function say() {}
class Loud {}
return { say, Loud };
})();
const $main = (() => {
const { half } = $numbers;
const { say, Loud } = $words;

say(half(4));
return {  };
})();
"""
DOCUMENTED = """\
/**
 * Returns twice a number.
 * @param {number} one
 */
const twice = (one) => /** @type {number} */ (2 * one);
class Some {
  /** The numbers. */
  /** @type {Set<number>} */ used = new Set();
}
"""


class Elements(html.parser.HTMLParser):
    """The attributes of a page's scripts and styles, and their texts."""

    def __init__(self, page: str) -> None:
        super().__init__()
        self.found: list[tuple[str, dict[str, str | None], str]] = []
        self.feed(page)

    def handle_starttag(self, tag: str, attributes: list[tuple[str, str | None]]) -> None:
        assert not any(name.startswith("on") for name, _ in attributes)
        if tag in ("script", "style", "meta"):
            self.found.append((tag, dict(attributes), ""))

    def handle_data(self, data: str) -> None:
        if self.lasttag in ("script", "style") and self.cdata_elem:
            tag, attributes, text = self.found[-1]
            self.found[-1] = tag, attributes, text + data


def test_modules_are_joined_in_import_order() -> None:
    assert join_modules("pages/main.js", FILE.__getitem__) == JOINED


@pytest.mark.parametrize(
    "name, text, expected",
    [
        ("numbers.js", 'import { say } from "./said/words.js";\nexport const half = 1;\n', "numbers, words, numbers"),
        ("numbers.js", 'import { half } from "./numbers.js";\n', "numbers, numbers"),
        ("numbers.js", "const half = 2;\n", "main.js imports what numbers.js doesn't export: half"),
        ("said/words.js", "export const say = 1;\n", "main.js imports what words.js doesn't export: Loud"),
        (
            "said/words.js",
            'import { twice } from "./numbers.js";\nexport const say = twice;\nexport class Loud {}\n',
            "two modules have the same name: numbers.js, said/numbers.js",
        ),
    ],
)
def test_unjoinable_module_is_refused(name: str, text: str, expected: str) -> None:
    with pytest.raises(ValueError, match=re.escape(expected)):
        join_modules("pages/main.js", (FILE | {name: text}).__getitem__)


@pytest.mark.parametrize("name", NAMES)
def test_page_has_every_module_once_after_its_imports(name: str) -> None:
    script = join_modules(str(PAGES / f"{name}.js"), page_file)
    modules = re.findall(r"^const \$(\w+) = ", script, re.MULTILINE)
    assert not re.search(r"^\s*(import|export)\b", script, re.MULTILINE)  # of another form than those that are joined
    assert modules[-1] == name and len(modules) == len(set(modules)) > 1
    for place, module in enumerate(modules):
        imported = re.findall(r'^import .* from ".*/(\w+)\.js";$', page_file(FILES[module]), re.MULTILINE)
        assert set(imported) <= set(modules[:place])


def test_every_module_is_used_by_page() -> None:
    assert {"class", "lesson", "profile"} <= set(NAMES)
    scripts = "".join(join_modules(str(PAGES / f"{name}.js"), page_file) for name in NAMES)
    assert set(FILES) == set(re.findall(r"^const \$(\w+) = ", scripts, re.MULTILINE))


def test_missing_library_of_editor_is_reported(monkeypatch: pytest.MonkeyPatch, tmp_path: pathlib.Path) -> None:
    """Also by `class`, before it makes a folder."""
    monkeypatch.setenv("CODEMIRROR", str(tmp_path))
    assert Page("lesson").text("x")  # which has no editor
    arguments = arguments_of(["class", str(tmp_path / "class")])
    for needs_editor in (lambda: Page("class"), lambda: arguments.run(arguments)):
        with pytest.raises(LabError) as raised:
            needs_editor()
        assert str(raised.value) == (
            f"{tmp_path}/lib/codemirror.js not found: install Debian's libjs-codemirror, or unpack CodeMirror 5 "
            "(https://codemirror.net/5/codemirror.zip) and name its folder in the variable CODEMIRROR"
        )
    assert not (tmp_path / "class").exists()


@pytest.mark.parametrize("name", NAMES)
def test_content_policy_names_one_script(name: str) -> None:
    page = Page(name)
    texts = [page.text("x"), page_with_data(name, "x", ["</script><script>alert(1)</script>"])]
    for text, policies in zip(texts, ([], [page.policy])):
        found = Elements(text).found
        (script,) = (text for tag, words, text in found if tag == "script" and words.get("type") != "application/json")
        styles = [text for tag, _, text in found if tag == "style"]
        assert [words["content"] for _, words, _ in found if "http-equiv" in words] == policies
        assert not any("src" in words for _, words, _ in found)
        rules = dict(rule.split(" ", 1) for rule in page.policy.split("; "))
        assert rules["default-src"] == "'none'" and rules["script-src"] == named(script)
        assert rules["style-src"].split() == [*map(named, styles)]


def named(text: str) -> str:
    """The hash of a text in a content policy: Content Security Policy Level 3, section 2.3.1."""
    return f"'sha256-{base64.b64encode(hashlib.sha256(text.encode()).digest()).decode()}'"


def test_documentation_is_left_out() -> None:
    """Comments on lines of their own and types aren't in the script; the code after a type is."""
    code = "const twice = (one) => (2 * one);\nclass Some {\n  used = new Set();\n}\n"
    assert (
        join_modules("main.js", lambda path: DOCUMENTED) == f"const $main = (() => {{\n{code}return {{  }};\n}})();\n"
    )

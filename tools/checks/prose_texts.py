"""The English of a file, in blocks with line numbers: of pages, and the comments and strings of sources, by the file's suffix."""

import ast
import io
import re
import tokenize
from collections.abc import Callable, Iterator
from dataclasses import dataclass
from html.parser import HTMLParser


@dataclass(frozen=True)
class Block:
    """A paragraph, a table's cell, a comment or a string: its lines, the number of the first one, and whether it is a comment."""

    line: int
    lines: tuple[str, ...]
    comment: bool = False


def plain(line: str) -> str:
    """Return a line of Markdown without the text of its code and the targets of its links."""
    return re.sub(r"\]\([^)]*\)", "]", re.sub(r"`[^`]*`", "``", line))


def markdown_blocks(text: str) -> Iterator[Block]:
    """Return paragraphs, items of lists, headings and cells of tables; blocks of code are left out."""
    lines, first, code = list[str](), 0, False
    for number, line in enumerate([*text.split("\n"), ""], 1):
        if ends := line.startswith("```"):
            code = not code
        starts = bool(re.match(r"\s*(?:[-*] |\d+\. |#+ |\|)", line))
        if lines and (ends or starts or not line.strip()):
            yield Block(first, tuple(lines))
            lines = []
        if line.startswith("|"):
            yield from (Block(number, (cell.strip(),)) for cell in plain(line).split("|") if cell.strip(" -:"))
        elif not code and not ends and line.strip():
            first = first if lines else number
            lines.append(re.sub(r"^\s*(?:[-*] |\d+\. |#+ )", "", plain(line)).strip())


def string_block(line: int, text: str, comment: bool = False) -> Iterator[Block]:
    """Return a string's paragraphs as blocks, if the string has two words or more."""
    if len(re.findall(r"\b[A-Za-z]+\b", text)) > 1 and " " in text.strip():
        for block in markdown_blocks(text):
            yield Block(line + block.line - 1, block.lines, comment)


def docstrings(tree: ast.AST) -> set[ast.AST]:
    """Return the strings that are statements: docstrings."""
    return {
        node.value for node in ast.walk(tree) if isinstance(node, ast.Expr) and isinstance(node.value, ast.Constant)
    }


def python_blocks(text: str) -> Iterator[Block]:
    """Return comments, docstrings and strings; the values of an f-string are ``."""
    tree = ast.parse(text)
    comments, parts = docstrings(tree), set[ast.AST]()
    for node in ast.walk(tree):
        if isinstance(node, ast.JoinedStr):
            parts.update(node.values)
            values = [str(it.value) if isinstance(it, ast.Constant) else "``" for it in node.values]
            yield from string_block(node.lineno, "".join(values))
        elif isinstance(node, ast.Constant) and isinstance(node.value, str) and node not in parts:
            yield from string_block(node.lineno, node.value, node in comments)
    for token in tokenize.generate_tokens(io.StringIO(text).readline):
        if token.type == tokenize.COMMENT:
            yield from string_block(token.start[0], token.string.lstrip("#!: "), True)


# A comment, or a string without its quotes; a character of Rust and a regular expression of JavaScript are passed over.
C_TOKENS = re.compile(
    r"""//[/!]?[ ]?(?P<line>[^\n]*)|/\*+(?P<block>.*?)\*/|'(?:\\.|[^\\'\n])'"""
    r"""|"(?P<double>(?:\\.|[^"\\])*)"|`(?P<back>(?:\\.|[^`\\])*)`|(?<=[(=,:] )/(?:\\.|[^/\\\n])+/""",
    re.DOTALL,
)
QUOTED = re.compile(r"'(?P<single>(?:\\.|[^'\\\n])*)'")


def c_blocks(text: str, single: bool) -> Iterator[Block]:
    """Return the comments and strings of Rattle, JavaScript and CSS; `single` says whether a string may have single quotes."""
    tokens = re.compile(f"{C_TOKENS.pattern}|{QUOTED.pattern}", re.DOTALL) if single else C_TOKENS
    for found in tokens.finditer(text):
        if found.lastgroup:
            line = text.count("\n", 0, found.start()) + 1
            words = re.sub(r"\$\{[^}]*\}", "``", found[found.lastgroup])  # the values of a template
            yield from string_block(line, words, found.lastgroup in ("line", "block"))


def definition_blocks(text: str) -> Iterator[Block]:
    """Return the comments of a file of definitions or proofs."""
    for number, line in enumerate(text.split("\n"), 1):
        if found := re.match(r"\s*--+ (.*)", line):
            yield from string_block(number, found[1], True)


class Page(HTMLParser):
    """The texts of a page in HTML, and those attributes that are shown."""

    SHOWN = ("title", "alt", "placeholder", "aria-label")

    def __init__(self) -> None:
        super().__init__()
        self.blocks, self.inside = list[Block](), ""

    def handle_starttag(self, tag: str, attrs: list[tuple[str, str | None]]) -> None:
        self.inside = tag
        for name, value in attrs:
            if name in self.SHOWN and value:
                self.blocks += string_block(self.getpos()[0], value)

    def handle_data(self, data: str) -> None:
        if self.inside not in ("script", "style", "code", "pre"):
            self.blocks += string_block(self.getpos()[0], data)


def html_blocks(text: str) -> Iterator[Block]:
    """Return the texts of a page in HTML."""
    page = Page()
    page.feed(text)
    yield from page.blocks


def toml_blocks(text: str) -> Iterator[Block]:
    """Return comments, and strings of one line or of many."""
    for found in re.finditer(r'"""(.*?)"""|"((?:\\.|[^"\\\n])*)"|^# ?([^\n]*)', text, re.DOTALL | re.MULTILINE):
        line = text.count("\n", 0, found.start()) + 1
        yield from string_block(line, found[1] or found[2] or found[3] or "", found[0].startswith("#"))


def table_blocks(text: str) -> Iterator[Block]:
    """Return the cells of a table as text, two spaces apart; a line with `# ` is a comment of the table."""
    for number, line in enumerate(text.split("\n"), 1):
        for cell in re.split(r"  +", plain(line)):
            yield from string_block(number, cell.removeprefix("# "), line.startswith("#"))


def steps_blocks(text: str) -> Iterator[Block]:
    """Return the sentences of a lesson: the lines that are no script, with `# ` or without."""
    for number, line in enumerate(text.split("\n"), 1):
        if not re.match(r"[1-8*] |> |@", line):
            yield from string_block(number, plain(line).lstrip("# "))


def assembler_blocks(text: str) -> Iterator[Block]:
    """Return the comments of a source in assembler, which lessons show."""
    for number, line in enumerate(text.split("\n"), 1):
        if found := re.search(r"(?:^|\s)#+ (.*)", line):
            yield from string_block(number, found[1])


READERS: dict[str, Callable[[str], Iterator[Block]]] = {
    ".md": markdown_blocks,
    ".page": steps_blocks,
    ".steps": steps_blocks,
    ".py": python_blocks,
    ".js": lambda text: c_blocks(text, True),
    ".css": lambda text: c_blocks(text, True),
    ".rt": lambda text: c_blocks(text, False),
    ".antt": definition_blocks,
    ".edit": lambda text: c_blocks(text, False),
    ".html": html_blocks,
    ".toml": toml_blocks,
    ".txt": table_blocks,
    ".s": assembler_blocks,
}

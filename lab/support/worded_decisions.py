"""Decisions in Python and JavaScript that depend on the text of a message, or on the columns of an answer."""

import ast
import re
from collections.abc import Iterator

_TESTS = {"startswith", "endswith", "partition", "rpartition", "split", "find", "index", "removeprefix", "removesuffix"}
_SEARCHES = {"match", "search", "fullmatch", "findall", "finditer"}
_EDITS = {"lower", "upper", "strip", "rstrip", "lstrip", "decode", "casefold"}  # of a text that stay about its words
_STORED = {"sentence", "message", "reason", "warning", "cause", "lost", "trouble", "failure", "strerror", "stderr"}
_ANSWERS = {"answer", "answers", "part", "latest", "stop"}
_LINES = {*_ANSWERS, "line", "done", "entry"}
_JS_TEXT = r"\b(?:stop|message|error|reason|warning|sentence|trouble|said)\b"
_JS_WORDS = r"enter|entered|loaded|setpc|stepped|granted|e\??break|outfull|fault|exit"  # of the monitor's lines
_JS_TESTS = (
    re.compile(rf"\.(?:test|exec)\([^;{{}}()]*?{_JS_TEXT}(?!\()"),
    re.compile(rf"{_JS_TEXT}[^;,{{}}&|=]*?\.(?:startsWith|endsWith|includes|match|search|split)\("),
    re.compile(
        r"\.(?:test|exec)\([^;{}()]*?\b(?:entry|entries)\b(?!\.)|\bentry\b[^;,{}&|=]*?\.(?:startsWith|includes|match|search)\("
    ),
    re.compile(rf"/(?![/* ])[^/]*(?:\^v\\w|\b(?:{_JS_WORDS})\b)[^/]*/[a-z]*(?:\.(?:test|exec)\(|[;,)])"),
)


def _name(node: ast.expr) -> str:
    """The name whose value, or a part of it, an expression is; "" for others."""
    match node:
        case ast.Name(name) | ast.Attribute(_, name):
            return name
        case ast.Subscript(value):
            return _name(value)
        case ast.Call(ast.Attribute(value, edit)) if edit in _EDITS:
            return _name(value)
    return ""


class _Finder(ast.NodeVisitor):
    """Collects the lines of decisions by words, with their expressions."""

    def __init__(self) -> None:
        self.found: list[tuple[int, str]] = []
        self._errors: list[str] = []

    def visit_ExceptHandler(self, node: ast.ExceptHandler) -> None:
        """In a handler the name of the exception is an error's."""
        self._errors.append(node.name or "")
        self.generic_visit(node)
        self._errors.pop()

    def visit_Call(self, node: ast.Call) -> None:
        """`text.startswith(..)`, `re.search(.., text)`."""
        self.generic_visit(node)
        if not isinstance(node.func, ast.Attribute):
            return
        name, value = node.func.attr, node.func.value
        if name in _TESTS and self._has_words(value) or name in _SEARCHES and any(map(self._has_words, node.args)):
            self._note(node)
        elif name in ("startswith", "endswith") and (_name(value) in _ANSWERS or self._is_column(value)):
            self._note(node)

    def visit_Compare(self, node: ast.Compare) -> None:
        """`".." in text`, `text == ".."`, `answer[1:9] == ".."`."""
        self.generic_visit(node)
        sides = [node.left, *node.comparators]
        is_word_in = isinstance(node.ops[0], ast.In | ast.NotIn) and isinstance(node.left, ast.Constant | ast.JoinedStr)
        if any(map(self._is_error_text, sides)) or is_word_in and self._has_words(node.comparators[0]):
            self._note(node)
        elif any(map(self._is_column, sides)):
            self._note(node)

    def _note(self, node: ast.expr) -> None:
        self.found.append((node.lineno, ast.unparse(node)))

    def _has_words(self, node: ast.expr) -> bool:
        """Whether an expression is the text of an exception or a stored sentence, or has it as an alternative."""
        if isinstance(node, ast.BoolOp):
            return any(map(self._has_words, node.values))
        return self._is_error_text(node) or _name(node) in _STORED

    def _is_error_text(self, node: ast.expr) -> bool:
        """Whether an expression is `str(error)`, `f"{error}"`, or `error.args`, of an exception."""
        match node:
            case ast.Call(ast.Name("str" | "repr"), [value]):
                return _name(value) in self._errors
            case ast.JoinedStr(parts):
                return any(isinstance(part, ast.FormattedValue) and _name(part.value) in self._errors for part in parts)
            case ast.Subscript(ast.Attribute(ast.Name(name), "args")) | ast.Attribute(ast.Name(name), "args"):
                return name in self._errors
            case ast.Call(ast.Attribute(value, edit)) if edit in _EDITS:
                return self._is_error_text(value)
        return False

    def _is_column(self, node: ast.expr) -> bool:
        """Whether an expression is columns of a line or an answer, other than its prefix."""
        match node:
            case ast.Subscript(value, ast.Slice(ast.Constant(int() as start), stop)):
                is_prefix = start == 1 and isinstance(stop, ast.Constant) and stop.value == 2  # of an entry of a log
                return _name(value) in _LINES and not is_prefix
        return False


def decisions_in(text: str) -> Iterator[tuple[int, str]]:
    """The decisions by words in a Python source: lines and expressions."""
    finder = _Finder()
    finder.visit(ast.parse(text))
    yield from sorted(finder.found)


def decisions_in_javascript(text: str) -> Iterator[tuple[int, str]]:
    """The lines of a JavaScript source that test words, with their numbers.

    Those are the text of a stop, a message, an error or an entry of the log, and regular expressions with names of the monitor's lines, or
    for names that begin with v.
    """
    for number, line in enumerate(text.split("\n"), 1):
        code = line.partition(" // ")[0].strip()
        if not code.startswith(("*", "/*", "//")) and any(it.search(code) for it in _JS_TESTS):
            yield number, code

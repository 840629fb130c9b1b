"""Lines of assembler source, their tokens and their operands. Lines are numbered from 1, and so are columns, in characters."""

import enum
import functools
import re
from collections.abc import Sequence
from dataclasses import dataclass, replace
from typing import NamedTuple

from .. import LabError

_TOKEN = re.compile(
    r"""(?P<SPACE>[ \t\f\v]+) | (?P<COMMENT>(?:\#|//).*) | (?P<STRING>"(?:[^"\\]|\\.)*") | (?P<OPEN>")
    | (?P<NUMBER>[0-9][0-9A-Za-z_]*|'(?:\\[0-7]{1,3}|\\.|[^\\])'?) | (?P<NAME>[A-Za-z_.$][A-Za-z0-9_.$]*)
    | (?P<MARK><<|>>|<=|>=|==|!=|<>|&&|\|\||.)""",
    re.VERBOSE,
)
MAX_CALLS = 3  # the most calls and files that a message names
_REPLACEMENTS = {"–": "-", "—": "-", "−": "-", "“": '"', "”": '"', "„": '"', "‘": "'", "’": "'"}
_NAMES = (
    {  # Unicode's names of characters that are invisible or look like others; the playground's Python lacks unicodedata
        "\u00a0": "no-break space",
        "\u00ad": "soft hyphen",
        "\u200b": "zero width space",
        "\u200e": "left-to-right mark",
        "\u200f": "right-to-left mark",
        "\u2013": "en dash",
        "\u2014": "em dash",
        "\u2018": "left single quotation mark",
        "\u2019": "right single quotation mark",
        "\u201c": "left double quotation mark",
        "\u201d": "right double quotation mark",
        "\u201e": "double low-9 quotation mark",
        "\u2028": "line separator",
        "\u202e": "right-to-left override",
        "\u2212": "minus sign",
        "\ufeff": "zero width no-break space",
    }
)
_NUMBER = re.compile("0|[1-9][0-9]*|0[xX][0-9A-Fa-f]+|0[bB][01]+")
_PIECE = re.compile(r"\\([0-7]{1,3})|\\x([0-9A-Fa-f]{1,2})(?![0-9A-Fa-f])|\\(.)|([^\\]+)")
_LETTERS = {"b": "\b", "f": "\f", "n": "\n", "r": "\r", "t": "\t", '"': '"', "\\": "\\"}

Place = tuple[int, int]
"""A line of a source and a column in it. Both start at 1."""

Kind = enum.Enum("Kind", "NAME NUMBER STRING MARK")
"""The kinds of tokens. A MARK is any other character."""


class SourceError(LabError):
    """A mistake in a source, with its line and column.

    line, column: the place, from 1 on; line 0 for a mistake without a place
    code: the code of the machine's refusal, such as `E15`; "" if the machine didn't refuse anything
    fix: texts that may replace the token at the mistake, the nearest one first
    name: the name that isn't defined, if this is the mistake; "" for other mistakes. Only the first use of a name is reported
    """

    name = ""

    def __init__(self, line: int, column: int, message: str, code: str = "", fix: Sequence[str] = ()) -> None:
        super().__init__(line, column, message)
        self.line, self.column, self.message, self.code, self.fix = line, column, message, code, fix

    def __str__(self) -> str:
        return f"line {self.line}, column {self.column}: {self.message}"

    def diagnostic(self, name: str) -> str:
        """Return the mistake as a message in the form that compilers use. Without a line, the message has no line and column.

        name: the name of the source
        """
        return f"{name}:{self.line}:{self.column}: {self.message}" if self.line else f"{name}: {self.message}"


def chain(within: Sequence[str]) -> str:
    """Return the end of a message: the calls and files that a statement comes from, at most MAX_CALLS of them.

    within: the calls and files, innermost first, as in `Line`
    """
    more = len(within) - MAX_CALLS
    shown = "".join(f"; {each}" for each in within[:MAX_CALLS])
    return f"{shown}; ... {more} more" if more > 0 else shown


class Line(NamedTuple):
    """A statement of a source: a line, or the part of one up to a semicolon, without its comment.

    number: the number of the source line; for a statement in the body of a macro, of the line that calls the macro
    column: the column of the first character; for a statement in the body of a macro, the column of the call
    places: where each character was typed; empty if the characters are consecutive in this line
    within: the calls and files that the statement comes from, innermost first, as `in macro NAME, called in line 7`
    """

    text: str
    number: int
    column: int = 1
    places: Sequence[Place] = ()
    within: tuple[str, ...] = ()

    def place(self, at: int) -> Place:
        """Return the line and column where the character at an index was typed.

        The index may be the length of the text. Then return the place after the last character.
        """
        if not self.places:
            return self.number, self.column + at
        line, column = self.places[min(at, len(self.places) - 1)]
        return line, column + (at >= len(self.places))

    def part(self, start: int, end: int | None = None) -> "Line":
        """Return the part of the statement between two indices."""
        if not self.places:
            return self._replace(text=self.text[start:end], column=self.column + start)
        return self._replace(text=self.text[start:end], places=self.places[start:end] or [self.place(start)])

    def error(self, at: int, message: str, fix: Sequence[str] = ()) -> SourceError:
        """Return an error at the character with this index. fix: texts that may replace the token there"""
        return SourceError(*self.place(at), message + chain(self.within), fix=fix)


@dataclass(frozen=True)
class Token:
    """A token and where it was typed.

    symbol: the name under which `Symbols` has the token's value, if this name isn't the token's text, as for `1b`; otherwise ""
    within: as in `Line`
    """

    kind: Kind
    text: str
    line: int
    column: int
    within: tuple[str, ...] = ()
    symbol: str = ""

    def in_line(self, number: int) -> "Token":
        """Return the same token in the line with a number."""
        return replace(self, line=number)

    def error(self, message: str, fix: Sequence[str] = ()) -> SourceError:
        """Return an error that points at this token. fix: texts that may replace the token"""
        return SourceError(self.line, self.column, message + chain(self.within), fix=fix)

    def number(self) -> int:
        """Return the value of a number below 2^64. Raises SourceError if the token isn't such a number.

        The number may be decimal, hexadecimal after 0x, binary after 0b, or a character between apostrophes.
        """
        if self.text.startswith("'"):
            return self._character()
        if re.fullmatch("0[0-9]+", self.text):
            problem = "begins with a zero: stock assemblers read that as octal, the machine as decimal"
        elif not _NUMBER.fullmatch(self.text):
            problem = "is no number: those are decimal, hexadecimal after 0x, or binary after 0b"
        elif len(self.text) > 66 or int(self.text, 0) >> 64:
            problem = "has more than 64 bits"
        else:
            return int(self.text, 0)
        raise self.error(f"{self.text} {problem}")

    def _character(self) -> int:
        """Return the code of a character between apostrophes; the second apostrophe may be missing."""
        text = self.text[1:].removesuffix("'") or "'"
        escape = re.fullmatch(r"\\(?:([0-7]{1,3})|(.))", text)
        if escape and escape[1]:
            value = int(escape[1], 8) & 0xFF
            reason = "stock assemblers have no octal escapes in a character, and make 48 of '\\0'"
            raise self.error(f"{self.text} is {value} in C, but {reason}: write {value}", [f"{value}"])
        data = ((_LETTERS | {"'": "'"}).get(escape[2], "") if escape else text).encode("utf-8", "surrogateescape")
        if len(data) != 1:
            raise self.error(f"{self.text} isn't one byte: a character is one of ASCII, or an escape as '\\n'")
        return data[0]

    def string(self) -> bytes:
        r"""Return the bytes of a string, in UTF-8. Raises SourceError if the token isn't a string, or has an unknown escape.

        Escapes are \b \f \n \r \t \" \\, a backslash and up to three octal digits, and hexadecimal digits as in \x41.
        """
        if self.kind is not Kind.STRING:
            raise self.error("a string in double quotes is needed here")
        data = b""
        for piece in _PIECE.finditer(self.text, 1, len(self.text) - 1):
            octal, hexadecimal, letter, plain = piece.groups()
            if letter and letter not in _LETTERS:
                raise SourceError(self.line, self.column + piece.start(), "there is no such escape in a string")
            if letter or plain:
                data += (plain or _LETTERS[letter]).encode("utf-8", "surrogateescape")
            else:
                data += bytes([int(octal or hexadecimal, 8 if octal else 16) & 0xFF])
        return data


_PREPROCESSOR_LINE = re.compile(
    r"""\s*(\#(?:(?:if|ifn?def|elif|elifn?def|else|endif|define|undef|include|error|warning|pragma|line)\b
    |\s+(?:ifn?def|elif|elifn?def|endif|undef|pragma)\b|\s+include\s*["<]))""",
    re.VERBOSE,
)
"""A directive of the preprocessor. An #endif ends each #if.

If a space follows the `#`, most English words are taken as a comment, as in `# if a0 is 0`.
"""


def refuse_preprocessor_lines(text: str) -> None:
    """Raise SourceError for the first line of a .S source that stock assemblers' preprocessor takes as a directive."""
    for number, line in enumerate(text.split("\n"), 1):
        if found := _PREPROCESSOR_LINE.match(line):
            problem = "the lab's assembler has no preprocessor: use --options stock, or .equ"
            raise SourceError(number, found.start(1) + 1, problem)


Operand = list[Token]
"""The tokens of an operand, at least one."""


_KINDS = {**Kind.__members__}


def tokens_of(line: Line) -> list[Token]:
    """Return the tokens of a statement. Raises SourceError."""
    return [*_tokens_typed_here(line)] if not line.places and not line.within else _tokens(line)


@functools.lru_cache(maxsize=4096)
def _tokens_typed_here(line: Line) -> Sequence[Token]:
    """Return the tokens of a statement that isn't from a macro.

    Results are cached, since an editor's source is read again after each change.
    """
    return _tokens(line)


def _tokens(line: Line) -> list[Token]:
    tokens = []
    for match in _TOKEN.finditer(line.text):
        kind = match.lastgroup or ""
        if kind == "OPEN":
            raise line.error(match.start(), "this string doesn't end on its line")
        if kind == "MARK" and not " " < match[0] <= "~":
            raise line.error(match.start(), _problem_of(match[0]), _replacement_of(match[0]))
        if kind in _KINDS:
            tokens.append(Token(_KINDS[kind], match[0], *line.place(match.start()), line.within))
    return tokens


def _problem_of(character: str) -> str:
    """Return why a character is refused outside of texts and comments."""
    number = ord(character)
    if 0xDC80 <= number <= 0xDCFF:
        return f"the byte 0x{number - 0xDC00:x} isn't UTF-8: save the file as UTF-8"
    if character.isalnum():
        return f"{character} can't be in a name: names have letters of ASCII, digits and . _ $"
    is_control = number < 0x20 or 0x7F <= number < 0xA0
    name = _NAMES.get(character, "a control character" if is_control else character)
    return f"this is U+{number:04X}, {name}: only texts and comments may have it"


def _replacement_of(character: str) -> list[str]:
    """Return the ASCII character that looks like a refused one; an empty list if there is none."""
    if character.isspace():
        return [" "]
    return [_REPLACEMENTS[character]] if character in _REPLACEMENTS else []


def token_length(text: str, column: int) -> int:
    """Return the length of the token, or of the escape in a string, at a column of a line; 0 if there is none.

    column: from 1 on; 0 for no column
    """
    token = _TOKEN.match(text, column - 1) if column else None
    if token is None or token.lastgroup in ("SPACE", "COMMENT"):
        return 0
    if token.lastgroup == "OPEN":
        return len(text.rstrip()) - column + 1
    return min(2, len(text) - column + 1) if token[0] == "\\" else len(token[0])


def split_operands(tokens: Sequence[Token], may_be_empty: bool = False) -> list[Operand]:
    """Return the operands in the tokens after a name, which commas separate. Raises SourceError if an operand has no tokens.

    may_be_empty: whether an operand before a comma may have no tokens
    """
    operands: list[Operand] = [[]]
    for token in tokens:
        if token.text != ",":
            operands[-1].append(token)
        elif operands[-1] or may_be_empty:
            operands.append([])
        else:
            raise token.error("an operand is missing before this comma")
    if tokens and not operands[-1]:
        raise tokens[-1].error("an operand is missing after this comma")
    return operands if tokens else []


def check_count(name: Token, operands: Sequence[Operand], count: int, most: int = 0) -> None:
    """Raise SourceError unless the number of operands is `count`, or from `count` to `most` if `most` isn't 0.

    name: the instruction or directive, for the message
    """
    if not count <= len(operands) <= max(count, most):
        numbers = f"{count} to {most}" if most else f"{count}"
        raise name.error(f"{name.text} takes {numbers} operand{'s' * (numbers != '1')}, not {len(operands)}")

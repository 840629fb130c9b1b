"""Expand a source's macros and repetitions, and evaluate its conditions."""

import re
from collections.abc import Callable, Iterable, Iterator, Mapping
from dataclasses import dataclass

from .assembly import Assembly
from .data_directives import read_file
from .line import Line, tokens_of
from .macros import Macro, Parameter, called, read_parameters, separate_arguments, with_arguments
from .statements import statements, without_comments

MAX_DEPTH = 50  # the most calls and repetitions inside each other
MAX_STATEMENTS = 20_000  # the most statements to which all calls and repetitions expand
MAX_CHARACTERS = 400_000  # the most characters in these statements
STATEMENT_CHARACTERS = 16  # characters that count for each statement in addition, if the limit is below MAX_CHARACTERS
_HEAD = re.compile(r"\s*((?:[\w.$]+\s*:\s*)*)([A-Za-z_.$][\w.$]*)?", re.ASCII)
_REPETITIONS = (".rept", ".rep", ".irp", ".irpc")
_RARS_END = ".end_macro"
_ENDS: dict[str, tuple[str, ...]] = {
    ".macro": (".endm", ".endmacro", _RARS_END),
    **dict.fromkeys(_REPETITIONS, (".endr", ".endm")),
}
_OPENINGS: dict[str, tuple[str, ...]] = {".macro": (".macro",), **dict.fromkeys(_REPETITIONS, _REPETITIONS)}
_NUMBER_TESTS: Mapping[str, Callable[[int], bool]] = {
    ".if": lambda number: number != 0,
    ".ifne": lambda number: number != 0,
    ".ifeq": lambda number: number == 0,
    ".ifge": lambda number: number >= 0,
    ".ifgt": lambda number: number > 0,
    ".ifle": lambda number: number <= 0,
    ".iflt": lambda number: number < 0,
}
_TEXT_TESTS = (".ifb", ".ifnb", ".ifc", ".ifnc", ".ifeqs", ".ifnes")
_NAME_TESTS = (".ifdef", ".ifndef", ".ifnotdef")
_CONDITIONS = (*_NUMBER_TESTS, *_TEXT_TESTS, *_NAME_TESTS)
_BRANCHES = (".else", ".elseif", ".endif")
BLOCK_DIRECTIVES = (*_CONDITIONS, *_BRANCHES, *_ENDS, ".endr", ".endm", ".exitm", ".purgem", ".include")


@dataclass
class _Condition:
    """An .if whose .endif isn't read yet.

    line: the statement with the .if
    is_reached: whether the .if itself is in a part of the source that is assembled
    is_active: whether the branch that is being read is assembled
    was_taken: whether one of the branches up to the present one was assembled
    has_else: whether the .else was read
    """

    line: Line
    is_reached: bool
    is_active: bool
    was_taken: bool
    has_else: bool = False


class TooMuchMade(Exception):
    """Calls and repetitions expand to more characters than a limit below MAX_CHARACTERS allows.

    With a higher limit, the source may have no mistakes.
    """


class Blocks:
    """Expands the macros, repetitions and included files of a source, and leaves out branches whose conditions don't hold."""

    def __init__(self, assembly: Assembly, most: int = MAX_CHARACTERS) -> None:
        """most: the most characters of calls and repetitions. If it is below MAX_CHARACTERS, more characters raise TooMuchMade"""
        self._assembly, self._most = assembly, most
        self.macros: dict[str, Macro] = {}  # by the name in lower case
        self._conditions: list[_Condition] = []
        self._depth = self._count = self._calls = self._characters = 0
        self._is_leaving = False
        self._handlers: dict[str, Callable[[str, Line, Iterator[Line]], Iterable[Line]]] = {
            ".macro": self._define,
            **dict.fromkeys(_REPETITIONS, self._repeat),
            ".include": self._include,
            ".exitm": self._leave,
            ".purgem": self._purge,
            **dict.fromkeys((".endr", ".endm", ".endmacro", _RARS_END), self._unmatched),
        }

    def expanded(self, lines: Iterable[Line]) -> Iterator[Line]:
        """Yield the statements of a whole source to assemble, in order. Read each statement before you take the next one."""
        yield from self._expand(iter(lines))
        for condition in self._conditions[:1]:
            self._assembly.note(condition.line.error(0, "this condition doesn't end: .endif is missing"))

    def _expand(self, lines: Iterator[Line]) -> Iterator[Line]:
        for line in lines:
            if self._assembly.is_ended or self._is_leaving:
                return
            head = _HEAD.match(line.text)
            name = head[2].lower() if head and head[2] else ""
            if head and (name[:1] == "." or name in self.macros):
                yield from self._expand_line(name, line, head, lines)
            elif self._is_active():
                yield line

    def _expand_line(self, name: str, line: Line, head: re.Match[str], lines: Iterator[Line]) -> Iterator[Line]:
        """Yield the statements to which a line expands that begins, after its labels, with a directive or the name of a macro.

        name: the directive or macro, in lower case; head: the match of _HEAD in the line; lines: the statements after the line
        """
        is_macro = name in self.macros and not re.match(r"\s*=(?!=)", line.text[head.end() :])
        is_condition = name in _CONDITIONS or name in _BRANCHES
        if not is_macro and not is_condition and name not in self._handlers:
            yield from [line] if self._is_active() else []
            return
        if not self._is_active() and not is_condition:
            return
        if head[1] and self._is_active():
            yield line.part(0, head.end(1))
        rest = line.part(head.start(2))
        with self._assembly.noting():
            if is_macro:
                yield from self._call(self.macros[name], rest)
            elif is_condition:
                self._decide(name, rest)
            else:
                yield from self._handlers[name](name, rest, lines)

    def _is_active(self) -> bool:
        return not self._conditions or self._conditions[-1].is_active

    def _nested(self, lines: Iterator[Line], opening: Line) -> Iterator[Line]:
        """Yield the expanded statements of the call or repetition `opening`. Raises SourceError if it is nested too deep, or too long."""
        if self._depth == MAX_DEPTH:
            self._assembly.is_ended = True
            raise opening.error(0, f"calls and repetitions are nested more than {MAX_DEPTH} deep here")
        self._depth += 1
        conditions = len(self._conditions)
        try:
            yield from self._expand(self._counted(lines, opening))
        finally:
            self._depth -= 1
        if self._is_leaving:
            del self._conditions[conditions:]
        self._is_leaving = False

    def _counted(self, lines: Iterator[Line], opening: Line) -> Iterator[Line]:
        """Yield the lines of the call or repetition `opening`. Raises SourceError after MAX_STATEMENTS or MAX_CHARACTERS of all calls."""
        for line in lines:
            self._count_one(opening)
            self._characters += len(line.text)
            if self._characters > MAX_CHARACTERS:
                self._assembly.is_ended = True
                raise opening.error(0, f"calls and repetitions make more than {MAX_CHARACTERS:,} characters")
            yield line

    def _count_one(self, opening: Line) -> None:
        self._count += 1
        if self._characters + STATEMENT_CHARACTERS * self._count > self._most < MAX_CHARACTERS:
            raise TooMuchMade
        if self._count > MAX_STATEMENTS:
            self._assembly.is_ended = True
            raise opening.error(0, f"calls and repetitions make more than {MAX_STATEMENTS:,} statements")

    def _call(self, macro: Macro, line: Line) -> Iterator[Line]:
        """Yield the statements to which a call expands. line: the statement with the call, starting with the macro's name"""
        length = len(macro.name)
        self._calls += 1
        made = called(macro, line, 0, length, self._calls - 1)
        self._count_one(line)
        yield from self._nested(self._made(made), line)

    def _made(self, makers: Iterable[Callable[[], Line]]) -> Iterator[Line]:
        """Call functions, and yield the statements that they return. If a function raises SourceError, note the mistake and go on."""
        for make in makers:
            with self._assembly.noting():
                yield make()

    def _define(self, name: str, line: Line, lines: Iterator[Line]) -> Iterable[Line]:
        """Define the macro that begins at a line. Return no statements. Raises SourceError. lines: the statements after the line"""
        body = self._body(name, line, lines)
        match = re.compile(r"\.\w+\s+([A-Za-z_.$][\w.$]*)", re.ASCII).match(line.text)
        if match is None:
            raise line.error(0, ".macro takes a name, and the names of its arguments")
        key = match[1].lower()
        if key in self.macros:
            raise line.error(match.start(1), f"there already is a macro {match[1]}: .purgem {match[1]} forgets it")
        self.macros[key] = Macro(match[1], [Parameter("", takes_rest=True)], ())  # if its parameters are refused
        self.macros[key] = Macro(match[1], read_parameters(line, match.end()), body)
        return ()

    def _body(self, name: str, line: Line, lines: Iterator[Line]) -> list[Line]:
        """Return the statements of a block, up to the directive that ends it. Raises SourceError if the block doesn't end.

        The directive itself is read, but not returned. In a repetition, .endm ends a macro that the repetition defines.

        name: the directive that begins the block; line: the statement with it; lines: the statements after it, which are consumed
        """
        body, depth, macros = list[Line](), 1, 0
        for each in lines:
            head = _HEAD.match(each.text)
            word = head[2].lower() if head and head[2] else ""
            if name != ".macro" and word == ".macro":
                macros += 1
            elif macros and word in _ENDS[".macro"]:
                macros -= 1
            else:
                depth += (word in _OPENINGS[name]) - (word in _ENDS[name])
            if word == _RARS_END:
                self._assembly.note(each.error(0, f"{_RARS_END} isn't in this assembler: write .endm"))
            if depth == 0:
                return body
            body.append(each)
        raise line.error(0, f"{name} doesn't end: {_ENDS[name][0]} is missing")

    def _repeat(self, name: str, line: Line, lines: Iterator[Line]) -> Iterator[Line]:
        """Yield the statements of a repetition: the statements of its block, once for each of its values."""
        body = self._body(name, line, lines)
        for arguments in self._rounds(name, line):
            self._count_one(line)
            yield from self._nested(self._made(self._with(each, arguments) for each in body), line)
            if self._assembly.is_ended:
                return

    def _with(self, line: Line, arguments: Mapping[str, Line]) -> Callable[[], Line]:
        """Return a function that returns a repetition's statement, with the round's arguments in it, and with its own line and column."""
        column = line.column + len(line.text) - len(line.text.lstrip())
        return lambda: line if not arguments else with_arguments(line, arguments, None)._replace(column=column)

    def _rounds(self, name: str, line: Line) -> Iterable[Mapping[str, Line]]:
        """Return the values of names in each round of a repetition. Raises SourceError. line: the statement that begins with `name`"""
        start = len(name)
        if name in (".rept", ".rep"):
            number = self._number(line)
            if number < 0:
                raise line.error(start, f"{name} takes how often its lines are repeated")
            return ({} for _ in range(number))
        symbol, *values = separate_arguments(line, start) or [line.part(start)]
        if not re.fullmatch(r"[A-Za-z_.$][\w.$]*", symbol.text, re.ASCII):
            raise line.error(start, f"{name} takes a name, and its values after a comma")
        if name == ".irpc":
            values = [value.part(at, at + 1) for value in values[:1] for at in range(len(value.text))]
        return [{symbol.text: value} for value in values or [line.part(len(line.text))]]

    def _include(self, name: str, line: Line, lines: Iterator[Line]) -> Iterator[Line]:
        """Yield the statements of an included file. They have the number of the line that includes the file."""
        directive, *operand = tokens_of(line)
        if not operand:
            raise directive.error(".include takes the name of a file")
        text, error = without_comments(read_file(self._assembly, directive, operand).decode("utf-8", "replace"))
        if error:
            raise directive.error(f"{error.message}; in {operand[0].text}, line {error.line}")
        yield from self._nested(_at(line, operand[0].text, statements(text)), line)

    def _leave(self, name: str, line: Line, lines: Iterator[Line]) -> Iterable[Line]:
        """Leave the call or the repetition that is being expanded. Return no statements."""
        if not self._depth:
            raise line.error(0, ".exitm is outside of a macro")
        self._is_leaving = True
        return ()

    def _purge(self, name: str, line: Line, lines: Iterator[Line]) -> Iterable[Line]:
        """Delete the definitions of the macros that a line names. Return no statements."""
        for argument in separate_arguments(line, len(name)):
            if self.macros.pop(argument.text.lower(), None) is None:
                raise argument.error(0, f"there is no macro {argument.text}")
        return ()

    def _unmatched(self, name: str, line: Line, lines: Iterator[Line]) -> Iterable[Line]:
        start = ".rept, .irp or .irpc" if name == ".endr" else ".macro"
        raise line.error(0, f"{name} has no {start} before it")

    def _decide(self, name: str, line: Line) -> None:
        """Begin a condition, go on to its next branch, or end it, as the directive `name` of the line says. Raises SourceError."""
        if name in _CONDITIONS:
            is_reached = self._is_active()
            self._conditions.append(_Condition(line, is_reached, False, False))
            self._take(is_reached and self._holds(name, line))
            return
        if not self._conditions:
            raise line.error(0, f"{name} has no .if before it")
        condition = self._conditions[-1]
        if name == ".endif":
            self._conditions.pop()
        elif condition.has_else:
            raise line.error(0, f"{name} is after the .else of this condition")
        else:
            condition.has_else, condition.is_active = name == ".else", False
            may = condition.is_reached and not condition.was_taken
            self._take(may and (name == ".else" or self._holds(".if", line)))

    def _take(self, holds: bool) -> None:
        """Begin to assemble the statements of the current branch if its condition holds, and to skip them otherwise."""
        condition = self._conditions[-1]
        condition.is_active = holds
        condition.was_taken = condition.was_taken or holds

    def _holds(self, name: str, line: Line) -> bool:
        """Return whether the condition of a directive such as .ifdef holds. Raises SourceError. line: begins with the directive"""
        head = re.compile(r"\.\w+\s*").match(line.text)
        text = line.part(head.end() if head else 0)
        if name in _NUMBER_TESTS:
            return _NUMBER_TESTS[name](self._number(line))
        if name in _NAME_TESTS:
            return self._assembly.symbols.is_defined(text.text.strip()) == (name == ".ifdef")
        if name in (".ifb", ".ifnb"):
            return (text.text.strip().strip('"') == "") == (name == ".ifb")
        values = [value.strip() for value in text.text.split(",", 1)]
        if len(values) < 2:
            raise line.error(0, f"{name} takes two texts, with a comma between them")
        return (values[0] == values[1]) == (name in (".ifc", ".ifeqs"))

    def _number(self, line: Line) -> int:
        """Return the value of the expression after the directive with which a line begins. Raises SourceError."""
        directive, *tokens = tokens_of(line)
        if not tokens:
            raise directive.error(f"{directive.text} takes a number")
        return self._assembly.constant(self._assembly.symbols.bound(tokens))


def _at(line: Line, file: str, lines: Iterable[Line]) -> Iterator[Line]:
    """Yield the statements of an included file, each with the place of the line that includes the file.

    line: the statement with .include; file: the file's name; lines: the statements of the file
    """
    for each in lines:
        within = (f"in {file}, line {each.number}", *line.within)
        yield Line(each.text, line.number, line.place(0)[1], [line.place(0)] * (len(each.text) + 1), within)

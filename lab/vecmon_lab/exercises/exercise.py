"""Exercises (exercise.toml): the text for students, an answer's input, the expected results, and the limits."""

import pathlib
from collections import Counter
from collections.abc import Iterator, Mapping, Sequence
from dataclasses import dataclass, replace
from difflib import get_close_matches
from types import SimpleNamespace

from .. import LabError, mistakes_in
from ..assembler.number_types import NUMBER_TYPES
from ..guest.guest import IMAGE_BYTES
from ..instructions.table import REGISTERS
from ..tables.table import read_table
from .named_files import FILES, SOURCE_BYTES, KeyPlace, check_source, check_text, named_file
from .toml_file import read_toml, shown

OURS = pathlib.Path(__file__).with_name("given")
UNLIMITED = 1 << 63
PLACE_BYTES = 1 << 20  # the size of a user's pages
MAX_CASES, CASES_BYTES = 1_000, 16 << 20  # cases of an exercise; bytes of the places in all cases together
MAX_TICKS = 100_000_000  # of a case; also the limit of its instructions, if they are limited: some seconds
ADDRESSES = 0x10000  # a value from here on may be an address

_NAMES = {bool: "true or false", int: "a number", str: "a text", list: "a list", dict: "a table"}
_REGISTERS = REGISTERS | {f"x{number}": f"x{number}" for number in range(32)}


@dataclass(frozen=True)
class Numbers:
    """Consecutive numbers in memory, of a type from `u8` to `i64`."""

    address: int
    type: str
    numbers: Sequence[int]

    @property
    def data(self) -> bytes:
        """Return the bytes of the numbers."""
        return NUMBER_TYPES[self.type].packed(self.numbers)

    def holding(self, data: bytes) -> "Numbers":
        """Return the same place, with the numbers that these bytes contain."""
        return replace(self, numbers=NUMBER_TYPES[self.type].unpacked(data))


@dataclass(frozen=True)
class Results:
    """The results of a run, found or expected.

    registers: their values by name, such as `x10`; memory: places with their numbers; output: None if the output doesn't count
    """

    registers: Mapping[str, int]
    memory: Sequence[Numbers]
    output: bytes | None


@dataclass(frozen=True)
class Case:
    """A case: an answer's input, and the expected results."""

    name: str
    is_hidden: bool
    policy: str
    registers: Mapping[str, int]
    memory: Sequence[Numbers]
    expected: Results


@dataclass(frozen=True)
class Limits:
    """The limits of each case, in ticks, bytes of output and instructions, and of an answer's file, in bytes."""

    ticks: int = 100_000
    output: int = 4096
    instructions: int = UNLIMITED
    size: int = IMAGE_BYTES


@dataclass(frozen=True)
class Exercise:
    """An exercise, as its folder defines it.

    text: the paragraphs, lists and code that a student reads; hints: one more is shown after each try that fails
    set_up: lines of the monitor before each case, without the user's digit
    junk: whether registers that a case doesn't name have arbitrary values before it; otherwise they are 0
    files: the files by those keys of FILES that the exercise has:
    `reference`, an answer whose results are the expected ones (without it, the cases contain the expected results);
    `good`, another answer, with vectors; `start`, the source that a student starts with; `start_c`, the same in C;
    `lesson`, the source of a lesson before the exercise
    """

    folder: pathlib.Path
    title: str
    text: str
    hints: Sequence[str]
    set_up: Sequence[str]
    junk: bool
    limits: Limits
    cases: Sequence[Case]
    files: Mapping[str, pathlib.Path]


def read_exercise(folder: pathlib.Path) -> Exercise:
    """Return the exercise in a folder, or the lab's exercise with this name. Raises LabError and OSError."""
    path = _home(folder) / "exercise.toml"
    if not path.is_file():
        raise _not_found(folder)
    toml, entries = read_toml(path)
    texts = dict.fromkeys(["text", *FILES], "") | {"title": path.parent.name}
    table = _taken(str(path), entries, {**texts, "limits": {}, "hints": [], "set_up": [], "junk": False, "cases": []})
    limits = Limits(**vars(_taken(f"{path}: limits", table.limits, vars(Limits()))))
    by_reference = bool(table.reference)
    cases = list(_cases(path, table.cases, by_reference))
    twice = [name for name, count in Counter(case.name for case in cases).items() if count > 1]
    mistakes = {
        "there is no case: [[cases]] begins one": not cases,
        f"two cases are called {shown(' and '.join(twice))}": twice,
        "limits: each is from 1 up": min(vars(limits).values()) < 1,
        f"limits: ticks are {MAX_TICKS:,} at most": limits.ticks > MAX_TICKS,
        f"limits: instructions are {MAX_TICKS:,} at most": MAX_TICKS < limits.instructions != UNLIMITED,
        "set_up is a list of texts, which are lines of the monitor": {*map(type, table.set_up)} - {str},
        "hints is a list of texts": {*map(type, table.hints)} - {str},
    }
    for mistake, is_made in mistakes.items():
        if is_made:
            raise LabError(f"{path}: {mistake}")
    _check_texts(path, toml, table)
    files = _files(path, toml, {key: getattr(table, key) for key in FILES if getattr(table, key)})
    about = (table.title, table.text, table.hints, table.set_up, table.junk)
    return Exercise(path.parent, *about, limits, cases, files)


def _check_texts(path: pathlib.Path, toml: str, table: SimpleNamespace) -> None:
    """Raise LabError if the title, the text or a hint has characters that control a terminal or reorder the displayed text."""
    for key, texts in (("title", [table.title]), ("text", [table.text]), ("hints", table.hints)):
        for text in texts:
            with mistakes_in(KeyPlace(path, toml, key)):
                check_text(text, has_lines=key != "title")


def _files(path: pathlib.Path, toml: str, names: Mapping[str, str]) -> dict[str, pathlib.Path]:
    """Return the files in the exercise's folder, by their keys. Raises LabError and OSError.

    path, toml: exercise.toml and its text; names: the files' names by key
    """
    files = {}
    for key, name in names.items():
        with mistakes_in(KeyPlace(path, toml, key)):
            files[key] = named_file(path.parent, name, FILES[key])
            if FILES[key] == SOURCE_BYTES:
                check_source(files[key])
    return files


def with_course(folders: Sequence[pathlib.Path]) -> list[pathlib.Path]:
    """Return the folders of the course's exercises in their order, followed by those of `folders` that aren't in the course."""
    course = [(OURS / name).absolute() for name, _ in read_table("course")]
    return course + [folder for folder in folders if _home(folder) not in course]


def _home(folder: pathlib.Path) -> pathlib.Path:
    """Return the absolute path of a folder; if it doesn't exist, the path that the lab's exercise of this name would have."""
    return (folder if folder.exists() else OURS / folder.name).absolute()


def _not_found(folder: pathlib.Path) -> LabError:
    """Return the error for a folder without an exercise, or for an unknown name, with the nearest name of the course."""
    if folder.exists():
        return LabError(f"{folder} is no exercise: there is no file {folder / 'exercise.toml'}")
    near = get_close_matches(folder.name, [name for name, _ in read_table("course")], 1)
    advice = f"did you mean '{near[0]}'?" if near else "name an exercise of the course, or a folder with exercise.toml"
    return LabError(f"exercise '{folder}' not found; {advice}")


def _taken(where: str, entries: object, defaults: Mapping[str, object]) -> SimpleNamespace:
    """Return a table's entries, with defaults for missing ones. Raises LabError for unknown keys and wrong types.

    where: the place of the table, for messages; defaults: all keys that are allowed; an entry must have the type of its default
    """
    if not isinstance(entries, dict):
        raise LabError(f"{where} isn't a table")
    for key, value in entries.items():
        if key not in defaults:
            raise LabError(f"{where}: there is nothing that is called {shown(key)}")
        kind = type(defaults[key])
        if type(value) is not kind:  # a bool isn't accepted as a number
            raise LabError(f"{where}: {key} isn't {_NAMES[kind]}")
    return SimpleNamespace(**defaults | entries)


def _cases(path: pathlib.Path, entries: Sequence[object], by_reference: bool) -> Iterator[Case]:
    """Yield the cases of an exercise. Raises LabError. by_reference: whether a reference gives the expected results"""
    if len(entries) > MAX_CASES:
        raise LabError(f"{path}: there are {len(entries):,} cases, and {MAX_CASES:,} is the maximum")
    size = 0
    for number, each in enumerate(entries, 1):
        case = _case(f"{path}: case {number}", each, by_reference)
        size += sum(len(place.data) for place in (*case.memory, *case.expected.memory))
        if size > CASES_BYTES:
            raise LabError(f"{path}: case {number}: places of the cases have more than {CASES_BYTES:,} bytes together")
        yield case


def _case(where: str, entries: object, by_reference: bool) -> Case:
    """Return a case. Raises LabError.

    by_reference: whether a reference gives the expected results. Then the case only names them: a list of registers, the lengths of memory,
        and output = true.
    """
    inputs = {"hidden": False, "policy": "keep", "registers": {}, "memory": []}
    table = _taken(where, entries, {"name": where.split(": ")[-1], "expected": {}, **inputs})
    results = {"registers": [], "output": False} if by_reference else {"registers": {}, "output": ""}
    of = "expected by the reference" if by_reference else "expected"
    expected, output = _taken(f"{where}: {of}", table.expected, {"memory": [], **results}), None
    if "output" in table.expected:
        output = b"" if by_reference else expected.output.encode()
    asked = dict.fromkeys(map(str, expected.registers), 0) if by_reference else expected.registers
    places = _places(where, expected.memory, by_reference)
    if table.policy not in ("keep", "ones"):
        raise LabError(f"{where}: policy is keep or ones, and not {shown(table.policy)}")
    if not (asked or places or output is not None):
        raise LabError(f"{where}: nothing is expected: expected has registers, memory or output")
    with mistakes_in(f"{where}: name"):
        check_text(table.name)
    memory = _places(where, table.memory, False)
    expectation = Results(_registers(where, asked), places, output)
    return Case(table.name, table.hidden, table.policy, _registers(where, table.registers), memory, expectation)


def _registers(where: str, named: Mapping[str, object]) -> dict[str, int]:
    """Return the 64-bit values of registers, by name. Raises LabError."""
    values = {}
    for name, value in named.items():
        if _REGISTERS.get(name, "x0") == "x0":
            raise LabError(f"{where}: {shown(name)} is no register that can be set, which are ra to t6 or x1 to x31")
        if not isinstance(value, int) or isinstance(value, bool) or not -(1 << 63) <= value < 1 << 64:
            raise LabError(f"{where}: {name} is {shown(value)}, which is no whole number of 64 bits")
        values[_REGISTERS[name]] = value % (1 << 64)
    return values


def _places(where: str, entries: Sequence[object], by_reference: bool) -> list[Numbers]:
    """Return the given or expected places of a case. Raises LabError if they don't fit into a user's pages together."""
    places, size = list[Numbers](), 0
    for each in entries:
        places.append(_place(where, each, by_reference))
        size += len(places[-1].data)
        if size > PLACE_BYTES:
            raise LabError(f"{where}: its places have more than {PLACE_BYTES:,} bytes together")
    return places


def _place(where: str, entries: object, by_reference: bool) -> Numbers:
    """Return the place in memory that a table describes. Raises LabError.

    The table has the address `at`. It has the numbers below the name of their type, or it has their count, or a text.
    """
    match entries:
        case {"at": int(address), **others} if 0 <= address < 1 << 48:
            place = Numbers(address, *_numbers(f"{where}: the place at {address:#x}", others, by_reference))
        case {"at": address}:
            raise LabError(f"{where}: {shown(address)} is no address of a place in memory, which is below 2^48")
        case _:
            raise LabError(f"{where}: a place in memory is a table with `at`, its address, and not {shown(entries)}")
    size = len(place.data)
    if not 0 < size <= PLACE_BYTES:
        raise LabError(f"{where}: a place has 1 to {PLACE_BYTES:,} bytes, and the one at {address:#x} {size:,}")
    return place


def _numbers(where: str, entries: Mapping[object, object], by_reference: bool) -> tuple[str, list[int]]:
    """Return the type and the numbers of a place, or zeros if only their count is given. Raises LabError."""
    match [*entries.items()]:
        case [("text", str(text))] if not by_reference:
            return "u8", [*text.encode()]
        case [(str(kind), int(count))] if by_reference and kind in NUMBER_TYPES:
            return kind, [0] * min(count, PLACE_BYTES + 1)
        case [(str(kind), list(numbers))] if not by_reference and kind in NUMBER_TYPES:
            minimum, maximum = NUMBER_TYPES[kind].minimum, NUMBER_TYPES[kind].maximum
            invalid = [number for number in numbers if type(number) is not int or not minimum <= number <= maximum]
            if not invalid:
                return kind, numbers
            raise LabError(f"{where}: {shown(invalid[0])} is no {kind}")
    form = "how many numbers there are" if by_reference else "a text, or a list of numbers"
    listed = ", ".join(f"{key} = {shown(value)}" for key, value in entries.items()) or "nothing"
    raise LabError(f"{where} has {form}, by their type, i8 to u64, and not {shown(listed)}")

"""Valid requests, by who may send them; all other input is refused."""

import json
from collections.abc import Iterator

import pytest

from support.places import DOCS
from vecmon_lab import LabError
from vecmon_lab.classes.core.languages import LANGUAGES, SourceText
from vecmon_lab.classes.core.requests import (
    ClockRequest,
    LinesRequest,
    ListingsRequest,
    MachineLinesRequest,
    RenewRequest,
    Request,
    RightsRequest,
    ShoulderRequest,
    SourceRequest,
    read_request,
)

SHARED: list[tuple[dict[str, object], bool, Request]] = [
    ({"ask": "lines"}, False, LinesRequest()),
    (
        {"ask": "lines", "machine": "B", "do": ["enter"], "slices": 100, "look": ["regs"]},
        False,
        LinesRequest(["enter"], ["regs"], 100),
    ),
    (
        {"ask": "lines", "machine": "B", "do": ["slices 1"], "look": ["list"]},
        True,
        MachineLinesRequest(["slices 1"], ["list"], machine="B"),
    ),
    ({"ask": "source", "text": "nop"}, False, SourceRequest(SourceText("nop"))),
    ({"ask": "source", "text": "int x;", "language": 2}, False, SourceRequest(SourceText("int x;", 2))),
    (
        {"ask": "listings", "text": "int x;", "language": 2, "other": 5},
        False,
        ListingsRequest(SourceText("int x;", 2), 5),
    ),
    ({"ask": "clock", "machine": "A", "on": True, "ms": 10}, True, ClockRequest("A", {"on": True, "ms": 10})),
    (
        {"ask": "clock", "machine": "A", "on": False, "slices": 1000},
        True,
        ClockRequest("A", {"on": False, "slices": 1000}),
    ),
    ({"ask": "rights", "machine": "A", "own_slices": False}, True, RightsRequest("A", False)),
    ({"ask": "renew", "seat": "A3"}, True, RenewRequest("A3")),
    ({"ask": "shoulder", "seat": ""}, True, ShoulderRequest("")),
    ({"ask": "shoulder"}, True, ShoulderRequest("")),
]


@pytest.mark.parametrize("message, is_teacher, request_", SHARED)
def test_request_is_parsed(message: dict[str, object], is_teacher: bool, request_: Request) -> None:
    assert read_request(message, is_teacher) == request_


@pytest.mark.parametrize(
    "message, is_teacher, expected",
    [
        ({}, False, "no such request"),
        ({"ask": ["lines"]}, True, "no such request"),
        ({"ask": "source", "text": "nop"}, True, "no such request"),
        ({"ask": "renew", "seat": "A3"}, False, "no such request"),
        ({"ask": "renew", "seat": 5}, True, "no such seat"),
        ({"ask": "rights", "machine": ["A"]}, True, "no such machine"),
        ({"ask": "lines", "do": "regs"}, False, "lists of 256 lines"),
        ({"ask": "lines", "do": ["regs"] * 200, "look": ["regs"] * 57}, False, "lists of 256 lines"),
        ({"ask": "lines", "do": [5]}, False, "a line is a text"),
        ({"ask": "lines", "do": ["é"]}, False, r"character 1 of a line, '\\xe9', isn't printable ASCII"),
        ({"ask": "lines", "machine": "A", "do": ["list\n"]}, True, r"character 5 of a line, '\\n', isn't"),
        ({"ask": "lines", "do": ["x" * 1023]}, False, "at most 1,022 characters"),
        ({"ask": "lines", "look": ["regs", "step 1"]}, False, "'step 1' isn't a line that only looks"),
        ({"ask": "lines", "look": ["regs"]}, True, "'regs' isn't a line that only looks"),
        ({"ask": "lines", "slices": 101}, False, "0 to 100 slices"),
        ({"ask": "lines", "slices": 1.0}, False, "0 to 100 slices"),
        ({"ask": "source"}, False, "a text of 65536 characters"),
        ({"ask": "source", "text": "", "language": len(LANGUAGES)}, False, "languages have numbers from 0"),
        ({"ask": "draft", "text": "", "number": 0, "language": -1}, False, "languages have numbers from 0"),
        ({"ask": "give", "text": "", "language": "@file"}, True, "languages have numbers from 0"),
        ({"ask": "listings", "text": "", "language": 1, "other": "clang @file"}, False, "options have whole numbers"),
        ({"ask": "clock", "machine": "A", "slices": 0}, True, "slices of the clock is 1 to 1000"),
        ({"ask": "clock", "machine": "A", "on": "yes"}, True, "on is true or false"),
        ({"ask": "clock", "machine": "A", "on": 0}, True, "on is true or false"),
        ({"ask": "name", "name": None}, False, "there is no such name: it is a text"),
        ({"ask": "hand", "up": "yes"}, False, "up is true or false"),
        (
            {"ask": "hand", "up": True, "text": "a\x1b"},
            False,
            "a question for the teacher has 1 to 400 characters that can",
        ),
        ({"ask": "hand", "up": True, "text": None}, False, "a question for the teacher has 1 to 400 characters"),
        ({"ask": "write", "text": "a\x1b"}, True, "a line for students has 1 to 400 characters"),
    ],
)
def test_invalid_request_is_refused(message: dict[str, object], is_teacher: bool, expected: str) -> None:
    with pytest.raises(LabError, match=expected):
        read_request(message, is_teacher)


WRONG: dict[str, list[object]] = {
    "string": [None, 5, True, ["a"]],
    "boolean": [None, "yes", 1, 0],
    "integer": [None, "5", True, 1.0],
    "array": [None, "a", 5, {"a": 5}],
}


def values_of_other_types() -> Iterator[tuple[bool, dict[str, object]]]:
    """Requests with one value of another type than the schema's: whether they are a teacher's, and the messages."""
    definitions = json.loads((DOCS / "CLASS_PROTOCOL.schema.json").read_text())["$defs"]
    samples: dict[str, object] = {"string": "a", "boolean": True, "integer": 1, "array": []}
    for is_teacher, form in ((False, "StudentRequest"), (True, "TeacherRequest")):
        for reference in definitions[form]["anyOf"]:
            properties = definitions[reference["$ref"].rpartition("/")[2]]["properties"]
            kinds = {name: each["type"] for name, each in properties.items() if name != "id" and "type" in each}
            fit = {name: samples[kind] for name, kind in kinds.items()} | {"ask": properties["ask"]["enum"][0]}
            for name, kind in kinds.items():
                others = {
                    key: value for key, value in fit.items() if key != {"seat": "seats", "seats": "seat"}.get(name)
                }
                yield from ((is_teacher, others | {name: value}) for value in WRONG[kind])


def test_values_of_other_types_are_refused() -> None:
    """Each value of each request, by the published schema."""
    count = 0
    for is_teacher, message in values_of_other_types():
        count += 1
        with pytest.raises(LabError):
            pytest.fail(f"{message} is taken: {read_request(message, is_teacher)}")
    assert count > 200

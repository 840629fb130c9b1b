"""The types of messages: the generated schema and declarations, and what the schema refuses."""

import dataclasses
import json
from collections.abc import Mapping, Sequence
from typing import Any, TypedDict

import jsonschema
import pytest

from support import message_types
from support.message_schema import check_message, check_request, check_view
from support.request_types import PROTOCOL, keys_of, message_type, of, protocol, row
from vecmon_lab.classes.core.requests import KINDS, GiveRequest, MachineLinesRequest, PastRequest, Request, read_request

Row = TypedDict("Row", {"numbers": Sequence[int], "names": Mapping[str, float]})
ANSWER: dict[str, Any] = {"kind": "answer", "id": 1, "text": "nop", "language": 0}
MISTAKE: dict[str, Any] = {"line": 3, "column": 5, "length": 3, "severity": "error", "message": "no such instruction"}


def test_generated_files_are_current() -> None:
    advice = "run .venv/bin/python -m support.message_types"
    assert PROTOCOL.read_text("utf-8") == protocol(), advice
    assert message_types.SCHEMA.read_text("utf-8") == message_types.schema(), advice
    assert message_types.DECLARATIONS.read_text("utf-8") == message_types.declarations(), advice


def test_schema_is_valid() -> None:
    jsonschema.Draft202012Validator.check_schema(json.loads(message_types.SCHEMA.read_text("utf-8")))


def test_type_becomes_schema_and_declaration() -> None:
    """By hand, from the specification of JSON Schema and the handbook of TypeScript."""
    assert message_types.object_schema(Row) == {
        "description": "",
        "type": "object",
        "properties": {
            "numbers": {"type": "array", "items": {"type": "integer"}},
            "names": {"type": "object", "additionalProperties": {"type": "number"}},
        },
        "required": ["names", "numbers"],
        "additionalProperties": False,
    }
    assert message_types.declared_object(Row) == (
        "export interface Row {\n  numbers: number[];\n  names: { [name: string]: number };\n}\n"
    )
    with pytest.raises(TypeError, match="use an object with named fields"):
        message_types.schema_of(tuple[int, str])


def test_request_becomes_schema_declaration_and_row() -> None:
    """By hand, from the class: its fields with their defaults and texts."""
    kind = message_types.objects_in([message_types.ROOTS["StudentRequest"]])["PastRequest"]
    count = "The number of instructions since the machine began. A negative number counts from the present."
    to_break = "Whether to find the next state after that one at a breakpoint."
    assert message_types.object_schema(kind) == {
        "description": "Find an earlier state of the program.",
        "type": "object",
        "properties": {
            "id": {"type": "integer"},
            "ask": {"enum": ["past"]},
            "at": {"description": count, "type": "integer"},
            "to_break": {"description": to_break, "type": "boolean"},
        },
        "required": ["ask", "at", "id"],
    }
    assert message_types.declared_object(kind) == (
        "/** Find an earlier state of the program. */\nexport interface PastRequest {\n"
        f'  id: number;\n  ask: "past";\n  /** {count} */\n  at: number;\n  /** {to_break} */\n  to_break?: boolean;\n}}\n'
    )
    meaning = f"Find an earlier state of the program. `at`: t{count[1:]} `to_break`: w{to_break[1:]} See [below](#earlier-states)."
    assert row(PastRequest).startswith(f'| both | `{{"id": 7, "ask": "past", "at": 41}}` | {meaning} | `number` of')


@pytest.mark.parametrize(
    "request_, keys, required",
    [
        (MachineLinesRequest, {"do", "look", "slices", "machine"}, {"machine"}),
        (GiveRequest, {"seat", "seats", "text", "language", "how", "title"}, {"text"}),
    ],
)
def test_request_has_keys_of_fields(request_: type[Request], keys: set[str], required: set[str]) -> None:
    kind = message_type(request_)
    assert kind.__required_keys__ == {"id", "ask", *required}
    assert kind.__required_keys__ | kind.__optional_keys__ == {"id", "ask", *keys}


@pytest.mark.parametrize("request_", KINDS, ids=[each.__name__ for each in KINDS])
def test_example_is_request_of_its_class(request_: type[Request]) -> None:
    """The examples in the table of requests, for each that may send one; others are refused, or have another class."""
    message = {"id": 7, "ask": KINDS[request_].ask, **KINDS[request_].example}
    for who, is_teacher in (("student", False), ("teacher", True)):
        if KINDS[request_].sender in (who, "both"):
            check_request(who, message)
            assert type(read_request(message, is_teacher)) is request_


def test_fields_of_requests_have_distinct_keys() -> None:
    """Each key of a message belongs to one field."""
    for each in KINDS:
        keys = [key for field in dataclasses.fields(of(each)) for key in keys_of(field)]
        assert len(keys) == len({"id", "ask", *keys}) - 2, each


@pytest.mark.parametrize(
    "message",
    [
        {**ANSWER, "language": "C"},
        {**ANSWER, "length": 3},
        {"kind": "answer", "text": "nop", "language": 0},
        {"kind": "answer", "id": 1, "mistakes": [{**MISTAKE, "line": "3"}], "warnings": []},
        {"kind": "answer", "id": 1, "mistakes": [[3, 5, "no such instruction"]], "warnings": []},
        {"kind": "notice"},
    ],
)
def test_schema_refuses_messages(message: Any) -> None:
    check_message(ANSWER)
    check_message({"kind": "answer", "id": 1, "mistakes": [MISTAKE], "warnings": []})
    with pytest.raises(jsonschema.ValidationError):
        check_message(message)


@pytest.mark.parametrize(
    "request_", [{"ask": "lines", "do": ["ok"]}, {"id": 1, "ask": "lines", "do": "ok"}, {"id": 1, "ask": "none"}]
)
def test_schema_refuses_requests(request_: Any) -> None:
    check_request("A1", {"id": 1, "ask": "lines", "do": ["ok"]})
    with pytest.raises(jsonschema.ValidationError):
        check_request("A1", request_)
    with pytest.raises(jsonschema.ValidationError):
        check_request("teacher", {"id": 1, "ask": "lines", "do": ["ok"]})


VIEW: dict[str, Any] = {
    "seat": "A1",
    "state": {"run": "stopped", "pc": "10000", "x": {"5": "1"}},
    "stop": "",
    "trouble": "",
}


@pytest.mark.parametrize(
    "patch, view",
    [
        ({"state": {"pc": 4}}, {**VIEW, "state": {**VIEW["state"], "pc": 4}}),
        ({"state": {"x": {"5": 1}}}, {**VIEW, "state": {**VIEW["state"], "x": {"5": 1}}}),
        ({"state": {"run": None}}, {**VIEW, "state": {"pc": "10000"}}),
        ({"state": {"run": "halted"}}, {**VIEW, "state": {"run": "halted"}}),
        ({"trouble": None}, {"seat": "A1", "stop": ""}),
        ({"name": "Ada"}, {**VIEW, "name": "Ada"}),
    ],
)
def test_schema_refuses_changed_views(patch: Any, view: Any) -> None:
    check_view("wall", VIEW)
    check_view("wall", VIEW, {"state": {"x": {"5": "1"}}, "stop": ""})
    for changed in (patch, None):
        with pytest.raises(jsonschema.ValidationError):
            check_view("wall", view, changed)

"""Checks messages, views and requests of a class against docs/CLASS_PROTOCOL.schema.json."""

import json
from collections.abc import Mapping
from typing import Any

import jsonschema

from support.places import DOCS

TYPES: Mapping[str, Any] = json.loads((DOCS / "CLASS_PROTOCOL.schema.json").read_text("utf-8"))["$defs"]

Schema = Mapping[str, Any]
_VALIDATORS: dict[int, jsonschema.Draft202012Validator] = {}  # by the identity of a part of TYPES


def check_message(message: Mapping[str, Any]) -> None:
    """Raises ValidationError for a message that isn't as the schema has it."""
    _check_one("Message", message, {"kind"})


def check_request(role: str, request: Mapping[str, Any]) -> None:
    """Raises ValidationError for a request of a seat or the teacher that isn't as the schema has it."""
    _check_one("TeacherRequest" if role == "teacher" else "StudentRequest", request, {"ask"})


def check_view(role: str, view: Mapping[str, Any], patch: Mapping[str, Any] | None = None) -> None:
    """Raises ValidationError for a view of a role that isn't as the schema has it. patch: the fields to check, by default all"""
    schema = TYPES[{"teacher": "TeacherView", "wall": "WallView"}.get(role, "StudentView")]
    if patch is None:
        _validate(schema, view)
    else:
        _check_patched(schema, view, patch)


def _check_one(name: str, message: Mapping[str, Any], by: set[str]) -> None:
    """Checks a message against the alternative of a type that has its fields. by: fields whose values select the alternative"""
    for schema in map(_resolved, TYPES[name]["anyOf"]):
        fields, required = schema["properties"], set(schema["required"])
        is_open = schema.get("additionalProperties", True)
        if required <= message.keys() and (is_open or message.keys() <= fields.keys()):
            if all(message[field] in fields[field]["enum"] for field in by):
                _validate(schema, message)
                return
    raise jsonschema.ValidationError(f"no alternative of {name} has the fields of {json.dumps(message)[:400]}")


def _check_patched(schema: Schema, value: Any, patch: Any) -> None:
    """Checks the parts of a value that a merge patch (RFC 7396) has changed."""
    schema = _resolved(schema)
    if not isinstance(patch, dict) or not isinstance(value, dict) or schema.get("type") != "object":
        _validate(schema, value)
        return
    required = schema.get("required", [])
    if missing := [name for name in required if name not in value]:
        raise jsonschema.ValidationError(f"the fields {', '.join(missing)} are missing")
    for name in patch.keys() & value.keys():
        part = schema.get("properties", {}).get(name, schema["additionalProperties"])
        if part is False:
            raise jsonschema.ValidationError(f"the schema has no field {name}")
        _check_patched(part, value[name], patch[name])


def _resolved(schema: Schema) -> Schema:
    """The type that a schema refers to, or the schema itself."""
    found: Schema = TYPES[schema["$ref"].rpartition("/")[2]] if "$ref" in schema else schema
    return found


def _validate(schema: Schema, value: Any) -> None:
    """Checks a value against a part of TYPES."""
    if id(schema) not in _VALIDATORS:
        _VALIDATORS[id(schema)] = jsonschema.Draft202012Validator({"$defs": TYPES, **schema})
    _VALIDATORS[id(schema)].validate(value)

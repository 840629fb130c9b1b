"""Write the JSON Schema and the TypeScript declarations of a class's messages from their Python types: `python -m support.message_types`.

It writes docs/CLASS_PROTOCOL.schema.json, lab/vecmon_lab/page/web/messages.d.ts, and the table of requests in docs/CLASS_PROTOCOL.md.
"""

import inspect
import json
import textwrap
import types
from collections.abc import Iterable, Mapping, Sequence
from typing import Any, Literal, Union, get_args, get_origin, get_type_hints, is_typeddict

from support.places import TOP
from support.request_types import PROTOCOL, TEXTS, protocol, requests_of, wrapped
from vecmon_lab.classes.core.messages import Response, Hello, Message, News
from vecmon_lab.classes.core.student import StudentView
from vecmon_lab.classes.server.teacher_view import TeacherView, WallView
from vecmon_lab.lessons.page import LessonData
from vecmon_lab.playground.page_desk import PageHello

SCHEMA = TOP / "docs" / "CLASS_PROTOCOL.schema.json"
DECLARATIONS = TOP / "lab" / "vecmon_lab" / "page" / "web" / "messages.d.ts"
ROOTS: Mapping[str, Any] = {
    "StudentRequest": requests_of("student"),
    "TeacherRequest": requests_of("teacher"),
    "Hello": Hello,
    "News": News,
    "Response": Response,
    "Message": Message,
    "StudentView": StudentView,
    "TeacherView": TeacherView,
    "WallView": WallView,
    "LessonData": LessonData,
    "PageHello": PageHello,
}
SIMPLE = {str: "string", bool: "boolean", int: "integer", float: "number"}
WIDTH = 140  # of a line of the declarations

Schema = dict[str, Any]


def parts_of(kind: Any) -> Sequence[Any]:
    """The types of a union; none of another type."""
    return get_args(kind) if get_origin(kind) in (Union, types.UnionType) else ()


def inner_of(kind: Any) -> Sequence[Any]:
    """The types that a type's fields, elements, values or alternatives have."""
    return list(get_type_hints(kind).values()) if is_typeddict(kind) else get_args(kind)


def objects_in(roots: Iterable[Any]) -> Mapping[str, Any]:
    """The types of objects that types contain, by name. Raises TypeError where two have one name."""
    found, waiting = dict[str, Any](), list(roots)
    while waiting:
        kind = waiting.pop(0)
        if not is_typeddict(kind):
            waiting += [] if get_origin(kind) is Literal else inner_of(kind)
        elif found.setdefault(kind.__name__, kind) is not kind:
            raise TypeError(f"two types have the name {kind.__name__}: rename one")
        elif kind not in waiting:
            waiting += [each for each in inner_of(kind) if not is_typeddict(each) or each.__name__ not in found]
    return dict(sorted(found.items()))


def schema_of(kind: Any) -> Schema:
    """The schema of a type. Raises TypeError for one without a form in messages, as a tuple."""
    origin, inner = get_origin(kind), get_args(kind)
    if is_typeddict(kind):
        return {"$ref": f"#/$defs/{kind.__name__}"}
    if kind in SIMPLE:
        return {"type": SIMPLE[kind]}
    if kind is object:
        return {}
    if origin is Literal:
        return {"enum": list(inner)}
    if parts := parts_of(kind):
        return {"anyOf": [schema_of(each) for each in parts]}
    if origin in (list, Sequence):
        return {"type": "array", "items": schema_of(inner[0])}
    if origin in (dict, Mapping) and inner[0] is str:
        return {"type": "object", "additionalProperties": schema_of(inner[1])}
    raise TypeError(f"{kind} has no form in messages: use an object with named fields, a list or a dictionary")


def object_schema(kind: Any) -> Schema:
    """The schema of a type of objects. Only requests may have other fields as well, which the server ignores."""
    schema: Schema = {
        "description": description_of(kind),
        "type": "object",
        "properties": {name: with_text(kind, name, schema_of(each)) for name, each in get_type_hints(kind).items()},
        "required": sorted(kind.__required_keys__),
    }
    return schema if kind in TEXTS else {**schema, "additionalProperties": False}


def with_text(kind: Any, name: str, schema: Schema) -> Schema:
    """The schema of a key of a request with its text, if there is one."""
    text = TEXTS.get(kind, {}).get(name)
    return schema if text is None else {"description": text, **schema}


def declared(kind: Any) -> str:
    """The TypeScript of a type. Raises TypeError as `schema_of` does."""
    origin, inner = get_origin(kind), get_args(kind)
    if is_typeddict(kind):
        return str(kind.__name__)
    if kind in SIMPLE:
        return SIMPLE[kind].replace("integer", "number")
    if kind is object:
        return "unknown"
    if origin is Literal:
        return " | ".join(json.dumps(each) for each in inner)
    if parts := parts_of(kind):
        return " | ".join(declared(each) for each in parts)
    if origin in (list, Sequence):
        text = declared(inner[0])
        return f"({text})[]" if " " in text else f"{text}[]"
    schema_of(kind)
    return f"{{ [name: string]: {declared(inner[1])} }}"


def declared_object(kind: Any) -> str:
    """The declaration of a type of objects."""
    texts = TEXTS.get(kind, {})
    fields = [
        f"{indented(texts.get(name, ''))}  {name}{'' if name in kind.__required_keys__ else '?'}: {declared(each)};\n"
        for name, each in get_type_hints(kind).items()
    ]
    return f"{comment(description_of(kind))}export interface {kind.__name__} {{\n{''.join(fields)}}}\n"


def comment(text: str) -> str:
    """A comment of a description; empty without one."""
    lines = text.split("\n")
    if len(lines) == 1:
        return f"/** {text} */\n" if text else ""
    return "/**\n" + "".join(f" * {line}".rstrip() + "\n" for line in lines) + " */\n"


def indented(text: str) -> str:
    """The comment of a key; empty without a text."""
    return textwrap.indent(comment("\n".join(wrapped(text))), "  ")


def declared_union(name: str, kind: Any) -> str:
    """The declaration of a union, on one line if that isn't too long."""
    names = [declared(each) for each in parts_of(kind)]
    line = f"export type {name} = {' | '.join(names)};\n"
    return (
        line
        if len(line) <= WIDTH
        else f"export type {name} =\n" + "".join(f"  | {each}\n" for each in names)[:-1] + ";\n"
    )


def description_of(kind: Any) -> str:
    """The docstring of a class; empty for one without."""
    return inspect.cleandoc(kind.__dict__.get("__doc__") or "")


def schema() -> str:
    """The text of the schema: each type by its name in `$defs`."""
    objects = {name: object_schema(kind) for name, kind in objects_in(ROOTS.values()).items()}
    unions = {name: schema_of(kind) for name, kind in ROOTS.items() if parts_of(kind)}
    head = {"$schema": "https://json-schema.org/draft/2020-12/schema", "title": "Messages of a class of vecmon-lab"}
    return json.dumps({**head, "$defs": objects | unions}, indent=1) + "\n"


def declarations() -> str:
    """The text of the declarations."""
    head = "// The types of messages. `.venv/bin/python -m support.message_types` writes this file from the lab's Python types.\n\n"
    objects = [declared_object(kind) for kind in objects_in(ROOTS.values()).values()]
    unions = [declared_union(name, kind) for name, kind in ROOTS.items() if parts_of(kind)]
    return head + "\n".join([*objects, *unions])


def main() -> None:
    """Write the files."""
    PROTOCOL.write_text(protocol(), "utf-8")
    SCHEMA.write_text(schema(), "utf-8")
    DECLARATIONS.write_text(declarations(), "utf-8")


if __name__ == "__main__":
    main()

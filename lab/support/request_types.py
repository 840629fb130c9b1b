"""The requests of a class as types of messages, and as the table of requests in docs/CLASS_PROTOCOL.md."""

import ast
import inspect
import itertools
import json
import re
import textwrap
import types
from collections.abc import Mapping, Sequence
from dataclasses import MISSING, Field, fields
from typing import Any, Literal, NotRequired, TypedDict, Union, get_args

from support.places import DOCS
from vecmon_lab.classes.core.request_fields import form_of
from vecmon_lab.classes.core.requests import KINDS, Request, Sender

PROTOCOL = DOCS / "CLASS_PROTOCOL.md"
TABLE = re.compile(r"^\| who \| request \|.*?\n(?=\n)", re.MULTILINE | re.DOTALL)
SECTIONS = {
    "edit": "typed-values",
    "exercises": "exercises-on-and-off",
    "last-instruction": "registers-before-the-end-of-a-run",
    "past": "earlier-states",
    "run": "run-and-step",
    "step": "run-and-step",
    "write": "messages-of-the-teacher",
}
"""Sections of CLASS_PROTOCOL about a request, by its name."""


def keys_of(field: Field[Any]) -> Mapping[str, Any]:
    """The keys of a message that a field of a request has, with their types."""
    if keys := form_of(field).keys:
        return keys
    kind = get_args(field.type)[0]
    if isinstance(kind, types.UnionType):  # with None for a missing key
        kind = get_args(kind)[0]
    return {field.name: kind if field.default is MISSING else NotRequired[kind]}


def field_texts(request: type[Request]) -> Mapping[str, str]:
    """The docstrings below the fields of a class, by field."""
    texts = dict[str, str]()
    for each in reversed(request.__mro__[:-1]):
        (definition,) = ast.parse(inspect.getsource(each)).body
        assert isinstance(definition, ast.ClassDef)
        for statement, text in itertools.pairwise(definition.body):
            match statement, text:
                case ast.AnnAssign(ast.Name(name)), ast.Expr(ast.Constant(str(found))):
                    texts[name] = " ".join(found.split())
    return texts


def of(request: type[Request]) -> Any:
    """A class of requests as a data class."""
    return request


def message_type(request: type[Request]) -> Any:
    """The type of a request's messages: its number and name, and the keys of its fields."""
    keys: dict[str, Any] = {"id": int, "ask": Literal[KINDS[request].ask]}
    for each in fields(of(request)):
        keys |= keys_of(each)
    make: Any = TypedDict
    made = make(request.__name__, keys)
    made.__doc__ = request.__doc__
    return made


MESSAGE_TYPES = {request: message_type(request) for request in KINDS}
TEXTS = {MESSAGE_TYPES[request]: field_texts(request) for request in KINDS}
"""The texts of keys of each type of requests. If a field has several keys, the text of its class describes them."""


def requests_of(sender: Sender) -> Any:
    """The union of the types of a sender's requests."""
    senders = (sender, "both")
    return Union[tuple(MESSAGE_TYPES[each] for each, kind in KINDS.items() if kind.sender in senders)]


def table() -> str:
    """The table of requests."""
    rows = [row(request) for request in KINDS]
    return "\n".join(["| who | request | meaning | answer |", "|---|---|---|---|", *rows, ""])


def row(request: type[Request]) -> str:
    """The row of a request: who sends it, an example, its texts and those of its keys, and its answer."""
    kind = KINDS[request]
    meaning = [" ".join((request.__doc__ or "").split())]
    meaning += [f"`{name}`: {text[0].lower()}{text[1:]}" for name, text in field_texts(request).items()]
    if section := SECTIONS.get(kind.ask):
        meaning.append(f"See [below](#{section}).")
    example = json.dumps({"id": 7, "ask": kind.ask, **kind.example})
    return f"| {kind.sender} | `{example}` | {' '.join(meaning)} | {kind.response} |"


def protocol() -> str:
    """The text of CLASS_PROTOCOL with the table."""
    return TABLE.sub(lambda _: table(), PROTOCOL.read_text("utf-8"), count=1)


def wrapped(text: str) -> Sequence[str]:
    """The lines of a text in a comment of TypeScript."""
    return textwrap.wrap(text, 130)

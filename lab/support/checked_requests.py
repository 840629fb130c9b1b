"""Checks the requests that a served class accepts against the schema, in the server of tests of pages."""

import sys

import jsonschema

from support.message_schema import check_request
from vecmon_lab.classes.core import requests
from vecmon_lab.classes.core.request_fields import JsonObject
from vecmon_lab.classes.server import tab_requests

HEAD = "a request isn't as docs/CLASS_PROTOCOL.schema.json has it:"


def check_requests() -> None:
    """Have this process print a line to standard error for each accepted request that isn't as the schema has it."""

    def read_request(message: JsonObject, is_teacher: bool) -> requests.Request:
        request = requests.read_request(message, is_teacher)
        try:
            check_request("teacher" if is_teacher else "A1", message)
        except jsonschema.ValidationError as error:
            print(HEAD, error.message.replace("\n", " "), file=sys.stderr, flush=True)
        return request

    setattr(tab_requests, "read_request", read_request)


def invalid_requests(log: str) -> list[str]:
    """The lines of a server's standard error on requests that aren't as the schema has them."""
    return [line for line in log.splitlines() if line.startswith(HEAD)]

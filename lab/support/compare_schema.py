"""Write the JSON Schema of `vecmon-lab compare --json` from its Python types: `python -m support.compare_schema`.

It writes docs/COMPARE.schema.json.
"""

import json

from support.message_types import object_schema, objects_in
from support.places import DOCS
from vecmon_lab.open_choices.report import Report

SCHEMA = DOCS / "COMPARE.schema.json"


def schema() -> str:
    """Return the text of the schema."""
    objects = {name: object_schema(kind) for name, kind in objects_in([Report]).items()}
    head = {"$schema": "https://json-schema.org/draft/2020-12/schema", "title": "Results of vecmon-lab compare --json"}
    return json.dumps({**head, "$ref": "#/$defs/Report", "$defs": objects}, indent=1) + "\n"


if __name__ == "__main__":
    SCHEMA.write_text(schema(), "utf-8")

"""Write the states of lab/tests/data/element_states.json anew: `python lab/tools/element_states.py`."""

import json

from support.element_states import FILE, PROGRAMS, captured
from vecmon_lab.machine.program import find_program

if __name__ == "__main__":
    found = find_program()
    lines = [f"{json.dumps(name)}: {json.dumps(captured(name, found), separators=(',', ':'))}" for name in PROGRAMS]
    FILE.write_text("{\n" + ",\n".join(lines) + "\n}\n", "ascii")

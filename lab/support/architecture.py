"""The tables of docs/LAB_ARCHITECTURE.md that list rooms and modules of the lab in their order."""

import re

from support.places import DOCS


def names_in(title: str) -> list[str]:
    """The names in the first column of a section's table, from the top on."""
    section = (DOCS / "LAB_ARCHITECTURE.md").read_text("utf-8").partition(f"\n{title}\n")[2].partition("\n#")[0]
    cells = re.findall(r"^\| (`[^|]*) \|", section, re.MULTILINE)
    return [name for cell in cells for name in re.findall(r"`([a-z_]+)`", cell)]

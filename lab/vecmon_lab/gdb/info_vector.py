"""Python code that gdb loads: `info vector` prints the register groups of a program on vecmon.

`vecmon-lab gdb --script` prints the path of this file, for gdb's `-x` and `source`.
"""

import importlib
from typing import Any

gdb: Any = importlib.import_module("gdb")  # gdb's own module, which has no types


class InfoVector(gdb.Command):
    """Print the vector state in words and the elements of each register group, for a program on vecmon.

    For another program, print the registers of the group `vector`, as gdb's own command does.
    """

    def __init__(self) -> None:
        super().__init__("info vector", gdb.COMMAND_DATA)

    def invoke(self, argument: str, from_tty: bool) -> None:
        """Print what `monitor vector` prints."""
        try:
            print(gdb.execute("monitor vector", to_string=True), end="")
        except gdb.error:  # the program doesn't run on vecmon
            gdb.execute("info registers vector")


InfoVector()

"""Writes and checks the files that repeat the records of instructions, `instructions/*.toml`, at the top of the repository.

    tools/instructions          write them and docs/INSTRUCTIONS.md, then print what is left to do by hand
    tools/instructions --check  exit with status 1 if one of them isn't current, and print the file and the line of each difference

A record with an unknown key, a missing field or the word of another instruction gets one line with file, line and name, and status 1; then
no file is written. docs/ADDING.md has the keys of a record, and the steps to add an instruction.

What is written: variants, entries and lists of the operations in `rv_model`; arms of the encoder and the decoder in `rv_decode`; the
assembler's table of names; lists of `test_faults` and `test_kernels`; tables of the lab; a table of docs/COMMANDS.md. Of most files only
parts are written, and the rest is by hand: `--parts` prints each file with the lines of its parts.

After that the page, the places of each name that are filled in by hand, and the lab are compared with the definitions
(`instruction_definitions.py`).
"""

import sys
from collections.abc import Sequence

from tools.records.instruction_files import Change, FILE_ERRORS, changes, part_lines

USAGE = "usage: tools/instructions [--check | --parts], at the top of the repository"


def write(found: Sequence[Change]) -> None:
    """Write the files that differ, and print their names."""
    for change in found:
        change.write()
        print(f"{change.path} is written")


def compared(is_check: bool) -> int:
    """Compare or write the page, and compare the lab with the definitions; the status."""
    # Imported here, because the lab reads its tables when it is imported: after they are written.
    from tools.records import instruction_definitions

    return instruction_definitions.compare(writes_page=not is_check)


def main(arguments: Sequence[str]) -> int:
    if arguments in (["--help"], ["-h"]):
        print(__doc__.strip())
        return 0
    if arguments not in ([], ["--check"], ["--parts"]):
        print(USAGE, file=sys.stderr)
        return 2
    try:
        if arguments == ["--parts"]:
            print("\n".join(part_lines()))
            return 0
        found = changes()
    except FILE_ERRORS as error:
        print(error)
        return 1
    if arguments:
        for change in found:
            print(change.difference())
        return 1 if compared(is_check=True) or found else 0
    write(found)
    return compared(is_check=False)


if __name__ == "__main__":
    sys.exit(main(sys.argv[1:]))

"""Lines about C for `vecmon-lab check`: the compilers, and whether their sandbox starts."""

import os

from .. import LabError
from .account import OWN, account_named
from .compiler import COMPILERS_ADVICE, find_compilers
from .sandbox import sandboxed_compiler


def print_compilers() -> None:
    """Print the names of the compilers for C, and the reason why sources of others can't be compiled, if there is one."""
    names = [each.name if each.has_vectors else f"{each.name} (without intrinsics)" for each in find_compilers()]
    print(f"compilers for sources in C: {', '.join(names) or f'not installed: {COMPILERS_ADVICE}'}")
    try:
        account = OWN if os.geteuid() else account_named("nobody")
        sandboxed_compiler(None, account)
        state = "it starts" if account == OWN else "it starts with --as nobody, which root needs"
    except LabError as error:
        state = f"not available: {error}"
    print(f"sandbox for sources in C in class, explore and grade: {state}")

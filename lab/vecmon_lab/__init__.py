"""A front end for vecmon: it sends lines to the program, and shows the machine's answers."""

import contextlib
import importlib
from collections.abc import Iterator
from typing import TYPE_CHECKING, Any

if TYPE_CHECKING:
    from .kernels.kernel import CallStopped, Kernel, Placed, PoliciesDiffer, Result

__all__ = ["CallStopped", "Kernel", "LabError", "Placed", "PoliciesDiffer", "Result"]
__version__ = "2.0.0"  # of the programs, the lab and the packages; tests/test_version.py lists the files that state it


class LabError(Exception):
    """An error that the user of the lab can correct. Its text is one line that says what is wrong, or one line for each mistake in C."""


class SourceMistakes(LabError):
    """A source has mistakes. Each line of the text starts with the name of the file, the line and the column."""


@contextlib.contextmanager
def mistakes_in(what: object, *kinds: type[Exception]) -> Iterator[None]:
    """Put a subject before the text of each LabError that is raised in this context: `what: text`.

    kinds: the types of errors to turn into LabError so; without any, LabError itself
    """
    try:
        yield
    except kinds or LabError as error:
        raise LabError(f"{what}: {error}") from error


def __getattr__(name: str) -> Any:
    """Return a name of `kernels`, which is imported only when the name is used, since no command needs it."""
    if name not in __all__:
        raise AttributeError(f"module {__name__} has no attribute {name}")
    return getattr(importlib.import_module(f"{__name__}.kernels.kernel"), name)

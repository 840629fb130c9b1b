"""Names of instructions and registers of other extensions, and why the machine doesn't have them."""

import functools
import pathlib
import re
import tomllib


@functools.cache
def absent() -> list[tuple[re.Pattern[str], str]]:
    """Return patterns of these names, each with a sentence that explains why the machine doesn't have them."""
    return [(re.compile(record["names"]), record["does"]) for record in _records().values()]


def floating_point(name: str) -> bool:
    """Return whether a name is that of a floating-point instruction or register. name: in lower case"""
    return re.fullmatch(_records()["floating-point"]["names"], name) is not None


@functools.cache
def _records() -> dict[str, dict[str, str]]:
    """Return the records of meanings/absent.toml by name."""
    text = pathlib.Path(__file__).with_name("meanings").joinpath("absent.toml").read_text("ascii")
    return tomllib.loads(text)

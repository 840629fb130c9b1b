"""The Python modules of tools/building."""

import importlib
from types import ModuleType


def load(name: str) -> ModuleType:
    """Load tools/building/NAME.py."""
    return importlib.import_module(f"tools.building.{name}")

"""Packages of the lab, modules of a class and of the assembler, folders of pages: each uses only those above it in LAB_ARCHITECTURE.md."""

import ast
import pathlib
import re
from collections.abc import Sequence

from support.architecture import names_in
from support.places import TOP

LAB = TOP / "lab" / "vecmon_lab"
CLASSES = LAB / "classes"
ROOMS = [path.parent.name for path in sorted(LAB.glob("*/__init__.py"))]
MAX_CLASS_LINES = 250
CORE, SERVER = names_in("## The synchronous core"), names_in("## The server of a class")


def imported(path: pathlib.Path, level: int) -> set[str]:
    """The modules that a module imports by this number of dots, each with the package before it, if it names one."""
    nodes = [node for node in ast.walk(ast.parse(path.read_text("utf-8"))) if isinstance(node, ast.ImportFrom)]
    return {node.module for node in nodes if node.level == level and node.module}


def rooms_used(path: pathlib.Path) -> set[str]:
    """The other rooms that a module imports, at any depth below its own."""
    level = len(path.relative_to(LAB).parts)
    return {name.split(".")[0] for name in imported(path, level)} & set(ROOMS)


def of_class(path: pathlib.Path) -> set[str]:
    """The modules of a class that a module of one of its two packages imports."""
    other = {name.removeprefix("core.").removeprefix("server.") for name in imported(path, 2)}
    return imported(path, 1) | other


def misplaced(order: Sequence[pathlib.Path]) -> list[str]:
    """Modules of a class that import one which this order doesn't have above them."""
    names = [path.stem for path in order]
    return [path.stem for place, path in enumerate(order) if not of_class(path) <= set(names[:place])]


def test_packages_import_only_packages_above() -> None:
    order = names_in("## Packages")
    assert sorted(order) == ROOMS
    for place, room in enumerate(order):
        for path in (LAB / room).rglob("*.py"):
            assert rooms_used(path) <= set(order[:place]), path


def test_class_modules_import_only_modules_above() -> None:
    core = [CLASSES / "core" / f"{module}.py" for module in CORE]
    server = [CLASSES / "server" / f"{module}.py" for module in SERVER]
    assert sorted(core + server) == sorted(CLASSES.rglob("[a-z]*.py"))
    assert misplaced(core + server) == []
    assert misplaced([*core[:-2], core[-1], core[-2]]) == [CORE[-1]]
    assert misplaced([*server, *core])


def test_assembler_modules_import_only_modules_above() -> None:
    order = names_in("## The assembler")
    assert sorted(order) == sorted(path.stem for path in (LAB / "assembler").glob("[a-z]*.py"))
    for place, module in enumerate(order):
        assert imported(LAB / "assembler" / f"{module}.py", 1) <= set(order[:place]), module


def test_folders_of_pages_import_only_folders_above() -> None:
    """JavaScript of pages, and its types."""
    order = names_in("## The pages")
    web = LAB / "page" / "web"
    assert sorted(order) == sorted(path.name for path in web.iterdir() if path.is_dir())
    for path in web.rglob("*.js"):
        place = order.index(path.parent.name)
        assert set(re.findall(r'"\.\./(\w+)/\w+(?:\.js)?"', path.read_text("utf-8"))) <= set(order[:place]), path


def large_classes(path: pathlib.Path, most: int) -> list[str]:
    """The classes of a module with more lines than this, with their places."""
    classes = [node for node in ast.walk(ast.parse(path.read_text("utf-8"))) if isinstance(node, ast.ClassDef)]
    sizes = [(it.name, (it.end_lineno or it.lineno) - it.lineno + 1) for it in classes]
    return [f"{path.relative_to(TOP)}: {name} has {size} lines" for name, size in sizes if size > most]


def test_classes_have_one_subject() -> None:
    """A class that is longer has parts of their own: divide it by subject."""
    paths = [
        path for folder in ("vecmon_lab", "support", "tools") for path in sorted((TOP / "lab" / folder).rglob("*.py"))
    ]
    assert [found for path in paths for found in large_classes(path, MAX_CLASS_LINES)] == []
    assert [found for path in paths for found in large_classes(path, MAX_CLASS_LINES - 50)]  # the longest are close

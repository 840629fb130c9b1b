"""Pack the modules that Python in a page imports: `python3 -m vecmon_lab.playground.pack LIBRARY OUT`.

LIBRARY is the folder of CPython's standard library, such as /usr/lib/python3.11. The folder OUT gets:

OUT/lib.zip   the standard library, compiled, without docstrings and line numbers
OUT/lab/      the lab, compiled in the same way, and its text files
OUT/later.zip pyelftools, and the modules that only pyelftools imports

The same sources give the same bytes.
"""

import ast
import functools
import importlib.util
import marshal
import pathlib
import sys
import types
import zipfile
from collections.abc import Iterable, Iterator

LAB = pathlib.Path(__file__).parents[1]
LEFT_OUT = set(
    "test idlelib tkinter lib2to3 ensurepip distutils turtledemo unittest asyncio multiprocessing xml email http xmlrpc "
    "curses dbm sqlite3 wsgiref msilib pydoc_data venv concurrent __pycache__ ctypes site-packages dist-packages lib-dynload".split()
)
OF_ELFTOOLS = ["pprint.py"]  # modules of the standard library that only pyelftools imports
TEXTS = {".txt", ".html", ".css", ".js", ".xml", ".s", ".toml"}  # suffixes of the other files of the lab that it reads
HEADER = importlib.util.MAGIC_NUMBER + bytes(12)  # of a compiled module without a time stamp


class Stripper(ast.NodeTransformer):
    """Removes docstrings, annotations of functions, and the bodies of TypedDicts.

    Annotations of other classes stay, since dataclasses read them.
    """

    def visit_ClassDef(self, node: ast.ClassDef) -> ast.AST:
        """Replace a TypedDict by `dict`: only type checkers read its fields."""
        if any(isinstance(base, ast.Name) and base.id in typed_dicts() for base in node.bases):
            made = ast.Assign([ast.Name(node.name, ast.Store())], ast.Name("dict", ast.Load()))
            return ast.fix_missing_locations(ast.copy_location(made, node))
        return self.generic_visit(node)

    def generic_visit(self, node: ast.AST) -> ast.AST:
        """Strip a node and all nodes in it."""
        match node:
            case ast.Module(body=[ast.Expr(ast.Constant(str())), *_]) | ast.ClassDef(
                body=[ast.Expr(ast.Constant(str())), *_]
            ) | ast.FunctionDef(body=[ast.Expr(ast.Constant(str())), *_]) | ast.AsyncFunctionDef(
                body=[ast.Expr(ast.Constant(str())), *_]
            ):
                node.body = node.body[1:] or [ast.copy_location(ast.Pass(), node.body[0])]
        match node:
            case ast.FunctionDef() | ast.AsyncFunctionDef():
                node.returns = None
            case ast.arg():
                node.annotation = None
        return super().generic_visit(node)


@functools.cache
def typed_dicts() -> frozenset[str]:
    """Return the names of the lab's TypedDict classes, and `TypedDict` itself.

    A name is left out if another class of the lab with this name isn't a TypedDict.
    """
    classes = [
        each
        for _, path in modules(LAB)
        for each in ast.walk(ast.parse(path.read_bytes()))
        if isinstance(each, ast.ClassDef)
    ]
    bases: dict[str, list[set[str]]] = {}
    for each in classes:
        bases.setdefault(each.name, []).append({ast.unparse(base) for base in each.bases})
    found = {"TypedDict"}
    while new := {name for name, sets in bases.items() if all(each & found for each in sets)} - found:
        found |= new
    return frozenset(found)


def without_lines(code: types.CodeType) -> types.CodeType:
    """Return a code object without line numbers; the code objects in it have none either."""
    constants = (without_lines(it) if isinstance(it, types.CodeType) else it for it in code.co_consts)
    return code.replace(co_linetable=b"", co_consts=tuple(constants))


def compiled(path: pathlib.Path, name: str) -> bytes:
    """Return a module as the content of a .pyc file, without docstrings and line numbers.

    It still has `assert` statements, and tracebacks still show names of functions.

    name: the path of the source in tracebacks
    """
    tree = Stripper().visit(ast.parse(path.read_bytes()))
    code: types.CodeType = compile(tree, name, "exec", dont_inherit=True, optimize=0)
    return HEADER + marshal.dumps(without_lines(code))


def modules(folder: pathlib.Path) -> Iterator[tuple[str, pathlib.Path]]:
    """Yield the relative path of each module below a folder, and its path.

    It leaves out modules in LEFT_OUT, and files in folders that no import can name, such as config-3.11-x86_64-linux-gnu. Debian has that
    folder only where its package libpython3.11-dev is installed: with it the same sources would give other bytes.
    """
    for path in sorted(folder.rglob("*.py")):
        name = path.relative_to(folder)
        if not LEFT_OUT & set(name.parts) and all(part.isidentifier() for part in name.parts[:-1]):
            yield str(name), path


def write_zip(out: pathlib.Path, packed: Iterable[tuple[str, bytes]]) -> None:
    """Write an archive without compression. packed: the name and the content of each file"""
    with zipfile.ZipFile(out, "w", zipfile.ZIP_STORED) as archive:
        for name, content in packed:
            archive.writestr(zipfile.ZipInfo(name), content)


def pack(library: pathlib.Path, out: pathlib.Path) -> None:
    """Write all three into the folder `out`."""
    out.mkdir(parents=True, exist_ok=True)
    write_zip(out / "lib.zip", ((f"{name}c", compiled(path, f"/lib/{name}")) for name, path in modules(library)))
    for path in sorted(LAB.rglob("*")):
        name = path.relative_to(LAB.parent)
        target = out / "lab" / name
        if path.suffix == ".py":
            target.parent.mkdir(parents=True, exist_ok=True)
            target.with_suffix(".pyc").write_bytes(compiled(path, f"/lab/{name}"))
        elif path.suffix in TEXTS:
            target.parent.mkdir(parents=True, exist_ok=True)
            target.write_bytes(path.read_bytes())
    write_zip(
        out / "later.zip", [*elf_modules(), *((f"{name}c", compiled(library / name, name)) for name in OF_ELFTOOLS)]
    )


def elf_modules() -> Iterator[tuple[str, bytes]]:
    """Yield the name and the compiled content of each module of pyelftools."""
    found = importlib.util.find_spec("elftools")
    assert found and found.submodule_search_locations
    folder = pathlib.Path(found.submodule_search_locations[0])
    for name, path in modules(folder):
        yield f"elftools/{name}c", compiled(path, f"/elftools/{name}")


if __name__ == "__main__":
    pack(*map(pathlib.Path, sys.argv[1:3]))

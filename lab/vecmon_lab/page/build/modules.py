"""Join JavaScript modules to one script, since a page in a file can't import, and a content security policy names a script by its hash."""

import os.path
import pathlib
import re
from collections.abc import Callable, Mapping, Sequence
from types import MappingProxyType

_IMPORT = re.compile(r'^import \{ (.+) \} from "(\.{1,2}/[^"]+\.js)";\n', re.MULTILINE)
# Matches lines that have only a comment, but no casts within code and no copyright notices.
_COMMENTS = re.compile(
    r"^ *(?:/\*\*(?:(?!\*/).)*\*/|//(?![^\n]*(?:copyright|license))[^\n]*)\n", re.MULTILINE | re.DOTALL
)
_TYPE = re.compile(r"/\*\* @(?:type|param) (?:(?!\*/).)*\*/ ?")  # matches a type within a line of code
_EXPORT = re.compile(r"^export (?=(?:class|const|function) (\w+))", re.MULTILINE)


def join_modules(entry: str, read: Callable[[str], str], replaced: Mapping[str, str] = MappingProxyType({})) -> str:
    """Return one script with a module and all modules that it imports, in the order of imports.

    Each module becomes a function, whose exports are in the constant `$NAME`, where NAME is the name of the file without its suffix.
    Comments on their own lines and types are removed; copyright notices stay.

    entry: the path of the module
    read: returns the text of a file by its path
    replaced: the paths of modules to import in place of other modules, by the other modules' paths

    Raises ValueError if modules import each other, if a module imports something that isn't exported, or if two have the same name.
    """
    exported: dict[str, list[str]] = {}
    functions: list[str] = []

    def add(path: str, importers: Sequence[str]) -> None:
        if path in importers:
            raise ValueError(f"modules import each other: {', '.join(map(_name, [*importers, path]))}")
        if path in exported:
            return
        text = _TYPE.sub("", _COMMENTS.sub("", read(path)))

        def use(found: re.Match[str]) -> str:
            """Return the line that replaces an import: it sets constants from the exports of the imported module."""
            names, other = found[1], _resolved(path, found[2])
            other = replaced.get(other, other)
            add(other, [*importers, path])
            if missing := set(names.split(", ")) - set(exported[other]):
                raise ValueError(
                    f"{_name(path)}.js imports what {_name(other)}.js doesn't export: {', '.join(sorted(missing))}"
                )
            return f"const {{ {names} }} = ${_name(other)};\n"

        text = _IMPORT.sub(use, text)
        if same := [other for other in exported if _name(other) == _name(path)]:
            raise ValueError(f"two modules have the same name: {same[0]}, {path}")
        exported[path] = _EXPORT.findall(text)
        body = _EXPORT.sub("", text)
        functions.append(f"const ${_name(path)} = (() => {{\n{body}return {{ {', '.join(exported[path])} }};\n}})();\n")

    add(entry, [])
    return "".join(functions)


def _name(path: str) -> str:
    """Return the name of a module: that of its file without the suffix."""
    return pathlib.PurePath(path).stem


def _resolved(importer: str, specifier: str) -> str:
    """Return the path of an imported module. specifier: the relative path in the import"""
    return os.path.normpath(os.path.join(os.path.dirname(importer), specifier))

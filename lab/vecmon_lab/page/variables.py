"""The variables of a compiled source, for pages."""

from collections.abc import Iterable
from typing import TypedDict

from ..compilers.variables import Variable


class Scope(TypedDict):
    """A range of code addresses. first: the first address; end: the address after the last one"""

    first: int
    end: int


class ShownLocation(Scope):
    """The location of a variable while the program counter is in a scope.

    kind: where the variable is. `register`: in a scalar register. `vector`: in a vector register. `memory`: in memory, at the sum of a
        scalar register and the offset. `value`: the variable isn't stored, and its value is this sum. `untold`: unknown
    register: the number of the register
    offset: the offset as 64 bits in hexadecimal digits
    """

    kind: str
    register: int
    offset: str


class ShownVariable(TypedDict):
    """A variable of the source.

    declaration: in C's syntax, as `int32_t x[37]`
    element: the type of its numbers with their width, as `i32`; "" if it has no numbers
    counts: the dimensions of an array
    function: the name of the function, which may be inlined, that declares the variable; "" for a variable outside of functions
    scopes: the ranges of code in which the variable is visible; empty if it is visible everywhere
    locations: where the variable is in each range of code. If no range contains the program counter, the compiler optimized it out
    """

    name: str
    declaration: str
    element: str
    counts: list[int]
    function: str
    scopes: list[Scope]
    locations: list[ShownLocation]


def shown_variables(variables: Iterable[Variable]) -> list[ShownVariable]:
    """Return the variables of a program, in the same order."""
    return [_shown(variable) for variable in variables]


def _shown(variable: Variable) -> ShownVariable:
    return {
        "name": variable.name,
        "declaration": variable.declaration,
        "element": variable.element,
        "counts": list(variable.counts),
        "function": variable.function,
        "scopes": [{"first": first, "end": end} for first, end in variable.scopes],
        "locations": [
            {"first": it.first, "end": it.end, "kind": it.kind, "register": it.register, "offset": it.offset}
            for it in variable.locations
        ],
    }

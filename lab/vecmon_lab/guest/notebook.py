"""A machine's registers as HTML, as notebooks show them."""

from collections.abc import Sequence

from ..machine.answers import ControlRegisters, elements_in
from ..tables.table import html_table
from .changes import vtype_text

IN_A_ROW = 4  # scalar registers


def registers_html(pc: int, x: Sequence[int], control: ControlRegisters, vectors: Sequence[bytes]) -> str:
    """Return HTML with the control registers, and the scalar and vector registers that aren't 0.

    Vector registers are shown as elements of width SEW, element 0 first. vectors: the 32 bytes of each vector register, in order
    """
    control_values = {"pc": f"{pc:x}", **vars(control), "vtype": vtype_text(control.vtype)}
    scalars = [f"x{number}={value:x}" for number, value in enumerate(x) if value]
    rows = [scalars[at : at + IN_A_ROW] for at in range(0, len(scalars), IN_A_ROW)]
    digits = control.sew // 4
    vectors_shown = {f"v{number}": elements_in(data, control.sew) for number, data in enumerate(vectors) if any(data)}
    elements = [[name, *(f"{value:0{digits}x}" for value in values)] for name, values in vectors_shown.items()]
    head = [f"e{control.sew}", *range(256 // control.sew)]
    tables = [html_table([list(control_values), list(control_values.values())], 0)]
    tables += [html_table([[], *rows], IN_A_ROW)] if rows else []
    tables += [html_table([head, *elements], 1)] if elements else []
    return "".join(tables)

"""A comparison's result in lines for people."""

from collections.abc import Iterator

from .report import FirstByte, Instruction, RelianceForm, Report, Value

SHOWN_BYTES = 40
SHOWN_VALUES = 4


def instruction_text(found: Instruction) -> str:
    """Return an instruction in words: its address, place, source line, text and number."""
    place = " ".join(filter(None, [found["address"], found["place"], found["line"]]))
    return f"{place}: {found['text']} (instruction {found['number']:,})"


def reliance_lines(form: RelianceForm) -> Iterator[str]:
    """The lines of a reliance."""
    known = " (known)" if form["known"] else ""
    yield f"relies on {form['title']}{known}: {form['name']}"
    if "instruction" in form:
        yield f"  {instruction_text(form['instruction'])}{_elements_text(form)}"
    rule = f"{form['section']}: {form['rule']}" if form["section"] else form["rule"]
    yield f"  {rule}"
    if "vset" in form:
        yield f"  the vector type is set at {instruction_text(form['vset'])}"
    if "together_from" in form:
        yield f"  together with choices from instruction {form['together_from']:,} on"
    yield from (f"  {_value_text(value)}" for value in form["values"][:SHOWN_VALUES])
    yield from (f"  {line}" for line in form.get("explanation", []))
    if "read" in form:
        read = form["read"]
        yield f"  first read at {instruction_text(read['instruction'])}"
        yield from (f"    {_value_text(value)}" for value in read["values"][:SHOWN_VALUES])
        if not read["values"]:
            yield "    the runs go on with different instructions"
    one, other = form["ends"]
    yield f"  the runs end with {one['end']}, {one['output']:,} bytes, or {other['end']}, {other['output']:,} bytes"
    if "output" in form:
        yield f"  {_byte_text('output', form['output'])}"
    if "memory" in form:
        yield f"  {_byte_text('memory', form['memory'])}"
    yield f"  {form['fix']}"
    yield from (f"  $ {command}" for command in form["commands"])


def first_line(report_end: str, output: bytes, instructions: int) -> str:
    """Return the outcome of the run without choices as a line."""
    more = "..." if len(output) > SHOWN_BYTES else ""
    return f"{report_end}; {len(output):,} bytes: {output[:SHOWN_BYTES]!r}{more}; {instructions:,} instructions"


def last_line(report: Report) -> str:
    """Return the verdict as a line."""
    new = sum(not form["known"] for form in report["reliances"])
    known = len(report["reliances"]) - new
    runs = f"{report['seeds']} seeds"
    verdict = {
        "same": f"the same with {runs}",
        "relies": f"{new} reliance{'s' * (new > 1)} with {runs}",
        "undecided": f"undecided with {runs}: a run used up its ticks",
        "not runnable": f"not runnable: {report.get('reason', '')}",
    }[report["verdict"]]
    parts = [verdict, *([f"{known} known"] if known else [])]
    if "blamed" in report:
        parts.append(f"the {report['blamed']} is to blame")
    return "; ".join(parts)


def _elements_text(form: RelianceForm) -> str:
    """Return the elements of a choice in words; "" without them."""
    if "elements" not in form:
        return ""
    low, high = form["elements"]
    return f", element {low}" if low == high else f", elements {low} to {high}"


def _value_text(value: Value) -> str:
    """Return what differs in words."""
    return f"{value['name']}: {value['without']} or {value['with_choice']}"


def _byte_text(what: str, byte: FirstByte) -> str:
    """Return the first byte that differs in words."""
    return f"{what} from byte {byte['at']:,}: {byte['without'] or 'its end'} or {byte['with_choice'] or 'its end'}"

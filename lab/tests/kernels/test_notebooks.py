"""The lab's objects in notebooks: HTML, whose cells were worked out by hand."""

import pathlib
from html.parser import HTMLParser

from support.places import SQUARES_DWARF5
from vecmon_lab import Kernel
from vecmon_lab.checkpoints.machine_state import machine_after
from vecmon_lab.lessons.frames import make_frames
from vecmon_lab.lessons.script import read_script
from vecmon_lab.machine.session import Session
from vecmon_lab.runs.tick_profile import Table

LINES = [
    "1 enter",
    "1 map 10000 1 rwx",
    "1 asm 10000 vsetivli x5, 3, e64, m1, ta, ma",
    "1 asm 10004 vid.v v3",
    "1 setpc 10000",
    "1 step 2",
]
ROWS = [["10008", "3", "e64,m1,ta,ma", "0", "0", "0"], ["x5=3"], ["e64", "0", "1", "2", "3"]]
ROWS += [["v3", *(f"{element:016x}" for element in (0, 1, 2, 0))]]


class _Rows(HTMLParser):
    """The rows of all tables, each with the texts of its cells."""

    def __init__(self, shown: object) -> None:
        super().__init__()
        self.rows = list[list[str]]()
        text = getattr(shown, "_repr_html_")()
        assert isinstance(text, str)
        self.text = text
        self.feed(text)

    def handle_starttag(self, tag: str, attrs: object) -> None:
        if tag == "tr":
            self.rows.append([])
        if tag in ("th", "td"):
            self.rows[-1].append("")

    def handle_data(self, data: str) -> None:
        if self.rows and self.rows[-1]:
            self.rows[-1][-1] += data


def test_machine_and_frame_have_html(program: pathlib.Path) -> None:
    script = "".join(f"{line}\n" for line in LINES)
    with Session(program) as session:
        machine = _Rows(machine_after(session, script.encode(), {}))
    assert machine.rows[1:] == [ROWS[0], [], *ROWS[1:]] and machine.text.startswith("<b>User 1</b>")
    frames = make_frames(read_script(f"# Counts & <more>.\n{script}"), program)
    last = _Rows(frames[-1])
    assert last.rows[1:] == [ROWS[0], [], *ROWS[1:]]
    assert "<p>Counts &amp; &lt;more&gt;.</p>" in _Rows(frames[0]).text


def test_kernel_and_counts_have_html() -> None:
    """By fill.S: `vsetvli` with e32 and m2, ten instructions in a round of 16, and two more."""
    with Kernel(SQUARES_DWARF5) as kernel:
        assert "fill" in [row[0] for row in _Rows(kernel).rows if row]
        counts = kernel.call("fill", bytes(64), 16, counted=True).counts
        assert _Rows(counts).rows[-1] == ["", "all", "12", *(f"{number}" for number in (27, 64, 0, 0))]
        assert any(row[:3] == ["v8", "00000000", "00000001"] for row in _Rows(kernel).rows)


def test_profile_table_has_html() -> None:
    table = Table("Loops", ("loop", "ticks"), 1, [("main<0>", 7)])
    assert _Rows(table).rows == [["loop", "ticks"], ["main<0>", "7"]]

"""Lessons: their frames compared with the output of a plain run of the program, their files, and bad input."""

import json
import os
import pathlib
import re
import subprocess
import sys
from dataclasses import replace
from typing import Any

import pytest
from hypothesis import given, settings
from hypothesis import strategies as st

from support.class_tabs import patched
from support.made_html import links_in, strips_in
from support.places import DOCS, EXAMPLES, SUM
from vecmon_lab import LabError
from vecmon_lab.exercises.check import script_before
from vecmon_lab.exercises.exercise import OURS, read_exercise
from vecmon_lab.lessons import frames
from vecmon_lab.lessons.frames import Frame, make_frames
from vecmon_lab.lessons.page import lesson_page
from vecmon_lab.lessons.script import read_assembled, read_script
from vecmon_lab.lessons.tour import TOURS, tours
from vecmon_lab.machine.session import Session
from vecmon_lab.page.build.pages import PAGES, WEB, merge_patch
from vecmon_lab.tables.table import read_table


def transcript(program: pathlib.Path, script: str) -> list[str]:
    """The output of a plain run of the program."""
    completed = subprocess.run([program], input=script.encode("utf-8"), stdout=subprocess.PIPE, check=True)
    return completed.stdout.decode("ascii").splitlines()


def logged(frames: list[Frame], marks: str) -> list[str]:
    """The entries of these kinds in the log of a lesson, without what refusals mean."""
    return [entry[1:].split("\n")[0] for frame in frames for entry in frame.log if entry[0] in marks]


def lab(*arguments: str, **variables: str) -> subprocess.CompletedProcess[str]:
    """A run of `vecmon-lab`."""
    command = [sys.executable, "-m", "vecmon_lab", *arguments]
    return subprocess.run(command, capture_output=True, text=True, env=os.environ | variables)


def check_first_frame(frame: Frame, has_program: bool = True) -> None:
    """It has a comment and the program, and no refusal, unsent line, or stop."""
    assert frame.note and frame.line == "1 enter" and "stop" not in frame.states["1"]
    assert not [entry for entry in frame.log if re.match(r"!|<. E\d\d", entry)]
    assert any(not line.startswith("00000000") for line in frame.states["1"]["code"].values()) == has_program


SOURCES = ["first_program", "vector_lengths", "masked_instructions"]  # of the tour


def script_of(name: str) -> str:
    """The lines of a lesson of the tour: of a script its file, of a source what its lesson sends."""
    if name in SOURCES:
        return "".join(f"{line}\n" for step in tours()[name].steps for line in step.lines)
    return (TOURS / name).read_text("ascii")


@pytest.mark.parametrize("name", list(tours()))
@pytest.mark.by_command("tour")
def test_tour_log_equals_transcript(program: pathlib.Path, name: str) -> None:
    script = script_of(name)
    made = make_frames(tours()[name], program)
    assert logged(made, ">") == script.splitlines()
    assert logged(made, "<*") == transcript(program, script)
    check_first_frame(made[0], has_program=name != "registers_and_memory")


@pytest.mark.parametrize("name", [name for name, _ in read_table("course")])
def test_course_lesson_has_expected_first_frame(program: pathlib.Path, name: str) -> None:
    script = script_before(read_exercise(OURS / name))
    check_first_frame(make_frames(replace(script, steps=script.steps[:1]), program)[0])


@pytest.mark.parametrize("name", list(tours()))
def test_last_frame_equals_machine_state(session: Session, program: pathlib.Path, name: str) -> None:
    for line in script_of(name).splitlines():
        session.do(line)
    for user, state in make_frames(tours()[name], program)[-1].states.items():
        if state["run"] != "stopped":
            assert session.look(f"{user} state")[0][2:] in (
                "E05",
                f"state {state['run']} pc={state.get('pc', ''):0>16}",
            )
            continue
        words = " ".join(line[2:] for line in session.look(f"{user} regs")).split()
        shown = [("pc", state["pc"])] + [(f"x{number}", state["x"][str(number)]) for number in range(32)]
        assert [f"{name} {value:0>16}" for name, value in shown] == [" ".join(p) for p in zip(words[::2], words[1::2])]
        for number in range(32):
            elements = session.look(f"{user} vreg v{number} 8")[0].split()[2:]
            assert state["v"][str(number)] == "".join(elements)
        control = f"vl={state['vl']} vstart={state['vstart']} vxrm={state['vxrm']} vxsat={state['vxsat']}"
        reply = session.look(f"{user} vcsr")[0][2:]
        assert control == re.sub(r"vtype=\w+ ", "", reply) and f"vtype={state['vtype']:0>16} " in reply
        for address, digits in state["memory"].items():
            assert session.look(f"{user} peek {address} 16")[0].split()[3] == digits
        for address, line in state["code"].items():
            assert session.look(f"{user} dis {address} 1")[0][19:] == line


def test_comments_are_not_sent_to_machine(program: pathlib.Path, monkeypatch: pytest.MonkeyPatch) -> None:
    sent: list[str] = []

    class RecordingSession(Session):
        def do(self, line: str) -> list[str]:
            sent.append(line)
            return super().do(line)

    monkeypatch.setattr(frames, "Session", RecordingSession)
    script = read_script("## A title\n# one\n#\n#two\n1 enter\n#1 dance\n1 map 10000 1 rwx\n# end\n")
    made = make_frames(script, program)
    assert set(sent) == {"1 enter", "1 map 10000 1 rwx"}
    assert script.title == "A title"
    assert [frame.note for frame in made] == ["one two", "1 dance", "end"]


def test_step_has_frame_per_instruction_up_to_breakpoint(program: pathlib.Path) -> None:
    script = (
        "1 enter\n1 map 10000 1 rwx\n1 asm 10000 addi x5, x5, 1\n1 asm 10004 addi x5, x5, 1\n1 asm 10008 ebreak\n"
        "1 setpc 10000\n1 break 10004\n1 step 5\n1 step 5\n1 step 1\n"
    )
    made = make_frames(read_script(script), program)
    assert logged(made, "<*") == transcript(program, script)
    stepped = [frame for frame in made if " step " in frame.line]
    assert [frame.line for frame in stepped] == [
        "1 step 5: instruction 1",
        "1 step 5: instruction 1",
        "1 step 5: instruction 2",
        "1 step 1",
    ]
    assert [frame.states["1"]["x"]["5"] for frame in stepped] == ["1", "2", "2", "2"]
    assert [frame.states["1"].get("instruction") for frame in stepped] == ["10000", "10004", None, None]
    assert ["stop" in frame.states["1"] for frame in stepped] == [True, False, True, True]


def test_read_only_lines_join_preceding_frame(program: pathlib.Path) -> None:
    script = "1 enter\n1 regs\n1 map 0 1 rwx\n1 asm 0 ecall\n1 asm 4 ebreak\n# here\n1 asm 8 ecall\n2 asm 8 ecall\n"
    made = make_frames(read_script(script), program)
    assert [(frame.line, frame.more) for frame in made] == [
        ("1 enter", 0),
        ("1 map 0 1 rwx", 0),
        ("1 asm 0 ecall", 1),
        ("1 asm 8 ecall", 0),
        ("2 asm 8 ecall", 0),
    ]


def test_refusals_are_shown(program: pathlib.Path) -> None:
    script = "1 dance\n1 enter\n1 enter\n1 asm 0 nop\n* run 9\n1 step 1\n2 regs\n"
    made = make_frames(read_script(script + "9 enter\n1 \tregs\n1 poke 0 é\n"), program)
    assert logged(made, "<*") == transcript(program, script)
    assert len(logged(made, "!")) == 3
    words = [entry.partition("\n")[2] for frame in made for entry in frame.log if entry[0] == "<"]
    assert list(filter(None, words)) == [
        "E03: there is no command dance",
        "E06: the user has already entered",
        "E11: an address isn't mapped",
        "E04: 9 is no user, who are 1 to 8; the form is * run U",
        "E05: the user has not entered",
    ]
    assert made[-1].user == "1"


def test_changed_memory_rows_are_preferred(program: pathlib.Path) -> None:
    lines = ["1 enter", "1 map 10000 1 rwx", "1 asm 10000 sd x2, 0(x1)", "1 map 20000 1 rw", "1 set x1 20100"]
    lines += [
        "1 poke 20010 " + "ff" * 256,
        "1 peek 20300 1",
        "1 set x2 1",
        "1 setpc 10000",
        "1 step 1",
        "1 peek 30000 1",
    ]
    made = make_frames(read_script("\n".join(lines)), program)
    rows = {f"{row:x}" for row in [*range(0x20010, 0x20110, 16), 0x20300]}
    assert set(made[-1].states["1"]["memory"]) == rows
    assert made[-1].states["1"]["memory"]["20100"] == "01" + "00" * 7 + "ff" * 8


def test_accessed_page_of_zeros_has_row(program: pathlib.Path) -> None:
    lines = ["1 enter", "1 map 10000 1 rwx", "1 map 20000 2 rw", "1 asm 10000 ld x2, 8(x1)", "1 set x1 20030"]
    made = make_frames(read_script("\n".join([*lines, "1 setpc 10000", "1 step 1"])), program)
    assert made[-1].states["1"]["memory"] == {"20030": "00" * 16}
    last = make_frames(tours()["class_of_three"], program)[-3:]  # user 3's load has faulted at 0
    rows = [(frame.line, frame.states["3"]["memory"]) for frame in last]
    assert rows == [("3 vcsr", {}), ("3 map 0 1 r", {"0": "00" * 16}), ("3 step 1", {"0": "00" * 16})]


def test_assembler_source_makes_lesson(program: pathlib.Path) -> None:
    path = EXAMPLES / "strip_mined.s"
    script = read_assembled(path.read_text("utf-8"), path.name)
    made = make_frames(script, program)
    assert script.title == "A strip-mined loop"
    assert made[0].note.startswith("y[i] += 3 x[i]") and made[0].line == "1 enter"
    assert "next" in sum(script.labels.values(), [])
    y = "".join(made[-1].states["1"]["memory"][f"{row:x}"] for row in range(0x11040, 0x11080, 16))
    expected = [100 + 3 * x if x > 4 else 100 for x in (9, 2, 7, 1, 8, 3, 6, 4, 5, 1, 12, 3, 20)]
    assert [int.from_bytes(bytes.fromhex(y)[4 * i : 4 * i + 4], "little") for i in range(13)] == expected
    masked = [frame for frame in made if frame.note.startswith("Elements that are masked off")]
    assert ["vmacc.vx" in frame.states["1"]["code"][frame.states["1"]["instruction"]] for frame in masked] == [
        True,
        True,
    ]


def test_source_without_lines_runs_to_end(program: pathlib.Path) -> None:
    source = (
        '.data\ns: .ascii "hi\\n"\n.text\nli a0, 1\nla a1, s\nli a2, 3\nli a7, 64\necall\nli a0, 0\nli a7, 93\necall\n'
    )
    made = make_frames(read_assembled(source, "hi.s"), program)
    assert made[-1].line == "1 out" and made[-1].states["1"]["output"] == "68690a"
    assert "status 0" in made[-2].states["1"]["stop"]


def test_source_set_up_names_labels(program: pathlib.Path) -> None:
    source = "#> break end\n#> go\n#> * run 1\n nop\nend: nop\n"
    made = make_frames(read_assembled(source, "x.s"), program)
    assert logged(made, "<*")[-2:] == ["1 break pc=0000000000010004", "* granted 1"]
    assert made[-1].states["1"]["instruction"] == "10000"


def test_manual_example_is_reproduced(program: pathlib.Path) -> None:
    text = (DOCS / "LESSONS.md").read_text("utf-8")
    section = text.partition("## Scripts with comments\n")[2]
    script = read_script(section.partition("```text\n")[2].partition("```")[0])
    made = make_frames(script, program)
    assert script.title == "Doubles" and not re.search("E[0-9]{2}", " ".join(logged(made, "<*")))
    assert logged(made, "<*")[-1].startswith("1 v2 00000000 00000002 00000004 ")


def test_sixty_frames_make_small_page(program: pathlib.Path) -> None:
    source = (EXAMPLES / "strip_mined.s").read_text("utf-8").replace("li a0, 13", "li a0, 45")
    made = make_frames(read_assembled(source, "x.s"), program)
    assert len(made) >= 60
    assert len(lesson_page("Sixty", made).encode("utf-8")) < 160_000


OBJECTS = st.recursive(
    st.text(max_size=2) | st.integers(0, 3) | st.lists(st.integers(0, 3), max_size=2),
    lambda values: st.dictionaries(st.text("ab", max_size=1), values, max_size=3),
    max_leaves=8,
)


@settings(derandomize=True, database=None, max_examples=200)
@given(st.dictionaries(st.text("abc", max_size=1), OBJECTS), st.dictionaries(st.text("abc", max_size=1), OBJECTS))
def test_merge_patch_restores_new_state(old: dict[str, Any], new: dict[str, Any]) -> None:
    assert patched(old, merge_patch(old, new)) == new


def test_page_files_do_not_close_their_elements() -> None:
    paths = list(WEB.rglob("*.js"))
    assert PAGES / "lesson.js" in paths
    for path in paths:
        assert "</script" not in path.read_text("utf-8") and "<!--" not in path.read_text("utf-8")
        assert not re.search(r"innerHTML|outerHTML|insertAdjacentHTML|document\.write", path.read_text("utf-8"))


@pytest.mark.parametrize(
    ("arguments", "mistake"),
    [
        (["lesson", "{tmp}/none"], "{tmp}/none: No such file or directory"),
        (["lesson", "{tmp}/good", "x={tmp}/none"], "image x: there is no file {tmp}/none"),
        (["lesson", "{tmp}/good", "{tmp}/none"], "{tmp}/none is no image; NAME=PATH is"),
        (["lesson", "{tmp}/good", "-o", "{tmp}/no/page"], "{tmp}/no/page: No such file or directory"),
        (["lesson", "{tmp}/label.s"], "label.s:2:4: "),
        (["lesson", "{tmp}/range.s"], "range.s:1:18: "),
        (["lesson", "{tmp}/empty"], "{tmp}/empty: a lesson needs a line of a script, and this file has none"),
        (
            ["lesson", f"{SUM}"],
            f"{SUM} isn't a text; a lesson needs a script, or a source in assembler (.s, .S) or C (.c)",
        ),
        (["tour", "{tmp}/good"], "{tmp}/good: File exists; name a new folder"),
    ],
)
def test_bad_input_is_refused_in_one_line(tmp_path: pathlib.Path, arguments: list[str], mistake: str) -> None:
    (tmp_path / "good").write_text("1 enter\n")
    (tmp_path / "empty").write_text("## A title\n\n")
    (tmp_path / "label.s").write_text("nop\nj  nowhere\n")
    (tmp_path / "range.s").write_text(" vadd.vi v1, v2, 99\n")
    completed = lab(*(word.format(tmp=tmp_path) for word in arguments))
    assert completed.returncode == 2 and completed.stdout == ""
    assert completed.stderr.startswith(f"vecmon-lab: {mistake.format(tmp=tmp_path)}")
    assert completed.stderr.count("\n") == 1


def test_missing_program_is_refused(tmp_path: pathlib.Path) -> None:
    (tmp_path / "good").write_text("1 enter\n")
    completed = lab("lesson", str(tmp_path / "good"), VECMON="/nowhere/vecmon")
    assert completed.returncode == 2 and completed.stderr.count("\n") == 1 and "/nowhere/vecmon" in completed.stderr


@pytest.mark.by_command("lesson")
def data_of(page: str) -> dict[str, Any]:
    """The data of a lesson's page."""
    data: dict[str, Any] = json.loads(page.partition('id="lesson">')[2].partition("</script>")[0])
    return data


INTRODUCED = """## Halves
# Halve four numbers.
        .data
ages:   .byte 200, 8, 6, 4
        .balign 8
word:   .dword -5
name:   .asciz "Ada"
zeros:  .half 9, 9, 9
        .text
# A type. It sets `vl`.
        vsetivli zero, 4, e8, m1, ta, ma
        la a0, ages
# A load?
        vle8.v v1, (a0)
# Shift by one: 200 becomes 100. And so on.
        vsrl.vi v1, v1, 1
# A fourth comment.
        ebreak
"""


def test_first_frame_introduces_lesson(program: pathlib.Path) -> None:
    """Three comments, each up to its first full stop, and the data of the source with its labels."""
    script = read_assembled(INTRODUCED, "x.s")
    frames = make_frames(script, program)
    page = lesson_page("Halves", frames, script)
    points = "<li>A type.</li><li>A load?</li><li>Shift by one: 200 becomes 100.</li>"
    numbers = "<code>ages</code>: 4 numbers of 8 bits: 200, 8, 6, 4", "<code>word</code>: −5, a number of 64 bits"
    texts = "<code>name</code>: the text &quot;Ada&quot;", "<code>zeros</code>: 3 numbers of 16 bits, each 9"
    memory = "".join(f"<li>{text}</li>" for text in (*numbers, *texts))
    assert f'<ul id="points">{points}</ul>' in page and f'<ul id="in-memory">{memory}</ul>' in page
    assert data_of(page)["data"]["11000"] == {"type": "u8", "count": 4}
    empty = '<ul id="points"></ul>', '<ul id="in-memory"></ul>'
    assert all(text in lesson_page("Halves", frames, script, is_introduced=False) for text in empty)
    assert all(text in lesson_page("Empty", make_frames(read_script("1 enter\n"), program)) for text in empty)


def test_lesson_page_is_written(tmp_path: pathlib.Path) -> None:
    (tmp_path / "script").write_text("# <first>\n1 enter\n1 load sum\n")
    completed = lab("lesson", str(tmp_path / "script"), f"sum={SUM}", "-o", str(tmp_path / "page.html"))
    assert (completed.returncode, completed.stdout, completed.stderr) == (0, "", "")
    page = (tmp_path / "page.html").read_text("utf-8")
    assert page.startswith("<!doctype html>") and "1 loaded pc=" in page and "<first>" not in page
    assert lab("lesson", str(tmp_path / "script"), f"sum={SUM}").stdout == page
    assert lab("tour", str(tmp_path / "new" / "tour")).returncode == 0
    assert {path.stem for path in (tmp_path / "new" / "tour").iterdir()} == {"index", *tours()}
    index = (tmp_path / "new" / "tour" / "index.html").read_text("utf-8")
    titles = re.findall("^## (.*)", (DOCS / "TOUR.md").read_text("utf-8"), re.MULTILINE)
    assert links_in(index) == [*zip(tours(), titles, strict=True)]
    sentences, strips = re.findall(r'<p>([^\n]*?)</p><p class="picture">', index), strips_in(index)
    assert (
        len(sentences) == len(strips) == len(titles) and all(each.endswith(".") for each in sentences) and all(strips)
    )
    masked = strips[[*tours()].index("masks_and_tails")]
    assert "<code>v1</code> after <code>vadd.vi v1, v2, 10, v0.t</code>" in index  # as docs/TOUR.md prints v1 last
    unchanged = ("-18", "masked")  # ee
    assert masked == [unchanged, ("11", "active"), unchanged, ("13", "active"), unchanged, ("15", "active")] + 10 * [
        ("-18", "tail")
    ]
    prices = [("111", "active"), ("80", "masked"), ("241", "active"), ("40", "masked"), ("99", "masked")]
    prices += [("301", "active"), ("0", "tail"), ("0", "tail")]
    assert strips[[*tours()].index("masked_instructions")] == prices

    for place, name in enumerate(tours(), 1):
        lesson = (tmp_path / "new" / "tour" / f"{name}.html").read_text("utf-8")
        assert data_of(lesson)["name"] == f"tour/{name}" and f">lesson {place} of {len(titles)}</small>" in lesson
    assert "name" not in data_of(page)


def test_tour_starts_with_sources_and_ends_with_lines(program: pathlib.Path) -> None:
    """The first lessons show no lines of the machine; the values are worked out by hand."""
    names = [*tours()]
    assert names[:3] == SOURCES and names[-1] == "class_of_three"
    last = {name: make_frames(tours()[name], program)[-1].states["1"] for name in SOURCES}
    numbers = [
        int.from_bytes(bytes.fromhex(last[SOURCES[0]]["v"]["2"])[at : at + 4], "little") for at in range(0, 32, 4)
    ]
    assert numbers == [13, 11, 14, 11, 15, 19, 12, 16]
    lengths = [int(last[SOURCES[1]]["x"][number], 16) for number in ("5", "6", "7", "28", "29")]  # t0, t1, t2, t3, t4
    assert lengths == [8, 20, 4, 16, 0]
    left = [int.from_bytes(bytes.fromhex(last[SOURCES[2]]["v"]["8"])[at : at + 4], "little") for at in range(0, 32, 4)]
    ones = (1 << 32) - 1
    assert left == [112, ones, 242, ones, ones, 302, ones, ones]


def test_tour_is_complete_without_reader(tmp_path: pathlib.Path) -> None:
    """As `tour DIR | head -0`: all files are written before the first line is printed."""
    source, end = os.pipe()
    os.close(source)
    completed = subprocess.run(
        [sys.executable, "-m", "vecmon_lab", "tour", tmp_path], stdout=end, stderr=subprocess.PIPE
    )
    os.close(end)
    assert (completed.returncode, completed.stderr) == (141, b"")
    assert {path.stem for path in tmp_path.iterdir()} == {"index", *tours()}


def test_differing_single_steps_are_refused(program: pathlib.Path, monkeypatch: pytest.MonkeyPatch) -> None:
    class Meddling(Session):
        def do(self, line: str) -> list[str]:
            answer = super().do(line)
            if line == "1 step 1":
                super().do("1 set x31 1")
            return answer

    monkeypatch.setattr(frames, "Session", Meddling)
    script = "1 enter\n1 map 0 1 rwx\n1 asm 0 fence\n1 asm 4 fence\n1 step 2\n"
    with pytest.raises(LabError, match="one by one"):
        make_frames(read_script(script), program)

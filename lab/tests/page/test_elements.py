"""The pane of elements: stored states by hand, QEMU's results, and the page in Chromium."""

import json
import pathlib
import random
from collections.abc import Iterator, Sequence
from typing import TYPE_CHECKING, Any, cast

import pytest

from page.conftest import Sit
from support.browser import CONTRAST, click, media, press
from support.class_pages import FRAME
from support.element_columns import shown_columns
from support.element_states import MEMORY, PROGRAMS, captured, stored
from support.golden import before_of, golden_vectors
from support.places import DATA
from vecmon_lab.instructions.accesses import vector_instruction
from vecmon_lab.lessons.frames import make_frames
from vecmon_lab.lessons.page import lesson_page
from vecmon_lab.lessons.script import read_assembled
from vecmon_lab.meanings.calculation import Calculation, Notation, NumberForm
from vecmon_lab.meanings.executed import ElementOutcome, Execution, element_of
from vecmon_lab.meanings.why import Explanation
from vecmon_lab.page.operands import shown_operands
from vecmon_lab.page.state import State, add_executed, add_last_instruction

if TYPE_CHECKING:
    from selenium.webdriver import Chrome

FORMS: Sequence[NumberForm] = ("signed", "unsigned", "hexadecimal")
MARKS = {"m": "masked", "t": "tail", "s": "prestart", "f": "fault", "p": "pending", "k": "kept", "i": "idle"}
OUTCOMES = {
    ElementOutcome.RESULT: "active",
    ElementOutcome.KEPT: "kept",
    ElementOutcome.MASKED: "masked",
    ElementOutcome.TAIL: "tail",
    ElementOutcome.BEFORE_START: "prestart",
    ElementOutcome.NO_ELEMENTS: "tail",
}


def expected_rows() -> Iterator[tuple[str, str, dict[str, list[str]]]]:
    """Each program's name, its instruction, and the cells of its rows by their heads, as the file has them."""
    text = (DATA / "element_rows.txt").read_text("utf-8")
    for block in text.split("\n\n")[1:]:
        (name, instruction), *rows = (line.rsplit(" = ", 1) for line in block.strip().splitlines())
        yield name, instruction, {head: cells.split() for head, cells in rows}


def cells_of(row: dict[str, Any]) -> list[str]:
    """The cells of a row in the form of the file."""
    letters = {kind: letter for letter, kind in MARKS.items()}
    shown = []
    for cell in row["cells"]:
        classes = [each for each in cell["classes"] if each not in ("set", "clear")]
        marks = "".join(letters.get(each, "*" if each == "changed" else "") for each in classes)
        assert "active" in classes or row["kind"] == "before" or set(classes) - {"changed"}, (row["head"], cell)
        shown.append(cell["text"].replace("−", "-") + marks)
    return shown


def with_tail(cells: list[str], count: int, head: str) -> list[str]:
    """Cells with the tail that `...` is."""
    if cells[-1] != "...":
        return cells
    return cells[:-1] + ["t" if head.startswith("(") else "0t"] * (count - len(cells) + 1)


@pytest.fixture(scope="module")
def shown(tmp_path_factory: pytest.TempPathFactory) -> dict[str, dict[str, Any]]:
    """The columns of all stored states by program."""
    views = [{**pair, "used": [4], "elements": [0, 1, 2, 5], "rooms": [850, 350]} for pair in stored().values()]
    return dict(zip(stored(), shown_columns(views, tmp_path_factory.mktemp("columns")), strict=True))


def test_columns_equal_rows_by_hand(shown: dict[str, dict[str, Any]]) -> None:
    """Cells, marks and heads of one instruction of each kind."""
    names = []
    for name, instruction, rows in expected_rows():
        found = shown[name]
        assert (name, found["card"]["text"]) == (name, instruction)
        assert [name, *(row["head"] for row in found["rows"])] == [name, *rows]
        for row, (head, cells) in zip(found["rows"], rows.items(), strict=True):
            assert (name, head, cells_of(row)) == (name, head, with_tail(cells, len(row["cells"]), head))
        names.append(name)
    assert names == list(PROGRAMS)


def test_stored_states_are_those_of_machine(program: pathlib.Path) -> None:
    """Of some programs, which have all keys among them."""
    states = json.loads((DATA / "element_states.json").read_text("ascii"))
    assert list(states) == list(PROGRAMS)
    for name in ("multiply and add, masked", "load with a fault", "no vector operands"):
        assert (name, states[name]) == (name, captured(name, program))


def test_cards_and_details_have_own_operands(shown: dict[str, dict[str, Any]]) -> None:
    """Formulas, values of scalars, counts, and the calculations and details of masked elements, by hand."""
    masked = shown["multiply and add, masked"]
    assert masked["card"]["formula"] == "if v0.mask[i]: v8[i] = v4[i] * a1 + v8[i]" and masked["card"]["scalars"] == [
        "a1 = 3"
    ]
    assert masked["card"]["counts"] == [["active", "3 active"], ["masked", "5 masked off"], ["changed", "3 changed"]]
    assert masked["card"]["meaning"].endswith("Where the bit in `v0` is 0, the element keeps its value.")
    assert masked["calculations"][:3] == ["", "v8[1] = v4[1] * a1 + v8[1] = (−1) * 3 + 1 = −2", ""]
    assert masked["details"][2]["sentence"] == "masked off: v0[2] is 0; it was 2 before, too"
    assert masked["details"][1] == {
        "name": "Element 1",
        "place": "v8, bytes 4 to 7: −2 = 0xfffffffe",
        "sentence": "1 → −2",
        "value": "−2",
        "edit": "vset v8 32 1 signed",
    }
    assert shown["count of ones"]["card"]["scalars"] == ["a2 = 3"] and shown["first one"]["card"]["scalars"] == [
        "a2 = 1"
    ]
    assert shown["load with a stride"]["card"]["scalars"] == ["a0 = 0x11000", "a4 = 8"]
    packed = shown["compress"]
    assert packed["card"]["meaning"].endswith(
        "here those below `vl` keep their values; they may become ones elsewhere."
    )
    assert packed["details"][3]["sentence"] == "tail: nothing is packed into it"
    assert shown["indexed load"]["card"]["formula"] == "v19[i] = memory[a0 + v1[i]]"
    assert shown["store of segments"]["card"]["formula"] == "memory[a3 + (3 * i + f)] = v4[i]"


def test_a_count_of_no_changes_has_no_colour(shown: dict[str, dict[str, Any]]) -> None:
    """Of vfirst.m, which writes only a scalar register."""
    assert shown["first one"]["card"]["counts"] == [["active", "8 active"], ["", "0 changed"]]


def test_cards_count_elements_around_a_fault(shown: dict[str, dict[str, Any]]) -> None:
    """By hand: element 5 of both loads is the first one without memory."""
    fault, cut = shown["load with a fault"], shown["load up to a fault"]
    assert fault["card"]["meaning"].endswith("Element 5 faulted: those before it are done, and `vstart` is 5.")
    assert [words for _, words in fault["card"]["counts"]] == [
        "5 done before the fault",
        "1 fault",
        "2 not reached",
        "5 changed",
    ]
    assert fault["details"][3]["sentence"] == "the access from 0x12000 faulted; it was 7 before, too"
    assert cut["card"]["meaning"].endswith("Element 5 can't be read, so `vl` becomes 5.")
    assert "3 not loaded" in [words for _, words in cut["card"]["counts"]]
    assert "8 not executed" in [words for _, words in shown["illegal"]["card"]["counts"]]


def test_calculations_of_an_element(shown: dict[str, dict[str, Any]]) -> None:
    """Of element 1 in different kinds of instructions, by hand."""
    calculations = {
        "add an immediate": "v9[1] = v4[1] + (−2) = (−1) + (−2) = −3",
        "unsigned minimum": "v9[1] = min(v4[1], a1) = min(4294967295, 4) = 4",
        "narrowing": "v10[1] = v8[1] >> 6 % (2 * sew) = 1540 >> 6 % (2 * 8) = 24",
        "comparison": "v0.mask[1] = signed(v4[1]) < signed(zero) = (−1) < 0 = 1",
        "merge": "v13[1] = 0, since v0.mask[1] (1) is true",
        "carry": "v13[1] = v4[1] + v4[1] + v0.mask[1] = (−1) + (−1) + 1 = −1",
        "slide down": "v16[1] = v4[3] = 1, since 1 + a1 < vlmax (1 + 2 < 8) is true",
        "slide a scalar in": "v17[1] = v4[2] = 4, since 1 < vl - 1 (1 < 8 - 1) is true",
        "gather": "v6[1] = v4[0] = 3, since v5[1] < vlmax (0 < 8) is true",
        "gather one": "v6[1] = v4[4] = −5, since 4 < vlmax (4 < 8) is true",
        "compress": "v14[1] = v4[4] = −5",
        "group of eight": "v8[1] = signed(v8[1]) >> 1 % sew = (−1) >> 1 % 32 = −1",
    }
    assert {name: shown[name]["calculations"][1] for name in calculations} == calculations


def ran(pair: dict[str, Any], before: dict[str, Any] | None = None) -> dict[str, Any]:
    """The state of a pair as the core makes it after a run, or once the state before the last instruction is known."""
    state = pair["state"].copy()
    add_last_instruction(cast(State, state), cast(State | None, before))
    return cast(dict[str, Any], state)


def test_sources_after_several_steps(tmp_path: pathlib.Path) -> None:
    """After a run, sources that the instruction has written are as they are now; the state before it has all calculations."""
    pair, shift = stored()["multiply and add, masked"], stored()["group of eight"]
    first = pair["before"] | {"pc": "10000", "v": pair["before"]["v"] | {"8": "00" * 32}}
    views = [ran(shift), ran(pair), ran(pair, pair["before"])]
    shown = shown_columns([{"state": state, "before": first, "elements": [1]} for state in views], tmp_path)
    words = [[row["head"] for row in each["rows"]] for each in shown]
    assert words[0] == ["v8–v15 before", "v8–v15 after"]  # without the source, which isn't known
    assert words[1:] == [["v0 mask", "v4 from", "v8 before", "v8 after"]] * 2
    assert [each["calculations"] for each in shown] == [[""], [""], ["v8[1] = v4[1] * a1 + v8[1] = (−1) * 3 + 1 = −2"]]
    assert ["Several instructions ran" in each["card"]["meaning"] for each in shown] == [True, True, False]
    assert [cells_of(each["rows"][2])[1] for each in shown[1:]] == ["0", "1"]


def test_card_has_the_pseudo_instruction_of_the_source(tmp_path: pathlib.Path) -> None:
    """The core sends it; the text of the line decides nothing."""
    state = stored()["multiply and add, masked"]["state"]
    at = state["instruction"]
    lines = {"lines": {at: "vother.vx v8, v4, x11, v0.t"}}
    views = [
        {"state": state | lines},
        {"state": state | lines | {"aliases": {at: "vmine.vx v8, a1", "1": "vneg.v v1, v2"}}},
    ]
    cards = [each["card"] for each in shown_columns(views, tmp_path)]
    assert {card["text"] for card in cards} == {"vmacc.vx v8, a1, v4, v0.t"}
    assert [card["alias"] for card in cards] == ["", "vmine.vx v8, a1"]


def test_card_of_a_load_that_was_cut_has_its_start(tmp_path: pathlib.Path) -> None:
    """The end of a slice had cut it before element 5 of 8."""
    pair = stored()["load"]
    befores = [pair["before"] | {"vstart": vstart} for vstart in (0, 5)]
    views = [{"state": ran(pair, before), "before": before} for before in befores]
    whole, rest = (each["card"] for each in shown_columns(views, tmp_path))
    assert "vstart" not in whole["meaning"] and "It started at element 5, its `vstart`." in rest["meaning"]
    assert [words for _, words in rest["counts"]][:2] == ["3 active", "5 before vstart"]


def test_memory_of_load_at_the_end_of_a_run(tmp_path: pathlib.Path) -> None:
    """The run has stored what the load read, so that the memory before the run has other bytes."""
    pair = stored()["load"]
    first = pair["before"] | {"pc": "10000", "memory": {"11000": "00" * 16}}
    (shown,) = shown_columns([{"state": ran(pair), "before": first}], tmp_path)
    rows = {row["head"]: cells_of(row) for row in shown["rows"]}
    assert list(rows) == ["(a0) memory", "v4 before", "v4 after"]
    assert rows["(a0) memory"] == ["3", "-1", "4", "1", "-5", "9", "2", "-6"]  # as the program has them


def test_a_page_opened_again_shows_no_values_before(tmp_path: pathlib.Path) -> None:
    """Without any state before the last instruction the result has no row before it, and no change is counted."""
    pair = stored()["multiply and add, masked"]
    (shown,) = shown_columns([{"state": ran(pair), "elements": [1]}], tmp_path)
    assert [row["head"] for row in shown["rows"]] == ["v0 mask", "v4 from", "v8 after"]
    assert "The values before it are unknown" in shown["card"]["meaning"]
    assert "changed" not in dict(shown["card"]["counts"]) and "before" not in shown["details"][0]


def test_a_page_opened_again_shows_no_memory_before(tmp_path: pathlib.Path) -> None:
    """The same of a store: it has no row of memory before it, and no element counts as unchanged."""
    pair = stored()["store, masked"]
    views = [
        {"state": ran(pair), "elements": [1]},
        {"state": pair["state"], "before": pair["before"], "elements": [1]},
    ]
    again, stepped = shown_columns(views, tmp_path)
    heads = [[row["head"] for row in each["rows"]] for each in (again, stepped)]
    assert heads == [["v0 mask", "v4 from", "(a3) after"], ["v0 mask", "v4 from", "(a3) before", "(a3) after"]]
    assert "changed" not in dict(again["card"]["counts"]) and "changed" in dict(stepped["card"]["counts"])
    assert "before" not in again["details"][0]


def test_strips_fold_tails_and_fit(shown: dict[str, dict[str, Any]]) -> None:
    """The numbers of strips of 16, 8, 4 and 2, and where the unchanged tail begins; and the widest strip that has room."""
    assert shown["group of eight"]["strips"] == [[1, 16], [2, 16], [3, 12], [5, 10]]  # vl is 9 of 64
    assert shown["widening"]["strips"] == [[1, 16], [1, 8], [2, 8], [3, 6]]  # 6 of 32
    assert shown["group of two"]["strips"] == [[1, 16], [2, 16], [4, 16], [7, 14]]  # 13 of 16
    assert shown["move of whole registers"]["strips"] == [[1, 16], [2, 16], [4, 16], [8, 16]]
    wide, narrow = shown["multiply and add, masked"]["fits"]
    assert wide == {"columns": 8, "size": "large", "head": "wide"}
    # 350 px less the head of 84 are 33 for each of 8 columns: 3 letters of 13 px and 6 px are 30
    assert narrow == {"columns": 8, "size": "medium", "head": "narrow"}
    # −25769803774 has 12 letters: of 15 px they have 129 px with their room, and 4 columns 184 each; in 350 px only 2 columns fit
    wide, narrow = shown["illegal"]["fits"]
    assert wide == {"columns": 4, "size": "large", "head": "wide"} and narrow == {
        "columns": 2,
        "size": "tiny",
        "head": "least",
    }


def test_curves_join_sources_and_results(shown: dict[str, dict[str, Any]]) -> None:
    """The pairs that a gather, slides, a compression and reductions have, and the ends of the curves in units of columns."""
    pairs = {
        "gather": [[3, 0], [0, 1], [1, 3], [1, 4], [7, 5], [2, 6], [2, 7]],
        "gather one": [[4, element] for element in range(8)],
        "slide up": [[element, element + 3] for element in range(5)],
        "slide down": [[element + 2, element] for element in range(6)],
        "slide a scalar in": [[element + 1, element] for element in range(7)],
        "compress": [[1, 0], [4, 1], [7, 2]],
        "sum": [[element, 0] for element in range(8)],
        "sum, masked": [[1, 0], [4, 0], [7, 0]],
        "indexed load": [],
        "count of ones": [],
    }
    assert {name: shown[name]["pairs"] for name in pairs} == pairs
    assert shown["compress"]["curves"][1] == "M4.5 0C4.5 25 1.5 25 1.5 50"


def test_columns_equal_golden_results(tmp_path: pathlib.Path) -> None:
    """Values before and after, and outcomes, of each instruction with a vector result, compared with QEMU's and the formulas'.

    The equations are those of `why`, in each form of numbers.
    """
    draws, views, cases = random.Random(1), list[dict[str, Any]](), list[tuple[Any, ...]]()
    vectors = list(golden_vectors())
    draws.shuffle(vectors)
    seen = set[str]()
    for policy, vector in vectors:
        name = vector["name"]
        if name in seen or not name.startswith("v") or vector["after"]["end"] != "ran":
            continue
        before = before_of(policy, vector)
        word, after = int(vector["word"], 16), bytearray(before.v)
        instruction = vector_instruction(word, before.control.vtype)
        if instruction is None:
            continue
        target = instruction.operands[0]
        if target.noun != "destination" or name.startswith("vl") or before.control.vstart >= max(1, before.control.vl):
            continue
        for number, digits in vector["after"].get("v", {}).items():
            after[int(number) * 32 : int(number) * 32 + 32] = bytes.fromhex(digits)
        active = Execution(before).active[:3] if not target.is_whole or target.eew == 1 else [0]
        views.append(_view(vector, before, bytes(after)) | {"elements": active})
        cases.append((vector["id"], target, before, bytes(after)))
        seen.add(name)
    assert len(seen) > 200
    shown = zip(cases, views, shown_columns(views, tmp_path), strict=True)
    for (case, target, before, after), view, found in shown:
        first, width = target.registers.start, target.eew
        for kind, data in (("before", before.v), ("after", after)):
            rows = [row for row in found["rows"] if row["kind"] == kind]
            assert (case, len(rows)) == (case, 1) or kind == "before"
            for row in rows:
                values = [f"{element_of(data, first, width, at)}" for at in range(len(row["cells"]))]
                assert (case, kind, [cell["text"] for cell in row["cells"]]) == (case, kind, values)
        execution = Execution(before)
        outcomes = [OUTCOMES[execution.outcome(at)] for at in range(len(found["results"]))]
        if execution.record.layout == "compress":  # elements that aren't packed are the tail (16.5)
            outcomes = ["tail" if each == "kept" else each for each in outcomes]
        assert (case, found["results"]) == (case, outcomes)
        reasons = Explanation(before)
        for form, equations in zip(FORMS, found["equations"], strict=True):
            for element, equation in zip(view["elements"], equations, strict=True):
                reason = reasons.why(f"v{first}", element).of
                if equation or isinstance(reason, Calculation):
                    assert (case, form, equation) == (case, form, reason.text(Notation(form, True, "−")))


def _view(vector: dict[str, Any], before: Any, after: bytes) -> dict[str, Any]:
    """The states before and after a golden vector's instruction, as a page has them."""

    def state(v: bytes) -> dict[str, Any]:
        control = before.control
        registers = {f"{number}": v[number * 32 : number * 32 + 32].hex() for number in range(32)}
        x = {f"{number}": f"{value:x}" for number, value in enumerate(before.x)}
        own = {
            "vtype": f"{control.vtype:x}",
            "vl": control.vl,
            "vstart": control.vstart,
            "policy": "keep",
            "memory": {},
        }
        return {"pc": "10000800", "x": x, "v": registers, **own}

    word = int(vector["word"], 16)
    shown = {"10000800": f"{word:08x} {vector['text']}"}
    changed = {"pc": "10000804", "vstart": 0, "instruction": "10000800", "vxrm": 0, "vxsat": 0}
    now = state(after) | changed | {"code": shown, "operands": {"10000800": shown_operands(word)}}
    earlier = state(before.v) | {"vxrm": before.control.vxrm, "vxsat": 0}
    add_executed(cast(State, now), cast(State, earlier))
    return {"state": now, "before": earlier, "form": "unsigned"}


CHOSEN = "return [...document.querySelectorAll('#elements td.chosen')].map((cell) => cell.firstChild.data)"
CUT = """return [...document.querySelectorAll(".lanes :is(td[data-element], th[scope='row'])")]
    .filter((cell) => cell.scrollWidth > cell.clientWidth + 1).map((cell) => cell.textContent)"""


def _open_lesson(browser: "Chrome", program: pathlib.Path, folder: pathlib.Path, name: str) -> None:
    """Open the lesson of a program at the frame of its last instruction but `nop` and `ebreak`."""
    frames = make_frames(read_assembled(f"{MEMORY}{PROGRAMS[name]}\nnop\nebreak\n", name), program)
    (folder / "page.html").write_text(lesson_page(name, frames), "utf-8")
    browser.get("about:blank")
    browser.get(f"{(folder / 'page.html').as_uri()}#{len(frames) - 3}")


def test_element_is_chosen_by_pointer_and_keys(
    browser: "Chrome", program: pathlib.Path, tmp_path: pathlib.Path
) -> None:
    """The column, the source and the curve of an element; keys move it, and the lesson stays where it is."""
    from selenium.webdriver.common.keys import Keys

    def text(selector: str) -> str:
        return str(browser.execute_script("return document.querySelector(arguments[0]).textContent", selector))

    _open_lesson(browser, program, tmp_path, "gather")
    count = text("#count")
    assert "vrgather.vv v6, v4, v5" in text(".card") and browser.execute_script(CHOSEN) == ["3", "1", "1"]
    click(browser, "#elements .after td[data-element='5']")
    assert browser.execute_script(CHOSEN) == ["7", "−6", "−6"] and "v6[5] = v4[7] = −6" in text(".detail")
    curve = (
        "return [...document.querySelectorAll('.wires path.chosen')].map(({ dataset }) => [dataset.from, dataset.to])"
    )
    assert browser.execute_script(curve) == [["7", "5"]]
    for key, chosen in (
        (Keys.ARROW_RIGHT, ["2", "4", "4"]),
        (Keys.ARROW_DOWN, ["2", "4", "4"]),  # there is one strip
        (Keys.HOME, ["3", "1", "1"]),
        (Keys.ARROW_LEFT, ["3", "1", "1"]),
        (Keys.END, ["2", "4", "4"]),
    ):
        press(browser, key)
        assert browser.execute_script(CHOSEN) == chosen and text("#count") == count
        assert browser.execute_script("return document.activeElement.getAttribute('role')") == "gridcell"
    _open_lesson(browser, program, tmp_path, "group of eight")
    assert text(".folded") == "Elements 16 to 63: tail, unchanged"
    click(browser, ".folded button")
    assert browser.execute_script("return document.querySelectorAll('#elements .after td[data-element]').length") == 64
    assert browser.get_log("browser") == []


def test_element_is_explained_and_changed(sit: Sit) -> None:
    """At a seat the server explains the chosen element, and Enter asks for another value."""
    from selenium.webdriver.common.keys import Keys

    tab = sit("A1")
    tab.begin("vsetivli x0, 8, e32, m1, ta, ma", "vid.v v1", "vadd.vx v2, v1, x10")
    tab.command("set x10 5", *["step 1"] * 3)
    tab.click("#elements .after td[data-element='4']")
    tab.wait("one('.detail').textContent.includes('v2[4] = v1[4] + a0 = 4 + 5 = 9')")
    tab.keys("#elements .after td[data-element='4']", Keys.ENTER)
    tab.wait("id('edit').open && id('value').value === '9'")
    tab.keys("#value", Keys.CONTROL, "a", Keys.NULL, "-2", Keys.ENTER)
    tab.wait("one(\"#elements .plain[data-register='2'] td[data-element='4']\")?.firstChild.data === '−2'")


def test_elements_fit_and_have_contrast(browser: "Chrome", program: pathlib.Path, tmp_path: pathlib.Path) -> None:
    """No number and no row's name is cut, nothing scrolls sideways, and texts can be read, in windows from a phone's to a desktop's."""
    sizes = {(1280, 800): "light", (820, 1180): "light", (390, 844): "light", (640, 400): "light", (1281, 800): "dark"}
    try:
        for name in ("multiply and add, masked", "load of segments", "load with a fault", "illegal"):
            _open_lesson(browser, program, tmp_path, name)
            for (width, height), scheme in sizes.items():
                media(browser, prefers_color_scheme=scheme, prefers_reduced_motion="reduce")
                size = {"width": width, "height": height, "deviceScaleFactor": 1, "mobile": False}
                browser.execute_cdp_cmd("Emulation.setDeviceMetricsOverride", size)
                browser.execute_async_script(FRAME)
                assert (name, width, browser.execute_script(CUT)) == (name, width, [])
                assert (name, width, browser.execute_script(CONTRAST)) == (name, width, [])
                assert browser.execute_script("return document.documentElement.scrollWidth") <= width
    finally:
        browser.execute_cdp_cmd("Emulation.clearDeviceMetricsOverride", {})
        media(browser)

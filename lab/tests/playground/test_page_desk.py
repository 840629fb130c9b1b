"""The desk of a page, on the program behind its pipes: what is kept comes back, damaged or not, and images are dropped on it."""

import base64
import json
import pathlib
from collections.abc import Mapping
from dataclasses import replace
from typing import Any

import pytest

from support.message_schema import check_message, check_request, check_view
from support.places import DATA, SUM
from vecmon_lab.classes.core.progress import starts_of
from vecmon_lab.exercises.answer import settled
from vecmon_lab.exercises.exercise import Exercise, read_exercise
from vecmon_lab.playground import page_desk
from vecmon_lab.playground.kept_texts import KeptTexts
from vecmon_lab.playground.page_desk import PageDesk

SOURCE = "li t0, 7\nloop: addi t0, t0, -1\nbnez t0, loop\nebreak\n"
ENDLESS = "loop: addi t1, t1, 1\nj loop\n"


class Page:
    """A page's desk, its texts, and the files that it was given."""

    def __init__(self, program: pathlib.Path, folder: pathlib.Path, texts: Mapping[str, Any] = {}) -> None:
        self.kept: dict[str, Any] = dict(texts)
        self.folder, self.id = folder, 0
        exercises = {"doubles": the_exercise(program)}
        starts = {name: starts_of(each) for name, each in exercises.items()}
        self.desk = PageDesk(program, KeptTexts(texts, self.keep), exercises, starts, self.put)
        hello = self.desk.hello()
        self.view: Any = hello["patch"]
        check_message(hello)
        check_view("A1", self.view)

    def keep(self, name: str, text: str | None, when: float) -> None:
        """Keeps what the desk reports."""
        if text is None:
            del self.kept[name]
        else:
            self.kept[name] = [text, when]

    def put(self, path: pathlib.Path, content: bytes) -> None:
        """Writes a file."""
        path.parent.mkdir(parents=True, exist_ok=True)
        path.write_bytes(content)

    def ask(self, ask: str, **more: object) -> Mapping[str, Any]:
        """The answer to a request."""
        self.id += 1
        request = json.dumps({"id": self.id, "ask": ask, **more})
        answer = self.desk.respond(request)
        assert "error" not in answer, answer
        check_request("A1", json.loads(request))
        check_message(answer)
        return answer

    def do(self, *lines: str) -> list[str]:
        """The first lines of the answers to lines."""
        return [answer[0] for answer in self.ask("lines", do=lines)["do"]]

    def close(self) -> dict[str, Any]:
        """Ends the machine; what is kept then."""
        self.desk.keep()
        self.desk.machine.session.close()
        return self.kept


_EXERCISES: dict[str, Exercise] = {}


def the_exercise(program: pathlib.Path) -> Exercise:
    """The first exercise of the course without its good answer, as a page has it."""
    if not _EXERCISES:
        exercise = settled(program, read_exercise(pathlib.Path("doubles")))
        files = {key: file for key, file in exercise.files.items() if key not in ("good", "reference")}
        _EXERCISES["doubles"] = replace(exercise, files=files)
    return _EXERCISES["doubles"]


@pytest.fixture(autouse=True)
def images_in_a_folder(tmp_path: pathlib.Path, monkeypatch: pytest.MonkeyPatch) -> None:
    monkeypatch.setattr(page_desk, "ROOM", tmp_path / "images")


def test_source_versions_and_machine_come_back(program: pathlib.Path, tmp_path: pathlib.Path) -> None:
    page = Page(program, tmp_path)
    assert page.ask("source", text=SOURCE)["mistakes"] == []
    page.do("step 3", "set x11 1f", "break 10008")
    page.ask("draft", text="nop\n", number=page.desk.student.source.number)
    registers, pc = page.do("regs")[0], page.desk.seat.state["pc"]
    again = Page(program, tmp_path, page.close())
    assert again.desk.lost == [] and again.do("regs")[0] == registers
    state, source = again.view["state"], again.view["source"]
    assert (state["pc"], state["breaks"], state["x"]["11"]) == (pc, ["10008"], "1f")
    assert (source["text"], [version["why"] for version in source["versions"]]) == ("nop\n", ["written"])
    assert again.ask("version", number=1)["text"] == SOURCE
    assert "loop" in str(again.view["state"]["labels"])
    again.close()


def test_case_comes_back(program: pathlib.Path, tmp_path: pathlib.Path) -> None:
    """Reset sets up the case that was tried before the page was closed: its second one has three numbers."""
    page = Page(program, tmp_path)
    page.ask("case", exercise="doubles", text="addi a2, a2, 1\nret", case=1)
    page.do("step 1")
    again = Page(program, tmp_path, page.close())
    assert again.desk.seat.state["x"]["12"] == "4"
    again.ask("again")
    assert again.desk.seat.state["x"]["12"] == "3"
    again.close()


@pytest.mark.parametrize("spent", [0.0, 2.0], ids=["from all lines", "from a checkpoint"])
@pytest.mark.parametrize("last, condition", [("go", "Ended"), ("step 1", "Paused"), ("set x5 7", "Paused")])
def test_ended_program_comes_back_ended(
    program: pathlib.Path, tmp_path: pathlib.Path, last: str, condition: str, spent: float
) -> None:
    """It is paused again if something has changed since: the instruction behind the end, or a register."""
    page = Page(program, tmp_path)
    assert page.ask("source", text=SOURCE + "nop\n")["mistakes"] == []
    page.ask("lines", do=["go"], slices=1)
    if last != "go":
        page.do("setpc 10010", last)
    before: Any = page.desk.hello()["patch"]
    page.desk.machine.session.recorded.spent = spent  # a second and more makes a checkpoint due
    again = Page(program, tmp_path, page.close())
    assert (int(again.kept["A.set_up"][0]) > 0) == (spent > 1)
    assert [before["condition"], again.view["condition"]] == [condition, condition]
    assert again.view["state"].get("stop") == before["state"].get("stop")
    third = Page(program, tmp_path, again.close())
    assert third.view["condition"] == condition
    third.do("setpc 10000")
    fourth = Page(program, tmp_path, third.close())
    assert fourth.view["condition"] == "Paused"
    fourth.close()


@pytest.mark.parametrize("damage", [{"A.stop": ["exit", 1.0]}, {"A.script": ["1 enter\n\n", 1.0]}])
def test_damaged_stop_is_left_out(program: pathlib.Path, tmp_path: pathlib.Path, damage: dict[str, Any]) -> None:
    """Without the last stop, or without the lines that it belongs to, the page opens as if there were none."""
    page = Page(program, tmp_path)
    page.ask("source", text=SOURCE)
    page.ask("lines", do=["go"], slices=1)
    page.desk.machine.session.recorded.spent = 2.0
    kept = page.close()
    assert kept["A.stop"][0] == "ebreak pc=000000000001000c"
    again = Page(program, tmp_path, kept | damage)
    assert "stop" not in again.view["state"] and again.view["condition"] != "Ended"
    again.close()


def test_tries_come_back_and_are_read(program: pathlib.Path, tmp_path: pathlib.Path) -> None:
    page = Page(program, tmp_path)
    page.ask("check", exercise="doubles", text="  ret\n")
    assert page.desk.is_busy
    news: Any = page.desk.turn()
    told = news["patch"]["exercises"]["doubles"]
    assert not all(case["passed"] for case in told["told"]["cases"]) and told["tries"] == 1 and not page.desk.is_busy
    ticket = told["lesson"].removeprefix("lesson/")
    assert "The answer fails: " in page.desk.lesson(ticket) and "The answer fails: " not in page.desk.lesson("doubles")
    again = Page(program, tmp_path, page.close())
    assert again.view["exercises"]["doubles"]["tries"] == 1
    assert again.ask("answer", exercise="doubles", number=1)["text"] == "  ret\n"
    again.close()


def test_try_of_1_0_comes_back(program: pathlib.Path, tmp_path: pathlib.Path) -> None:
    """Its cases have no names there: of five the third one passed."""
    text = (DATA / "version_1_0" / "class" / "answers" / "A2.doubles.1.json").read_text("utf-8")
    page = Page(program, tmp_path, {"answers/A1.doubles.1.json": [text, 1.0]})
    view = page.view["exercises"]["doubles"]
    assert [case["passed"] for case in view["told"]["cases"]] == [False, False, True, False, False]
    assert [case["name"] for case in view["told"]["cases"]] == [case["name"] for case in view["cases"]]
    assert page.ask("answer", exercise="doubles", number=1)["text"] == json.loads(text)["text"] and not page.desk.lost
    page.close()


def test_damaged_texts_are_reported_and_the_rest_is_kept(program: pathlib.Path, tmp_path: pathlib.Path) -> None:
    page = Page(program, tmp_path)
    page.ask("source", text=SOURCE)
    page.do("step 2")
    page.ask("check", exercise="doubles", text="  ret\n")
    page.desk.turn()
    kept = page.close()
    kept["A.script"][0] += "no line\n1 step 1\n"
    kept["answers/A1.doubles.1.json"][0] = "{"
    kept["images/none"] = ["!", 1.0]
    kept["odd"] = 5
    again = Page(program, tmp_path, kept)
    assert len(again.desk.lost) == 3 and "damaged behind line" in again.desk.lost[2]
    assert again.view["source"]["text"] == SOURCE and again.view["exercises"]["doubles"]["tries"] == 1
    names = ["damaged/A.script", "damaged/answers-A1.doubles.1.json", "damaged/images-none"]
    assert [again.kept[name][0] for name in names] == [kept["A.script"][0], "{", "!"]
    assert again.view["state"]["run"] == "stopped" and again.desk.machine.session.images == {}
    again.close()


@pytest.mark.parametrize(
    "damage",
    [
        {f"sources/A1.{'9' * 5000}.typed.s": ["nop", 1.0]},
        {"answers/A1.doubles.1.json": ["[" * 100_000, 1.0]},
        {"A1.written.O2.c": ["int x;", 1.0], "A1.written.json": ['{"messages": [[1e999, 1, true, ""]]}', 1.0]},
    ],
    ids=["a version", "a try", "a program"],
)
def test_crafted_text_leaves_the_others(program: pathlib.Path, tmp_path: pathlib.Path, damage: dict[str, Any]) -> None:
    """Texts that someone else has made to keep the page from opening; a version without a proper number is none."""
    page = Page(program, tmp_path, damage | {"A1.s": [SOURCE, 1.0]})
    assert page.view["source"]["text"] == SOURCE and page.view["source"]["versions"] == []
    assert len(page.desk.lost) == ("sources" not in str(damage))
    page.close()


def test_a_script_that_another_machine_answers_otherwise_is_given_up(
    program: pathlib.Path, tmp_path: pathlib.Path
) -> None:
    again = Page(
        program, tmp_path, {"A.script": ["1 enter\n* slices 0\n" + "1 x" * 400 + "\n", 1.0], "A.set_up": ["x", 1.0]}
    )
    assert len(again.desk.lost) == 1 and again.view["state"]["run"] in ("absent", "stopped")
    again.close()


def test_excess_lines_are_set_aside(
    program: pathlib.Path, tmp_path: pathlib.Path, monkeypatch: pytest.MonkeyPatch
) -> None:
    """A file with more lines than a page ever has opens with the first ones, and an export has all."""
    assert page_desk.MOST_LINES == 250_000
    monkeypatch.setattr(page_desk, "MOST_LINES", 3)
    script = "1 enter\n1 set x5 7\n1 set x6 8\n1 set x5 9\n"
    page = Page(program, tmp_path, {"A.script": [script, 0.0]})
    assert page.desk.lost == ["the machine has 4 lines, and only the first 3 are executed again"]
    assert page.desk.machine.session.lines == 3
    assert page.close()["damaged/A.script"][0] == script


def test_a_long_run_becomes_a_checkpoint(program: pathlib.Path, tmp_path: pathlib.Path) -> None:
    page = Page(program, tmp_path)
    page.ask("source", text="li t1, 400000\n" + SOURCE)
    page.do("step 1", "go")
    page.desk.machine.session.recorded.spent = 2.0  # as on a slower machine
    while page.desk.is_busy:
        page.desk.turn()
    registers = page.do("regs")
    assert b"* slices 1000\n" in page.desk.machine.session.script
    page.desk.machine.session.recorded.spent = 2.0
    kept = page.close()
    assert int(kept["A.set_up"][0]) > 0 and "* slices 1000\n" not in kept["A.script"][0]
    again = Page(program, tmp_path, kept)
    assert again.do("regs") == registers and again.desk.lost == []
    again.close()


def test_a_program_that_never_stops_is_stopped(program: pathlib.Path, tmp_path: pathlib.Path) -> None:
    page = Page(program, tmp_path)
    page.desk.limit = 1_000_000
    page.ask("source", text=ENDLESS)
    page.do("go")
    news = [page.desk.turn() for _ in range(200) if page.desk.is_busy]
    assert page.desk.seat.state["run"] == "stopped" and "The page stopped the program" in json.dumps(news)
    page.close()


def test_an_image_is_loaded_and_comes_back(program: pathlib.Path, tmp_path: pathlib.Path) -> None:
    page = Page(program, tmp_path)
    news: Any = page.desk.drop("my sum.elf", SUM.read_bytes())
    assert "my-sum" in str(news["patch"]["images"]) and page.desk.seat.state["run"] == "stopped"
    assert news["patch"]["state"]["image"] is True
    assert "> load" not in json.dumps(news) and ">1 load my-sum" in news["logs"]["A1"]
    assert any("The image my-sum has" in entry for entry in news["logs"]["A1"])
    page.do("step 5")
    registers = page.do("regs")
    again = Page(program, tmp_path, page.close())
    assert again.do("regs") == registers and again.view["images"] == ["my-sum"] and again.desk.lost == []
    assert again.view["state"]["image"] is True
    again.do("leave", "enter", "setpc 10000")
    assert "image" not in again.desk.seat.display.shown
    again.close()


def test_image_with_damaged_sections_is_loaded(program: pathlib.Path, tmp_path: pathlib.Path) -> None:
    """The machine needs no section headers: the page shows the image without symbols, also when it is opened again."""
    content = bytearray(SUM.read_bytes())
    content[0x28:0x30] = (1 << 62).to_bytes(8, "little")  # e_shoff, far behind the file's end
    page = Page(program, tmp_path)
    said = page.desk.drop("sum", bytes(content))["logs"]["A1"]
    assert said[-1] == "!sum: its headers are damaged: compile it again"
    page.do("step 5")
    registers = page.do("regs")
    again = Page(program, tmp_path, page.close())
    assert again.do("regs") == registers and again.view["images"] == ["sum"] and again.desk.lost == []
    again.close()


@pytest.mark.parametrize("name", ["..", "-x", "@x", "x" * 33], ids=["folder", "option", "sign", "long"])
def test_image_with_a_name_that_no_machine_takes_is_set_aside(
    name: str, program: pathlib.Path, tmp_path: pathlib.Path
) -> None:
    """As of an archive that was changed: the page opens, and has the other image."""
    content = base64.b64encode(SUM.read_bytes()).decode("ascii")
    page = Page(program, tmp_path, {f"images/{name}": [content, 1.0], "images/sum": [content, 1.0]})
    assert page.desk.lost == [f"the image {name} is damaged, so no machine loads it"]
    assert page.view["images"] == ["sum"] and page.kept[f"damaged/images-{name}"][0] == content
    assert page.do("enter", "load sum")[1].startswith("loaded")
    page.close()


def test_excess_images_are_set_aside(program: pathlib.Path, tmp_path: pathlib.Path) -> None:
    """The program takes 16, of 4 MB at most."""
    small, large = (base64.b64encode(data).decode("ascii") for data in (SUM.read_bytes(), bytes((4 << 20) + 1)))
    kept = {f"images/i{number:02}": [small, 1.0] for number in range(17)} | {"images/big": [large, 1.0]}
    page = Page(program, tmp_path, kept)
    assert page.view["images"] == [f"i{number:02}" for number in range(16)]
    assert [sentence.split()[2] for sentence in page.desk.lost] == ["big", "i16"]
    page.close()


@pytest.mark.parametrize("file, name", [("--help.elf", "help"), ("...elf", "image"), (".elf", "image")])
def test_file_name_is_no_option_and_no_folder(
    file: str, name: str, program: pathlib.Path, tmp_path: pathlib.Path
) -> None:
    page = Page(program, tmp_path)
    page.desk.drop(file, SUM.read_bytes())
    assert [*page.desk.machine.session.images] == [name]
    page.close()


@pytest.mark.parametrize(
    "name, content, why",
    [
        ("sum.c", b"int main;", "this page has no compiler; compile it elsewhere"),
        ("notes.txt", b"hello", "this is no ELF image"),
        ("big", b"\x7fELF" + bytes(1 << 20), "an image has at most 1,048,576 bytes, and this one has more"),
        ("odd", b"\x7fELF" + bytes(100), "the machine refuses odd (E09"),
    ],
    ids=["c", "text", "large", "odd"],
)
def test_other_files_are_refused_by_name(
    name: str, content: bytes, why: str, program: pathlib.Path, tmp_path: pathlib.Path
) -> None:
    page = Page(program, tmp_path)
    page.ask("source", text=SOURCE)
    registers = page.do("regs")
    said = page.desk.drop(name, content)["logs"]["A1"]
    assert said[-1].startswith(f"!{name}: ") and why in said[-1]
    assert page.do("regs") == registers and page.desk.machine.session.images == {}
    page.close()

"""Checks of answers in a class: the messages to seats and to the teacher, and the cost of bad answers to the others."""

import asyncio
import csv
import io
import json
import pathlib
import time
import zipfile
from collections.abc import AsyncIterator
from typing import Any

import pytest
import pytest_asyncio

from support.class_tabs import SECONDS, Message, Served, Tab, passed, process, served
from vecmon_lab import LabError
from vecmon_lab.classes.server import checks as class_checks
from vecmon_lab.classes.server.builds import Builds
from vecmon_lab.classes.server.checks import Checks
from vecmon_lab.classes.core.languages import LANGUAGES, C
from vecmon_lab.classes.server.store import Store
from vecmon_lab.classes.server.served_class import Class
from vecmon_lab.compilers.compiler import Compiler
from vecmon_lab.exercises.exercise import OURS
from vecmon_lab.machine.program import find_program

pytestmark = pytest.mark.asyncio

SQUARE = """
title = "=HYPERLINK(1) <b>"
text = "Square `a1` into `a0`."
start = "start.s"
reference = "reference.s"
hints = ["multiply", "mul a0, a1, a1"]
[[cases]]
name = "six"
registers = { a1 = 6 }
expected.registers = ["a0"]
[[cases]]
name = "another one"
hidden = true
registers = { a1 = 0x5ec4e7 }
memory = [{ at = 0x10800, u8 = [77] }]
expected.registers = ["a0"]
"""
RIGHT, WRONG = "mul a0, a1, a1\nret", "addi a0, a1, 30\nret"  # which is right for six
[PLAIN_C] = [number for number, language in enumerate(LANGUAGES) if language.name == "C, O0"]
RIGHT_IN_C = "long answer(long a, long b)\n{\n    return b * b;\n}\n"
SECRETS = ("5ec4e7", "6210791", str(0x5EC4E7**2), "private remark", "exercise.toml", "reference.s", "0x10800")


@pytest.fixture
def square(tmp_path: pathlib.Path) -> pathlib.Path:
    """A custom exercise."""
    folder = tmp_path / "square"
    folder.mkdir()
    (folder / "exercise.toml").write_text(SQUARE)
    (folder / "start.s").write_text("ret\n")
    (folder / "reference.s").write_text(f"# private remark\n{RIGHT}\n")
    return folder


@pytest_asyncio.fixture  # type: ignore[misc]
async def room(tmp_path: pathlib.Path, square: pathlib.Path) -> AsyncIterator[Served]:
    """A class with that exercise, and two of the lab's."""
    async with served(
        tmp_path / "class", exercises=[square, *map(pathlib.Path, ("doubles", "strip_mined_copy"))]
    ) as room:
        yield room


def cases(six: bool, another: bool) -> list[Message]:
    """The results of the exercise's cases."""
    return [{"name": "six", "passed": six}, {"name": "another one", "passed": another}]


async def check(tab: Tab, name: str, text: str, language: int = 0) -> Any:
    """The messages about an answer."""
    before = tab.view["exercises"][name]
    reply = await tab.ask("check", exercise=name, text=text, language=language)
    assert "error" not in reply, reply
    await tab.until(lambda view: any(view["exercises"][name][key] != before[key] for key in ("tries", "told")))
    return tab.view["exercises"][name]["told"]


async def test_seat_retries_until_answer_passes(room: Served) -> None:
    """Hints come one by one; nothing of it is in the script."""
    tab, other = await room.sit("A1"), await room.sit("A2")
    own = tab.view["exercises"]["square"]
    six, another = own["cases"]
    assert (own["text"], six["name"], six["hidden"]) == ("Square `a1` into `a0`.", "six", False)
    assert six["shown"]["expected"][0]["numbers"] == ["36"] and another == {"name": "another one", "hidden": True}
    assert own["starts"] == [{"text": "ret\n", "language": 0}]
    assert (own["hints"], own["tries"], own["told"], own["lesson"]) == ([], 0, {}, "")
    reply = await check(tab, "square", "addi a0, a1, 1\nret")
    assert (reply["cases"], reply["number"], reply["reason"]) == (cases(False, False), 0, "a0: expected 36, found 7")
    assert reply["given"] == [
        {"where": "a1 (x11)", "register": "a1", "first": 0, "numbers": ["6"], "more": 0, "wrong": []}
    ]
    assert reply["expected"] == [
        {"where": "a0 (x10)", "register": "a0", "first": 0, "numbers": ["36"], "more": 0, "wrong": []}
    ]
    assert reply["found"] == [
        {"where": "a0 (x10)", "register": "a0", "first": 0, "numbers": ["7"], "more": 0, "wrong": [0]}
    ]
    assert tab.view["exercises"]["square"]["hints"] == ["multiply"]
    assert await check(tab, "square", RIGHT) == {"cases": cases(True, True)}
    assert tab.view["exercises"]["square"]["passed"] and not tab.view["exercises"]["square"]["checking"]
    await other.do("enter")
    assert (await room.check_replay())[0] == b"2 enter\n" and other.view["exercises"]["square"]["tries"] == 0


@pytest.mark.parametrize(
    "text, mistakes",
    [
        (
            "li a0\nmul a0, a1\nret",
            [(1, 1, "li takes 2"), (2, 11, "an operand is missing at the end; the form is mul rd")],
        ),
        ("", [(1, 1, "there is no instruction in the source")]),
        ("# " + "long " * 1700, [(1, 1, "the source has more than 8,192 bytes")]),
    ],
)
async def test_syntax_mistakes_do_not_count_as_try(
    room: Served, text: str, mistakes: list[tuple[int, int, str]]
) -> None:
    """No try is counted or kept, no hint is due, and earlier messages to a seat stay."""
    tab = await room.sit("A1")
    reply = (await check(tab, "doubles", text))["mistakes"]
    assert [(it["line"], it["column"]) for it in reply] == [(line, column) for line, column, _ in mistakes]
    assert all(it["message"].startswith(message) for it, (_, _, message) in zip(reply, mistakes))
    own = tab.view["exercises"]["doubles"]
    assert (own["tries"], own["hints"], own["lesson"], own["passed"]) == (0, [], "", False)
    assert not [*room.folder.glob("answers/*")]
    await check(tab, "doubles", (OURS / "doubles" / "good.s").read_text())
    await check(tab, "doubles", text)
    own = tab.view["exercises"]["doubles"]
    assert (own["tries"], own["hints"], own["passed"]) == (1, [], True)


async def test_result_rows_are_truncated_alike(room: Served) -> None:
    """Of long rows, some numbers are shown, expected and found next to each other; and how many more there are."""
    tab = await room.sit("A1")
    reply = await check(tab, "strip_mined_copy", (OURS / "strip_mined_copy" / "wrong" / "one_round.s").read_text())
    rows = [reply[key][-2] for key in ("given", "expected", "found")]
    assert [(it["first"], len(it["numbers"]), it["more"]) for it in rows] == [(252, 21, 0), *[(252, 9, 0)] * 2]
    assert rows[0]["numbers"][:9] == rows[1]["numbers"] and rows[2]["wrong"] == [4, 5, 6, 7, 8]
    reply = await check(
        tab, "strip_mined_copy", "vsetivli t0, 16, e8, m1, ta, ma\nvle8.v v8, (a1)\nvse8.v v8, (a0)\nret"
    )
    rows = [reply[key][-2] for key in ("given", "expected", "found")]
    assert [(it["first"], len(it["numbers"]), it["more"]) for it in rows] == [(0, 48, 225), *[(0, 48, 213)] * 2]


async def test_hidden_case_is_not_shown(room: Served) -> None:
    """Whatever comes to the tab has no number of it, and nothing of the exercise's files; not even a hint before its time."""
    tab = await room.sit("A1")
    messages: list[Any] = [tab.view]
    for text in (WRONG, "ebreak", "j .", "", "ret\n.zero 5", RIGHT):
        messages.append(await check(tab, "square", text))
        messages.append(json.loads(json.dumps(tab.view)))
    assert messages[1] == {"cases": cases(True, False)}
    assert not [secret for secret in SECRETS if secret in json.dumps(messages)]
    assert "mul a0, a1, a1" not in json.dumps(messages[:3])
    for path in ("exercise.toml", "square/exercise.toml", "answers/A1.square.1.json", "exercises.csv", "lesson/abc"):
        assert (await room.get(path, "A1"))[0] == 404


async def test_cost_of_good_answer_is_shown(room: Served) -> None:
    tab = await room.sit("A1")
    reply = await check(tab, "doubles", (OURS / "doubles" / "good.s").read_text())
    assert reply["taken"] == reply["good"] == {"instructions": 10, "work": 69}  # 8 and 3 of 8 elements
    long = await check(tab, "doubles", (OURS / "doubles" / "reference.s").read_text())
    assert passed(long) == [False, True, True, False, True] and "takes more than 30 instructions" in long["reason"]


async def test_given_inputs_are_shown(room: Served) -> None:
    """That other registers hold anything, and what agnostic elements become."""
    tab = await room.sit("A1")
    assert (await check(tab, "square", "ret"))["notes"] == []
    anything = "All other registers have arbitrary values."
    assert (await check(tab, "doubles", "ret"))["notes"] == [anything]
    reply = await check(tab, "doubles", (OURS / "doubles" / "wrong" / "always_eight.s").read_text())
    assert reply["notes"] == [
        anything, "Agnostic elements, of a tail or masked off, become all ones here: does the answer use one?"
    ]  # fmt: skip


async def test_failed_case_has_lesson(room: Served) -> None:
    tab = await room.sit("A1")
    await check(tab, "square", "addi a0, a1, 1\nret")
    place = tab.view["exercises"]["square"]["lesson"]
    async with room.session.get(room.url + place) as answer:
        page, policy = await answer.text(), answer.headers["Content-Security-Policy"]
    assert (
        '"line":"1 step 256: instruction 2"' in page
        and "set up the case. The answer fails: a0: expected 36, found 7" in page
    )
    async with room.session.get(room.url) as answer:
        assert (
            answer.headers["Content-Security-Policy"].split("script-src")[1][:60] != policy.split("script-src")[1][:60]
        )
    await check(tab, "square", RIGHT)
    assert (await room.get(place))[0] == 404


async def test_exercise_has_introductory_lesson(room: Served) -> None:
    """It is made once, for all who open it; an exercise without one has no link."""
    tab = await room.sit("A1")
    assert [tab.view["exercises"][name]["before"] for name in ("square", "doubles")] == ["", "lesson/doubles"]
    pages = [await room.get("lesson/doubles") for _ in range(2)]
    assert pages[0] == pages[1] and pages[0][0] == 200 and b"Squares of five numbers" in pages[0][1]
    assert (await room.get("lesson/square"))[0] == 404


async def test_failed_case_loads_at_desk(room: Served) -> None:
    """A new machine has the source, and what the case gives; nothing is begun for a source with mistakes, or without a case."""
    tab = await room.sit("A1")
    assert "no case" in (await tab.ask("case", exercise="doubles", text="ret"))["error"]
    wrong = (OURS / "doubles" / "wrong" / "always_eight.s").read_text()
    await check(tab, "doubles", wrong)
    assert (await tab.ask("case", exercise="doubles", text="li a0"))["mistakes"] and tab.view["state"][
        "run"
    ] == "absent"
    assert (await tab.ask("case", exercise="doubles", text=wrong))["mistakes"] == []
    x = tab.view["state"]["x"]
    assert [int(x[str(number)], 16) for number in (10, 11, 12)] == [0x20100, 0x20000, 3] and tab.view["state"][
        "pc"
    ] == "10000"
    assert await tab.do("step 5", "peek 2010c 4") == [
        ["stepped 5 pc=000000007ffff000"], ["peek 000000000002010c 50000000"]  # 80, where -1 is to stay
    ]  # fmt: skip
    assert (await room.check_replay())[0].startswith(b"1 enter\n")


async def test_second_check_waits_for_first(room: Served) -> None:
    tab = await room.sit("A1")
    assert "error" not in await tab.ask("check", exercise="square", text=RIGHT)
    assert (await tab.ask("check", exercise="doubles", text=RIGHT))["error"] == "a check of this seat is under way"
    assert "error" in await tab.ask("check", exercise="nosuch", text=RIGHT)
    assert "error" in await tab.ask("check", exercise="square", text=5)
    assert "languages have numbers" in (await tab.ask("check", exercise="square", text=RIGHT, language=99))["error"]
    assert "error" in await tab.ask("answer", seat="A1", exercise="square", number=1)  # which is the teacher's to ask
    await tab.until(lambda view: view["exercises"]["square"]["tries"] == 1)


async def test_teacher_gets_table_and_answers(room: Served) -> None:
    started = int(time.time())
    tab, teacher = await room.sit("A3"), await room.sit("teacher")
    await tab.ask("name", name="Ada")
    for text in (WRONG, RIGHT, WRONG):
        await check(tab, "square", text)
    await teacher.until(lambda view: view["exercises"]["square"]["seats"].get("A3", {}).get("tries") == 3)
    reply = teacher.view["exercises"]["square"]
    assert (reply["title"], reply["of"], set(reply["seats"])) == ("=HYPERLINK(1) <b>", 2, {"A3"})
    result = reply["seats"]["A3"]
    assert (result["tries"], result["passed"], result["best"]) == (3, 2, 2) and started <= result["time"] <= time.time()
    for number, text in enumerate((WRONG, RIGHT, WRONG), 1):
        answer = await teacher.ask("answer", seat="A3", exercise="square", number=number)
        assert (answer["text"], passed(answer["told"])) == (text, [True, text == RIGHT])
    for seat, name, which in (("A9", "square", 1), ("A3", "nosuch", 1), ("A3", "square", 4), ("A3", "square", "1")):
        assert "error" in await teacher.ask("answer", seat=seat, exercise=name, number=which)
    status, table = await room.get("exercises.csv")
    rows = list(csv.reader(table.decode("utf-8-sig").splitlines()))
    assert status == 200 and [row[:7] for row in rows[1:]] == [["A3", "Ada", "square", "3", "2", "2", "2"]]


HOSTILE = [
    "j .",
    "next: li a0, 1\nli a7, 64\nmv a1, sp\nli a2, 4096\necall\nj next",
    "ret\n.zero 1024000",
    "nop\n" * 16384,
]


async def test_archive_contains_answers(room: Served) -> None:
    """Of each exercise the last one that passed, else the last one; also where the seat has no machine, and nobody else's."""
    tab, other = await room.sit("A1"), await room.sit("A2")
    shorter = "mul a0, a1, a1\nebreak"
    for text in (WRONG, RIGHT, shorter, WRONG):
        await check(tab, "square", text)
    await check(tab, "doubles", "li a0, 1\nret")
    await check(tab, "doubles", "ret")
    await check(other, "square", WRONG)
    taken = {"A1/answers/doubles.s": "ret", "A1/answers/square.s": shorter}
    assert await home(room, "A1") == taken
    await tab.do("enter")
    assert list(await home(room, "A1")) == ["A1/A1.script", "A1/A1.html", *taken]
    assert await home(room, "A2") == {"A2/answers/square.s": WRONG}


async def home(room: Served, seat: str) -> dict[str, str]:
    """The texts of the files that a seat takes home, by name, without the file for the playground."""
    status, data = await room.get(f"{seat}/home", seat)
    assert status == 200, data
    with zipfile.ZipFile(io.BytesIO(data)) as packed:
        names = [name for name in packed.namelist() if not name.endswith("/playground.json")]
        return {name: packed.read(name).decode() for name in names}


async def test_bad_answers_delay_no_other_seat(room: Served) -> None:
    """While seven seats check endless, huge and hostile answers again and again, the eighth one's steps go on."""
    tab, others = await room.sit("A8"), [await room.sit(f"A{number}") for number in range(1, 8)]
    await tab.do("enter", "map 10000 1 rwx", "asm 10000 jal x0, 0", "setpc 10000")
    checks = [asyncio.create_task(check(other, "square", HOSTILE[at % 4])) for at, other in enumerate(others)]
    steps = 0  # that waited for the end of no check
    while (ended := sum(each.done() for each in checks)) < len(checks):
        assert (await tab.do("step 1"))[0][0].startswith("stepped 1")
        steps += sum(each.done() for each in checks) == ended
        await asyncio.sleep(0.02)
    assert steps > 5
    assert not any([passes for expected in await asyncio.gather(*checks) for passes in passed(expected)])


async def test_restarted_class_preserves_exercises(tmp_path: pathlib.Path, square: pathlib.Path) -> None:
    folder = tmp_path / "own"
    async with process(folder, "--exercise", str(square), "--exercise", "strlen") as room:
        await check(await room.sit("A1"), "square", WRONG)
        await room.end()
    async with process(folder) as room:
        tab = await room.sit("A1")
        assert list(tab.view["exercises"]) == ["square", "strlen"]
        assert tab.view["exercises"]["square"]["told"] == {"cases": cases(True, False)}
        assert await check(tab, "square", RIGHT) == {"cases": cases(True, True)}
        teacher = await room.sit("teacher")
        assert (await teacher.ask("answer", seat="A1", exercise="square", number=1))["text"] == WRONG


async def test_bad_exercise_is_reported(tmp_path: pathlib.Path, square: pathlib.Path) -> None:
    def start(*folders: pathlib.Path) -> str:
        with pytest.raises(LabError) as raised:
            Class(Store(tmp_path / "class", find_program()), SECONDS, exercises=folders)
        return str(raised.value)

    assert (
        start(pathlib.Path("strlen"), pathlib.Path("filtre")) == "exercise 'filtre' not found; did you mean 'filter'?"
    )
    assert "an exercise has a name of its own" in start(square, square)
    assert "an exercise has a name of its own" in start(square.rename(tmp_path / "a b"))
    (tmp_path / "a b").rename(square)
    (square / "reference.s").write_text("j .\n")
    assert start(square).endswith("100,000 ticks (an instruction takes at least one); it is at line 1")


async def test_answer_in_c_is_checked(tmp_path: pathlib.Path, sandboxed_clang: Compiler, square: pathlib.Path) -> None:
    """Arguments and result are as in assembler; the script has nothing of it, and a class restores it."""
    async with served(tmp_path / "class", exercises=[square], builds=Builds(sandboxed_clang)) as room:
        tab, teacher = await room.sit("A1"), await room.sit("teacher")
        reply = await check(tab, "square", RIGHT_IN_C.replace("b * b", "a"), C)
        assert passed(reply) == [False, False] and reply["reason"] == "a0: expected 36, and it was left as it was"
        wrong = RIGHT_IN_C.replace("b * b", "b +\n        b / *(volatile long *)b")
        assert (await check(tab, "square", wrong, PLAIN_C))["reason"].startswith("line 4: The load at 0x1")
        (status, page) = await room.get(tab.view["exercises"]["square"]["lesson"])
        assert status == 200 and b"b / *(volatile long *)b" in page and b"The answer fails: line 4: " in page
        assert b'"variables":[{"name":"a","declaration":"long a",' in page
        answer = await check(tab, "square", RIGHT_IN_C.replace("return", "long c; return"), C)
        (warning,) = answer["warnings"]
        assert (warning["line"], warning["column"], warning["length"], warning["severity"]) == (3, 10, 1, "warning")
        assert (warning["message"], warning["code"]) == ("unused variable 'c' [-Wunused-variable]", "-Wunused-variable")
        assert await check(tab, "square", RIGHT_IN_C, C) == {"cases": cases(True, True)}
        for number, (text, language) in [(2, (wrong, PLAIN_C)), (4, (RIGHT_IN_C, C))]:
            reply = await teacher.ask("answer", seat="A1", exercise="square", number=number)
            assert (reply["text"], reply["language"]) == (text, language)
        assert not (await room.check_replay())[0]
    async with served(tmp_path / "class") as room:
        tab, teacher = await room.sit("A1"), await room.sit("teacher")
        assert (await teacher.ask("answer", seat="A1", exercise="square", number=2))["language"] == PLAIN_C
        assert "takes no C" in (await tab.ask("check", exercise="square", text=RIGHT_IN_C, language=C))["error"]
        assert await check(tab, "square", WRONG) == {"cases": cases(True, False)}


async def test_exercise_offers_start_in_c(tmp_path: pathlib.Path, square: pathlib.Path) -> None:
    """It may be the only one, or one next to assembler; the exercise says which of them comes first."""
    (square / "start.c").write_text(RIGHT_IN_C)
    (square / "exercise.toml").write_text(SQUARE.replace("start.s", "start.c"))
    async with served(tmp_path / "class", exercises=[square, pathlib.Path("doubles")]) as room:
        expected = (await room.sit("A1")).view["exercises"]
        assert expected["square"]["starts"] == [{"text": RIGHT_IN_C, "language": C}]
        assert [start["language"] for start in expected["doubles"]["starts"]] == [0, C]


@pytest.mark.parametrize(
    "text, line, message",
    [
        (RIGHT_IN_C.replace("b * b", "c"), 3, "use of undeclared identifier 'c'"),
        ("int main(void)\n{\n    return 0;\n}\n", 0, "the source has no function `answer`, which each case calls"),
        (RIGHT_IN_C.replace("b * b", "other(b)"), 3, "call to undeclared"),
        ("long other(long);\n" + RIGHT_IN_C.replace("b * b", "other(b)"), 0, "undefined symbol: other"),
        ("char much[100 << 20] = {1};\n" + RIGHT_IN_C, 0, ""),
        ("#include </etc/passwd>\n" + RIGHT_IN_C, 1, "'passwd' file not found"),
        ('__asm__(".incbin \\"/etc/passwd\\"");\n' + RIGHT_IN_C, 0, ""),
        (f'#include "{pathlib.Path(__file__)}"\n' + RIGHT_IN_C, 1, "'test_checks.py' file not found"),
    ],
    ids=["a name", "no function", "no declaration", "no definition", "too much", "a file", "its bytes", "the server's"],
)
async def test_compile_errors_do_not_count_as_try(
    tmp_path: pathlib.Path, sandboxed_clang: Compiler, square: pathlib.Path, text: str, line: int, message: str
) -> None:
    """They have their lines, and no path of the server's; files of the system aren't there."""
    async with served(tmp_path / "class", exercises=[square], builds=Builds(sandboxed_clang)) as room:
        tab = await room.sit("A1")
        reply = await check(tab, "square", text, C)
        assert [*reply] == ["mistakes"] and reply["mistakes"][0]["line"] == line
        assert reply["mistakes"][0]["message"].startswith(message)
        assert "root:" not in str(reply) and "/etc" not in str(reply) and str(tmp_path.parent) not in str(reply)
        assert str(pathlib.Path(__file__).parent) not in str(reply)
        own = tab.view["exercises"]["square"]
        assert (own["tries"], own["hints"], own["passed"]) == (0, [], False) and not [*room.folder.glob("answers/*")]


async def test_exercise_limits_apply_to_c(tmp_path: pathlib.Path, sandboxed_clang: Compiler) -> None:
    """Only loops for which the source asks are vectorised, so a plain loop takes too long; so does one without end."""
    folder = OURS / "saturating_sum"
    async with served(tmp_path / "class", exercises=[folder], builds=Builds(sandboxed_clang)) as room:
        tab = await room.sit("A1")
        reply = await check(tab, "saturating_sum", (folder / "reference.c").read_text(), C)
        assert passed(reply) == [True, True, False, False, True]
        assert "it takes more than 250 instructions" in reply["reason"]
        reply = await check(tab, "saturating_sum", "void answer(void)\n{\n    for (;;)\n        ;\n}\n", C)
        assert reply["reason"].startswith("it hasn't ended after 20,000 ticks") and reply["reason"].endswith(
            "at line 3"
        )
        reply = await check(tab, "saturating_sum", (folder / "good.c").read_text(), C)
        assert all(passed(reply)) and reply["taken"]["work"] == reply["good"]["work"]
        assert "more than 8,192 bytes" in str(await check(tab, "saturating_sum", RIGHT_IN_C + "/" * 8192, C))


async def test_failed_case_in_c_loads_at_desk(
    tmp_path: pathlib.Path, sandboxed_clang: Compiler, square: pathlib.Path
) -> None:
    """A new machine begins at the function, with what the case gives."""
    async with served(tmp_path / "class", exercises=[square], builds=Builds(sandboxed_clang)) as room:
        tab = await room.sit("A1")
        wrong = RIGHT_IN_C.replace("b * b", "b + b")
        assert (await check(tab, "square", wrong, C))["reason"] == "a0: expected 36, found 12"
        assert (await tab.ask("case", exercise="square", text=wrong, language=C))["mistakes"] == []
        state = tab.view["state"]
        assert int(state["x"]["11"], 16) == 6 and state["labels"][state["pc"]] == ["answer"]
        await tab.do("step 1")
        assert int(tab.view["state"]["x"]["10"], 16) == 12 and "return b + b;" in str(tab.view["state"]["lines"])
        script, _ = await room.check_replay()
        assert script.startswith(b"1 enter\n") and b"E16" not in (await room.get("A/transcript"))[1]


async def test_check_under_way_at_end_is_taken_up_again(
    tmp_path: pathlib.Path, square: pathlib.Path, monkeypatch: pytest.MonkeyPatch
) -> None:
    """By the next server, once: a check whose try is saved isn't made again, nor is one that an earlier server left damaged."""
    folder, blocked = tmp_path / "class", asyncio.Event()
    original = Checks._check_result

    async def wait_for_end(*words: Any) -> Any:
        await blocked.wait()  # the server ends first

    monkeypatch.setattr(Checks, "_check_result", wait_for_end)
    async with served(folder, exercises=[square]) as room:
        tab = await room.sit("A1")
        assert "error" not in await tab.ask("check", exercise="square", text=RIGHT)
        await tab.until(lambda view: view["exercises"]["square"]["checking"])
    monkeypatch.setattr(Checks, "_check_result", original)
    pending = (folder / "checking" / "A1.json").read_text()
    (folder / "checking" / "A2.json").write_text("{")
    async with served(folder) as room:
        tab = await room.sit("A1")
        await tab.until(lambda view: view["exercises"]["square"]["passed"])
        own = tab.view["exercises"]["square"]
        assert (own["tries"], own["told"], own["checking"]) == (1, {"cases": cases(True, True)}, False)
        assert room.members and "checking/A2.json is damaged" in room.members.store.damage.summary
    assert [path.name for path in (folder / "checking").iterdir()] == ["A2.json.damaged"]
    (folder / "checking" / "A1.json").write_text(
        pending
    )  # as after a power cut between the try and the end of the check
    async with served(folder) as room:
        tab = await room.sit("A1")
        assert tab.view["exercises"]["square"]["tries"] == 1 and not tab.view["exercises"]["square"]["checking"]
    assert not (folder / "checking" / "A1.json").exists()


async def test_chosen_exercise_is_settled_in_another_process(
    tmp_path: pathlib.Path, program: pathlib.Path, square: pathlib.Path, monkeypatch: pytest.MonkeyPatch
) -> None:
    """Its reference may take long: a thread would keep the server from ending."""
    Class(Store(tmp_path / "class", program), SECONDS, exercises=[pathlib.Path("doubles"), square]).end()
    members = Class(Store(tmp_path / "class", program), SECONDS, exercises=[pathlib.Path("doubles")])

    def settled_here(*_: object) -> None:
        raise LabError("the server settles the exercise itself")

    monkeypatch.setattr(class_checks, "settled", settled_here)
    await members.choose_exercises(["square", "doubles"])
    assert [*members.checks.exercises.by_name] == ["square", "doubles"]
    expected = [case.expected.registers["x10"] for case in members.checks.exercises.exercise("square").cases]
    assert expected == [36, 0x5EC4E7**2]
    members.end()

"""The playground's desk, as WebAssembly under node, answers as the class's server does."""

import json
import pathlib
import random
import shutil
import subprocess
from collections.abc import Mapping
from typing import Any

import pytest

from classes.test_desk import Sent, answered, differences
from support.desk_requests import Request, drawn_requests
from support.places import SUM, TOP
from support.site import built_site, unpack_parts
from vecmon_lab.compilers.compiler import Compiler

pytestmark = pytest.mark.site
NAMES = ["doubles"]
WEB = TOP / "lab" / "vecmon_lab" / "playground" / "web"
# parts of a view that differ in a page without a server
OWN = ("title", "class_title", "name", "own_slices", "no_c", "clock", "exercises")
DIGITS = b"0123456789abcdef"  # in the machine's module
COMPILE = (
    'int add(int a, int b) { return a + b; }\nvoid _start(void) { volatile int x = add(1, 2); __asm__("ebreak"); }\n'
)


@pytest.fixture(scope="module")
def parts(tmp_path_factory: pytest.TempPathFactory) -> pathlib.Path:
    """The parts of the page, as files."""
    folder = tmp_path_factory.mktemp("parts")
    unpack_parts(built_site(), folder)
    return folder


def answered_by_page(parts: pathlib.Path, requests: list[Request]) -> Sent:
    """The messages of the page's desk."""
    command = ["node", str(TOP / "lab" / "support" / "desk_answers.mjs"), str(WEB), str(parts)]
    done = subprocess.run(command, input=json.dumps(requests).encode(), stdout=subprocess.PIPE, check=True)
    sent: Sent = json.loads(done.stdout)
    return sent


def common(sent: Sent) -> Sent:
    """Messages without the parts that differ in the playground: its exercises, and a class's words on C and names."""
    plain: Sent = json.loads(json.dumps(sent))  # without tuples
    return [[_common(message) for message in messages] for messages in plain]


def _common(message: Mapping[str, Any]) -> dict[str, Any]:
    patch = {name: part for name, part in message.get("patch", {}).items() if name not in OWN}
    for own in ("exercise", "own_program"):
        patch.get("source", {}).pop(own, None)
    for version in patch.get("source", {}).get("versions", []):
        version["exercise"] = version["title"] = ""  # of the free program there are none
    return {**message, "patch": patch, "lost": []}


def served(requests: list[Request]) -> list[Request]:
    """Those of drawn requests that need no clock, no name and no compiler."""
    return [it for it in requests if it["ask"] != "name" and not it.get("slices") and it.get("language", 0) == 0]


def test_drawn_requests_are_answered_as_by_the_server(parts: pathlib.Path, tmp_path: pathlib.Path) -> None:
    requests = served(list(drawn_requests(random.Random(2), 500)))
    server, _ = answered(tmp_path / "class", requests, NAMES, has_clock=False)
    page = common(answered_by_page(parts, requests))
    assert [(number, requests[number - 1]) for number in differences(common(server), page)] == []


def test_a_changed_digit_is_found(parts: pathlib.Path, tmp_path: pathlib.Path) -> None:
    """The comparison finds a machine that prints 8 for the digit 9."""
    requests = served(list(drawn_requests(random.Random(2), 100)))
    server, _ = answered(tmp_path / "class", requests, NAMES, has_clock=False)
    planted = tmp_path / "planted"
    shutil.copytree(parts, planted)
    machine = (planted / "machine").read_bytes()
    assert machine.count(DIGITS) > 0
    (planted / "machine").write_bytes(machine.replace(DIGITS, DIGITS.replace(b"9", b"8")))
    assert differences(common(server), common(answered_by_page(planted, requests)))


def test_an_element_is_explained(parts: pathlib.Path) -> None:
    source = "vsetivli x0, 4, e32, m1, ta, ma\nvid.v v1\nvadd.vv v2, v1, v1\n"
    steps: list[Request] = [{"ask": "lines", "do": ["step 1"]}] * 3
    answers = answered_by_page(parts, [{"ask": "source", "text": source}, *steps, {"ask": "why", "name": "v2[3]"}])
    assert answers[-1][0]["why"] == "v2[3] = v1[3] + v1[3] = 3 + 3 = 6"


def test_an_image_has_its_symbols_lines_and_variables(
    parts: pathlib.Path, tmp_path: pathlib.Path, clang: Compiler
) -> None:
    source, image = tmp_path / "source.c", tmp_path / "small"
    source.write_text(COMPILE)
    march = "-march=rv64im_zicsr_zve64x_zvl256b"
    words = [
        "--target=riscv64-linux-gnu",
        march,
        "-mabi=lp64",
        "-g",
        "-O0",
        "-ffreestanding",
        "-fno-pic",
        "-nostdlib",
        "-static",
    ]
    subprocess.run([clang.name, *words, "-fuse-ld=lld", "source.c", "-o", str(image)], check=True, cwd=tmp_path)
    requests: list[Request] = [{"image": "small", "path": str(image)}, {"ask": "step", "by": "line"}, {"reload": True}]
    loaded, stepped, again = answered_by_page(parts, requests)[1:]
    state = loaded[0]["patch"]["state"]
    assert "_start" in str(state["labels"]) and "x" in str(state["variables"]) and state["starts"]
    assert stepped[0].get("error") is None and stepped[0]["patch"]["state"]["pc"] != state["pc"]
    assert again[0]["lost"] == [] and again[0]["patch"]["state"]["labels"] == state["labels"]
    refused = answered_by_page(parts, [{"image": "sum.c", "path": str(source)}])[1][0]
    assert "!sum.c: this page has no compiler" in refused["logs"]["A1"][-1]


def test_checks_pass_and_fail(parts: pathlib.Path) -> None:
    good = (TOP / "lab" / "vecmon_lab" / "exercises" / "given" / "doubles" / "good.s").read_text()
    requests: list[Request] = [{"ask": "check", "exercise": "doubles", "text": text} for text in ("  ret\n", good)]
    views = [messages[-1]["patch"]["exercises"]["doubles"] for messages in answered_by_page(parts, requests)[1:]]
    assert [all(case["passed"] for case in view["told"]["cases"]) for view in views] == [False, True] and views[1][
        "passed"
    ]


def test_the_image_of_the_pages(parts: pathlib.Path) -> None:
    loaded, went = answered_by_page(parts, [{"image": "sum.elf", "path": str(SUM)}, {"ask": "lines", "do": ["go"]}])[1:]
    assert loaded[0]["patch"]["images"] == ["sum"]
    assert went[-1]["patch"]["state"]["run"] == "stopped"

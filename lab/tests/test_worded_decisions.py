"""No module decides by the text of a message, or by the columns of an answer: exceptions, enums and parsed answers have values."""

import pathlib
import re
from collections.abc import Iterator

import pytest

from support.places import TOP
from support.worded_decisions import decisions_in, decisions_in_javascript
from vecmon_lab.tables.table import read_table

FOLDERS = ("lab/vecmon_lab", "lab/tools", "lab/support", "tools", "packaging")
OTHERS = "other programs report this in words only"
EXCEPTIONS = {  # the files with such decisions, and the reason for each
    "lab/vecmon_lab/assembler/mistakes.py": OTHERS,  # compilers
    "lab/vecmon_lab/compilers/container.py": OTHERS,  # setpriv
    "lab/vecmon_lab/compilers/hints.py": OTHERS,  # compilers and linkers
    "lab/vecmon_lab/compilers/sandbox_main.py": OTHERS,  # compilers, linkers and the dynamic loader
    "tools/building/build_steps.py": OTHERS,  # linkers
    "lab/vecmon_lab/runs/recorder.py": "vecmon-record refuses in words, which tests/recordings states",
    "lab/vecmon_lab/machine/answers.py": "the reader of answers, whose format docs/COMMANDS.md fixes",
    "lab/vecmon_lab/machine/script.py": "a fast choice of lines, whose commands are read afterwards",
    "lab/vecmon_lab/checkpoints/machine_state.py": "a fast choice of lines, whose commands are read afterwards",
    "lab/vecmon_lab/classes/core/live.py": "the mark of the server's own lines, which the same module writes",
    "lab/vecmon_lab/classes/core/request_fields.py": "a message is a mapping there, and its keys are tested",
    "lab/vecmon_lab/classes/core/requests.py": "a message is a mapping there, and its keys are tested",
    "lab/vecmon_lab/meanings/describe.py": "a search for a reader's words",
    "lab/vecmon_lab/page/web/seat/lines.js": "a field in which a person types lines; the next test compares its commands",
    "lab/support/golden_equations.py": "the independent reader of sentences that are shown",
}


def sources() -> Iterator[pathlib.Path]:
    """The Python and JavaScript files of the lab and of the tools, with scripts that have no suffix."""
    for path in (path for folder in FOLDERS for path in sorted((TOP / folder).rglob("*")) if path.is_file()):
        if path.suffix in (".py", ".js") or not path.suffix and b"python" in path.read_bytes()[:40]:
            yield path


def test_no_module_decides_by_words() -> None:
    found = dict[str, list[tuple[int, str]]]()
    for path in sources():
        finder = decisions_in_javascript if path.suffix == ".js" else decisions_in
        found[path.relative_to(TOP).as_posix()] = list(finder(path.read_text("utf-8")))
    assert {name: each for name, each in found.items() if each and name not in EXCEPTIONS} == {}
    assert [name for name in EXCEPTIONS if not found.get(name)] == []


def test_page_takes_labels_in_commands_that_start_with_an_address() -> None:
    forms = [form.split() for section, form, *_ in read_table("commands") if not section.startswith("Commands of")]
    (listed,) = re.findall(
        r"\^\(\\s\*\(\?:([a-z|]+)\)", (TOP / "lab/vecmon_lab/page/web/seat/lines.js").read_text("utf-8")
    )
    assert listed.split("|") == sorted(name for name, *arguments in forms if arguments[:1] == ["ADDR"])


@pytest.mark.parametrize(
    "line",
    [
        'found = "is no register" in str(error)',
        'found = "is no register" in f"{error}".lower()',
        'found = str(error).startswith("line ")',
        'found = (error.strerror or str(error)).partition(" (while")[0]',
        'found = re.search("line ([0-9]+)", str(error))',
        'found = PATTERN.fullmatch(f"{error}")',
        'found = error.args[0] == "no answer"',
        'found = error.args[0].endswith("twice")',
        'found = any(sentence.startswith(f"{name} ") for sentence in self.lost)',
        'found = "damaged" in self.warning',
        'found = done[2][1:9] == " stepped"',
        'found = line[2:5] in {"map", "pok"}',
        'found = answer[0].startswith("loaded")',
        'found = part[2:].startswith("outfull")',
    ],
)
def test_decision_is_found(line: str) -> None:
    text = f"try:\n    call()\nexcept LabError as error:\n    {line}\n"
    assert [number for number, _ in decisions_in(text)] == [4]


@pytest.mark.parametrize(
    "line",
    [
        "raise BadRequest(str(error)) from error",
        'print(f"{name}: {error.strerror}")',
        "found = first_word(part) == STOPPED",
        'found = line[:1] == "*"',
        "found = error.code in CODES",
        'found = name.startswith("v")',
        "if sentence not in self.lost: self.lost.append(sentence)",
    ],
)
def test_value_is_no_decision_by_words(line: str) -> None:
    assert list(decisions_in(f"try:\n    call()\nexcept LabError as error:\n    {line}\n")) == []


def test_decision_in_javascript_is_found() -> None:
    wrong = [
        'const isIllegal = /illegal/i.test(state.stop ?? "");',
        'if (answer.error?.startsWith("line")) return;',
        r"const start = entries.findLast((entry) => /^<. (entered|loaded)\b/.test(entry));",
        "const isNew = entries.some((entry) => /^>. enter$/.test(entry));",
        "const isSetUp = entries.some((each) => /^>. setpc /.test(each));",
        "export const STOP_LINE = /^[1-8] (e?break|exit|outfull|fault) /;",
        r'return { text, alias: isOther && /^v\w+(\.\w+)* /.test(own) ? own : "" };',
    ]
    right = [
        'const stop = log[place][0] === STOP ? state.stop : "";',
        "// /illegal/.test(state.stop)",
        "stop.cause === 2",
        r"const way = /^(back|forth)(?: +([1-9][0-9]{0,8}))?$/.exec(lines.join(''));",
        "if (!/[^0]/.test(own)) return;",
    ]
    found = [number for number, _ in decisions_in_javascript("\n".join([*right, *wrong]))]
    assert found == [*range(len(right) + 1, len(right) + len(wrong) + 1)]

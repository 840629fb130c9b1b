"""Where the program is looked for, and what the program `vecmon-lab` does with its words."""

import argparse
import fcntl
import pathlib
import re
import shutil
import subprocess
import sys
import types

import pytest

from support.places import SUM, TOP
from vecmon_lab import LabError
from vecmon_lab import __main__ as start
from vecmon_lab.exercises.exercise import OURS
from vecmon_lab.machine import program as places
from vecmon_lab.machine.program import NoProgram, find_program, find_recorder

GOOD = OURS / "doubles" / "good.s"


def executable(file: pathlib.Path) -> pathlib.Path:
    """An executable file in a folder of its own."""
    file.parent.mkdir()
    file.touch(0o755)
    return file


def test_program_places_are_searched_in_order(monkeypatch: pytest.MonkeyPatch, tmp_path: pathlib.Path) -> None:
    folders = ("named", "built", "unproved", "found")
    named, built, unproved, found = (executable(tmp_path / folder / "vecmon") for folder in folders)
    monkeypatch.setattr(places, "BUILT", built)
    monkeypatch.setattr(places, "UNPROVED", tmp_path)
    (tmp_path / "current").write_text("unproved\n")
    monkeypatch.setenv("PATH", str(found.parent))
    monkeypatch.setenv("VECMON", str(named))
    assert find_program() == named
    monkeypatch.chdir(tmp_path)
    monkeypatch.setenv("VECMON", "named/vecmon")
    assert find_program() == named
    monkeypatch.setenv("VECMON", "")
    assert find_program() == built
    monkeypatch.delenv("VECMON")
    assert find_program() == built
    built.unlink()
    assert find_program() == unproved
    (tmp_path / "current").unlink()
    assert find_program() == found
    (tmp_path / "current").write_text("unproved\n")
    unproved.unlink()
    assert find_program() == found
    found.chmod(0o644)
    with pytest.raises(NoProgram, match="^there is no program vecmon; .*tools/run.*rt run < stdin"):
        find_program()
    monkeypatch.setenv("VECMON", str(built))
    with pytest.raises(NoProgram, match=f"^VECMON={built} is no program; .*tools/run"):
        find_program()


def test_build_folders_are_searched_for_program() -> None:
    assert places.BUILT == TOP / "crates" / "vecmon" / "out" / "vecmon"
    assert places.UNPROVED == TOP / "build" / "unproved"
    assert (TOP / "crates" / "vecmon" / "stdin").is_file() and (TOP / "tools" / "run").is_file()


def test_recorder_built_by_tools_run_is_found(monkeypatch: pytest.MonkeyPatch, tmp_path: pathlib.Path) -> None:
    recorder = executable(tmp_path / "unproved" / "vecmon-record")
    (tmp_path / "current").write_text("unproved\n")
    monkeypatch.setattr(places, "UNPROVED", tmp_path)
    monkeypatch.setattr(places, "BUILT_RECORDER", tmp_path / "none")
    monkeypatch.delenv("VECMON", raising=False)
    monkeypatch.delenv("VECMON_RECORD", raising=False)
    assert find_recorder() == recorder


def test_recorder_that_is_being_built_is_reported(monkeypatch: pytest.MonkeyPatch, tmp_path: pathlib.Path) -> None:
    """tools/run has its lock until the recorder is there; vecmon is there before."""
    executable(tmp_path / "unproved" / "vecmon")
    (tmp_path / "current").write_text("unproved\n")
    for name, value in (("UNPROVED", tmp_path), ("BUILT", tmp_path / "none"), ("BUILT_RECORDER", tmp_path / "none")):
        monkeypatch.setattr(places, name, value)
    for name in ("VECMON", "VECMON_RECORD"):
        monkeypatch.delenv(name, raising=False)
    monkeypatch.setenv("PATH", str(tmp_path))
    monkeypatch.setattr(places, "check_is_vecmon", lambda program: None)
    with (tmp_path / "lock").open("w") as lock:
        fcntl.flock(lock, fcntl.LOCK_EX)
        still = (
            f"^tools/run is still building vecmon-record in the background: try again when {tmp_path}/log says built$"
        )
        with pytest.raises(NoProgram, match=still):
            find_recorder()
    with pytest.raises(NoProgram, match="^there is no program vecmon-record; "):
        find_recorder()


def test_every_command_is_tested_with_proved_program() -> None:
    files = (TOP / "lab" / "tests").rglob("test_*.py")
    marked = [
        name for file in files for name in re.findall(r'^@pytest.mark.by_command\("(\w+)"\)', file.read_text(), re.M)
    ]
    assert sorted(marked) == sorted(start.COMMANDS)


@pytest.mark.parametrize("arguments", [[], ["dance"], ["--dance"], ["help", "dance"]])
def test_bad_arguments_are_refused(arguments: list[str]) -> None:
    run = subprocess.run([sys.executable, "-m", "vecmon_lab", *arguments], cwd=TOP, capture_output=True, text=True)
    assert (run.returncode, run.stdout, run.stderr.count("\n")) == (2, "", 1)
    assert run.stderr.startswith("vecmon-lab: ")


@pytest.mark.parametrize(
    "words, expected",
    [
        (["class", "DIR", "--port", "9331", "a=x", "b=y"], {"images": ["a=x", "b=y"], "port": 9331}),
        (["class", "--host", "H", "DIR", "a=x", "--port", "1", "b=y"], {"images": ["a=x", "b=y"], "host": "H"}),
        (["lesson", "--title", "T", "script", "hello=F", "-o", "page"], {"images": ["hello=F"], "title": "T"}),
        (["lesson", "script", "--title", "T", "hello=F"], {"images": ["hello=F"], "title": "T"}),
        (["grade", "E", "a.s", "--csv", "b.s"], {"answers": [pathlib.Path("a.s"), pathlib.Path("b.s")], "csv": True}),
        (["vectors", "vadd.vv", "--cases", "3", "vsub.vv"], {"names": ["vadd.vv", "vsub.vv"], "cases": 3}),
    ],
)
def test_options_are_accepted_anywhere(words: list[str], expected: dict[str, object]) -> None:
    arguments = vars(start.arguments_of(words))
    assert {name: arguments[name] for name in expected} == expected


@pytest.mark.parametrize("command", ["run", "compare", "profile", "console", "gdb"])
@pytest.mark.parametrize(
    "words, given",
    [
        ([], []),
        (["one", "--ticks", "-h"], ["one", "--ticks", "-h"]),
        (["-o", "--", "--t", "--in=x", "-1", ""], ["-o", "--", "--t", "--in=x", "-1", ""]),
    ],
)
def test_arguments_after_image_belong_to_program(command: str, words: list[str], given: list[str]) -> None:
    """As qemu-riscv64 has them."""
    prefixes: list[list[str]] = [[], ["--in", "file"], ["--in", "file", "--"]]
    for before in prefixes:
        arguments = start.arguments_of([command, *before, "image", *words])
        assert (arguments.named, arguments.words) == (pathlib.Path("image"), given)
        assert command == "compare" or arguments.image == arguments.named  # `compare` builds the image later
        assert arguments.input == (pathlib.Path("file") if before else None)


@pytest.mark.parametrize("word", ["--against", "--in=file", "-o"])
def test_option_after_image_is_refused(capsys: pytest.CaptureFixture[str], word: str) -> None:
    start.arguments_of(["profile", "image", "--tick", word, "--against-it"])
    expected = f"vecmon-lab: {word} after image is an argument of the program; "
    assert capsys.readouterr() == ("", f"{expected}options of vecmon-lab profile go before image\n")
    start.arguments_of(["profile", "--", "image", word])
    assert capsys.readouterr() == ("", "")


@pytest.mark.parametrize("arguments", [["run", "--trace"], ["lesson", "-o"], ["profile", "-o"]])
def test_output_equal_to_input_is_refused(
    monkeypatch: pytest.MonkeyPatch, capsys: pytest.CaptureFixture[str], tmp_path: pathlib.Path, arguments: list[str]
) -> None:
    (tmp_path / "sum.csv").write_bytes(SUM.read_bytes())
    (tmp_path / "sum.html").symlink_to("sum.csv")
    monkeypatch.chdir(tmp_path)
    monkeypatch.setattr(sys, "argv", ["vecmon-lab", *arguments, "sum.html", "sum.csv"])
    expected = "vecmon-lab: sum.html would be overwritten, and it is read here: name another file\n"
    assert (start.main(), *capsys.readouterr()) == (2, "", expected)
    assert (tmp_path / "sum.csv").read_bytes() == SUM.read_bytes()


def test_profile_csv_equal_to_input_is_refused(monkeypatch: pytest.MonkeyPatch, tmp_path: pathlib.Path) -> None:
    (tmp_path / "sum.csv").write_bytes(SUM.read_bytes())
    arguments = start.arguments_of(["profile", "-o", str(tmp_path / "sum.html"), str(tmp_path / "sum.csv")])
    with pytest.raises(LabError, match="sum.csv would be overwritten"):
        arguments.run(arguments)


@pytest.mark.parametrize("name", ["one", "./one", "hard", "symbolic", "missing"])
def test_outputs_to_one_file_are_refused(
    monkeypatch: pytest.MonkeyPatch, capsys: pytest.CaptureFixture[str], tmp_path: pathlib.Path, name: str
) -> None:
    """By its path, a hard link, a symbolic one, and one to a file that isn't there; each command says so, and writes nothing."""
    monkeypatch.chdir(tmp_path)
    (tmp_path / "one").write_text("kept\n")
    (tmp_path / "hard").hardlink_to("one")
    (tmp_path / "symbolic").symlink_to("one")
    (tmp_path / "missing").symlink_to("none")
    other = "none" if name == "missing" else "one"
    for words in (
        ["run", "--trace", name, "--log", other, "--to", "3", str(SUM)],
        ["grade", "--junit", name, "--gradescope", other, "doubles", str(GOOD)],
    ):
        monkeypatch.setattr(sys, "argv", ["vecmon-lab", *words])
        expected = f"vecmon-lab: {pathlib.Path(name)} and {other} are one file: name another one for an output\n"
        assert (start.main(), *capsys.readouterr()) == (2, "", expected)
    assert (tmp_path / "one").read_text() == "kept\n" and not (tmp_path / "none").exists()


def test_symbolic_links_in_a_circle_are_refused(
    monkeypatch: pytest.MonkeyPatch, capsys: pytest.CaptureFixture[str], tmp_path: pathlib.Path
) -> None:
    monkeypatch.chdir(tmp_path)
    for one, other in (("a", "b"), ("b", "a")):
        (tmp_path / one).symlink_to(other)
    monkeypatch.setattr(sys, "argv", ["vecmon-lab", "run", "--trace", "a", "--log", "c", "--to", "3", str(SUM)])
    assert (start.main(), *capsys.readouterr()) == (2, "", "vecmon-lab: a: Too many levels of symbolic links\n")


def test_file_of_an_exercise_is_no_report(
    monkeypatch: pytest.MonkeyPatch, capsys: pytest.CaptureFixture[str], tmp_path: pathlib.Path
) -> None:
    shutil.copytree(GOOD.parent, tmp_path / "doubles")
    monkeypatch.chdir(tmp_path)
    for name in ("exercise.toml", "good.s", "start.s"):
        file = tmp_path / "doubles" / name
        before = file.read_bytes()
        monkeypatch.setattr(sys, "argv", ["vecmon-lab", "grade", "--junit", f"doubles/{name}", "doubles", str(GOOD)])
        expected = f"vecmon-lab: doubles/{name} would be overwritten, and it is read here: name another file\n"
        assert (start.main(), *capsys.readouterr()) == (2, "", expected) and file.read_bytes() == before


@pytest.mark.parametrize(
    "arguments, first, has",
    [
        (["help"], "usage: vecmon-lab [-h]", "a page that steps back and forth"),
        (["--help"], "usage: vecmon-lab [-h]", "a page that steps back and forth"),
        (["help", "run"], "usage: vecmon-lab run [-h]", "--trace FILE"),
        (["run", "--help"], "usage: vecmon-lab run [-h]", "--trace FILE"),
    ],
)
def test_help_lists_arguments(capsys: pytest.CaptureFixture[str], arguments: list[str], first: str, has: str) -> None:
    with pytest.raises(SystemExit, match="0"):
        start.arguments_of(arguments)
    output = capsys.readouterr().out
    assert output.startswith(first) and has in output


@pytest.mark.parametrize(
    "module, arguments, library",
    [
        ("aiohttp", ["class", "x"], "aiohttp"),
        ("elftools.elf", ["run", str(SUM)], "pyelftools"),
    ],
)
def test_missing_library_is_reported(program: pathlib.Path, module: str, arguments: list[str], library: str) -> None:
    code = f"import sys; sys.modules[{module!r}] = None; sys.argv[1:] = {arguments}; from vecmon_lab.__main__ import main; sys.exit(main())"
    run = subprocess.run([sys.executable, "-c", code], cwd=TOP, capture_output=True, text=True)
    assert (run.returncode, run.stdout) == (2, "")
    assert run.stderr.startswith(
        f"vecmon-lab: this needs the Python library {library}: `sudo apt install python3-{library}`"
    )


def test_main_imports_no_command_modules() -> None:
    names = {"aiohttp", "prompt_toolkit", "elftools", "vecmon_lab.machine"}
    code = f"import sys, vecmon_lab.__main__; sys.exit(bool({names} & set(sys.modules)))"
    subprocess.run([sys.executable, "-c", code], cwd=TOP, check=True)


@pytest.mark.parametrize(
    "mistake, status, expected",
    [
        (NoProgram("there is none"), 2, "vecmon-lab: there is none\n"),
        (
            FileNotFoundError(2, "No such file or directory", "loop.s"),
            2,
            "vecmon-lab: loop.s: No such file or directory\n",
        ),
        (OSError("odd"), 2, "vecmon-lab: odd\n"),
        (
            ModuleNotFoundError(name="elftools"),
            2,
            "vecmon-lab: this needs the Python library pyelftools: `sudo apt install python3-pyelftools`; or else "
            "`python3 -m venv ~/.vecmon && ~/.vecmon/bin/pip install pyelftools`, and "
            "VECMON_PYTHON=~/.vecmon/bin/python\n",
        ),
        (KeyboardInterrupt(), 130, ""),
    ],
)
def test_command_error_has_exit_status(
    monkeypatch: pytest.MonkeyPatch,
    capsys: pytest.CaptureFixture[str],
    mistake: BaseException,
    status: int,
    expected: str,
) -> None:
    def run(arguments: argparse.Namespace) -> int:
        raise mistake

    command = types.ModuleType("vecmon_lab.command")
    vars(command).update(add_arguments=lambda parser: parser.add_argument("word"), run=run)
    monkeypatch.setitem(sys.modules, "vecmon_lab.command", command)
    monkeypatch.setattr(start, "COMMANDS", {"command": ("command", "ends")})
    monkeypatch.setattr(sys, "argv", ["vecmon-lab", "command", "word"])
    assert (start.main(), *capsys.readouterr()) == (status, "", expected)

"""The launcher of a package: which Python runs the lab, and the message if a library is missing."""

import os
import pathlib
import subprocess
import sys
import venv

import elftools
import pytest

from support.places import SUM, TOP

WITHOUT_AIOHTTP = (
    "vecmon-lab: this needs the Python library aiohttp: `sudo apt install python3-aiohttp`; or else "
    "`python3 -m venv ~/.vecmon && ~/.vecmon/bin/pip install aiohttp`, and VECMON_PYTHON=~/.vecmon/bin/python\n"
)


@pytest.fixture(scope="module")
def installed(tmp_path_factory: pytest.TempPathFactory) -> pathlib.Path:
    """A folder as a package fills it, with a virtual environment `plain`, in which there is no library at all."""
    folder = tmp_path_factory.mktemp("installed")
    (folder / "bin").mkdir()
    (folder / "share").mkdir()
    (folder / "bin" / "vecmon-lab").write_bytes((TOP / "packaging" / "vecmon-lab").read_bytes())
    (folder / "share" / "vecmon").symlink_to(TOP)
    venv.create(folder / "plain", symlinks=True)
    return folder


def run(installed: pathlib.Path, *arguments: object, python: str = "") -> tuple[int, str, str]:
    """Run the launcher with VECMON_PYTHON set to `python`; return its status and its output."""
    command = [sys.executable, "-EB", str(installed / "bin" / "vecmon-lab"), *map(str, arguments)]
    completed = subprocess.run(
        command, cwd=installed, env={**os.environ, "VECMON_PYTHON": python}, input="", capture_output=True, text=True
    )
    return completed.returncode, completed.stdout, completed.stderr


def completed(folder: pathlib.Path, *arguments: str) -> list[str]:
    """The completions of the last of these words, with functions of bash-completion as simple as can be."""
    code = f"""
        vecmon-lab() {{ {sys.executable} -m vecmon_lab "$@"; }}
        _init_completion() {{ words=("${{WORDS[@]}}"); cword={len(arguments)}; cur=${{words[cword]}}; }}
        _filedir() {{ COMPREPLY+=(A_FILE); }}
        WORDS=(vecmon-lab {' '.join(f"'{word}'" for word in arguments)})
        source {TOP / "packaging" / "completion"}
        _vecmon
        printf '%s\\n' "${{COMPREPLY[@]}}"
    """
    completed = subprocess.run(["bash", "-c", code], cwd=folder, capture_output=True, text=True, check=True)
    assert completed.stderr == ""
    return completed.stdout.split()


def test_completion_lists_commands(tmp_path: pathlib.Path) -> None:
    (tmp_path / "monday").mkdir()
    for name in ("A.script", "B.script", "A.json", "class.json"):
        (tmp_path / "monday" / name).touch()
    assert completed(tmp_path, "ve") == ["vectors"] and completed(tmp_path, "help", "so") == ["solo"]
    assert completed(tmp_path, "--v") == ["--version"]
    assert completed(tmp_path, "vectors", "vid.v", "vsadd.") == ["vsadd.vv", "vsadd.vx", "vsadd.vi"]
    assert completed(tmp_path, "vectors", "al") == ["all"] and "--seed" in completed(tmp_path, "vectors", "--se")
    assert completed(tmp_path, "grade", "st") == ["strip_mined_copy", "strlen", "A_FILE"]
    assert completed(tmp_path, "grade", "strlen", "a") == ["A_FILE"]
    assert completed(tmp_path, "solo", "monday", "B") == [f"B{digit}" for digit in range(1, 9)]
    assert completed(tmp_path, "solo", "monday", "A1") == ["A1"] and completed(tmp_path, "solo", "mon") == ["A_FILE"]
    assert completed(tmp_path, "class", "monday", "sum=x") == ["A_FILE"]
    assert set(completed(tmp_path, "class", "--im")) == {"--image-size"}
    assert "--no-clock" in completed(tmp_path, "class", "--n")


def test_python_without_library_is_refused(installed: pathlib.Path, program: pathlib.Path) -> None:
    assert run(installed, "class", "monday", python="plain/bin/python") == (2, "", WITHOUT_AIOHTTP)
    for command in ("class", "explore"):
        status, output, errors = run(installed, command, "--help", python="plain/bin/python")
        assert (status, errors) == (0, "") and output.startswith(f"usage: vecmon-lab {command} ")
    status, output, _ = run(installed, "check", python="plain/bin/python")
    assert status == 0 and "aiohttp for class and explore: not installed: sudo apt install python3-aiohttp\n" in output
    assert run(installed, "console", python="plain/bin/python") == (0, "=> 0  \n", "")
    status, _, errors = run(installed, "console", SUM, python="plain/bin/python")
    assert status == 2 and errors.startswith("vecmon-lab: this needs the Python library pyelftools: `sudo apt install ")
    assert "python3-pyelftools`" in errors


def test_python_with_library_is_used(installed: pathlib.Path, program: pathlib.Path) -> None:
    (packages,) = (installed / "plain" / "lib").glob("python3*/site-packages")
    (packages / "elftools").symlink_to(pathlib.Path(elftools.__file__).parent)
    assert run(installed, "run", SUM, python="plain/bin/python") == (0, "328350\n", "")
    assert run(installed, "run", SUM, python=str(installed / "plain" / "bin" / "python")) == (0, "328350\n", "")


def test_missing_python_is_reported(installed: pathlib.Path, program: pathlib.Path) -> None:
    assert run(installed, "run", SUM) == (0, "328350\n", "")
    expected = "vecmon-lab: VECMON_PYTHON=/nowhere: No such file or directory\n"
    assert run(installed, "check", python="/nowhere") == (2, "", expected)


def test_pages_are_made_from_any_path_of_the_lab(installed: pathlib.Path) -> None:
    """The launcher's path has `..` in it."""
    code = (
        f"import sys; sys.path[0] = {str(installed / 'bin/../share/vecmon/lab')!r}\n"
        "from vecmon_lab.page.build.pages import filled_page\n"
        "print('CodeMirror' in filled_page('class', 'A class'))"
    )
    ran = subprocess.run([sys.executable, "-c", code], capture_output=True, text=True)
    assert (ran.stdout, ran.stderr) == ("True\n", "")

"""Python packages with the programs in them: tools/releasing/wheels makes one twice, and pip installs it without a network."""

import pathlib
import shutil
import subprocess
import zipfile
from collections.abc import Mapping, Sequence

import pytest

from support.lab_files import packaged_files
from support.places import TOP
from vecmon_lab.installation import first_script
from vecmon_lab.machine.program import find_recorder

PARTS = (
    "lab/vecmon_lab",
    "lab/examples",
    "tests/command_lines/data/images",
    "pyproject.toml",
    "tools/releasing/wheels",
)
"""The files of the repository that the packages are made from."""

SITE = ("index.html", "playground.html", "play/index.html")
GIT = ("git", "-c", "user.name=a", "-c", "user.email=a@example.com")
EXECUTABLE = 0o100755
LIBRARIES = ("aiohttp", "prompt-toolkit", "pyelftools", "segno")  # Debian's names of them


def run(command: Sequence[object], folder: pathlib.Path, **variables: str) -> subprocess.CompletedProcess[str]:
    """Runs a command in a folder, with Debian's programs on PATH, and no variable but these."""
    environment = {"PATH": "/usr/bin:/bin", "HOME": str(folder), "LC_ALL": "C.UTF-8", **variables}
    words = [str(word) for word in command]
    return subprocess.run(words, cwd=folder, env=environment, stdin=subprocess.DEVNULL, capture_output=True, text=True)


@pytest.fixture(scope="module")
def made(tmp_path_factory: pytest.TempPathFactory, program: pathlib.Path) -> pathlib.Path:
    """A folder with `clone`, whose commit has the files as they are now; `site`; and `native` and `node`, with programs."""
    top = tmp_path_factory.mktemp("wheels")
    listed = subprocess.run(
        ["git", "ls-files", "-z", *PARTS], cwd=TOP, capture_output=True, text=True, check=True
    ).stdout
    for name in filter(None, listed.split("\0")):
        if (TOP / name).is_file():
            (top / "clone" / name).parent.mkdir(parents=True, exist_ok=True)
            shutil.copy2(TOP / name, top / "clone" / name)
    for words in (["init", "-q"], ["add", "."], ["commit", "-q", "-m", "a"]):
        subprocess.run([*GIT, *words], cwd=top / "clone", check=True)
    for name in SITE:
        (top / "site" / name).parent.mkdir(parents=True, exist_ok=True)
        (top / "site" / name).write_text(f"{name}, with WebAssembly")
    for folder in ("native", "node"):
        (top / folder).mkdir()
    shutil.copy(program, top / "native" / "vecmon")
    shutil.copy(find_recorder(), top / "native" / "vecmon-record")
    for name in ("vecmon", "vecmon-record", "vecmon.wasm", "vecmon-record.wasm", "host.mjs", "PROVENANCE"):
        (top / "node" / name).write_text(f"Target: wasm32.\n{name}\n")
    return top


@pytest.fixture(scope="module")
def wheels(made: pathlib.Path) -> Mapping[str, pathlib.Path]:
    """The wheels by the last part of their tags."""
    ran = run(["clone/tools/releasing/wheels", "site", "out", "x86_64=native", "wasm32=node"], made)
    assert ran.returncode == 0, ran.stderr
    paths = {path.stem.rpartition("-")[2]: path for path in (made / "out").iterdir()}
    assert ran.stdout.split() == sorted(path.name for path in paths.values())
    return paths


@pytest.fixture(scope="module")
def installed(made: pathlib.Path, wheels: Mapping[str, pathlib.Path]) -> pathlib.Path:
    """The commands of an empty virtual environment with the native wheel, and of Debian's libraries with what the wheel requires."""
    wheel = next(path for tag, path in wheels.items() if tag.startswith("manylinux_2_"))
    python = "/usr/bin/python3"
    make: list[object] = [python, "-m", "venv", "--without-pip", "environment"]
    pack: list[object] = [TOP / "packaging/debian_wheels", "libraries", *(f"python3-{name}" for name in LIBRARIES)]
    install: list[object] = [
        python,
        "-m",
        "pip",
        "--python",
        "environment/bin/python",
        "install",
        "--no-index",
        "--find-links",
    ]
    for command in (make, pack, [*install, "libraries", wheel]):
        ran = run(command, made)
        assert ran.returncode == 0, ran.stderr
    return made / "environment" / "bin"


def test_wheels_have_programs_and_files(wheels: Mapping[str, pathlib.Path]) -> None:
    """Those that run are executable, also after pip has unpacked them."""
    assert "any" in wheels and len(wheels) == 2
    for tag, path in wheels.items():
        with zipfile.ZipFile(path) as archive:
            modes = {it.filename.partition("/packaged/")[2]: it.external_attr >> 16 for it in archive.infolist()}
            record = archive.read("vecmon_lab/packaged/PROVENANCE").decode()
            assert not {name.removeprefix("lab/") for name in packaged_files("lab/vecmon_lab")} - {*archive.namelist()}
        assert modes["bin/vecmon"] == modes["bin/vecmon-record"] == EXECUTABLE
        assert {"codemirror/lib/codemirror.js", "lab/examples/strip_mined.s", "site/play/index.html"} <= set(modes)
        assert "tests/command_lines/data/images/sum" in modes and "tests/command_lines/data/images/good" not in modes
        assert ("bin/vecmon.wasm" in modes and "bin/host.mjs" in modes) == (tag == "any")
        assert f"\nTarget: {'wasm32' if tag == 'any' else 'x86_64'}\n" in record and record.count("Target: ") == 1


def test_same_commit_and_programs_give_same_bytes(made: pathlib.Path, wheels: Mapping[str, pathlib.Path]) -> None:
    shutil.copytree(made / "clone", made / "another folder", dirs_exist_ok=True)
    command = 'umask 077; exec "another folder/tools/releasing/wheels" site second wasm32=node'
    ran = run(["sh", "-c", command], made, TZ="Asia/Tokyo")
    assert ran.returncode == 0, ran.stderr
    assert (made / "second" / wheels["any"].name).read_bytes() == wheels["any"].read_bytes()


def test_every_command_of_installed_wheel_works(installed: pathlib.Path, tmp_path: pathlib.Path) -> None:
    """Those of `vecmon-lab help`, without sources in C; vecmon-record; and `from vecmon_lab import Kernel`."""
    path = f"{installed}:/usr/bin:/bin"
    ran = run([TOP / "packaging/try_commands"], tmp_path, PATH=path, PYTHON=str(installed / "python"))
    assert (ran.returncode, ran.stdout) == (0, "every command of vecmon-lab works\n"), ran.stderr


def test_installed_vecmon_is_command(installed: pathlib.Path, tmp_path: pathlib.Path) -> None:
    """It gets the arguments, and its status is that of the program."""
    script, answers = first_script()
    (tmp_path / "script").write_text(script)
    ran = run([installed / "vecmon", "script"], tmp_path)
    assert (ran.returncode, ran.stdout) == (0, answers), ran.stderr
    ran = run([installed / "vecmon", "none"], tmp_path)
    assert (ran.returncode, ran.stdout) == (3, "") and ran.stderr.count("\n") == 1


def test_check_names_no_apt(installed: pathlib.Path, tmp_path: pathlib.Path) -> None:
    """The user of a Python package may have another system than Debian."""
    ran = run([installed / "python", "-m", "vecmon_lab", "check"], tmp_path, PATH=str(tmp_path), CODEMIRROR="/nowhere")
    advice = "with the package manager of your system, since pip doesn't have them"
    assert ran.returncode == 0 and "apt" not in ran.stdout, ran.stdout
    assert f"CodeMirror for class and explore: not installed: install libjs-codemirror {advice}\n" in ran.stdout
    assert f"gdb for gdb: not installed: install gdb-multiarch {advice}\n" in ran.stdout
    code = "from vecmon_lab.compilers.compiler import COMPILERS_ADVICE; print(COMPILERS_ADVICE)"
    assert run([installed / "python", "-c", code], tmp_path).stdout == f"install clang-19 lld-19 bubblewrap {advice}\n"


def test_missing_library_names_pip(installed: pathlib.Path, tmp_path: pathlib.Path) -> None:
    """Debian's command isn't what installs it into a virtual environment."""
    (tmp_path / "sitecustomize.py").write_text("import sys\nsys.modules['elftools'] = None\n")
    shutil.copy(TOP / "tests/command_lines/data/images/sum", tmp_path)
    ran = run([installed / "vecmon-lab", "profile", "sum"], tmp_path, PYTHONPATH=str(tmp_path))
    reason = "vecmon-lab: this needs the Python library pyelftools: `python3 -m pip install pyelftools`\n"
    assert (ran.returncode, ran.stderr) == (2, reason)


@pytest.mark.parametrize(
    "words, reason",
    [
        (["site", "new"], "usage: tools/releasing/wheels SITE OUT TARGET=FOLDER..."),
        (["site", "new", "arm=native"], "arm=native isn't TARGET=FOLDER with x86_64, aarch64, riscv64 or wasm32"),
        (["site", "new", "x86_64=site"], "site has no vecmon and vecmon-record"),
        (["native", "new", "x86_64=native"], "native is no built site: run tools/site"),
        (["site", "site", "x86_64=native"], "site exists: name a new folder"),
    ],
)
def test_wrong_arguments_are_refused(made: pathlib.Path, words: Sequence[str], reason: str) -> None:
    ran = run(["clone/tools/releasing/wheels", *words], made)
    assert ran.returncode == 2 and ran.stdout == "" and not (made / "new").exists()
    assert (
        ran.stderr.startswith("tools/releasing/wheels: ")
        and ran.stderr.endswith(f"{reason}\n")
        and ran.stderr.count("\n") == 1
    )


def test_uncommitted_changes_are_refused(made: pathlib.Path) -> None:
    changed = made / "changed"
    shutil.copytree(made / "clone", changed, dirs_exist_ok=True)
    with (changed / "pyproject.toml").open("a") as file:
        file.write("\n")
    ran = run([changed / "tools/releasing/wheels", "site", "new", "x86_64=native"], made)
    assert (ran.returncode, ran.stderr) == (2, "tools/releasing/wheels: there are changes that aren't committed\n")

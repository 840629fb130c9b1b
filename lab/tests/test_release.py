"""tools/release collects what other tools make, and refuses what can't be published; the page of a release says what each file is for.

Stand-ins for the other tools take no time: each writes files with the names that the real one's have.
"""

import hashlib
import pathlib
import shutil
import subprocess
import sys
import zipfile
from collections.abc import Sequence

import pytest

from support.places import TOP

FILES = (
    "PROVENANCE",
    "playground.html",
    "vecmon-2.0.0+9.g1-book.zip",
    "vecmon-2.0.0+9.g1-linux-amd64-static.tar.gz",
    "vecmon-2.0.0+9.g1-linux-amd64.tar.gz",
    "vecmon-2.0.0+9.g1-linux-arm64.tar.gz",
    "vecmon-2.0.0+9.g1-linux-riscv64.tar.gz",
    "vecmon-2.0.0+9.g1-site.zip",
    "vecmon-2.0.0+9.g1-windows-amd64.zip",
    "vecmon-doc_2.0.0+9.g1_all.deb",
    "vecmon-lab_2.0.0+9.g1_all.deb",
    "vecmon_2.0.0+9.g1.dsc",
    "vecmon_2.0.0+9.g1.tar.xz",
    "vecmon_2.0.0+9.g1_amd64.deb",
    "vecmon_2.0.0+9.g1_arm64.deb",
    "vecmon_2.0.0+9.g1_riscv64.deb",
    "vecmon_lab-2.0.0-py3-none-any.whl",
    "vecmon_lab-2.0.0-py3-none-manylinux_2_17_aarch64.musllinux_1_1_aarch64.whl",
    "vecmon_lab-2.0.0-py3-none-manylinux_2_17_x86_64.musllinux_1_1_x86_64.whl",
    "vecmon_lab-2.0.0-py3-none-manylinux_2_31_riscv64.whl",
    "vecmon_lab-2.0.0-py3-none-manylinux_2_34_x86_64.whl",
)
GIT = ("git", "-c", "user.name=a", "-c", "user.email=a@example.com")


def run(command: Sequence[object], folder: pathlib.Path) -> subprocess.CompletedProcess[str]:
    """Runs a command in a folder."""
    words = [str(word) for word in command]
    return subprocess.run(words, cwd=folder, stdin=subprocess.DEVNULL, capture_output=True, text=True)


@pytest.fixture
def clone(tmp_path: pathlib.Path) -> pathlib.Path:
    """A clone with tools/release, and a tool that knows no proof of its sources."""
    folder = tmp_path / "clone"
    (folder / "tools").mkdir(parents=True)
    shutil.copy2(TOP / "tools/release", folder / "tools")
    digest = folder / "tools/building/source_digest"
    digest.parent.mkdir()
    digest.write_text("#!/bin/sh\n[ $# -eq 0 ] && echo 0 || exit 1\n")
    digest.chmod(0o755)
    for words in (["init", "-q"], ["add", "."], ["commit", "-q", "-m", "a"]):
        subprocess.run([*GIT, *words], cwd=folder, check=True)
    return folder


@pytest.mark.parametrize(
    "words, reason",
    [
        ([], "usage: tools/release [--log LOG] [--key KEY] [--unproved FOLDER] DIR"),
        (["--quick", "yes", "new"], "usage: tools/release [--log LOG] [--key KEY] [--unproved FOLDER] DIR"),
        (["clone"], "clone isn't empty: name a new folder"),
        (["new"], "the programs in crates/*/out aren't proved from these sources: run tools/test"),
        (
            ["--unproved", "modules", "--key", "nobody@example.invalid", "new"],
            "gpg has no secret key nobody@example.invalid",
        ),
    ],
)
def test_release_is_refused(clone: pathlib.Path, words: Sequence[str], reason: str) -> None:
    ran = run([clone / "tools/release", *words], clone.parent)
    assert (ran.returncode, ran.stdout, ran.stderr.count("\n")) == (2, "", 1)
    assert ran.stderr.startswith("tools/release: ") and ran.stderr.endswith(f"{reason}\n")
    assert not (clone.parent / "new").exists()


def test_missing_log_is_refused(clone: pathlib.Path) -> None:
    (clone / "tools/building/source_digest").write_text("#!/bin/sh\n")
    subprocess.run([*GIT, "commit", "-q", "-a", "-m", "a"], cwd=clone, check=True)
    ran = run([clone / "tools/release", "new"], clone.parent)
    reason = "tools/release: crates/vecmon/out/gate not found: run tools/test, or name its output with --log\n"
    assert (ran.returncode, ran.stderr) == (2, reason)


def test_log_of_failed_gate_is_refused_first(proved: pathlib.Path) -> None:
    """No program is built for it."""
    (proved / "crates/vecmon/out/gate").write_text("4 passed, 1 failed\n")
    ran = run([proved / "tools/release", "new"], proved.parent)
    reason = "crates/vecmon/out/gate doesn't end with 'N passed, 0 failed': run tools/test"
    assert (ran.returncode, ran.stderr) == (2, f"tools/release: {reason}\n") and not (proved.parent / "new").exists()


def test_changed_tree_is_refused(clone: pathlib.Path) -> None:
    (clone / "tools/building/source_digest").write_text("")
    ran = run([clone / "tools/release", "new"], clone.parent)
    assert (ran.returncode, ran.stderr) == (2, "tools/release: there are changes that aren't committed\n")


def test_file_that_is_not_committed_is_refused(clone: pathlib.Path) -> None:
    """The site would have it, and the packages wouldn't."""
    (clone / "lab").mkdir()
    (clone / "lab/new.s").write_text("")
    ran = run([clone / "tools/release", "new"], clone.parent)
    reason = "tools/release: lab/new.s isn't committed: commit it, or remove it\n"
    assert (ran.returncode, ran.stderr) == (2, reason) and not (clone.parent / "new").exists()


STAND_INS = {
    "building/debian_packages": "",
    "documents/figures": """
        [ $out = --exact ]""",
    "building/programs": """
        target=$2 out=$3
        mkdir -p $out
        case $target in
            windows) touch $out/vecmon.exe $out/vecmon-record.exe ;;
            *) touch $out/vecmon $out/vecmon-record ;;
        esac
        echo "Target: $target." > $out/PROVENANCE""",
    "site": """
        [ -f "$VECMON" ] && [ -f $2/PROVENANCE ] && mkdir -p $3/book && echo play > $3/playground.html
        echo site > $3/index.html
        echo book > $3/book/index.html""",
    "package": """
        [ -f $site/index.html ] && [ $2 = LOG ] && shift 2
        mkdir -p $out tree/DEBIAN tree/usr/share/doc/vecmon tree/usr/share/vecmon
        printf 'Package: a\\nVersion: 1\\nArchitecture: amd64\\nMaintainer: a <a@example.com>\\nDescription: a\\n' > tree/DEBIAN/control
        echo notices > tree/usr/share/doc/vecmon/copyright
        echo "Gate: 5 passed, 0 failed" > tree/usr/share/vecmon/PROVENANCE
        for it in FILES; do echo "$it" > $out/$it; done
        dpkg-deb --root-owner-group --build tree $out/vecmon_2.0.0+9.g1_amd64.deb > told
        echo sums > $out/vecmon-2.0.0+9.g1.sha256""",
    "releasing/wheels": """
        out=$2
        mkdir $out
        for it in WHEELS; do echo "$it" > $out/$it; done
        shift 2
        [ $# -eq 5 ]""",
}
"""The tools that tools/release calls, as shell code. Folders that they make in the clone aren't files of the commit."""


@pytest.fixture
def proved(clone: pathlib.Path) -> pathlib.Path:
    """A clone with the stand-ins, and with proved programs and the last line of their gate."""
    packages = [name for name in FILES if name.startswith("vecmon") and not name.endswith((".whl", ".zip"))]
    wheels = [name for name in FILES if name.endswith(".whl")]
    unused = shutil.ignore_patterns("__pycache__")
    shutil.copytree(TOP / "tools/releasing", clone / "tools/releasing", ignore=unused)
    shutil.copy2(TOP / "tools/__init__.py", clone / "tools")
    for name, code in STAND_INS.items():
        code = code.replace("FILES", " ".join(packages)).replace("WHEELS", " ".join(wheels))
        code = code.replace("$2 = LOG", '"$(cat $2)" = "5 passed, 0 failed"')
        (clone / "tools" / name).parent.mkdir(exist_ok=True)
        (clone / "tools" / name).write_text(f"#!/bin/sh\nset -eu\nout=${{1-}}\n{code}\n")
        (clone / "tools" / name).chmod(0o755)
    (clone / "tools/building/source_digest").write_text("#!/bin/sh\n")
    for name in ("LICENSE-MIT", "LICENSE-APACHE", "docs/PROGRAM.md", "docs/COMMANDS.md", ".gitignore"):
        (clone / name).parent.mkdir(exist_ok=True)
        (clone / name).write_text(f"{name}\n")
    (clone / ".gitignore").write_text("__pycache__/\nout/\ntree/\ntold\n")
    for words in (["add", "."], ["commit", "-q", "-m", "a"]):
        subprocess.run([*GIT, *words], cwd=clone, check=True)
    for name in ("vecmon/out/vecmon", "vecmon_record/out/vecmon_record", "vecmon/out/gate"):
        (clone / "crates" / name).parent.mkdir(parents=True, exist_ok=True)
        (clone / "crates" / name).write_text("5 passed, 0 failed\n")
    return clone


def test_release_has_all_files_and_digests(proved: pathlib.Path) -> None:
    """Two releases of a commit are the same."""
    top = proved.parent
    for name in ("first", "second"):
        ran = run([proved / "tools/release", name], top)
        assert ran.returncode == 0, ran.stderr
        assert ran.stdout == (top / name / "SHA256SUMS").read_text()
    first = {path.name: path.read_bytes() for path in (top / "first").iterdir()}
    assert first == {path.name: path.read_bytes() for path in (top / "second").iterdir()}
    assert set(first) == {*FILES, "index.html", "SHA256SUMS"}
    sums = {name: digest for digest, _, name in (line.partition("  ") for line in ran.stdout.splitlines())}
    assert sums == {name: hashlib.sha256(first[name]).hexdigest() for name in set(first) - {"SHA256SUMS"}}
    record = first["PROVENANCE"].decode()
    assert record.startswith("Gate: 5 passed, 0 failed\n") and record.count("\nTarget: ") == 5
    assert "vecmon_2.0.0+9.g1_amd64.deb vecmon-2.0.0+9.g1-linux-amd64.tar.gz" in record
    assert "\nThe playground was made with these Debian packages:\n    libjs-codemirror " in record
    with zipfile.ZipFile(top / "first/vecmon-2.0.0+9.g1-windows-amd64.zip") as archive:
        names = {pathlib.PurePath(it.filename).name for it in archive.infolist() if not it.is_dir()}
        notices = archive.read("vecmon-2.0.0+9.g1-windows-amd64/copyright")
    assert {"vecmon.exe", "vecmon-record.exe", "PROVENANCE", "LICENSE-MIT"} <= names and notices == b"notices\n"
    assert first["playground.html"] == b"play\n"


def test_failed_step_is_one_line_and_writes_nothing(proved: pathlib.Path) -> None:
    """The messages of the steps come before it."""
    (proved / "tools/releasing/wheels").write_text("#!/bin/sh\necho tools/releasing/wheels: no pip >&2\nexit 2\n")
    subprocess.run([*GIT, "commit", "-q", "-a", "-m", "a"], cwd=proved, check=True)
    ran = run([proved / "tools/release", "new"], proved.parent)
    assert (ran.returncode, ran.stdout) == (2, "") and ran.stderr.endswith(
        "\ntools/release: tools/releasing/wheels: no pip\n"
    )
    assert not (proved.parent / "new").exists()


def test_inexact_figures_are_refused(proved: pathlib.Path) -> None:
    (proved / "tools/documents/figures").write_text("#!/bin/sh\necho docs/FIGURES.md:12: it has 14\nexit 1\n")
    subprocess.run([*GIT, "commit", "-q", "-a", "-m", "a"], cwd=proved, check=True)
    ran = run([proved / "tools/release", "new"], proved.parent)
    reason = "docs/FIGURES.md isn't exact: run tools/documents/figures --write, and commit it"
    assert (ran.returncode, ran.stdout, ran.stderr) == (2, "", f"tools/release: {reason}\n")


def write_page(folder: pathlib.Path, version: str = "2.0.0+9.g1", *options: str) -> subprocess.CompletedProcess[str]:
    """Writes the page of a release of a version."""
    return run([sys.executable, TOP / "tools/releasing/release_page", *options, folder, version], folder)


def test_page_names_each_file_once(tmp_path: pathlib.Path) -> None:
    for name in FILES:
        (tmp_path / name).write_text(name)
    assert write_page(tmp_path).returncode == 0
    page = (tmp_path / "index.html").read_text()
    assert [page.count(f'<td><a href="{name}">') for name in FILES] == [1] * len(FILES)
    assert page.index("playground.html") < page.index(".deb") < page.index("PROVENANCE")


def test_page_of_trial_calls_nothing_proved(tmp_path: pathlib.Path) -> None:
    for name in FILES:
        (tmp_path / name).write_text(name)
    assert write_page(tmp_path).returncode == 0
    assert "proved programs" in (tmp_path / "index.html").read_text()
    (tmp_path / "index.html").unlink()
    assert write_page(tmp_path, "2.0.0+9.g1~unproved").returncode == 0
    page = (tmp_path / "index.html").read_text().replace("2.0.0+9.g1~unproved", "")
    assert "UNPROVED" in page and "proved" not in page


def test_page_of_signed_release_shows_how_to_check_it(tmp_path: pathlib.Path) -> None:
    for name in FILES:
        (tmp_path / name).write_text(name)
    assert write_page(tmp_path).returncode == 0 and "gpg" not in (tmp_path / "index.html").read_text()
    (tmp_path / "index.html").unlink()
    assert write_page(tmp_path, "2.0.0+9.g1", "--signed").returncode == 0
    assert "<code>gpg --verify SHA256SUMS.asc SHA256SUMS</code>" in (tmp_path / "index.html").read_text()


def test_unknown_file_is_refused(tmp_path: pathlib.Path) -> None:
    for name in (*FILES, "core"):
        (tmp_path / name).write_text(name)
    ran = write_page(tmp_path)
    assert (ran.returncode, ran.stderr) == (1, "no use of core is known\n") and not (tmp_path / "index.html").exists()


def test_missing_file_is_refused(tmp_path: pathlib.Path) -> None:
    for name in FILES[1:]:
        (tmp_path / name).write_text(name)
    ran = write_page(tmp_path)
    assert (ran.returncode, ran.stderr) == (1, "there is no PROVENANCE\n") and not (tmp_path / "index.html").exists()


@pytest.mark.parametrize("words", [[], ["."], ["--help"], ["--signed", "."], [".", "2.0.0", "more"], ["none", "2.0.0"]])
def test_wrong_arguments_are_one_line(tmp_path: pathlib.Path, words: Sequence[str]) -> None:
    ran = run([sys.executable, TOP / "tools/releasing/release_page", *words], tmp_path)
    reason = "usage: tools/releasing/release_page [--signed] FOLDER VERSION\n"
    assert (ran.returncode, ran.stdout, ran.stderr.count("\n")) == (2, "", 1) and ran.stderr.endswith(reason)
    assert not (tmp_path / "index.html").exists()

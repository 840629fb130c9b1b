"""Root compiles others' sources as the user of `--as`: the choice of the user, the limits of the user's processes, and refusals."""

import asyncio
import json
import os
import pathlib
import pwd
import shutil
import tempfile
from collections.abc import Iterator

import pytest

from support.commands import Lab
from support.places import EXAMPLES
from vecmon_lab import LabError
from vecmon_lab.classes.server.builds import builds_by
from vecmon_lab.compilers import sandbox, sandbox_files
from vecmon_lab.compilers.account import OWN, Account, account_named
from vecmon_lab.compilers.compiler import Compiler
from vecmon_lab.compilers.failures import ToolError
from vecmon_lab.compilers.sandbox import StartedAsRoot, run_sandboxed, check_sandbox, check_start
from vecmon_lab.exercises.exercise import OURS

GREY = EXAMPLES / "kernels" / "grey.c"
SELF = """
import json, os
print(json.dumps([os.getuid(), os.getgid(), os.getgroups(), sorted(os.environ)]))
"""
STUB = """#!/bin/sh
echo "bwrap: $(id -u) $(id -g) $(id -G); $(env | cut -d= -f1 | sort | tr '\\n' ' '); $(cat {secret} 2>&1)" >&2
exit 1
"""
needs_root = pytest.mark.skipif(os.geteuid() != 0, reason="only root can become another user")


@pytest.fixture
def shared() -> Iterator[pathlib.Path]:
    """A folder that all users may enter."""
    folder = pathlib.Path(tempfile.mkdtemp())
    folder.chmod(0o755)
    yield folder
    shutil.rmtree(folder)


@pytest.mark.parametrize(
    "name, reason",
    [
        ("nosuch", "--as 'nosuch': there is no such user; "),
        ("", "--as '': there is no such user; "),
        ("0", "--as '0': there is no such user; "),
        ("no\0body", "there is no such user"),
        ("root", "--as root: others' sources aren't compiled as root; "),
    ],
)
def test_unsuitable_user_is_refused(name: str, reason: str) -> None:
    with pytest.raises(LabError) as caught:
        account_named(name)
    assert reason in f"{caught.value}" and "\n" not in f"{caught.value}"


def test_account_is_one_of_system(monkeypatch: pytest.MonkeyPatch) -> None:
    """Another name of user 0 is root's, too. Users other than root can name only themselves."""
    nobody = pwd.getpwnam("nobody")
    assert account_named(None) == OWN == Account(None, None)
    monkeypatch.setattr(os, "geteuid", lambda: 0)
    assert account_named("nobody") == Account(nobody.pw_uid, nobody.pw_gid)
    monkeypatch.setattr(os, "geteuid", lambda: nobody.pw_uid)
    assert account_named("nobody") == OWN
    with pytest.raises(LabError, match="^--as daemon: only root can compile as another user; "):
        account_named("daemon")
    monkeypatch.setattr(pwd, "getpwnam", lambda name: pwd.struct_passwd((name, "x", 0, 5, "", "/", "/bin/sh")))
    with pytest.raises(LabError, match="^--as toor: .* aren't compiled as root"):
        account_named("toor")


@needs_root
@pytest.mark.parametrize("name", ["nobody", "daemon"])
def test_sandbox_belongs_to_account(sandboxed_clang: Compiler, monkeypatch: pytest.MonkeyPatch, name: str) -> None:
    user = pwd.getpwnam(name)
    monkeypatch.setenv("SECRET", "1")
    monkeypatch.setattr(sandbox, "MODULE", ("-c", SELF))
    reply = run_sandboxed([sandboxed_clang.name, "0"], "", account_named(name))
    uid, gid, groups, variables = json.loads(reply)
    assert (uid, gid, {*groups} - {user.pw_gid}) == (user.pw_uid, user.pw_gid, set())
    assert {*variables} <= {"PATH", "PYTHONPATH", "LC_ALL", "PWD", "LC_CTYPE"}


@needs_root
def test_account_has_no_right_outside_of_sandbox(
    sandboxed_clang: Compiler, shared: pathlib.Path, monkeypatch: pytest.MonkeyPatch
) -> None:
    """A stub in place of bwrap runs as the user, with no group and no variable of root's, and can't read a class's files."""
    secret = shared / "monday" / "codes"
    secret.parent.mkdir(0o700)
    secret.write_text("teacher 7wq4cva9\n")
    (shared / "bwrap").write_text(STUB.format(secret=secret))
    (shared / "bwrap").chmod(0o755)
    monkeypatch.setenv("SECRET", "1")
    monkeypatch.setenv("PATH", f"{shared}:{os.environ['PATH']}")
    before, nobody = os.getgroups(), pwd.getpwnam("nobody")
    os.setgroups([0, 4])
    try:
        with pytest.raises(ToolError) as caught:
            check_start(sandboxed_clang, account_named("nobody"))
    finally:
        os.setgroups(before)
    identity, variables, content = f"{caught.value}".partition("bwrap: ")[2].split("; ", 2)
    assert identity == f"{nobody.pw_uid} {nobody.pw_gid} {nobody.pw_gid}"
    assert variables.split() == ["LC_ALL", "PATH", "PWD"] and content.startswith(f"cat: {secret}: Permission denied")


@needs_root
def test_account_needs_no_right_to_lab(
    sandboxed_clang: Compiler, tmp_path: pathlib.Path, monkeypatch: pytest.MonkeyPatch
) -> None:
    """The lab may be below /root: the sandbox then has copies of its files."""
    sandbox_files.copy_lab(tmp_path / "lab")
    tmp_path.chmod(0o700)
    monkeypatch.setattr(sandbox_files, "LAB", tmp_path / "lab")
    monkeypatch.setattr(sandbox, "LAB", tmp_path / "lab")
    sandbox_files.readable_lab.cache_clear()
    check_start(sandboxed_clang, account_named("nobody"))
    with monkeypatch.context() as patch:
        patch.setattr(sandbox, "readable_lab", lambda: tmp_path / "lab")
        with pytest.raises(ToolError, match="Permission denied"):
            check_start(sandboxed_clang, account_named("nobody"))


@needs_root
def test_sources_of_seats_are_compiled_as_account(sandboxed_clang: Compiler) -> None:
    builds = builds_by(sandboxed_clang.name, account=account_named("nobody"))
    program = asyncio.run(builds.compile("A1", GREY.read_text(), 0))
    assert not builds.no_c and not program.mistakes


@needs_root
def test_root_grades_as_account(lab: Lab, sandboxed_clang: Compiler) -> None:
    answer = OURS / "doubles" / "good.c"
    assert lab("grade", "doubles", answer, "--as", "nobody")[0] == 0
    status, _, errors = lab("grade", "doubles", answer, "--as", "nobody", "--no-sandbox")
    assert status == 2 and errors.endswith(": give one of them\n") and errors.count("\n") == 1


def test_root_is_told_of_account(lab: Lab, sandboxed_clang: Compiler, monkeypatch: pytest.MonkeyPatch) -> None:
    monkeypatch.setattr(os, "geteuid", lambda: 0)
    with pytest.raises(StartedAsRoot):
        check_sandbox()
    check_sandbox(Account(65534, 65534))
    status, _, errors = lab("explore", GREY)
    expected = "vecmon-lab: others' C isn't compiled as root: add `--as nobody`, or start this as another user\n"
    assert (status, errors) == (2, expected)
    commands: list[list[object]] = [["explore", GREY], ["class", "monday"], ["grade", "doubles", GREY]]
    for command in commands:
        status, _, errors = lab(*command, "--as", "root")
        assert status == 2 and errors.startswith("vecmon-lab: --as root: ") and errors.count("\n") == 1
    assert not pathlib.Path("monday").exists()

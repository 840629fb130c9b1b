"""tools/run: the program it takes, when it builds, the build in the background, interruptions, and each refusal.

A stand-in for the build takes no time: each step writes its input, and waits or fails if a file names the step."""

import fcntl
import os
import pathlib
import re
import shlex
import shutil
import signal
import subprocess
import sys
import time
from collections.abc import Callable, Iterator
from typing import IO

import pytest

from support.busy_host import PATIENCE
from support.places import TOP
from vecmon_lab import installation

BUILD = """\
import pathlib, sys, time
kind, source, out, *level = sys.argv[1:]
top = pathlib.Path(__file__).parents[2]
step = " ".join([kind.removeprefix("--"), pathlib.Path(source).stem, *level])
with (top / "builds").open("a") as builds:
    print(step, file=builds)
def names_step(file):
    return file.exists() and step in file.read_text().splitlines()
if names_step(top / "fail"):
    sys.exit("no module was made")
while names_step(top / "wait"):
    time.sleep(0.02)
made = pathlib.Path(out)
if kind == "--module":
    made.write_text(source)
else:
    made.write_text(f'#!/bin/sh\\n# {pathlib.Path(source).read_text()} {level}\\nexec PROGRAM "$@"\\n')
    made.chmod(0o755)
"""
FIRST = ["module vecmon", "compile vecmon -O0"]
SECOND = ["compile vecmon", "module vecmon_record"]  # side by side
ALL = sorted([*FIRST, *SECOND, "compile vecmon-record"])
RT = """\
#!/bin/sh
top=TOP
case $* in
    version) echo kit logic 0123 ;;
    doc) echo "$top/rattle/START-HERE.md" ;;
    *)
        echo "$* in $(basename "$PWD")" >> "$top/proofs"
        [ ! -e "$top/fail" ] || { echo "low: failed (1)"; exit 1; }
        [ "$1" != run ] || { mkdir -p out && cp PROGRAM "out/$(basename "$PWD")"; }
        ;;
esac
"""
SET_UP = """\
#!/bin/sh
cd "$(dirname "$0")/.." && echo set up >> builds
mkdir -p .venv/bin && printf '#!/bin/sh\\n' > .venv/bin/python && chmod 755 .venv/bin/python
echo "#!$PWD/.venv/bin/python" > .venv/bin/vecmon-lab && echo "ready: .venv/bin/vecmon-lab"
"""
Run = subprocess.CompletedProcess[str]


class Clone:
    """A folder with tools/run, small crates, and fakes of rt, lab/setup and the build."""

    def __init__(self, top: pathlib.Path, program: pathlib.Path) -> None:
        self.top, self.unproved, self.run_tool = top, top / "build" / "unproved", top / "tools" / "run"
        self.environment = {
            **os.environ,
            "PATH": f"{top}/rattle:{os.environ['PATH']}",
            "XDG_CACHE_HOME": f"{top}/cache",
        }
        self.write("rattle/rt", RT.replace("TOP", shlex.quote(str(top))).replace("PROGRAM", shlex.quote(str(program))))
        self.write("lab/setup", SET_UP)
        self.write("tools/building/debian_packages", "#!/bin/sh\n")
        self.write("tools/building/unproved_build", BUILD.replace("PROGRAM", str(program)))
        shutil.copy(TOP / "tools/run", self.run_tool)
        shutil.copy(TOP / "tools/__init__.py", top / "tools")
        commands = ("complete_build", "proved_build", "source_digest")
        for path in [*(TOP / "tools/building").glob("*.py"), *(TOP / "tools/building" / name for name in commands)]:
            shutil.copy(path, top / "tools/building")
        self.write("HANDLES", "Handles allowed: none.\n")
        self.write("crates.txt", "low: arrayvec\nvecmon: low # a comment\nvecmon_record: low\nother: low\n")
        for crate in ("low", "vecmon", "vecmon_record", "other"):
            self.write(f"crates/{crate}/src/lib.rt", f"fn {crate}() {{}}\n")
        shutil.copy(TOP / "crates" / "vecmon" / "first_vectors", top / "crates" / "vecmon")

    def write(self, name: str, text: str) -> pathlib.Path:
        """Writes an executable file."""
        file = self.top / name
        file.parent.mkdir(parents=True, exist_ok=True)
        file.write_text(text)
        file.chmod(0o755)
        return file

    def run(self, *arguments: object, path: str | None = None, cwd: pathlib.Path | None = None) -> Run:
        """Runs tools/run to its end."""
        environment = {**self.environment, "PATH": path or self.environment["PATH"]}
        command = [str(self.run_tool), *map(str, arguments)]
        return subprocess.run(command, env=environment, cwd=cwd or self.top.parent, capture_output=True, text=True)

    def complete(self, *arguments: object, cwd: pathlib.Path | None = None) -> Run:
        """Runs tools/run to its end, and waits for its build in the background."""
        ran = self.run(*arguments, cwd=cwd)
        self.wait_for_background()
        return ran

    def start(self, *arguments: str, errors: IO[str] | int = subprocess.PIPE) -> subprocess.Popen[str]:
        """Starts tools/run in a process group of its own."""
        reset = ["env", "--default-signal=HUP,INT,TERM"]  # nohup lets children ignore SIGHUP
        return subprocess.Popen(
            [*reset, self.run_tool, *arguments],
            env=self.environment,
            stdin=subprocess.PIPE,
            stdout=subprocess.PIPE,
            stderr=errors,
            text=True,
            start_new_session=True,
        )

    def hold(self, *steps: str) -> None:
        """Lets these steps of a build wait, and no others."""
        new = self.top / "wait.new"
        new.write_text("".join(f"{step}\n" for step in steps))
        new.replace(self.top / "wait")

    def fail(self, *steps: str) -> None:
        """Lets these steps of a build fail, and no others."""
        (self.top / "fail").write_text("".join(f"{step}\n" for step in steps))

    def wait_for_step(self, *steps: str) -> None:
        """Waits until these steps have started."""
        until(lambda: set(steps) <= set(self.builds()))

    def wait_for_background(self) -> None:
        """Waits until no start builds, and nothing is built in the background."""
        until(self.is_idle)

    def is_idle(self) -> bool:
        """Returns whether the lock of builds is free."""
        if not (self.unproved / "lock").exists():
            return True
        with (self.unproved / "lock").open("rb") as lock:
            try:
                fcntl.flock(lock, fcntl.LOCK_SH | fcntl.LOCK_NB)
            except BlockingIOError:
                return False
        return True

    def digest(self, *arguments: str) -> Run:
        """Runs tools/building/source_digest."""
        command = [str(self.top / "tools/building/source_digest"), *arguments]
        return subprocess.run(command, env=self.environment, capture_output=True, text=True)

    def builds(self) -> list[str]:
        """The steps of builds so far, sorted."""
        log = self.top / "builds"
        return sorted(line for line in log.read_text().splitlines() if line != "set up") if log.exists() else []

    def proofs(self) -> list[str]:
        """The calls of rt that prove or build so far."""
        log = self.top / "proofs"
        return log.read_text().splitlines() if log.exists() else []

    def folders(self) -> list[str]:
        """The folders of programs."""
        return sorted(path.name for path in self.unproved.iterdir() if path.is_dir() and path not in self.rooms())

    def rooms(self) -> list[pathlib.Path]:
        """The folders of builds that run, or were killed."""
        return list(self.unproved.glob("new.*"))

    def programs(self) -> dict[str, str]:
        """Return the crate and the level of optimization from which each program in the only folder was built."""
        (folder,) = self.folders()
        return {path.name: path.read_text().split("\n")[1] for path in (self.unproved / folder).iterdir()}


OPTIMIZED = {"vecmon": "# vecmon []", "vecmon-record": "# vecmon_record []"}


@pytest.fixture
def clone(tmp_path: pathlib.Path, program: pathlib.Path) -> Iterator[Clone]:
    """A clone in a folder with a space in its name. No build is left at the end."""
    made = Clone(tmp_path / "a clone", program)
    yield made
    made.hold()
    until(lambda: not running_builds(made))
    assert not made.rooms()


def until(holds: Callable[[], object]) -> None:
    """Waits until something holds, but not for ever."""
    end = time.monotonic() + PATIENCE
    while not holds():
        assert time.monotonic() < end
        time.sleep(0.02)


def running_builds(clone: Clone) -> list[int]:
    """The processes that build in this clone, in the background or for a start."""
    found = []
    for file in pathlib.Path("/proc").glob("[0-9]*/cmdline"):
        try:
            text = file.read_bytes().decode("utf-8", "replace")
        except OSError:
            continue  # it has ended
        if f"{clone.unproved}/new." in text:
            found.append(int(file.parent.name))
    return found


def test_proved_programs_are_built_and_recorded(clone: Clone) -> None:
    """Only the crates below both programs, in a copy; the second start proves nothing."""
    answers = installation.first_script()[1]
    first = clone.run("--proved")
    assert (first.returncode, first.stdout) == (0, answers), first.stderr
    proof, *builds = clone.proofs()
    assert re.fullmatch(r"all check --jobs [1-9]\d* in crates", proof)
    assert builds == ["run -- --help in vecmon", "run -- --help in vecmon_record"]
    built = f"tools/run: built with proofs: {clone.top}/crates/vecmon/out/vecmon\n"
    assert built in first.stderr and clone.builds() == []
    (copy,) = (clone.top / "cache" / "vecmon" / "kit-logic-0123" / "proved").iterdir()
    assert sorted(path.name for path in (copy / "crates").iterdir()) == ["low", "vecmon", "vecmon_record"]
    assert (copy / "crates.txt").read_text() == "low: arrayvec\nvecmon: low # a comment\nvecmon_record: low\n"
    for words in (list[str](), ["--proved"]):
        again = clone.run(*words)
        assert (again.returncode, again.stdout, again.stderr) == (0, answers, built)
    assert len(clone.proofs()) == 3


def test_a_changed_source_is_proved_again(clone: Clone) -> None:
    assert clone.run("--proved").returncode == 0
    (clone.top / "crates" / "low" / "src" / "lib.rt").write_text("fn lower() {}\n")
    (clone.top / "crates" / "low" / "src" / "more.rt").write_text("fn more() {}\n")
    assert clone.run("--proved").returncode == 0
    assert len(clone.proofs()) == 6
    (copy,) = (clone.top / "cache" / "vecmon" / "kit-logic-0123" / "proved").iterdir()
    texts = [path.read_text() for path in sorted((copy / "crates" / "low" / "src").iterdir())]
    assert texts == ["fn lower() {}\n", "fn more() {}\n"]


def test_a_failed_proof_builds_and_records_nothing(clone: Clone) -> None:
    (clone.top / "fail").touch()
    ran = clone.run("--proved")
    assert (ran.returncode, ran.stdout) == (2, "")
    assert ran.stderr.endswith("low: failed (1)\ntools/run: the proof failed: see the lines above\n")
    assert len(clone.proofs()) == 1 and not (clone.top / "crates" / "vecmon" / "out").exists()


@pytest.mark.parametrize(
    ("words", "message"),
    [(["lower"], "crates.txt has no crate lower"), (["--jobs", "0"], "--jobs takes a number above 0")],
)
def test_bad_arguments_of_proved_build(clone: Clone, words: list[str], message: str) -> None:
    command = [sys.executable, str(clone.top / "tools/building/proved_build"), *words]
    ran = subprocess.run(command, env=clone.environment, capture_output=True, text=True)
    assert ran.returncode == 2 and ran.stderr.endswith(f"error: {message}\n") and clone.proofs() == []


def test_one_crate_alone(clone: Clone) -> None:
    command = [sys.executable, str(clone.top / "tools/building/proved_build"), "--jobs", "7", "other"]
    subprocess.run(command, env=clone.environment, check=True)
    assert clone.proofs() == ["all check --jobs 7 in crates"]
    (copy,) = (clone.top / "cache" / "vecmon" / "kit-logic-0123" / "proved").iterdir()
    assert sorted(path.name for path in (copy / "crates").iterdir()) == ["low", "other"]


def test_first_answer_comes_before_the_second_program(clone: Clone) -> None:
    """A start during the build in the background takes the first program, and builds nothing."""
    answers = installation.first_script()[1]
    clone.hold(*SECOND)
    first = clone.run()
    assert (first.returncode, first.stdout) == (0, answers)
    clone.wait_for_step(*SECOND)
    assert clone.builds() == sorted([*FIRST, *SECOND]) and clone.programs() == {"vecmon": "# vecmon ['-O0']"}
    (folder,) = clone.folders()
    assert (clone.unproved / "current").read_text() == f"{folder}\n" and clone.digest().stdout.startswith(folder)
    built = f"tools/run: built without proofs: {clone.unproved}/{folder}/vecmon\n"
    # the set-up runs next to the build: either may say its line first
    assert (
        "ready: .venv/bin/vecmon-lab\n" in first.stderr and "tools/run: building vecmon without proofs" in first.stderr
    )
    assert f"vecmon-record in the background; the log is {clone.unproved}/log\n{built}" in first.stderr
    meanwhile = clone.run()
    assert (meanwhile.returncode, meanwhile.stdout) == (0, answers)
    still = f"still being built in the background; the log is {clone.unproved}/log\n"
    assert meanwhile.stderr.count("\n") == 2 and meanwhile.stderr.endswith(f"{still}{built}")
    clone.hold()
    clone.wait_for_background()
    assert clone.builds() == ALL and clone.programs() == OPTIMIZED and clone.folders() == [folder]
    last = clone.run()
    assert (last.returncode, last.stdout, last.stderr) == (0, answers, built)
    assert clone.builds() == ALL and (clone.top / "builds").read_text().count("set up\n") == 1
    assert re.fullmatch(r"built in \d+ s\n", (clone.unproved / "log").read_text())


def test_commands_of_the_environment(clone: Clone) -> None:
    """.venv/bin/vecmon starts the first program and then the optimized one; vecmon-record says that it isn't built yet."""
    clone.hold(*SECOND)
    clone.run()
    program, recorder = (clone.top / ".venv" / "bin" / name for name in ("vecmon", "vecmon-record"))
    script = clone.top / "crates" / "vecmon" / "first_vectors"
    for status, error in (
        (2, "vecmon-record: not built yet: tools/run reports the state of its build\n"),
        (0, ""),
    ):
        ran = subprocess.run([program, script], capture_output=True, text=True)
        assert (ran.stdout, ran.stderr) == (installation.first_script()[1], "")
        ran = subprocess.run([recorder, script], capture_output=True, text=True)
        assert (ran.returncode, ran.stderr) == (status, error)
        clone.hold()
        clone.wait_for_background()


def test_first_start_names_the_next_commands(clone: Clone) -> None:
    """Behind the output of the first start without arguments: with a path that works in the current folder."""
    here = clone.complete(cwd=clone.top)
    assert here.stderr.splitlines()[-1].startswith("tools/run: next: .venv/bin/vecmon-lab explore ")
    assert " .venv/bin/vecmon-lab tour " in here.stderr and "next:" not in clone.run().stderr


@pytest.mark.parametrize("arguments, lines", [([], 1), (["crates/vecmon/first_vectors"], 0)])
def test_next_commands_elsewhere(clone: Clone, arguments: list[str], lines: int) -> None:
    ran = clone.complete(*(clone.top / name for name in arguments))
    assert ran.stderr.count("next:") == ran.stderr.count(f"next: {clone.top}/.venv/bin/vecmon-lab explore") == lines


def test_wait_for_both_programs(clone: Clone) -> None:
    ran = clone.run("--wait")
    assert (ran.returncode, ran.stdout) == (0, installation.first_script()[1])
    assert clone.programs() == OPTIMIZED and clone.builds() == ALL and not running_builds(clone)


def test_wait_for_a_build_of_another_start(clone: Clone) -> None:
    clone.hold(*SECOND)
    clone.run()
    process = clone.start("--wait")
    assert process.stderr and "waiting for another tools/run" in process.stderr.readline()
    clone.hold()
    assert process.communicate(timeout=PATIENCE)[0] == installation.first_script()[1]
    assert process.returncode == 0 and clone.programs() == OPTIMIZED and clone.builds() == ALL


def test_sources_select_program(clone: Clone) -> None:
    clone.complete()
    first = clone.folders()
    clone.write("crates/other/src/lib.rt", "fn elsewhere() {}\n")  # neither program is built from it
    clone.run()
    assert clone.folders() == first and clone.builds() == ALL
    source = clone.top / "crates" / "low" / "src" / "lib.rt"
    before = source.read_text()
    source.write_text("fn changed() {}\n")
    clone.complete()
    assert len(clone.folders()) == 2 and clone.builds() == sorted(ALL * 2)
    source.write_text(before)
    clone.complete()
    assert clone.builds() == sorted(ALL * 2) and [(clone.unproved / "current").read_text().strip()] == first


@pytest.mark.parametrize(
    "name, text",
    [
        ("rattle/rt", "#!/bin/sh\necho kit logic 4567\n"),
        ("crates.txt", "low: hex\nvecmon: low\nvecmon_record: low\n"),
        ("crates/vecmon/proofs/new.antt", "new\n"),
        ("tools/building/unproved_build.py", "pass\n"),
        ("tools/building/linked_kit.py", "pass\n"),
        ("tools/building/front_end.py", "pass\n"),
    ],
)
def test_digest_follows_sources(clone: Clone, name: str, text: str) -> None:
    before = clone.digest().stdout
    assert len(before) == 65 and clone.digest().stdout == before
    clone.write("crates/low/out/made", "made\n")
    clone.write("crates/low/must-fail/wrong.edit", "file: src/lib.rt\n")
    assert clone.digest().stdout == before
    clone.write(name, text)
    assert len(clone.digest().stdout) == 65 and clone.digest().stdout != before


def prove(clone: Clone, program: pathlib.Path) -> None:
    """Puts programs where rt puts proved ones."""
    for crate in ("vecmon", "vecmon_record"):
        clone.write(f"crates/{crate}/out/{crate}", f'#!/bin/sh\nexec "{program}" "$@"\n')


def test_proved_program_is_preferred(clone: Clone, program: pathlib.Path) -> None:
    prove(clone, program)
    proved = f"tools/run: built with proofs: {clone.top}/crates/vecmon/out/vecmon\n"
    digest = clone.digest().stdout.strip()
    assert clone.digest("proved", digest).returncode == 1
    assert clone.digest("record", digest).returncode == 0 and clone.digest("proved", digest).returncode == 0
    assert f"ready: .venv/bin/vecmon-lab\n{proved}" in clone.run().stderr and clone.builds() == []
    assert '/crates/vecmon/out/vecmon "$@"\n' in (clone.top / ".venv" / "bin" / "vecmon").read_text()
    source = clone.top / "crates" / "low" / "src" / "lib.rt"
    before = source.read_text()
    source.write_text("fn changed() {}\n")
    output = clone.run().stderr
    assert "tools/run: built without proofs: " in output and "isn't recorded as proved from these sources" in output
    source.write_text(before)
    assert clone.run().stderr == proved
    (clone.top / "crates" / "vecmon_record" / "out" / "vecmon_record").write_text("another program")
    assert "tools/run: built without proofs: " in clone.run().stderr


def test_program_without_record_is_ignored(clone: Clone, program: pathlib.Path) -> None:
    prove(clone, program)
    assert "tools/run: built without proofs: " in clone.run().stderr
    reply = clone.digest("record", "0" * 64)
    assert (reply.returncode, reply.stderr.count("\n")) == (1, 1) and "the sources have changed" in reply.stderr
    assert clone.digest("dance").returncode == 2


@pytest.mark.parametrize(
    "step, number, status",
    [(FIRST[0], signal.SIGHUP, 129), (FIRST[1], signal.SIGINT, 130), (FIRST[0], signal.SIGTERM, 143)],
)
def test_interrupted_first_build_is_repeated(clone: Clone, step: str, number: int, status: int) -> None:
    clone.hold(step)
    process = clone.start()
    clone.wait_for_step(step)
    os.killpg(process.pid, number)
    process.communicate(timeout=PATIENCE)
    assert process.returncode == status
    until(lambda: not running_builds(clone))
    assert clone.folders() == [] and not (clone.unproved / "current").exists()
    clone.hold()
    assert clone.complete().returncode == 0 and clone.programs() == OPTIMIZED


def test_killed_first_build_is_repeated(clone: Clone) -> None:
    clone.hold(FIRST[1])
    process = clone.start()
    clone.wait_for_step(FIRST[1])
    process.kill()
    process.communicate(timeout=PATIENCE)
    assert len(clone.rooms()) == 1 and clone.folders() == []
    clone.hold()
    until(lambda: not running_builds(clone))
    assert clone.complete().returncode == 0 and clone.programs() == OPTIMIZED
    assert clone.folders() == [(clone.unproved / "current").read_text().strip()]


@pytest.mark.parametrize(
    "step, number",
    [(SECOND[0], signal.SIGTERM), (SECOND[1], signal.SIGKILL), (ALL[2], signal.SIGTERM)],
)
def test_interrupted_background_build_is_repeated(clone: Clone, step: str, number: int) -> None:
    """Not as a failure: the next start runs the first program at once, and builds the rest."""
    clone.hold(step)
    clone.run()
    clone.wait_for_step(step)
    group = int((clone.unproved / "background").read_text().split()[0])
    os.kill(group, number)
    if number == signal.SIGKILL:
        until(lambda: not pathlib.Path(f"/proc/{group}").exists())
        clone.hold()  # the steps that it started go on
    until(lambda: not running_builds(clone))
    assert clone.programs() == {"vecmon": "# vecmon ['-O0']"}
    clone.hold(*SECOND)
    again = clone.run()
    assert (again.returncode, again.stdout) == (0, installation.first_script()[1])
    assert "background failed" not in again.stderr
    assert "building the optimized vecmon and vecmon-record in the background" in again.stderr
    clone.hold()
    clone.wait_for_background()
    assert clone.programs() == OPTIMIZED and len(clone.folders()) == 1


def test_interrupted_script_leaves_the_background_build(clone: Clone) -> None:
    """Ctrl C while the script runs, and a terminal that is closed, end only the script."""
    clone.hold(*SECOND)
    for number in (signal.SIGINT, signal.SIGHUP):
        process = clone.start("/dev/stdin")
        assert process.stdin and process.stdout
        process.stdin.write("1 enter\n")
        process.stdin.flush()
        assert process.stdout.readline()
        clone.wait_for_step(*SECOND)
        os.killpg(process.pid, number)
        process.communicate(timeout=PATIENCE)
        assert process.returncode == -number and running_builds(clone)
    clone.hold()
    clone.wait_for_background()
    assert clone.programs() == OPTIMIZED and clone.builds() == ALL


def test_failed_background_build_is_reported_at_the_next_start(clone: Clone) -> None:
    clone.fail("compile vecmon-record")
    first = clone.complete()
    assert first.returncode == 0 and "background failed" not in first.stderr
    assert clone.programs()["vecmon"] == "# vecmon ['-O0']" and not (clone.unproved / "background").exists()
    clone.fail()
    second = clone.complete()
    assert (second.returncode, second.stdout) == (0, installation.first_script()[1])
    assert second.stderr.startswith(
        "tools/run: the last build in the background failed, and starts again:\nno module was made\n"
    )
    assert clone.programs() == OPTIMIZED and clone.run().stderr.startswith("tools/run: built without proofs: ")


def test_failed_build_is_reported_to_who_waits(clone: Clone) -> None:
    clone.fail("module vecmon_record")
    ran = clone.run("--wait")
    assert (ran.returncode, ran.stdout) == (2, "")
    message = "no module was made\ntools/run: the build in the background failed: see the lines above\n"
    assert ran.stderr.endswith(message)


def test_background_build_of_other_sources_is_ended(clone: Clone) -> None:
    clone.hold(*SECOND)
    clone.run()
    clone.wait_for_step(*SECOND)
    old = running_builds(clone)
    clone.write("crates/low/src/lib.rt", "fn changed() {}\n")
    ran = clone.run()
    assert (ran.returncode, ran.stdout) == (0, installation.first_script()[1])
    assert "tools/run: ending the background build of other sources\n" in ran.stderr
    assert not set(old) & set(running_builds(clone)) and len(clone.folders()) == 2
    clone.hold()
    clone.wait_for_background()
    current = clone.unproved / (clone.unproved / "current").read_text().strip()
    assert sorted(path.name for path in current.iterdir()) == ["vecmon", "vecmon-record"]


def test_folder_without_a_whole_program_is_replaced(clone: Clone) -> None:
    """As after a power cut, or where a file was deleted."""
    assert clone.complete().returncode == 0
    (name,) = clone.folders()
    recorder, program = (clone.unproved / name / each for each in ("vecmon-record", "vecmon"))
    recorder.unlink()
    assert clone.complete().returncode == 0 and clone.programs() == OPTIMIZED
    assert clone.builds() == sorted([*ALL, *SECOND, "module vecmon", "compile vecmon-record"])
    program.write_bytes(b"")
    ran = clone.complete()
    assert (ran.returncode, ran.stdout) == (0, installation.first_script()[1]) and clone.folders() == [name]
    assert clone.programs() == OPTIMIZED


def test_concurrent_starts_build_once(clone: Clone, tmp_path: pathlib.Path) -> None:
    """One of them, whichever is later, waits until the other one has built the first program."""
    clone.hold("module vecmon")
    files = [tmp_path / name for name in ("one", "other")]
    with files[0].open("w") as one, files[1].open("w") as other:
        processes = [clone.start(errors=one), clone.start(errors=other)]
    until(lambda: any("waiting for another tools/run" in file.read_text() for file in files))
    clone.hold()
    ended = [process.communicate(timeout=PATIENCE) for process in processes]
    assert [process.returncode for process in processes] == [0, 0]
    assert [output for output, _ in ended] == [installation.first_script()[1]] * 2
    clone.wait_for_background()
    assert clone.builds() == ALL and clone.programs() == OPTIMIZED
    assert sum("waiting for another tools/run" in file.read_text() for file in files) == 1


def test_script_and_images_are_passed_on(clone: Clone, program: pathlib.Path, tmp_path: pathlib.Path) -> None:
    (tmp_path / "script").write_text("1 enter\n1 list\n")
    (tmp_path / "image").write_bytes(b"no image")
    clone.complete()
    for words in (
        ["script"],
        ["script", "a=image"],
        ["nowhere"],
        ["script", "a=nowhere"],
        ["--quantum", "0", "script"],
    ):
        direct = subprocess.run([program, *words], cwd=tmp_path, capture_output=True, text=True)
        completed = clone.run(*words, cwd=tmp_path)
        assert (completed.returncode, completed.stdout) == (direct.returncode, direct.stdout)
        assert completed.stderr.endswith(f"/vecmon\n{direct.stderr}")
    assert completed.returncode == 2


def test_missing_rt_is_reported(clone: Clone) -> None:
    completed = clone.run(path="/usr/bin:/bin")
    assert (completed.returncode, completed.stdout, completed.stderr.count("\n")) == (2, "", 1)
    assert (
        "rt not found: install the Rattle kit" in completed.stderr
        and "install the vecmon package instead" in completed.stderr
    )
    assert not clone.unproved.exists()


def test_missing_packages_are_reported(clone: Clone) -> None:
    for name in ("lab/setup", "tools/building/debian_packages"):
        shutil.copy(TOP / name, clone.top / name)
    clone.write("rattle/id", "#!/bin/sh\necho 1000\n")
    clone.write("rattle/sudo", "#!/bin/sh\nexit 1\n")
    clone.write("rattle/dpkg-query", "#!/bin/sh\nprintf 'python3:ii \\npython3-pip:rc \\npython3-wheel:ii \\n'\n")
    completed = clone.run()
    packages = "python3-pip python3-setuptools python3-aiohttp python3-prompt-toolkit python3-pyelftools python3-segno libjs-codemirror"
    command = f"apt-get update && apt-get install --no-install-recommends {packages}"
    expected = f"tools/building/debian_packages: missing packages; as root, run: {command}\n"
    assert (completed.returncode, completed.stdout, completed.stderr) == (2, "", expected)
    assert clone.builds() == []


def test_the_lab_is_set_up_during_the_first_build(clone: Clone) -> None:
    clone.write("lab/setup", SET_UP + "while [ ! -e go ]; do sleep 0.02; done\n")
    process = clone.start()
    clone.wait_for_step(*FIRST)
    until(clone.folders)
    assert process.poll() is None
    clone.write("go", "")
    assert process.communicate(timeout=PATIENCE)[0] == installation.first_script()[1]


def test_a_failed_set_up_is_reported_after_the_build(clone: Clone) -> None:
    clone.write("lab/setup", "#!/bin/sh\necho 'lab/setup: no room' >&2\nexit 1\n")
    completed = clone.complete()
    assert (completed.returncode, completed.stdout) == (2, "")
    assert "lab/setup: no room\n" in completed.stderr and clone.programs() == OPTIMIZED


def test_an_interrupted_set_up_is_ended(clone: Clone) -> None:
    clone.write("lab/setup", f"#!/bin/sh\ncd '{clone.top}' && echo $$ > setting-up && exec sleep 600\n")
    clone.hold(FIRST[0])
    process = clone.start()
    clone.wait_for_step(FIRST[0])
    until(lambda: (clone.top / "setting-up").exists() and (clone.top / "setting-up").read_text())
    process.terminate()
    assert process.wait(timeout=PATIENCE) == 143
    until(lambda: not pathlib.Path("/proc", (clone.top / "setting-up").read_text().strip()).exists())


def test_unwritable_folder_is_reported(clone: Clone) -> None:
    (clone.top / "build").write_text("a file")
    completed = clone.run()
    assert (completed.returncode, completed.stdout, completed.stderr.count("\n")) == (2, "", 1)
    assert f"{clone.unproved} isn't writable" in completed.stderr


@pytest.mark.parametrize("step", FIRST)
def test_failed_first_build_is_reported(clone: Clone, step: str) -> None:
    clone.fail(step)
    completed = clone.run()
    assert (completed.returncode, completed.stdout, clone.folders()) == (2, "", [])
    assert completed.stderr.endswith("no module was made\ntools/run: the build failed: see the lines above\n")


def test_changed_sources_during_first_build_are_detected(clone: Clone) -> None:
    clone.hold("compile vecmon -O0")
    process = clone.start()
    clone.wait_for_step("compile vecmon -O0")
    clone.write("crates/low/src/lib.rt", "fn changed() {}\n")
    clone.hold()
    _, errors = process.communicate(timeout=PATIENCE)
    assert (process.returncode, clone.folders()) == (2, [])
    assert errors.endswith("tools/run: the sources changed during the build: run tools/run again\n")


def test_changed_sources_during_background_build_are_detected(clone: Clone) -> None:
    """The recorder of changed sources isn't put next to the program; that is no failure to report."""
    clone.hold("module vecmon_record")
    clone.run()
    clone.wait_for_step("module vecmon_record")
    source = clone.top / "crates" / "low" / "src" / "lib.rt"
    before = source.read_text()
    source.write_text("fn changed() {}\n")
    clone.hold()
    clone.wait_for_background()
    assert clone.programs() == {"vecmon": "# vecmon ['-O0']"}
    assert (clone.unproved / "log").read_text() == "the sources changed during the build\n"
    source.write_text(before)
    again = clone.complete()
    assert (again.returncode, clone.programs()) == (0, OPTIMIZED) and "background failed" not in again.stderr


def test_missing_script_is_refused_before_a_build(clone: Clone) -> None:
    completed = clone.run("nothing")
    assert completed.returncode == 2 and "cannot read the script nothing" in completed.stderr
    assert clone.builds() == []


def test_help_shows_usage(clone: Clone) -> None:
    completed = clone.run("--help", path="/usr/bin:/bin")
    assert (completed.returncode, completed.stderr) == (0, "") and completed.stdout.startswith(
        "Runs a script with vecmon"
    )
    assert completed.stdout.rstrip().endswith("that of vecmon.")

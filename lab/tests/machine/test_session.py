"""The session: its script, its replays, and what it remembers, against the machine's own answers."""

import hashlib
import os
import pathlib
import shutil
import signal
import subprocess

import pytest

from support.places import SCRIPTS
from vecmon_lab.machine.program import NoProgram
from vecmon_lab.machine.session import BadLine, OutOfStep, ProgramGone, ReplayDiffers, ScriptFull, Session

SUM = SCRIPTS / "images" / "sum"
SHORT = SCRIPTS / "short"
COUNTING = ["1 enter", "1 map 10000 1 rwx", "1 asm 10000 addi x5, x5, 1", "1 asm 10004 jal x0, -4", "1 setpc 10000"]


def count_of(session: Session) -> int:
    """How far user 1's program has counted."""
    return int(session.look("1 regs")[2].split()[4], 16)


@pytest.fixture
def counting(session: Session) -> Session:
    """A session in which user 1's program counts, one in two steps."""
    for line in COUNTING:
        session.do(line)
    return session


def stand_in(folder: pathlib.Path, commands: str) -> pathlib.Path:
    """A program of these commands of the shell."""
    file = folder / "stand_in"
    file.write_text(f"#!/bin/sh\n{commands}\n")
    file.chmod(0o755)
    return file


def test_replay_restores_the_machine(counting: Session, program: pathlib.Path) -> None:
    answers = [counting.do("1 step 9"), counting.do("1 nonsense"), counting.look("1 trace"), counting.do("1 state")]
    assert [answer[0].split()[1] for answer in answers] == ["stepped", "E03", "trace", "state"]
    assert counting.script.decode("ascii").splitlines() == [*COUNTING, "1 step 9", "1 nonsense"]
    with counting.rewound(counting.script) as again:
        assert again.look("1 regs") == counting.look("1 regs")
        assert (again.script, again.digest, again.policy) == (counting.script, counting.digest, counting.policy)


def test_read_only_lines_are_not_recorded(program: pathlib.Path) -> None:
    with Session(program) as session:
        session.do_all(["1 enter", "1 regs", "1 step 1"])
        assert session.script == b"1 enter\n1 step 1\n"


def test_session_passes_images_and_quantum(program: pathlib.Path) -> None:
    with Session(program, {"sum": SUM, "short": SHORT}, quantum=7) as session:
        session.do("1 enter")
        assert session.do("1 load sum")[0].startswith("1 loaded pc=")
        assert session.do("1 load short") == ["1 E09 Short"]
        for line in COUNTING[1:]:
            session.do(line.replace("10000", "90000").replace("10004", "90004"))
        session.do("1 go")
        session.do("* slices 2")
        session.do("1 stop")
        assert count_of(session) == 7


@pytest.mark.parametrize("ending", [signal.SIGKILL, signal.SIGTERM, signal.SIGSEGV])
def test_ended_process_is_replaced(counting: Session, ending: signal.Signals) -> None:
    counting.do("1 step 9")
    first = counting.process
    assert first
    os.kill(first, ending)
    assert counting.do("1 step 3") == ["1 stepped 3 pc=0000000000010000"]
    assert counting.process != first
    assert count_of(counting) == 6
    assert counting.process and counting.process != first
    os.kill(counting.process, ending)
    assert count_of(counting) == 6
    assert counting.script.decode("ascii").splitlines() == [*COUNTING, "1 step 9", "1 step 3"]


def spare_of(session: Session) -> int:
    """The system's number of a session's spare process, once it has followed; 0 without one."""
    session.follow()
    return session._live._spare.process.number if session._live._spare else 0


def test_spare_process_replaces_ended_process(counting: Session) -> None:
    counting.do("1 step 9")
    spare = spare_of(counting)
    counting.do("1 step 3")
    for is_there in (True, False):
        assert counting.process not in (None, spare)
        os.kill(counting.process or 0, signal.SIGKILL)
        counting.do("1 step 2")
        assert (counting.process == spare) == is_there
        spare = 0
    assert count_of(counting) == 8
    os.kill(spare_of(counting), signal.SIGKILL)
    counting.do("1 step 2")
    with pytest.raises(ProgramGone):
        counting.follow()
    assert count_of(counting) == 9
    for number in (spare_of(counting), counting.process or 0):  # both are gone
        os.kill(number, signal.SIGKILL)
    assert count_of(counting) == 9
    spare = spare_of(counting)
    counting.end()
    counting.close()
    assert spare_of(counting) == 0
    with pytest.raises(ProcessLookupError):
        os.kill(spare, 0)


def test_hanging_process_is_replaced(program: pathlib.Path) -> None:
    with Session(program, patience=2.0) as session:
        session.do_all(COUNTING)
        first = session.process
        assert first
        os.kill(first, signal.SIGSTOP)
        assert session.do("1 step 4") == ["1 stepped 4 pc=0000000000010000"]
        assert session.process != first
        assert count_of(session) == 2
        with pytest.raises(ProcessLookupError):
            os.kill(first, 0)


@pytest.mark.parametrize("place", ["vecmon_lab.machine.pipe.is_whole", "vecmon_lab.machine.session.Session._record"])
def test_interrupt_between_line_and_record_is_recovered(
    counting: Session, monkeypatch: pytest.MonkeyPatch, place: str
) -> None:
    def interrupted(*arguments: object) -> bool:
        raise KeyboardInterrupt

    with monkeypatch.context() as patch, pytest.raises(KeyboardInterrupt):
        patch.setattr(place, interrupted)
        counting.do("1 step 2")
    assert count_of(counting) == 0
    assert counting.do("1 step 2") == ["1 stepped 2 pc=0000000000010000"]
    assert counting.script.decode("ascii").splitlines() == [*COUNTING, "1 step 2"]


def test_process_ignores_ctrl_c(session: Session) -> None:
    assert session.process
    assert os.getsid(session.process) == session.process != os.getsid(0)


def test_full_script_is_refused(program: pathlib.Path) -> None:
    script = "".join(f"{line}\n" for line in COUNTING)
    room = len(script) + 3 * len("1 step 2\n")
    with Session(program, script_bytes=room) as session:
        session.do_all(COUNTING)
        for _ in range(3):
            assert session.do("1 step 2") == ["1 stepped 2 pc=0000000000010000"]
        processes = set()
        for _ in range(9):
            with pytest.raises(ScriptFull):
                session.do("1 step 2")
            assert count_of(session) == 3
            processes.add(session.process)
        assert len(processes) > 2
        assert len(session.script) == room
    with Session(program, script_bytes=room - 1) as session:
        session.do_all(COUNTING)
        for _ in range(2):
            session.do("1 step 2")
        with pytest.raises(ScriptFull):
            session.do("1 step 2")
        assert session.do("1 stop") == ["1 E14"]


def test_read_only_lines_are_not_replayed(program: pathlib.Path) -> None:
    with Session(program, script_bytes=400) as session:
        session.do_all(COUNTING)
        first = session.process
        for _ in range(100):
            session.look("1 vreg v31 64")
        assert session.process != first
        assert session.do("1 step 4") == ["1 stepped 4 pc=0000000000010000"]
        assert count_of(session) == 2


def test_differing_replay_is_refused(program: pathlib.Path, tmp_path: pathlib.Path) -> None:
    image = tmp_path / "image"
    shutil.copy(SUM, image)
    with Session(program, {"it": image}) as session:
        session.do_all(["1 enter", "1 load it"])
        registers = session.look("1 regs")
        shutil.copy(SHORT, image)
        assert session.process
        os.kill(session.process, signal.SIGKILL)
        for _ in range(2):
            with pytest.raises(ReplayDiffers):
                session.look("1 regs")
            with pytest.raises(ReplayDiffers):
                session.do("1 step 1")
        shutil.copy(SUM, image)
        assert session.look("1 regs") == registers
        assert session.script == b"1 enter\n1 load it\n"


TURNS = """1 enter
1 map 10000 1 rwx
1 asm 10000 addi x5, x5, 1
1 asm 10004 jal x0, -4
1 setpc 10000
1 nonsense
1 policy ones
2 enter
1 break 10004
1 go
* slices 3
* run 2
2 leave
1 step 9
""".encode()


def test_recorded_script_is_replayed_in_bulk(program: pathlib.Path) -> None:
    steps = b"1 step 1\n" * 30_000  # more than fits into pipes, and so are the answers
    plain = subprocess.run([program], input=TURNS + steps, stdout=subprocess.PIPE, check=True).stdout
    progress = list[int]()
    with Session(program) as session:
        session.progress = progress.append
        done = list(session.do_script(TURNS + steps))
        assert "".join(f"{line}\n" for line, _ in done).encode() == TURNS + steps == session.script
        assert "".join(f"{part}\n" for _, answer in done for part in answer).encode() == plain
        assert session.digest == hashlib.sha256(plain).hexdigest()
        assert done[10] == ("* slices 3", ["1 break pc=0000000000010004", "* granted 1"])
        assert (session.lines, session.policy) == (30_014, {1: "ones"})
        assert progress[0] == 0 and progress == sorted(set(progress)) and progress[-1] == 100 and len(progress) > 3
        progress.clear()
        first = session.process
        assert first
        os.kill(first, signal.SIGKILL)
        assert session.do("1 step 1")[0].startswith("1 stepped 1 ") and session.process != first
        assert progress[0] == 0 and progress == sorted(set(progress)) and progress[-1] == 100
        assert session.losses == ["the program ended by SIGKILL"]


@pytest.mark.parametrize("script", [b"1 enter", b"9 enter\n", b"1 \xff\n", b"\n", b"1 " + b"x" * 1023 + b"\n"])
def test_unrecorded_scripts_are_refused(session: Session, script: bytes) -> None:
    with pytest.raises(BadLine):
        list(session.do_script(script))


def test_missing_answers_to_recorded_script_are_refused(session: Session) -> None:
    with pytest.raises(OutOfStep):
        list(session.do_script(b"1 enter\n1 regs\n"))  # which only looks, with nine lines


def test_repeatedly_ending_program_is_reported(program: pathlib.Path, tmp_path: pathlib.Path) -> None:
    """After the first line's answer, its process is gone: a line is tried twice, and then the failure is reported."""
    once = stand_in(tmp_path, f'head -n 1 | "{program}"')
    with Session(once) as session:
        for _ in range(2):
            with pytest.raises(ProgramGone):
                session.do("1 enter")
        assert session.script == b""
        assert session.policy == {}


@pytest.mark.parametrize(
    "says", ["'1 entered' '1 entered'", "'2 entered'", "'* E01'", "'1 ok'", "'1 entered' 1", "'* granted 0'", "''"]
)
def test_program_with_other_answers_is_refused(tmp_path: pathlib.Path, says: str) -> None:
    new = "* list 1:- 2:- 3:- 4:- 5:- 6:- 7:- 8:-"
    program = stand_in(tmp_path, f"read -r it; echo '{new}'; while read -r it; do printf '%s\\n' {says}; done")
    with Session(program) as session:
        for _ in range(2):
            with pytest.raises(OutOfStep):
                session.do("1 enter")
        assert session.script == b""


def test_unrequested_output_is_refused(tmp_path: pathlib.Path) -> None:
    answer = "printf '* list 1:- 2:- 3:- 4:- 5:- 6:- 7:- 8:-\\n'"
    unasked, reply = tmp_path / "unasked", tmp_path / "told"
    for fifo in (unasked, reply):
        os.mkfifo(fifo)
    program = stand_in(
        tmp_path, f"read -r it; {answer}; cat '{unasked}'; echo > '{reply}'; read -r it; echo '1 entered'"
    )
    with Session(program) as session:
        unasked.write_text("1 entered\n")
        reply.read_text()
        with pytest.raises(OutOfStep, match="^before '1 enter' was sent there came b'1 entered"):
            session.do("1 enter")


@pytest.mark.parametrize("program", ["/bin/cat", "/bin/true"])
def test_other_program_is_refused(program: str) -> None:
    with pytest.raises(NoProgram, match=f"^{program} is no vecmon; VECMON=PATH names one$"):
        Session(pathlib.Path(program))


def test_missing_node_is_reported(tmp_path: pathlib.Path) -> None:
    """The command of a program as WebAssembly ends so, as tools/building/programs writes it."""
    with pytest.raises(NoProgram, match="^vecmon needs node 18 or later on PATH: install nodejs$"):
        Session(stand_in(tmp_path, "echo vecmon needs node 18 or later on PATH: install nodejs >&2; exit 69"))


def test_cause_of_program_end_is_reported(program: pathlib.Path, tmp_path: pathlib.Path) -> None:
    with pytest.raises(ProgramGone, match="status 4: vecmon: cannot read image it$"):
        Session(program, {"it": tmp_path / "nowhere"})
    with pytest.raises(ProgramGone, match="status 2: error: invalid value '0' for '--quantum <N>'"):
        Session(program, quantum=0)
    with pytest.raises(ProgramGone, match="nowhere can't be started: No such file or directory"):
        Session(tmp_path / "nowhere")


def policy_of(session: Session, user: int) -> str:
    """The policy that the machine has: whether an agnostic element of v31 is 0 or all ones after an instruction."""
    session.do(f"{user} map 50000 1 rwx")
    session.do(f"{user} asm 50000 vsetivli x0, 1, e8, m1, ta, ma")
    session.do(f"{user} asm 50004 vmv.v.i v31, 0")
    session.do(f"{user} vset v31 {'00' * 32}")
    session.do(f"{user} setpc 50000")
    session.do(f"{user} step 2")
    return {"00": "keep", "ff": "ones"}[session.look(f"{user} vreg v31 8")[0].split()[3]]


def test_policy_is_preserved(program: pathlib.Path) -> None:
    steps = [
        ("1 enter", {1: "keep"}),
        ("1 policy ones", {1: "ones"}),
        ("2 policy ones", {1: "ones"}),
        ("2 enter", {1: "ones", 2: "keep"}),
        ("1 policy one", {1: "ones", 2: "keep"}),
        ("1 enter", {1: "ones", 2: "keep"}),
        ("1 load none", {1: "ones", 2: "keep"}),
        ("1 load short", {1: "ones", 2: "keep"}),
        ("1 load sum", {1: "keep", 2: "keep"}),
        ("2 policy   ones ", {1: "keep", 2: "ones"}),
        ("2 leave 1", {1: "keep", 2: "ones"}),
        ("2 leave", {1: "keep"}),
        ("2 enter", {1: "keep", 2: "keep"}),
    ]
    with Session(program, {"sum": SUM, "short": SHORT}) as session:
        for line, policy in steps:
            session.do(line)
            assert session.policy == policy, line
            assert {user: policy_of(session, user) for user in policy} == policy, line


def test_running_program_preserves_policy(counting: Session) -> None:
    counting.do("1 policy ones")
    counting.do("1 go")
    assert counting.do("1 policy keep") == ["1 E07"]
    assert counting.policy == {1: "ones"}

"""gdb's protocol: packets in and out, and gdb itself in batch mode, compared with values from other sources."""

import os
import pathlib
import re
import select
import shutil
import socket
import subprocess
import sys
from collections.abc import Callable, Iterator
from types import TracebackType
from xml.etree import ElementTree

import pytest

from support.images import make_image
from support.skips import NO_GDB, leave_out
from support.places import EXAMPLES, PREFIX_SUMS, SQUARES, STOCK, SUM, SUM_DWARF4, SUM_DWARF5, TOP
from support.sources import ARGUMENTS, COUNTDOWN
from support.terminal import MAX_SECONDS
from vecmon_lab.compilers.compiler import RUNTIME, Compiler
from vecmon_lab.gdb.command import Target
from vecmon_lab.gdb.packets import Link
from vecmon_lab.guest.guest import started

GDB = [sys.executable, "-m", "vecmon_lab", "gdb"]
WRITES_AND_GOES_ON = """
        li a0, 1
        la a1, text
        li a2, 6
        li a7, 64
        ecall
loop:   j loop
        .data
text:   .ascii "ready\\n"
"""


PROGRESS = re.compile("vecmon: [a-z ]+: [0-9,]+ (?:%|million ticks); Ctrl-C ends it\n")
"""A line that a way back or a search prints if it takes more than two seconds, as on a busy machine."""

STOPS = """
cause0: .word 0x0020006f # jal x0, 2
cause1: jr zero
cause2: .word 0
cause5: ld t0, 0(zero)
cause7: sd t0, 0(zero)
break:  ebreak
"""


class Packets:
    """The other end of the pipe, as gdb has it."""

    def __init__(self, image: pathlib.Path, *arguments: str) -> None:
        pipe, command = subprocess.PIPE, [*GDB, str(image), *arguments]
        self.program = subprocess.Popen(command, cwd=TOP, stdin=pipe, stdout=pipe, stderr=pipe, bufsize=0)
        assert self.program.stdout
        self._source = self.program.stdout.fileno()

    def __enter__(self) -> "Packets":
        return self

    def __exit__(
        self, kind: type[BaseException] | None, error: BaseException | None, trace: TracebackType | None
    ) -> None:
        self.program.kill()
        self.program.communicate()

    def write(self, data: bytes) -> None:
        """Writes bytes as they are."""
        assert self.program.stdin
        self.program.stdin.write(data)

    def read(self, number: int) -> bytes:
        """The next bytes, less of them at the end."""
        data = b""
        while len(data) < number:
            assert select.select([self._source], [], [], MAX_SECONDS)[0], "nothing comes"
            part = os.read(self._source, number - len(data))
            if not part:
                break
            data += part
        return data

    def send(self, packet: str) -> None:
        """Sends a packet."""
        self.write(f"${packet}#{sum(packet.encode()) % 256:02x}".encode())

    def packet(self) -> str:
        """The next packet, whose sum has to be right."""
        assert self.read(1) == b"$"
        data = b""
        while (byte := self.read(1)) != b"#":
            assert byte, data
            data += byte
        assert int(self.read(2), 16) == sum(data) % 256
        text = re.sub(rb"}(.)", lambda pair: bytes([pair[1][0] ^ 0x20]), data, flags=re.DOTALL).decode()
        is_progress = text[:1] == "O" and text != "OK" and PROGRESS.fullmatch(bytes.fromhex(text[1:]).decode())
        return self.packet() if is_progress else text

    def ask(self, packet: str) -> str:
        """The answer to a packet, when it has been acknowledged."""
        self.send(packet)
        assert self.read(1) == b"+"
        return self.packet()

    def ended(self) -> tuple[int, bytes, bytes]:
        """The status, and what was still said."""
        out, err = self.program.communicate()
        return self.program.returncode, out, err


def little(number: int, size: int = 8) -> str:
    """A number's digits as packets have them."""
    return number.to_bytes(size, "little").hex()


def text(packet: str) -> str:
    """The output in a packet."""
    assert packet[0] == "O"
    return bytes.fromhex(packet[1:]).decode()


def is_end(packets: Packets, packet: str, status: int) -> bool:
    """Whether a packet brings the program to where it exits with a status, and another one ends it."""
    packets.send(packet)
    assert packets.read(1) == b"+"
    reply = text(packets.packet()).startswith(f"vecmon: it exits here with status {status}; ")
    return reply and packets.packet() == "T05replaylog:end;" and packets.ask("c") == f"W{status:02x}"


def typed_in(page: str, image: str) -> list[str]:
    """What is typed in a page's session with an image, once gdb is connected."""
    start = page.index(f"(gdb) target remote | vecmon-lab gdb {image}\n")
    session = page[start : page.index("(gdb) quit", start)].splitlines()
    return [line.removeprefix("(gdb) ") for line in session if line.startswith("(gdb) ")][1:]


@pytest.fixture
def squares() -> Iterator[Packets]:
    """The program of docs/COMPILING.md that has a nought too many."""
    with Packets(SQUARES) as packets:
        yield packets


def test_registers_are_described(squares: Packets) -> None:
    supported = dict(part.partition("=")[::2] for part in squares.ask("qSupported:multiprocess+;swbreak+").split(";"))
    assert supported["qXfer:features:read+"] == ""
    xml, part, size = "", "m", int(supported["PacketSize"], 16) // 2
    while part[0] == "m":
        part = squares.ask(f"qXfer:features:read:target.xml:{len(xml):x},{size:x}")
        assert part[0] in "ml" and 1 < len(part) <= size + 1
        xml += part[1:]
    target = ElementTree.fromstring(xml)
    assert target.findtext("architecture") == "riscv:rv64"
    registers = [(register.get("name"), register.get("bitsize")) for register in target.iter("reg")]
    names = [*(f"x{number}" for number in range(32)), "pc", "vl", "vtype", "vstart", "vxrm", "vxsat", "vcsr"]
    assert registers == [(name, "64") for name in names] + [(f"v{number}", "256") for number in range(32)]
    for vector in target.iter("vector"):
        assert int(vector.get("type", "").removeprefix("uint")) * int(vector.get("count", "")) == 256
    (elements,) = target.iter("union")
    assert [field.get("name") for field in elements] == ["b", "s", "w", "l"]
    numbers = {register.get("name"): register.get("dwarf_regnum") for register in target.iter("reg")}
    assert [numbers[name] for name in ("x1", "x31", "v0", "v31", "vl")] == [
        "1",
        "31",
        "96",
        "127",
        None,
    ]  # by the psABI


def test_fault_is_reported_and_resumed(squares: Packets) -> None:
    assert squares.ask("?") == "S00"
    registers = squares.ask("g")
    assert registers == "".join(map(little, [0, 0, 0x7FFFEFC0, *[0] * 29, 0x10174]))
    squares.send("c")
    assert squares.read(1) == b"+"
    assert text(squares.packet()).startswith("vecmon: The store at 0x10198 may not write from 0x12000 on: ")
    assert (squares.packet(), squares.ask("?")) == ("S0b", "S0b")
    assert [squares.ask(f"p{number:x}") for number in range(32, 38)] == list(
        map(little, [0x10198, 16, 0xD1, 14, 0, 0])  # vl, vtype, vstart as in docs/COMPILING.md
    )
    assert squares.ask("p2e") == "".join(little(number * number, 4) for number in range(1008, 1016))  # v8
    assert squares.ask("m11ff8,8") == squares.ask("m11ff8,20") == "10e00f0009e80f00"
    assert squares.ask("m12000,1") == "E11"
    assert squares.ask("M11000,2:e803") == squares.ask(f"P20={little(0x10174)}") == "OK"
    assert squares.ask(f"P2={little(0x7FFFEFC0)}") == "OK"
    assert is_end(squares, "C0b", 0)


def test_breakpoints_steps_and_output_work() -> None:
    with Packets(SUM) as packets:
        assert packets.ask("Z0,112dc,4") == packets.ask("Z0,112dc,4") == packets.ask("Z1,11198,4") == "OK"
        assert (packets.ask("s"), packets.ask("p20")) == ("S05", little(0x11194))
        assert (packets.ask("c"), packets.ask("p20")) == ("S05", little(0x11198))
        assert (packets.ask("p0d"), packets.ask("z1,11198,4")) == (little(32), "OK")  # x13 is vlenb
        packets.send("c")
        assert packets.read(1) == b"+" and text(packets.packet()) == "328350\n" and packets.packet() == "S05"
        assert packets.ask("z0,112dc,4") == "OK"
        assert packets.ask("p2e")[:8] == little(328350, 4) and is_end(packets, "c", 0)  # the sum is in v8


def test_reverse_continue_from_exit(tmp_path: pathlib.Path, program: pathlib.Path) -> None:
    """Where the program exits gdb stops once; from there it goes back, or writes what makes another end of it."""
    make_image(program, tmp_path / "image", "li a7, 93\nli a0, 3\necall")
    with Packets(tmp_path / "image") as packets:
        for packet in ("c", "s"):
            packets.send(packet)
            assert packets.read(1) == b"+" and "with status 3;" in text(packets.packet())
            assert (packets.packet(), packets.ask("?")) == ("T05replaylog:end;",) * 2
            assert packets.ask("p20") == little(0x10008)
            assert (packets.ask("bs"), packets.ask("p20")) == ("S05", little(0x10004))
            assert (packets.ask("s"), packets.ask("p20")) == ("S05", little(0x10008))
        assert packets.ask(f"Pa={little(5)}") == "OK"
        assert is_end(packets, "c", 5)


def test_watchpoints_stop_forwards_and_backwards(tmp_path: pathlib.Path, program: pathlib.Path) -> None:
    """As in gdb for RISC-V, a watched place is reported before the instruction executes, or is undone."""
    make_image(program, tmp_path / "image", COUNTDOWN)
    with Packets(tmp_path / "image") as packets:
        store, behind = little(0x1000C), little(0x10010)
        assert [packets.ask("Z2,11008,4"), packets.ask("c"), packets.ask("p20")] == ["OK", "T05watch:11008;", store]
        assert [packets.ask("s"), packets.ask("p20"), packets.ask("m11008,4")] == ["T05watch:11008;", store, "00000000"]
        assert [packets.ask("z2,11008,4"), packets.ask("s"), packets.ask("m11008,4")] == ["OK", "S05", "03000000"]
        assert [packets.ask("c"), packets.ask("m11008,4")] == ["S05", "01000000"]
        assert [packets.ask("Z4,1100b,1"), packets.ask("bc"), packets.ask("p20")] == ["OK", "T05awatch:1100b;", behind]
        assert [packets.ask("bs"), packets.ask("p20")] == ["T05awatch:1100b;", behind]
        assert [packets.ask("z4,1100b,1"), packets.ask("bs"), packets.ask("m11008,4")] == ["OK", "S05", "02000000"]
        assert [packets.ask("Z0,10010,4"), packets.ask("bc"), packets.ask("p5")] == ["OK", "S05", little(2)]
        assert [packets.ask("bc"), packets.ask("p5"), packets.ask("p20")] == ["S05", little(3), behind]
        assert [packets.ask("bc"), packets.ask("?"), packets.ask("p20")] == [
            *["T05replaylog:begin;"] * 2,
            little(0x10000),
        ]
        assert [packets.ask("c"), packets.ask("p5"), packets.ask("p20")] == ["S05", little(3), behind]


def test_written_values_are_read_back(squares: Packets) -> None:
    pattern = bytes(range(100, 132)).hex()
    assert (squares.ask(f"P26={pattern}"), squares.ask("p26")) == ("OK", pattern)
    assert (squares.ask("P1f=8877665544332211"), squares.ask("p1f")) == ("OK", "8877665544332211")
    assert squares.ask("M7fffb0f0,20:" + pattern) == "OK"
    assert squares.ask("m7fffb0f0,20") + squares.ask("m7fffb100,10") == pattern  # a block of 256 bytes ends between


@pytest.mark.parametrize(
    "packet, answer",
    [
        ("vMustReplyEmpty", ""),
        ("X11000,0:", ""),
        ("G00", ""),
        ("qAttached:1", ""),
        ("Hg0", "OK"),
        ("Z0,11002,4", "E04"),
        ("z0,11000,4", "OK"),
        ("Z2,11000,4", "OK"),
        ("z3,11000,4", "OK"),
        ("Z4,11000,0", "E12"),
        ("Z4,11000,2801", "E12"),
        ("Z5,11000,4", ""),
        ("Zx,11000,4", ""),
        ("Z2,11000", ""),
        ("Z2,x,4", "E04"),
        ("b", ""),
        ("bx", ""),
        ("bc", "T05replaylog:begin;"),
        ("bs", "T05replaylog:begin;"),
        ("p47", "E04"),
        ("P46=0500000000000000", "E04"),
        ("pxyz", "E04"),
        ("P21=0500000000000000", "E04"),
        ("P0=0500000000000000", "E04"),
        ("P20=0100000000000000", "E04"),
        ("P26=00", "E04"),
        ("m0,4", "E11"),
        ("mffffffffffffffff,4", "E11"),
        ("m11000,0", "E04"),
        ("M11ffe,4:01020304", "E11"),
        ("M11000,1:0", "E04"),
        ("Mno,1:00", "E04"),
        ("qRcmd,zz", "E04"),
        ("", ""),
    ],
)
def test_unusual_packet_is_answered(squares: Packets, packet: str, answer: str) -> None:
    assert squares.ask(packet) == answer
    assert squares.ask("p20") == little(0x10174)


def test_excess_breakpoint_is_refused(squares: Packets) -> None:
    assert {squares.ask(f"Z0,{4 * number:x},4") for number in range(16)} == {"OK"}
    assert squares.ask("Z0,100,4") == "E12"


def test_checksums_and_acknowledgements_are_handled(squares: Packets) -> None:
    squares.write(b"+\x03junk$p20#00")
    assert squares.read(1) == b"-"
    assert squares.ask("p20") == little(0x10174)
    assert squares.ask("QStartNoAckMode") == "OK"
    for _ in range(2):
        squares.send("p20")
        assert squares.packet() == little(0x10174)


def test_program_receives_arguments(tmp_path: pathlib.Path, program: pathlib.Path) -> None:
    make_image(program, tmp_path / "image", ARGUMENTS)
    with Packets(tmp_path / "image", "--help", "two") as packets:
        packets.send("c")
        assert packets.read(1) == b"+" and text(packets.packet()) == "image\n--help\ntwo\n"
        assert "with status 3;" in text(packets.packet()) and packets.packet() == "T05replaylog:end;"


def test_interrupt_stops_program(tmp_path: pathlib.Path, program: pathlib.Path) -> None:
    labels = make_image(program, tmp_path / "image", WRITES_AND_GOES_ON)
    with Packets(tmp_path / "image") as packets:
        packets.send("c")
        assert packets.read(1) == b"+" and text(packets.packet()) == "ready\n"
        packets.write(b"\x03")
        assert (packets.packet(), packets.ask("?"), packets.ask("p20")) == ("S02", "S02", little(labels["loop"]))
        packets.send("c")
        packets.write(b"\x03")
        assert packets.read(1) == b"+" and packets.packet() == "S02"
        assert (packets.ask("s"), packets.ask("p20")) == ("S05", little(labels["loop"]))
        packets.send("c")  # and gdb goes away while the program runs
        assert packets.ended() == (0, b"+", b"")


@pytest.mark.parametrize("packet", ["bs", "bc"])
def test_interrupt_ends_way_back(tmp_path: pathlib.Path, program: pathlib.Path, packet: str) -> None:
    """Ctrl-C comes with the packet: the program stays where it is, and goes back when it is asked again."""
    make_image(program, tmp_path / "image", COUNTDOWN)
    with Packets(tmp_path / "image") as packets:
        assert packets.ask("c") == "S05"
        packets.write(f"${packet}#{sum(packet.encode()) % 256:02x}\x03".encode())
        assert packets.read(1) == b"+" and (packets.packet(), packets.ask("p20")) == ("S02", little(0x10018))
        assert packets.ask(packet) != "S02" and packets.ask("p20") == little(0x10014 if packet == "bs" else 0x10000)


class Output(Link):
    """A link that keeps the packets that are sent, and receives none."""

    def __init__(self) -> None:
        self.sent = list[str]()

    def send(self, text: str) -> None:
        self.sent.append(text)

    def is_interrupted(self) -> bool:
        return False


@pytest.mark.parametrize("packets, work", [(["bs"], "going back"), (["Z2,11100,4", "bc"], "searching backwards")])
def test_progress_is_printed(
    tmp_path: pathlib.Path, program: pathlib.Path, monkeypatch: pytest.MonkeyPatch, packets: list[str], work: str
) -> None:
    """Each two seconds, and so at each step of the work where none have to pass."""
    make_image(program, tmp_path / "image", COUNTDOWN)
    with started(tmp_path / "image", write=lambda data: None) as guest:
        link = Output()
        target = Target(guest, link, tmp_path / "image", lambda words: None)
        assert target.reply_to("c") == "S05" and not link.sent
        monkeypatch.setattr("vecmon_lab.replay.control.SECONDS", 0.0)
        assert [target.reply_to(packet) for packet in packets][-1] != "S02"
        assert link.sent and all(PROGRESS.fullmatch(text(packet)) for packet in link.sent)
        assert text(link.sent[0]).startswith(f"vecmon: {work}: ")


def test_step_output_is_sent(tmp_path: pathlib.Path, program: pathlib.Path) -> None:
    make_image(program, tmp_path / "image", WRITES_AND_GOES_ON)
    with Packets(tmp_path / "image") as packets:
        assert [packets.ask("s") for _ in range(5)] == ["S05"] * 5  # la is two instructions
        packets.send("s")
        assert packets.read(1) == b"+" and text(packets.packet()) == "ready\n" and packets.packet() == "S05"


def test_stops_have_signals(tmp_path: pathlib.Path, program: pathlib.Path) -> None:
    labels = make_image(program, tmp_path / "image", STOPS)
    with Packets(tmp_path / "image") as packets:
        for label, signal, reason in [
            ("cause0", "S0a", "which isn't divisible by 4"),
            ("cause1", "S0b", "No instruction can be fetched at 0x0"),
            ("cause2", "S04", "Illegal instruction"),
            ("cause5", "S0b", "may not read from 0x0"),
            ("cause7", "S0b", "may not write from 0x0"),
        ]:
            assert packets.ask(f"P20={little(labels[label])}") == "OK"
            packets.send("c")
            assert packets.read(1) == b"+" and reason in text(packets.packet()) and packets.packet() == signal
        assert packets.ask(f"P20={little(labels['break'])}") == "OK"
        assert packets.ask("c") == packets.ask("s") == "S05" and packets.ask("p20") == little(labels["break"])


@pytest.mark.parametrize(
    "line, expected",
    [
        ("vreg v1 64", f"v1{4 * ' 0000000000000000'}\n"),
        ("policy ones", "ok\n"),
        ("policy none", "E04: none is no policy, which are keep and ones; the form is policy P\n"),
    ],
)
def test_monitor_command_is_executed(squares: Packets, line: str, expected: str) -> None:
    assert bytes.fromhex(squares.ask(f"qRcmd,{line.encode().hex()}")).decode() == expected
    refused = bytes.fromhex(squares.ask(f"qRcmd,{'go'.encode().hex()}")).decode()
    assert refused.startswith("monitor takes ") and refused.count("\n") == 1


@pytest.mark.parametrize("packet, more", [("D", b"+$OK#9a"), ("k", b"+"), (None, b"")])
def test_server_ends_with_status(squares: Packets, packet: str | None, more: bytes) -> None:
    if packet:
        squares.send(packet)
    assert squares.ended() == (0, more, b"")


@pytest.mark.parametrize("name", ["sum_€.elf", "größe.elf"])
def test_image_has_its_name_in_bytes(tmp_path: pathlib.Path, name: str) -> None:
    """Gdb opens the image by the bytes of its name, which are those of UTF-8 (gdb's manual, "General Query Packets")."""
    image = pathlib.Path(shutil.copy(SUM, tmp_path / name))
    with Packets(image) as packets:
        assert packets.ask("qXfer:exec-file:read:1:0,fff") == f"l{image}"


@pytest.mark.parametrize("path, reason", [(STOCK / "short", "E09 Short"), (STOCK / "none", "No such file")])
def test_unsuitable_image_is_refused(path: pathlib.Path, reason: str) -> None:
    with Packets(path) as packets:
        status, out, err = packets.ended()
    assert (status, out, err.count(b"\n")) == (2, b"", 1)
    assert err.decode().startswith(f"vecmon-lab: {path}") and reason in err.decode()


@pytest.fixture(scope="module")
def gdb() -> Callable[..., str]:
    """gdb in batch mode: its output when it is connected to an image and gets these commands.

    Where there is none, a test that wants it is left out and counted; where CI is set, it fails.
    """
    if not shutil.which("gdb-multiarch"):
        leave_out(NO_GDB)

    def said(image: pathlib.Path, *commands: str, target: str = "remote", arguments: str = "") -> str:
        words = [f"target {target} | exec {sys.executable} -m vecmon_lab gdb {image} {arguments}".rstrip(), *commands]
        options = [word for command in words for word in ("-ex", command)]
        command = ["gdb-multiarch", "-nx", "-batch", "-l", "120", "-d", str(STOCK), *options]
        command += [str(image)] * (image.suffix != ".c")  # else what is compiled of it, as the lab names it
        run = subprocess.run(
            command, cwd=TOP, stdin=subprocess.DEVNULL, stdout=subprocess.PIPE, stderr=subprocess.STDOUT
        )
        return PROGRESS.sub("", run.stdout.decode())

    return said


def test_gdb_stops_in_inlined_function(gdb: Callable[..., str]) -> None:
    """gdb itself sets a breakpoint in each copy."""
    output = gdb(PREFIX_SUMS[1], "break prefix_bad", "break prefix_sums.c:10", "continue", "print/x $pc", "continue")
    assert output.count(" (2 locations)") == 2 and "$1 = 0x11354" in output and "Breakpoint 1.2, prefix_bad (" in output


@pytest.mark.parametrize("image", [SUM_DWARF4, SUM_DWARF5])
def test_gdb_shows_source_lines(gdb: Callable[..., str], image: pathlib.Path) -> None:
    commands = ["break 22", "continue", "next", "print $v10.w", "print $vl", "print/x $vtype", "delete"]
    output = gdb(image, *commands, "continue", "continue")
    assert "Breakpoint 1, sum (" in output and "sum.c:22" in output
    assert "22\t        vuint32m2_t next = __riscv_vle32_v_u32m2(elements, length);" in output
    squares = ", ".join(str(number * number) for number in range(8))
    assert f"$1 = {{{squares}}}" in output and "$2 = 16" in output and "$3 = 0xd1" in output
    assert output.index("328350\n") < output.index("exited normally")


@pytest.mark.by_command("gdb")
def test_manual_session_is_reproduced(gdb: Callable[..., str]) -> None:
    page = (TOP / "docs" / "DEBUGGING.md").read_text("utf-8")
    start = page.index("(gdb) target remote | vecmon-lab gdb sum")
    session = page[start : page.index("(gdb) quit", start)].splitlines()
    rest = gdb(SUM_DWARF4, *typed_in(page, "sum")).expandtabs()
    shown = [line for line in session if line and not line.startswith(("(gdb) ", "Remote debugging", "Continuing."))]
    assert len(shown) > 8
    for line in shown:  # in this order
        assert line in rest
        rest = rest[rest.index(line) :]


def test_gdb_shows_vector_state_in_words(gdb: Callable[..., str]) -> None:
    """vtype 0xd1 is SEW 32, LMUL 2, ta and ma (the manual's section 3.4); v10 has the squares of 0 to 15."""
    script = subprocess.run([*GDB, "--script"], cwd=TOP, stdout=subprocess.PIPE, check=True).stdout.decode().strip()
    commands = ("print $vtype", "break 23", "continue", "print $vtype", "print/x $vtype", f"source {script}")
    output = gdb(SUM_DWARF4, *commands, "info vector", "echo again\\n", "monitor vector", "disconnect", "info vector")
    assert "$1 = [ lmul=m1 sew=e8 vill ]\n" in output
    assert "$2 = [ lmul=m2 sew=e32 ta ma ]\n$3 = 0xd1\n" in output
    assert "vl=16 vtype=d1 (e32,m2,ta,ma) vstart=0 vxrm=0 (rnu) vxsat=0 policy=keep\n" in output
    output, again = output[output.index("vl=16") :].split("again\n")
    rows = dict(re.findall(r"^(v\d+) +(.*)$", output, re.MULTILINE))
    assert [*rows] == [f"v{number}" for number in range(0, 32, 2)]
    assert rows["v10"].split() == [f"{number * number:08x}" for number in range(16)]
    assert again.startswith(output) and "The program has no registers now." in again


def test_port_serves_one_gdb() -> None:
    with subprocess.Popen([*GDB, "--port", "0", SUM_DWARF4], cwd=TOP, stdout=subprocess.PIPE) as program:
        try:
            assert program.stdout
            found = re.fullmatch(rb"listening at 127\.0\.0\.1:([0-9]+)\n", program.stdout.readline())
            assert found
            with socket.create_connection(("127.0.0.1", int(found[1]))) as connection:
                connection.sendall(b"$?#3f")
                assert connection.makefile("rb").read(8) == b"+$S00#b3"
                with pytest.raises(ConnectionRefusedError):
                    socket.create_connection(("127.0.0.1", int(found[1])))
            assert program.wait() == 0
        finally:
            program.kill()


def test_gdb_debugs_c_source(gdb: Callable[..., str], clang: Compiler) -> None:
    """gdb reads symbols and lines of the image that is compiled of it, and finds both sources.

    It stops in the runtime first. The grey of red 0, green 255 and blue 0 is 149.
    """
    output = gdb(EXAMPLES / "kernels" / "grey.c", "break grey.c:32", "continue", "print greys[0]")
    first = re.search(r"_start \(\) at \S*runtime\.c:(\d+)\n\1\t(.*)\n", output)
    assert first and first[2] == (RUNTIME / "runtime.c").read_text("ascii").splitlines()[int(first[1]) - 1]
    assert "grey.c:32\n32\t    put(greys, sizeof greys);\n$1 = 149 " in output


def test_gdb_finds_bug_backwards(gdb: Callable[..., str], clang: Compiler, tmp_path: pathlib.Path) -> None:
    page = (TOP / "docs" / "DEBUGGING.md").read_text("utf-8")
    profile = (TOP / "docs" / "RUNNING.md").read_text("utf-8")
    (command,) = re.findall(r"^\$ (clang-19 (?:.*\\\n)*.* -o above above\.c)$", profile, re.MULTILINE)
    words = command.replace("\\\n", " ").replace("above", "histogram").replace("clang-19", clang.name).split()
    shutil.copy(EXAMPLES / "searches/histogram.c", tmp_path)
    subprocess.run(words, cwd=tmp_path, check=True)
    output = gdb(tmp_path / "histogram", *typed_in(page, "histogram"))
    for line in (
        "$1 = 2\n",
        "Old value = 2\nNew value = 1\n",
        "$2 = 16\n",
        "in _start () at histogram.c:44\n",
        "$3 = 65535\n",
    ):
        assert line in output
        output = output[output.index(line) :]


def test_gdb_steps_back(gdb: Callable[..., str], program: pathlib.Path, tmp_path: pathlib.Path) -> None:
    make_image(program, tmp_path / "image", "li a0, 1\nli a0, 2\nli a0, 3\nebreak\n.data\n.zero 8")
    commands = ["stepi", "stepi", "set $a1 = 7", "stepi", "reverse-stepi", "print $a0", "reverse-stepi", "print $a1"]
    output = gdb(tmp_path / "image", *commands, "reverse-continue", "print $pc", "continue", "print $a0")
    assert [line.split(" = ")[1] for line in output.splitlines() if line[:1] == "$"] == [
        "2",
        "0",
        "(void (*)()) 0x10000",
        "3",
    ]
    assert "No more reverse-execution history." in output and "SIGTRAP" in output.partition("$3")[2]


def test_gdb_restarts_program(gdb: Callable[..., str]) -> None:
    again = f"target remote | exec {sys.executable} -m vecmon_lab gdb {SUM}"
    output = gdb(SUM, "stepi", "stepi", again, "print $pc", "continue", "continue")
    assert "$1 = (void (*)()) 0x11190 <_start>" in output and "328350\nvecmon: it exits here with status 0; " in output
    assert output.endswith("[Inferior 1 (Remote target) exited normally]\n")


def test_run_restarts_program(gdb: Callable[..., str]) -> None:
    """The sum of the squares of the numbers below 100 is 328350; gdb keeps its breakpoints, and reads registers anew."""
    commands = ["break 22", "continue", "set $a0 = 7", "run", "print $vl", "delete", "continue", "continue", "run"]
    output = gdb(SUM_DWARF4, *commands, "reverse-continue", "print $pc", target="extended-remote")
    _, _, third = output.split("Breakpoint 1, sum (")
    assert "elements=0x122e8 <_start.squares>, count=100) at sum.c:22" in third and "$1 = 16" in third
    after = third[third.index("328350\nvecmon: it exits here with status 0; ") :]
    after = after[after.index("exited normally]\n") :]
    assert after.count("328350\n") == 1, "a program that has exited runs again"
    assert after.endswith("$2 = (void (*)()) 0x11190 <_start>\n")


def test_run_passes_arguments(gdb: Callable[..., str], program: pathlib.Path, tmp_path: pathlib.Path) -> None:
    make_image(program, tmp_path / "image", ARGUMENTS)
    commands = ["run", "continue", "run two words", "continue", "set args", "run", "kill", "run", "detach", "run"]
    output = gdb(tmp_path / "image", *commands, target="extended-remote", arguments="one")
    assert re.findall("image\n((?:\\w+\n)*)vecmon: it exits here with status (.);", output) == [
        ("one\n", "2"),
        ("two\nwords\n", "3"),
        *[("one\n", "2")] * 3,
    ]


def test_run_of_plain_target_is_refused(gdb: Callable[..., str]) -> None:
    assert 'The "remote" target does not support "run".' in gdb(SUM, "run")


def test_extended_packets_restart_program(squares: Packets) -> None:
    assert [squares.ask("vRun;"), squares.ask("vKill;1"), squares.ask("R00")] == [""] * 3
    assert [squares.ask("!"), squares.ask("s"), squares.ask("Z0,10180,4"), squares.ask("P5=" + little(9))][1:] == [
        "S05",
        *["OK"] * 2,
    ]
    assert [squares.ask("vKill;a410"), squares.ask("vRun;"), squares.ask("p20"), squares.ask("p5")] == [
        *["OK", "S00"],
        little(0x10174),
        little(0),
    ]
    assert squares.ask("s") == "S05"
    squares.send("R00")  # which has no answer
    assert (squares.read(1), squares.ask("p20")) == (b"+", little(0x10174))
    squares.send(f"vRun;{b'other'.hex()}")
    assert squares.read(1) == b"+" and text(squares.packet()).startswith("vecmon: other isn't ")
    assert [squares.packet(), squares.ask("vRun;zz"), squares.ask("D"), squares.ask("vRun;")] == [
        *["E08", "E04"],
        *["OK", "S00"],
    ]


def test_gdb_restarts_after_signal(gdb: Callable[..., str]) -> None:
    again = f"target remote | exec {sys.executable} -m vecmon_lab gdb {SQUARES}"
    output = gdb(SQUARES, "continue", again, "print $pc")
    assert output.count("SIG") == 1 and "SIGTRAP" not in output and output.endswith("$1 = (void (*)()) 0x10174\n")


def test_gdb_shows_vcsr(gdb: Callable[..., str], tmp_path: pathlib.Path, program: pathlib.Path) -> None:
    """By the manual vxsat is bit 0 of vcsr, and vxrm bits 2 and 1."""
    make_image(program, tmp_path / "image", "csrwi vxrm, 2\ncsrwi vxsat, 1\nvsetivli x0, 4, e8, m1, ta, ma\nebreak")
    output = gdb(tmp_path / "image", "continue", "info registers vcsr", "info registers vxrm", "print $v31.b[0]")
    shown = [" ".join(line.split()) for line in output.splitlines()]
    assert shown[-3:] == ["vcsr 0x5 5", "vxrm 0x2 2", "$1 = 0"]


def test_gdb_reports_fault(gdb: Callable[..., str]) -> None:
    commands = ["continue", "print $vstart", "print $v8.w[0]", "set var *(int *) 0x11000 = 1000", "set $pc = 0x10174"]
    output = gdb(
        SQUARES, *commands, "set $sp = 0x7fffefc0", "set $v31.l[1] = 77", "print $v31.l", "stepi", *["continue"] * 2
    )
    assert "vecmon: The store at 0x10198 may not write" in output and "SIGSEGV" in output
    assert "$1 = 14" in output and f"$2 = {1008 * 1008}" in output and "$3 = {0, 77, 0, 0}" in output
    assert output.endswith("exited normally]\n")


def test_gdb_reports_refused_image(gdb: Callable[..., str]) -> None:
    assert "E09 Short" in gdb(STOCK / "short")

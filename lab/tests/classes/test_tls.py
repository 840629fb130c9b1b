"""A class by HTTPS: its certificate, which is made as CLASS.md says, connections, and warnings where there is none."""

import asyncio
import json
import os
import pathlib
import re
import shlex
import ssl
import subprocess
from collections.abc import AsyncIterator
from contextlib import asynccontextmanager

import aiohttp
import pytest

from support.class_tabs import LOOP, SECONDS, Tab, command, process
from support.places import TOP
from vecmon_lab import LabError
from vecmon_lab.__main__ import arguments_of
from vecmon_lab.classes.server import server
from vecmon_lab.classes.server.command import run
from vecmon_lab.classes.server.folder_lock import BadFolder
from vecmon_lab.classes.server.store import Store
from vecmon_lab.classes.server.unserved_class import renew_teacher
from vecmon_lab.classes.server.tls import tls_context
from vecmon_lab.classes.server.served_class import Class
from vecmon_lab.machine.program import find_program

pytestmark = pytest.mark.asyncio
Pair = tuple[pathlib.Path, pathlib.Path]
"""The files of a certificate and its key."""


@pytest.fixture(scope="module")
def pair(tmp_path_factory: pytest.TempPathFactory) -> Pair:
    """A certificate for 127.0.0.1, made by the command of CLASS_ADMIN.md."""
    folder = tmp_path_factory.mktemp("tls")
    text = (TOP / "docs" / "CLASS_ADMIN.md").read_text()
    found = re.search(r"^(openssl req (?:.*\\\n)*.*)$", text, re.MULTILINE)
    assert found
    words = shlex.split(found[1].replace("192.168.1.20", "127.0.0.1").replace("\\\n", " "))
    subprocess.run(words, cwd=folder, check=True, capture_output=True)
    assert (folder / "key.pem").stat().st_mode & 0o77 == 0
    return folder / "cert.pem", folder / "key.pem"


@asynccontextmanager
async def served(folder: pathlib.Path, pair: Pair) -> AsyncIterator[tuple[int, aiohttp.ClientSession]]:
    """A class that is served by HTTPS: its port, and a client that trusts its certificate, and no other."""
    members = Class(Store(folder, find_program()), SECONDS)
    listeners = server.listening("127.0.0.1", 0)
    trusting = aiohttp.TCPConnector(ssl=ssl.create_default_context(cafile=pair[0]))
    async with (
        server.served(members, listeners, {"127.0.0.1"}, tls_context(*pair)) as port,
        aiohttp.ClientSession(connector=trusting) as session,
    ):
        yield port, session


async def test_seat_connects_over_https(tmp_path: pathlib.Path, pair: Pair) -> None:
    """Page and socket; a client that doesn't trust the certificate has neither, and one without TLS gets an answer that names https."""
    async with served(tmp_path / "class", pair) as (port, session):
        async with session.get(f"https://127.0.0.1:{port}/") as page:
            assert page.status == 200 and f"wss://127.0.0.1:{port}" in page.headers["Content-Security-Policy"]
        code = json.loads((tmp_path / "class" / "codes.json").read_text())["A1"]
        socket = await session.ws_connect(
            f"wss://127.0.0.1:{port}/socket", headers={"Origin": f"https://127.0.0.1:{port}"}
        )
        await socket.send_json({"code": code})
        tab = Tab(socket)
        assert (await tab.receive())["who"] == "A1"
        assert (await tab.do(*LOOP, "step 2"))[-1] == ["stepped 2 pc=0000000000010000"]
        async with aiohttp.ClientSession() as other:
            with pytest.raises(aiohttp.ClientConnectorCertificateError):
                await other.get(f"https://127.0.0.1:{port}/")
            async with other.get(f"http://127.0.0.1:{port}/", headers={"X-Long": "a" * 8000}) as plain:
                assert (plain.status, plain.reason) == (400, "Bad Request") and "https://" in await plain.text()
            async with other.post(f"http://127.0.0.1:{port}/", data=b"a" * 30_000) as plain:
                assert plain.status == 400


async def test_silent_connections_make_room(
    tmp_path: pathlib.Path, pair: Pair, monkeypatch: pytest.MonkeyPatch
) -> None:
    """Of 12 that begin no handshake 7 are closed if 5 are the most; the page is served."""
    monkeypatch.setattr(server, "UNKNOWN", 5)
    monkeypatch.setattr(server, "PATIENCE", SECONDS)
    async with served(tmp_path / "class", pair) as (port, session):
        silent = [await asyncio.open_connection("127.0.0.1", port) for _ in range(12)]
        ends = [asyncio.create_task(reader.read()) for reader, _ in silent]
        while sum(end.done() for end in ends) < 7:
            done, _ = await asyncio.wait(
                [end for end in ends if not end.done()], timeout=SECONDS, return_when="FIRST_COMPLETED"
            )
            assert done
        async with session.get(f"https://127.0.0.1:{port}/") as page:
            assert page.status == 200
        assert sum(end.done() for end in ends) <= 8
        for _, writer in silent:
            writer.close()
        await asyncio.gather(*ends)


async def test_silent_connections_are_closed(
    tmp_path: pathlib.Path, pair: Pair, monkeypatch: pytest.MonkeyPatch
) -> None:
    monkeypatch.setattr(server, "PATIENCE", 2.0)
    async with served(tmp_path / "class", pair) as (port, _):
        for reader, writer in [await asyncio.open_connection("127.0.0.1", port) for _ in range(3)]:
            assert await asyncio.wait_for(reader.read(), SECONDS) == b""
            writer.close()


def openssl(folder: pathlib.Path, arguments: str) -> None:
    """Runs a command of openssl's in a folder."""
    subprocess.run(["openssl", *arguments.split()], cwd=folder, check=True, capture_output=True)


async def test_bad_certificate_or_key_is_refused(tmp_path: pathlib.Path, pair: Pair) -> None:
    """Each is refused with one sentence that names the file."""
    certificate, key = pair
    openssl(tmp_path, f"x509 -in {certificate} -signkey {key} -days -1 -out old.pem")
    openssl(tmp_path, "genpkey -algorithm RSA -pkeyopt rsa_keygen_bits:2048 -out rsa.pem")
    openssl(tmp_path, "genpkey -algorithm EC -pkeyopt ec_paramgen_curve:P-256 -out other.pem")
    openssl(tmp_path, f"pkey -in {key} -aes256 -passout pass:secret -out encrypted.pem")
    (tmp_path / "junk.pem").write_bytes(b"\0" * 100)
    os.mkfifo(tmp_path / "pipe.pem")
    os.truncate(os.open(tmp_path / "large.pem", os.O_CREAT | os.O_RDWR), 1_048_577)
    zero = pathlib.Path("/dev/zero")
    refused = {
        (zero, key): "/dev/zero is no regular file: name a file with the certificate or key",
        (certificate, zero): "/dev/zero is no regular file",
        (certificate, tmp_path / "pipe.pem"): "pipe.pem is no regular file",
        (certificate, tmp_path / "large.pem"): "large.pem has 1,048,577 bytes, and 1,048,576 is the maximum",
        (tmp_path / "old.pem", key): "old.pem isn't valid: certificate has expired",
        (certificate, tmp_path / "rsa.pem"): f"rsa.pem isn't the private key of the certificate {certificate}",
        (certificate, tmp_path / "other.pem"): f"other.pem isn't the private key of the certificate {certificate}",
        (certificate, tmp_path / "encrypted.pem"): "encrypted.pem is encrypted: openssl pkey",
        (certificate, tmp_path / "junk.pem"): "can't be used as certificate and private key: one isn't in PEM form",
        (key, certificate): "can't be used as certificate and private key: one isn't in PEM form",
        (tmp_path / "none.pem", key): "No such file or directory",
        (certificate, tmp_path): "Is a directory",
    }
    for files, sentence in refused.items():
        with pytest.raises((LabError, OSError), match=re.escape(sentence)) as reply:
            tls_context(*files)
        assert "\n" not in str(reply.value)


async def test_key_that_all_can_read_is_warned_about(
    tmp_path: pathlib.Path, pair: Pair, monkeypatch: pytest.MonkeyPatch, capsys: pytest.CaptureFixture[str]
) -> None:
    key = tmp_path / "key.pem"
    key.write_bytes(pair[1].read_bytes())
    monkeypatch.setenv("CODEMIRROR", str(tmp_path))  # which ends the start behind the warning
    for mode, count in ((0o600, 0), (0o640, 0), (0o644, 1)):
        key.chmod(mode)
        arguments = arguments_of(["class", "--tls", str(pair[0]), str(key), str(tmp_path / "class")])
        with pytest.raises(LabError, match="codemirror"):
            run(arguments)
        warning = f"vecmon-lab: warning: all users of this computer can read the private key: chmod 600 {key}\n"
        assert capsys.readouterr() == ("", count * warning)


async def test_refused_certificate_starts_no_server(tmp_path: pathlib.Path, pair: Pair) -> None:
    """One line and status 2, before the folder is made; also of an address without TLS, which links would have."""
    openssl(tmp_path, f"x509 -in {pair[0]} -signkey {pair[1]} -days -1 -out old.pem")
    old = ["--tls", f"{tmp_path / 'old.pem'}", f"{pair[1]}"]
    for words in (old, ["--tls", *map(str, pair), "--address", "http://10.0.0.1:8765/"]):
        completed = subprocess.run(
            command(tmp_path / "class", *words), cwd=TOP, capture_output=True, text=True, timeout=SECONDS
        )
        assert (completed.returncode, completed.stdout, completed.stderr.count("\n")) == (2, "", 1), completed.stderr
        assert completed.stderr.startswith("vecmon-lab: ") and not (tmp_path / "class").exists()


async def test_teacher_gets_address_of_certificate(tmp_path: pathlib.Path, pair: Pair) -> None:
    call = command(tmp_path / "class", "--address", "https://class.school.example/", "--tls", *map(str, pair))
    process = await asyncio.create_subprocess_exec(*call, cwd=TOP, stdout=subprocess.PIPE)
    assert process.stdout
    line = await asyncio.wait_for(process.stdout.readline(), SECONDS)
    assert line.startswith(b"teacher: https://class.school.example/#")
    process.terminate()
    assert await process.wait() == 0


@pytest.mark.parametrize(
    "arguments, is_warned",
    [
        (["--host", "0.0.0.0"], True),
        (["--host", "0.0.0.0", "--tls"], False),
        ([], False),
        (["--host", "127.0.0.2"], False),
    ],
)
async def test_unencrypted_codes_are_warned_about(
    tmp_path: pathlib.Path, pair: Pair, arguments: list[str], is_warned: bool
) -> None:
    """The terminal and the teacher's page say so, where other computers can reach the class and there is no TLS."""
    call = command(tmp_path / "class", *arguments, *(map(str, pair) if "--tls" in arguments else ()))
    process = await asyncio.create_subprocess_exec(*call, cwd=TOP, stdout=subprocess.PIPE, stderr=subprocess.PIPE)
    assert process.stdout
    found = re.fullmatch(
        rb"teacher: (https?)://\S+:(\d+)/#(\S+)\n", await asyncio.wait_for(process.stdout.readline(), SECONDS)
    )
    assert found and (found[1] == b"https") == ("--tls" in arguments)
    scheme, host = found[1].decode(), "127.0.0.2" if "127.0.0.2" in arguments else "127.0.0.1"
    tls = ssl.create_default_context(cafile=pair[0])
    async with aiohttp.ClientSession() as session:
        socket = await session.ws_connect(f"{scheme}://{host}:{int(found[2])}/socket", ssl=tls, max_msg_size=0)
        await socket.send_json({"code": found[3].decode()})
        tab = Tab(socket)
        await tab.receive()
        assert tab.view["unencrypted"] == is_warned
    process.terminate()
    _, errors = await asyncio.wait_for(process.communicate(), SECONDS)
    assert (b"warning: codes travel unencrypted" in errors) == is_warned, errors
    assert process.returncode == 0 and errors.count(b"\n") == is_warned


async def test_teacher_code_is_renewed(tmp_path: pathlib.Path) -> None:
    """Seats and the wall keep theirs; the class is there, isn't served, and has its codes."""
    folder = tmp_path / "class"
    with pytest.raises(BadFolder, match="has no class"):
        renew_teacher(folder)
    async with process(folder) as room:
        before = room.codes
        with pytest.raises(BadFolder, match="is served by another server"):
            renew_teacher(folder)
        assert await room.end() == 0
    assert run(arguments_of(["class", "--renew-teacher", str(folder)])) == 0
    async with process(folder) as room:
        after = room.codes
        assert after["teacher"] != before["teacher"] and after == before | {"teacher": after["teacher"]}
        assert (await room.sit("A1")).view["seat"] == "A1" and (await room.sit("teacher")).view["machines"]
        assert await room.end() == 0
    for damage in (b"", b"{}", b"\xff", b'{"A1": 1}'):
        (folder / "codes.json").write_bytes(damage)
        with pytest.raises(BadFolder, match="codes.json is missing or damaged"):
            renew_teacher(folder)
        assert (folder / "codes.json").read_bytes() == damage

"""HTTPS for a class. The certificate and key are checked before anything is served, and the time of handshakes is limited."""

import asyncio
import contextlib
import os
import pathlib
import socket
import ssl
import stat
from collections.abc import Callable

from ... import LabError

FLIGHTS = 20  # more than the two sides of a handshake send
PEM_BYTES = 1 << 20  # of a certificate with its issuers', or a key
PLAIN_BYTES = 1 << 16  # of a plain request that are read at most before its connection is closed
HANDSHAKE = b"\x16"  # the first byte of TLS
METHOD_STARTS = [bytes([letter]) for letter in b"ABCDEFGHIJKLMNOPQRSTUVWXYZ"]  # of plain requests
NOT_HTTPS = b"This class is served by HTTPS: open the same address with https:// at its beginning.\n"
PLAIN_REFUSAL = (
    b"HTTP/1.1 400 Bad Request\r\nContent-Type: text/plain; charset=utf-8\r\nCache-Control: no-store\r\n"
    b"Content-Length: %d\r\nConnection: close\r\n\r\n%s" % (len(NOT_HTTPS), NOT_HTTPS)
)
WRONG_KEY = ("KEY_VALUES_MISMATCH", "KEY_TYPE_MISMATCH", "NO_CERTIFICATE_ASSIGNED")


def tls_context(certificate: pathlib.Path, key: pathlib.Path) -> ssl.SSLContext:
    """Return the context of a server with this certificate and its private key, both in PEM form.

    The certificate's file may have the certificates of its issuers after it. Raises OSError if a file isn't readable, and
    LabError if the key is another certificate's, or the certificate isn't valid now.
    """
    context = ssl.create_default_context(ssl.Purpose.CLIENT_AUTH)

    def refuse_encrypted() -> str:
        raise LabError(f"{key} is encrypted: openssl pkey -in {key} -out NEW writes a key that isn't")

    try:
        for path in (certificate, key):
            _check_file(path)
        context.load_cert_chain(certificate, key, refuse_encrypted)
    except ssl.SSLError as error:
        if error.reason in WRONG_KEY:
            raise LabError(f"{key} isn't the private key of the certificate {certificate}") from error
        cause = error.reason.replace("_", " ").lower() if error.reason else "one isn't in PEM form"
        raise LabError(f"{certificate} and {key} can't be used as certificate and private key: {cause}") from error
    _check_validity(context, certificate)
    return context


def _check_file(path: pathlib.Path) -> None:
    """Check a file. Raises OSError, which names it, if it isn't readable, and LabError if it isn't a regular file or is too large."""
    with open(path, "rb", opener=_open_at_once) as file:
        status = os.fstat(file.fileno())
    if not stat.S_ISREG(status.st_mode):
        raise LabError(f"{path} is no regular file: name a file with the certificate or key")
    if status.st_size > PEM_BYTES:
        raise LabError(f"{path} has {status.st_size:,} bytes, and {PEM_BYTES:,} is the maximum of a certificate or key")


def _open_at_once(name: str, flags: int) -> int:
    """Open a file without waiting, even if it is a pipe without a writer."""
    return os.open(name, flags | os.O_NONBLOCK)


def key_warning(key: pathlib.Path) -> str:
    """Return a warning if all users of this computer can read a private key; "" otherwise. Raises OSError."""
    is_open = key.stat().st_mode & stat.S_IROTH
    return f"all users of this computer can read the private key: chmod 600 {key}" if is_open else ""


def _check_validity(context: ssl.SSLContext, certificate: pathlib.Path) -> None:
    """Connect a client, in memory, that trusts this certificate. Raises LabError if the client refuses it."""
    client = ssl.create_default_context(cafile=certificate)
    client.verify_flags |= ssl.VERIFY_X509_PARTIAL_CHAIN  # the certificate itself is trusted, regardless of its issuer
    client.check_hostname = False
    to_server, to_client = ssl.MemoryBIO(), ssl.MemoryBIO()
    sides = [client.wrap_bio(to_client, to_server), context.wrap_bio(to_server, to_client, server_side=True)]
    try:
        for number in range(FLIGHTS):
            with contextlib.suppress(ssl.SSLWantReadError):
                sides[number % 2].do_handshake()
    except ssl.SSLCertVerificationError as error:
        raise LabError(f"{certificate} isn't valid: {error.verify_message}") from error
    except ssl.SSLError as error:
        raise LabError(f"{certificate} can't be used: {error}") from error


class Handshake:
    """The TLS handshakes of a server, each with a time limit."""

    def __init__(self, make: Callable[[], asyncio.Protocol], context: ssl.SSLContext, seconds: float) -> None:
        """make: returns the protocol of a connection; seconds: time limit of a handshake"""
        self._make, self._context, self._seconds = make, context, seconds

    async def __call__(self, connection: socket.socket) -> None:
        """Serve a connection after its handshake. Memory for the handshake is allocated only once the client has sent something.

        Raises OSError if the client sends nothing, doesn't use TLS, or goes away.
        """
        async with asyncio.timeout(self._seconds):
            await _readable(connection)
            if _is_plain(connection):
                await _refuse_plain(connection)
                return
            await asyncio.get_running_loop().connect_accepted_socket(self._make, connection, ssl=self._context)


def kind_of_start(head: bytes) -> tuple[None, str]:
    """Return None and the kind of a connection, `TLS` or `other`. None takes the place of a code's owner: codes are encrypted here."""
    return None, "TLS" if head[:1] == HANDSHAKE else "other"


async def _readable(connection: socket.socket) -> None:
    """Wait until a connection has data. Close it if none arrives in time."""
    loop, is_readable = asyncio.get_running_loop(), asyncio.Event()
    loop.add_reader(connection, is_readable.set)
    try:
        await is_readable.wait()
    except BaseException:
        loop.remove_reader(connection)
        connection.close()
        raise
    loop.remove_reader(connection)


def _is_plain(connection: socket.socket) -> bool:
    """Return whether a client has begun a request without TLS."""
    try:
        return connection.recv(1, socket.MSG_PEEK) in METHOD_STARTS
    except OSError:  # the handshake raises it as well
        return False


async def _refuse_plain(connection: socket.socket) -> None:
    """Respond to a request without TLS. Close the connection once the client does so, or has sent PLAIN_BYTES.

    An earlier close could reset the connection, and discard the response.
    """
    loop, left = asyncio.get_running_loop(), PLAIN_BYTES
    with connection:
        await loop.sock_sendall(connection, PLAIN_REFUSAL)
        connection.shutdown(socket.SHUT_WR)
        while left > 0 and (data := await loop.sock_recv(connection, left)):
            left -= len(data)

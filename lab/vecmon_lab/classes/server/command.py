"""Serves a class: eight students or more and their teacher, a page each, at machines that the program simulates."""

import argparse
import asyncio
import os
import pathlib
import sys
from urllib.parse import urlsplit

from ... import LabError
from ...arguments import add_any_vlen, between
from ...compilers.account import account_named, add_account
from ...exercises.exercise import with_course
from ...machine.program import find_program, images_of
from ...page.build import codemirror
from .builds import builds_by
from ..core.codes import LETTERS
from .folder_report import folder_report
from .machine_thread import rebuilding
from ..core.names import NAMES
from .damage import SHOWN
from .store import Store
from .unserved_class import forget, renew_teacher
from .served_class import Class

MAX_TITLE = 80


def add_arguments(parser: argparse.ArgumentParser) -> None:
    """Add the arguments and options of `vecmon-lab class`."""
    parser.add_argument(
        "folder", metavar="DIR", type=pathlib.Path, help="the folder of the class, created if necessary"
    )
    parser.add_argument("images", metavar="NAME=PATH", nargs="*", default=[], help="images that students load by name")
    parser.add_argument(
        "--title", metavar="TEXT", type=_title, help="the title of the class; by default the name of DIR"
    )
    add_any_vlen(parser)
    _add_addresses(parser)
    _add_exercises(parser)
    _add_machines(parser)
    _add_actions(parser)
    patience = between(1, 3600)
    parser.add_argument(
        "--patience",
        metavar="S",
        type=patience,
        default=10,
        help="replace a vecmon that is silent for S seconds; by default 10",
    )


def _add_addresses(parser: argparse.ArgumentParser) -> None:
    """Add the options that set where the class is served."""
    parser.add_argument("--host", default="127.0.0.1", help="the address to serve at; 0.0.0.0 serves all networks")
    port = between(0, 65535)
    parser.add_argument(
        "--port", metavar="P", type=port, default=8765, help="the port; 0 takes a free one; by default %(default)s"
    )
    parser.add_argument("--address", metavar="URL", type=_address, help="where students reach the class")
    help_text = "serve HTTPS with this certificate and its private key, both PEM files"
    parser.add_argument("--tls", nargs=2, metavar=("CERT", "KEY"), type=pathlib.Path, help=help_text)
    parser.add_argument("--name", action="append", default=[], help="another host name of the page")


def _add_exercises(parser: argparse.ArgumentParser) -> None:
    """Add the options of machines, exercises and compilers."""
    machines = between(1, len(LETTERS))
    parser.add_argument(
        "--machines",
        metavar="N",
        type=machines,
        help="the number of machines with eight seats each, 1 to 12; by default 1",
    )
    help_text = "an exercise for all seats: a name of the course, or a folder; repeatable"
    folder = pathlib.Path
    parser.add_argument("--exercise", metavar="NAME|DIR", type=folder, action="append", default=[], help=help_text)
    parser.add_argument("--course", action="store_true", help="all exercises of the course, before those of --exercise")
    parser.add_argument("--cc", metavar="NAME", help="the compiler of sources in C, such as clang-19")
    add_account(parser)
    limit = between(1, 512)
    parser.add_argument(
        "--image-size",
        metavar="KB",
        type=limit,
        default=64,
        help="maximum of nonzero kilobytes of a program; by default 64",
    )


def _add_machines(parser: argparse.ArgumentParser) -> None:
    """Add the options of each machine's slices, clock and spare process."""
    parser.add_argument("--quantum", metavar="N", type=int, help="ticks of a slice, 1 to 1000; by default 100")
    help_text = "start new machines with the clock off"
    parser.add_argument("--no-clock", action="store_true", help=help_text)
    help_text = "keep a second process for each machine, which replaces a failed one"
    parser.add_argument("--spare", action="store_true", help=help_text)


def _add_actions(parser: argparse.ArgumentParser) -> None:
    """Add the options that do something else instead of serving the class."""
    parser.add_argument("--forget", action="store_true", help="delete the names that DIR keeps, and serve nothing")
    help_text = "give the teacher a new code, and serve nothing; seats keep theirs"
    parser.add_argument("--renew-teacher", action="store_true", help=help_text)
    help_text = "report the state of DIR, and serve nothing; the status is 1 if a file is damaged"
    parser.add_argument("--check", action="store_true", help=help_text)


def run(arguments: argparse.Namespace) -> int:
    """Serve a class until SIGINT or SIGTERM, or do what an option asks for instead; return the exit status.

    Raises LabError and OSError for a bad folder, image, certificate or address.
    """
    os.umask(0o077)
    if arguments.forget:
        forget(arguments.folder, NAMES)
    elif arguments.renew_teacher:
        renew_teacher(arguments.folder)
    elif arguments.check:
        lines, has_lost = folder_report(arguments.folder, find_program())
        print(*lines, sep="\n")
        return int(has_lost)
    else:
        _serve(arguments)
    return 0


def _serve(arguments: argparse.Namespace) -> None:
    """Serve a class until SIGINT or SIGTERM. Raises as `run` does, and LabError if something can't be saved at the end."""
    from .server import listening, serve  # these need aiohttp; --help doesn't
    from .tls import key_warning, tls_context

    images, host = images_of(arguments.images, arguments.any_vlen), arguments.host
    account = account_named(arguments.account)
    tls = tls_context(*arguments.tls) if arguments.tls else None
    if tls and (arguments.address or "https:").startswith("http:"):
        raise LabError(f"--tls serves HTTPS, so the address of the class begins with https://: {arguments.address}")
    if tls and (warning := key_warning(arguments.tls[1])):
        print(f"vecmon-lab: warning: {warning}", file=sys.stderr)
    codemirror.folder()  # fails, before a new folder is made, if this part of the page is missing
    store = Store(arguments.folder, find_program(), images, arguments.quantum, arguments.machines)
    try:
        listeners = listening(host, arguments.port)  # before the class is replayed, which may take a while
    except LabError:
        store.close()
        raise
    builds = builds_by(arguments.cc, arguments.image_size << 10, account=account)
    exercises = with_course(arguments.exercise) if arguments.course else arguments.exercise
    members = Class(
        store, arguments.patience, _show_progress, not arguments.no_clock, arguments.spare, exercises, builds
    )
    if store.has_new_program:
        news = "isn't the program that served this class before; its answers are the same"
        print(f"vecmon-lab: {store.program} {news}", file=sys.stderr)
    for sentence in store.damage.sentences:
        print(f"vecmon-lab: warning: {sentence}", file=sys.stderr)
    members.address = arguments.address or ""
    members.class_title = members.class_title if arguments.title is None else arguments.title
    hosts = {*arguments.name, urlsplit(members.address).hostname or host}
    asyncio.run(serve(members, host, listeners, hosts, tls=tls))
    if unsaved := members.unsaved():
        more = f"; and {len(unsaved) - SHOWN} more" if len(unsaved) > SHOWN else ""
        raise LabError(f"the class has ended, and a part of it is lost: {'; '.join(unsaved[:SHOWN])}{more}")


def _address(text: str) -> str:
    """Parse the address of the class; return it with a slash at its end. Raises ArgumentTypeError."""
    from .server import HOST

    scheme, _, host = text.removesuffix("/").partition("://")
    if scheme not in ("http", "https") or not HOST.fullmatch(host):
        raise argparse.ArgumentTypeError(f"{text} isn't http:// or https://, a host, and a port or none")
    return f"{scheme}://{host}/"


def _title(text: str) -> str:
    """Check the title of a class, and return it. Raises ArgumentTypeError."""
    if not 0 < len(text) <= MAX_TITLE or not text.isprintable():
        raise argparse.ArgumentTypeError(f"a title has 1 to {MAX_TITLE} printable characters")
    return text


def _show_progress(letter: str, percent: int) -> None:
    """Show at a terminal how much of a machine's script has been executed again."""
    if sys.stderr.isatty():
        print(f"\r{rebuilding(letter, percent)}", end="\n" if percent == 100 else "", file=sys.stderr, flush=True)

"""The option `--as USER`: if root starts the lab, the sandbox of compilers runs as this user, who has fewer rights."""

import argparse
import os
import pwd
from collections.abc import Sequence
from dataclasses import dataclass

from .. import LabError


@dataclass(frozen=True)
class Account:
    """The numbers of a user and the user's group; None for the user and the group of this process. A user with a number has no other groups."""

    user: int | None = None
    group: int | None = None

    @property
    def groups(self) -> Sequence[int] | None:
        """The additional groups of a process that the user runs; None for the additional groups of the lab's process."""
        return None if self.user is None else ()


OWN = Account()
"""The user of this process."""


def add_account(parser: argparse.ArgumentParser) -> None:
    """Add the option that names the user who compiles sources."""
    help_text = "the user who compiles sources in C, such as nobody, if root starts this"
    parser.add_argument("--as", metavar="USER", dest="account", help=help_text)


def account_named(name: str | None) -> Account:
    """Return the account of a user, or the account of this process if there is no name.

    Raises LabError for an unknown user and for root. If root doesn't run this process, it raises LabError also for any user other than the
    one who runs this process.
    """
    if name is None:
        return OWN
    try:
        found = pwd.getpwnam(name)
    except (KeyError, ValueError) as error:  # ValueError: the name has a zero byte
        raise LabError(
            f"--as {name!r}: there is no such user; `--as nobody` names Debian's user without rights"
        ) from error
    if found.pw_uid == 0:
        raise LabError(f"--as {name}: others' sources aren't compiled as root; name another user, such as nobody")
    if os.geteuid() == 0:
        return Account(found.pw_uid, found.pw_gid)
    if os.geteuid() != found.pw_uid:
        raise LabError(f"--as {name}: only root can compile as another user; leave out --as")
    return OWN

"""The lab's limits by the clock, raised for tests: on a busy host all takes longer, and that fails no test."""

from vecmon_lab.classes.server import checks, explore, scripts, server, solo, tab_socket
from vecmon_lab.compilers import sandbox

PATIENCE = 180  # seconds: a test that waits for so long has failed


def raise_limits() -> None:
    """Raise the limits of this process. A test of a limit sets it, with `monkeypatch`."""
    sandbox.SECONDS = PATIENCE
    checks.SECONDS = explore.PATIENCE = solo.PATIENCE = PATIENCE
    server.PATIENCE = server.CODE_SECONDS = PATIENCE
    for module in (tab_socket, server):  # which imports it
        setattr(module, "READ_SECONDS", PATIENCE)
    scripts.MAX_BEHIND = 1e9  # a slow process doesn't delay slices

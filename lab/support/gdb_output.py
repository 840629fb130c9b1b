"""The packets that gdb receives when a program runs to its end."""

import pathlib
import re
import subprocess
import sys

from .places import TOP


def run_in_gdb(path: pathlib.Path) -> tuple[bytes, str, str]:
    """Runs an image to its exit by gdb's protocol: its output, the line about its exit, and what is on standard error."""
    pipe, command = subprocess.PIPE, [sys.executable, "-m", "vecmon_lab", "gdb", str(path)]
    with subprocess.Popen(command, cwd=TOP, stdin=pipe, stdout=pipe, stderr=pipe, bufsize=0) as link:
        assert link.stdin and link.stdout and link.stderr
        link.stdin.write(b"$c#63")
        packets = b""
        while b"$T05" not in packets:
            part = link.stdout.read(65536)
            assert part, packets
            packets += part
        link.stdin.write(b"$k#6b")
        error = link.stderr.read().decode()
    *outputs, end = [bytes.fromhex(digits.decode()) for digits in re.findall(rb"\$O([0-9a-f]*)#", packets)]
    return b"".join(outputs), end.decode(), error

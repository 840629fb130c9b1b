"""Tests that are left out where something isn't installed."""

import os
from typing import NoReturn

import pytest

NO_BROWSER = "there is no Chromium"
NO_BINUTILS = "there is no riscv64-linux-gnu-ld"
NO_LLVM = "there is no llvm-mc-19, or no riscv64-linux-gnu-objcopy"
NO_GDB = "there is no gdb-multiarch"
NO_LLDB = "there is no lldb-19"
NO_QEMU = "there is no qemu-riscv64 of version 7.2"
NO_CLANG = "there is no clang with intrinsics of vectors"
NO_SANDBOX = "there is no bwrap"
NO_NODE = "there is no node"
NO_SITE = "VECMON_SITE names no built site: run tools/site build/site"
NO_TOOL = "a documented command needs"


def leave_out(reason: str) -> NoReturn:
    """Leaves a test out; where CI is set, it fails."""
    if os.environ.get("CI"):
        pytest.fail(reason)
    pytest.skip(reason)

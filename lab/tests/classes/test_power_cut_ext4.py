"""Power cuts of a served class on ext4: its disk is copied while four seats work, and each copy is mounted and opened.

It needs root, loop devices and mkfs.ext4. In CI it makes four cuts where it has them, opens the copies, and waits until a copy has
all steps before the last cut; by hand, POWER_CUTS=30 python -m pytest FILE also counts the steps of more than a second before each cut.
"""

import asyncio
import contextlib
import filecmp
import math
import os
import pathlib
import shutil
import signal
import subprocess
import time
from collections.abc import Iterator

import pytest

from support.busy_host import PATIENCE
from support.class_tabs import LOOP, Served, Tab, process
from vecmon_lab.classes.server.store import Store
from vecmon_lab.classes.server.served_class import Class

IN_CI = os.environ.get("CI") and shutil.which("mkfs.ext4") and os.access("/dev/loop-control", os.W_OK)
CUTS = int(os.environ.get("POWER_CUTS", "4" if IN_CI else "0"))
SECONDS = 1.0 if "POWER_CUTS" in os.environ else math.inf  # in CI other tests keep the disk busy
SEATS = ["A1", "A2", "A3", "A4"]
DISK_BYTES = 32 << 20

pytestmark = pytest.mark.skipif(not CUTS or os.geteuid() != 0, reason="POWER_CUTS isn't set, or this isn't root")


@contextlib.contextmanager
def mounted(image: pathlib.Path) -> Iterator[pathlib.Path]:
    """The folder where an image is mounted."""
    folder = image.with_suffix(".mounted")
    folder.mkdir()
    subprocess.run(["mount", "-o", "loop", image, folder], check=True)
    try:
        yield folder
    finally:
        subprocess.run(["umount", folder], check=True)


async def work(tab: Tab, done: list[float], is_over: asyncio.Event) -> None:
    """Steps again and again, and types; notes when each step was acknowledged."""
    await tab.do(*LOOP)
    while not is_over.is_set():
        await tab.do("step 1")
        done.append(time.monotonic())
        await tab.ask("draft", text=f"# {len(done)}", number=tab.view["source"]["number"])
        await asyncio.sleep(0.02)


def check(image: pathlib.Path, program: pathlib.Path, known: list[int]) -> list[int]:
    """Opens the class of an image that was copied; compares the steps of each seat with those that it had, and returns them."""
    with mounted(image) as folder:
        members = Class(Store(folder / "class", program), 10.0, clock=False)
        script = members.rooms["A"].session.script.decode().splitlines()
        counts = [script.count(f"{seat[1]} step 1") for seat in SEATS]
        lost = [
            sentence
            for sentence in members.store.damage.sentences
            if not sentence.startswith("A.script is damaged behind")
        ]
        members.end()
    assert not lost and all(count >= minimum for count, minimum in zip(counts, known)), (lost, counts, known)
    return counts


def cut(room: Served, image: pathlib.Path, copy: pathlib.Path) -> float:
    """Copies the disk of a class at one moment, when the system writes nothing to it either; returns when the class was stopped."""
    assert room.server
    room.server.send_signal(signal.SIGSTOP)
    now = time.monotonic()
    shutil.copyfile(image, copy)
    while not filecmp.cmp(image, copy, shallow=False):
        shutil.copyfile(image, copy)
    room.server.send_signal(signal.SIGCONT)
    return now


async def wait_for_steps(room: Served, image: pathlib.Path, program: pathlib.Path, steps: list[int]) -> None:
    """Waits until a copy of the disk has these numbers of steps."""
    end, counts, number = time.monotonic() + PATIENCE, [0] * len(steps), 0
    while any(count < minimum for count, minimum in zip(counts, steps)):
        assert time.monotonic() < end
        await asyncio.sleep(0.3)
        number += 1
        copy = image.with_name(f"later{number}")  # a new file, so that no loop device has its old blocks
        cut(room, image, copy)
        counts = check(copy, program, [0] * len(steps))
        copy.unlink()


@pytest.mark.asyncio
async def test_every_copy_opens(tmp_path: pathlib.Path, program: pathlib.Path) -> None:
    image = tmp_path / "disk"
    with image.open("wb") as file:
        file.truncate(DISK_BYTES)
    subprocess.run(["mkfs.ext4", "-q", "-F", image], check=True)
    cuts = list[tuple[pathlib.Path, list[int], list[int]]]()
    with mounted(image) as folder:
        async with process(folder / "class") as room:
            done: list[list[float]] = [[] for _ in SEATS]
            is_over = asyncio.Event()
            workers = [asyncio.create_task(work(await room.sit(seat), own, is_over)) for seat, own in zip(SEATS, done)]
            for number in range(CUTS):
                await asyncio.sleep(0.3 + 0.037 * (number % 10))
                copy = tmp_path / f"cut{number}"
                now = cut(room, image, copy)
                cuts.append(
                    (copy, [sum(when <= now - SECONDS for when in own) for own in done], [len(own) for own in done])
                )
            await wait_for_steps(room, image, program, cuts[-1][2])
            is_over.set()  # wait_for, which a tab uses, can lose a cancellation
            await asyncio.gather(*workers)
            assert await room.end() == 0
    for copy, known, acknowledged in cuts:
        print(acknowledged, known, check(copy, program, known))
        copy.unlink()

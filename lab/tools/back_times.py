"""Take the processor times of going back in a long run, and compare its states with those of a new machine.

`VECMON=PATH .venv/bin/python lab/tools/back_times.py [INSTRUCTIONS]`, by default 150,000,000. The recorder is next to
`vecmon`. The run changes 36 bytes in each round of ten instructions, and four others only at its end. Status 1 if a state
differs. The last rows are those of a page's history, which has no recorder.
"""

import os
import pathlib
import subprocess
import sys
import tempfile
import time
from collections.abc import Callable
from resource import RUSAGE_CHILDREN, RUSAGE_SELF, getrusage

from support.long_runs import LAST_PLACE, fresh_states, make_long_run, shown
from vecmon_lab.guest.guest import Guest, started
from vecmon_lab.machine.program import find_program, find_recorder
from vecmon_lab.machine.session import Session
from vecmon_lab.replay.control import never
from vecmon_lab.replay.histories import Histories
from vecmon_lab.replay.timeline import Timeline
from vecmon_lab.replay.watches import Watch

INSTRUCTIONS = 150_000_000
LAST = Watch("watch", LAST_PLACE, 4)


class Times:
    """Prints the seconds that actions take: of the lab's processor, of its programs' processor, and by the clock."""

    def take(self, name: str, action: Callable[[], object]) -> None:
        """Do an action, and print its times."""
        before = self._now()
        action()
        own, others, clock = (now - then for now, then in zip(self._now(), before))
        print(f"{name:44} {own:8.2f} {others:8.2f} {own + others:8.2f} {clock:8.2f}", flush=True)

    def _now(self) -> tuple[float, float, float]:
        own, others = getrusage(RUSAGE_SELF), getrusage(RUSAGE_CHILDREN)
        programs = others.ru_utime + others.ru_stime
        for children in pathlib.Path("/proc/self/task").glob("*/children"):
            for process in children.read_text("ascii").split():
                words = pathlib.Path(f"/proc/{process}/stat").read_text("ascii").rpartition(") ")[2]
                programs += sum(map(int, words.split()[11:13])) / os.sysconf("SC_CLK_TCK")
        return own.ru_utime + own.ru_stime, programs, time.monotonic()


def main(instructions: int) -> int:
    """Print the times; return the status."""
    with tempfile.TemporaryDirectory() as folder:
        image = pathlib.Path(folder) / "long"
        length = make_long_run(find_program(), image, instructions)
        print(f"{f'{length:,} instructions':44}      lab programs      sum    clock")
        places = ["--watch", f"{LAST_PLACE:x}:4", "--changes", str(image.with_suffix(".changes"))]
        Times().take("vecmon-record --watch", lambda: subprocess.run([find_recorder(), *places, image], check=True))
        counts = [0, length // 7, length // 2, length - 1000, length - 2, length - 1]
        states = dict(zip(counts, fresh_states(image, counts)))
        with started(image, write=lambda data: None) as guest:
            is_right = go_back(guest, length, {count: states[count] for count in reversed(counts)})
        is_right = go_back_on_a_page(image, {count: states[count] for count in reversed(counts)}) and is_right
    print("all states are those of a new machine" if is_right else "a state differs")
    return 0 if is_right else 1


def go_back(guest: Guest, length: int, states: dict[int, object]) -> bool:
    """Run a guest to its end, and go back to states by their counts, the largest first; whether each is as given."""
    timeline, times = Timeline(guest), Times()
    times.take("go to the end", lambda: timeline.go(never))
    print(
        f"{len(timeline.run.saved.states)} states are saved, of {len(timeline.run.saved.states[-1].snapshot.user.pages)} pages each"
    )
    number, is_right = length, True
    for count, state in states.items():
        times.take(f"back by {number - count:,}", lambda: timeline.back(number - count))
        number, is_right = count, is_right and shown(guest) == state
    timeline.watches = [LAST]
    times.take("go to the change at the end", lambda: timeline.go(never))
    is_right = is_right and timeline.count() == length - 1
    timeline.watches = []
    timeline.step()
    timeline.watches = [LAST]
    times.take("back to this change", lambda: timeline.back_to_halt((), never))
    is_right = is_right and timeline.count() == length
    timeline.watches = []
    timeline.back()
    timeline.watches = [LAST]
    times.take("back to a change before, which isn't there", lambda: timeline.back_to_halt((), never))
    return is_right


def go_back_on_a_page(image: pathlib.Path, states: dict[int, object]) -> bool:
    """Run an image to its end as a page does, and go back to states by their counts; whether each is as given."""
    times, is_right = Times(), True
    with Session(find_program(), {"image": image}, quantum=100) as session:
        histories = Histories(session.quantum, lambda: session.rewound(b""))
        history = histories.users["1"]
        for line in ("1 enter", "1 load image", "1 go"):
            histories.follow(line, session.do(line))

        def run() -> None:
            while history.run.legs.is_running:
                histories.follow("* slices 1000", session.do("* slices 1000"))

        times.take("a page: go to the end", run)
        times.take("a page: count the instructions", lambda: history.count(never))
        for count, state in states.items():
            times.take(f"a page: back to {count:,}", lambda: history.at(count, never))
            instant = history.at(count, never)
            is_right = is_right and instant is not None and shown(instant.guest) == state
        print(f"{len(history.run.saved.states)} states are saved")
        histories.close()
    return is_right


if __name__ == "__main__":
    sys.exit(main(int(sys.argv[1]) if sys.argv[1:] else INSTRUCTIONS))

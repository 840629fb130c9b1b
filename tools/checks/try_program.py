"""Tries a built program from outside: `tools/checks/try_program VECMON`, with the path of any vecmon.

It runs README's first script and a script file with images in small slices. It tries wrong arguments, files that can't be
read, a full output, and too little memory, and writes lines to a program that waits for more. Output, standard error
and exit status have to be exactly those in this file, in README.md and in `crates/vecmon`, which were worked out by
hand. The exit status is 1 if something differs.
"""

import pathlib
import resource
import select
import subprocess
import sys
from typing import NamedTuple

TOP = pathlib.Path(__file__).resolve().parents[2]
DATA = TOP / "crates/vecmon"
IMAGES = TOP / "tests/command_lines/data"

# Less than the frames of the users' memory, which are 8 MiB, and enough to start.
TOO_LITTLE_MEMORY = 8000 * 1024
SECONDS = 180


class Run(NamedTuple):
    """The arguments after the program's name, its standard input, and the expected result."""

    words: list[str | bytes]
    script: str = ""
    output: str = ""
    errors: str = ""
    status: int = 0
    memory: int | None = None


def first_script() -> tuple[str, str]:
    """README's first script, and what is answered to it."""
    block = (TOP / "README.md").read_text(encoding="utf-8").split("```text\n", 1)[1].split("```", 1)[0]
    script, answers = block.split("\n\n")
    return script + "\n", answers


def runs() -> list[Run]:
    """All runs but those with an output that is full, and with a script that comes line by line."""
    script, answers = first_script()
    two_images = [f"good={IMAGES}/good", f"short={IMAGES}/short"]
    slices = (DATA / "slices_and_images_answers").read_text(encoding="utf-8")
    needs_path = "vecmon: image argument needs NAME=PATH\n"
    bad_quantum = (
        "error: invalid value '0' for '--quantum <N>': 0 is not in 1..=1000\n\nFor more information, try '--help'.\n"
    )
    no_text = "error: invalid UTF-8 was detected in one or more arguments\n"
    return [
        Run([], script, answers),
        Run([str(DATA / "first_vectors")], "1 enter\n", answers),
        Run(["--quantum", "4", str(DATA / "slices_and_images"), *two_images], "", slices),
        Run([], script, "", "vecmon: out of memory\n", 6, TOO_LITTLE_MEMORY),
        Run(["--quantum", "0"], "", "", bad_quantum, 2),
        Run(["missing", "hello"], "", "", needs_path, 2),
        Run(["missing", b"\xff"], "", "", no_text, 2),
        Run(["missing"], "", "", "vecmon: cannot read script\n", 3),
        Run(["missing", "hello=missing"], "", "", "vecmon: cannot read image hello\n", 4),
        Run(["missing", *two_images[:1], *two_images[:1]], "", "", "vecmon: bad image list\n", 4),
    ]


def differences(program: str, run: Run) -> list[str]:
    """The differences of a run from the expected result."""

    def limit() -> None:
        if run.memory is not None:
            resource.setrlimit(resource.RLIMIT_AS, (run.memory, run.memory))

    ended = subprocess.run(
        [program, *run.words],
        input=run.script.encode(),
        capture_output=True,
        preexec_fn=limit,
        timeout=SECONDS,
        check=False,
    )
    wanted = {"output": run.output.encode(), "errors": run.errors.encode(), "status": run.status}
    came = {"output": ended.stdout, "errors": ended.stderr, "status": ended.returncode}
    return [
        f"{run.words}: {part}: {came[part]!r} and not {wanted[part]!r}" for part in wanted if came[part] != wanted[part]
    ]


def full_output(program: str) -> list[str]:
    """An output that takes no byte."""
    with open("/dev/full", "wb") as full:
        ended = subprocess.run(
            [program], input=b"1 enter\n", stdout=full, stderr=subprocess.PIPE, timeout=SECONDS, check=False
        )
    came = (ended.stderr, ended.returncode)
    return [] if came == (b"vecmon: cannot write output\n", 5) else [f"a full output: {came}"]


def line_by_line(program: str) -> list[str]:
    """Lines to a program whose input stays open: each is answered before the next is written."""
    script, answers = first_script()
    lines, faults = list(zip(script.splitlines(), answers.splitlines(), strict=True)), list[str]()
    with subprocess.Popen(
        [program], stdin=subprocess.PIPE, stdout=subprocess.PIPE, stderr=subprocess.DEVNULL, bufsize=0
    ) as started:
        assert started.stdin and started.stdout
        for line, answer in lines:
            try:
                started.stdin.write(line.encode() + b"\n")
            except BrokenPipeError:
                return [*faults, f"{line}: the program has ended"]
            if not select.select([started.stdout], [], [], SECONDS)[0]:
                return [*faults, f"{line}: no answer while the input stays open"]
            came = started.stdout.readline()
            if came != answer.encode() + b"\n":
                faults.append(f"{line}: {came!r} and not {answer!r}")
    return faults


def main(program: str) -> int:
    faults = [fault for run in runs() for fault in differences(program, run)]
    faults += full_output(program) + line_by_line(program)
    for fault in faults:
        print(fault)
    print(f"{len(runs()) + 2} runs of {program}, {len(faults)} differences")
    return 1 if faults else 0


if __name__ == "__main__":
    if len(sys.argv) != 2:
        sys.exit(__doc__)
    sys.exit(main(sys.argv[1]))

"""Proves and builds vecmon and vecmon-record, several crates at a time: tools/building/proved_build [--jobs N] [--calculate] [CRATE]...

`rt run` proves the libraries below a program one after another. This tool copies the sources of both programs into a folder of their own
and runs `rt all check --jobs N` there. N crates are proved at a time, each as soon as the libraries below it are built. Then `rt run`
compiles the two programs without another proof. The tool copies them into crates/NAME/out, and records for tools/run the sources that they
were proved from (tools/building/source_digest). With CRATEs it only proves these and the crates below them.

N is the number of processors, but at most one for each 4 GB of memory. The copy is ~/.cache/vecmon/KIT/proved/CLONE, or below
$XDG_CACHE_HOME. The next run proves again only the crates that changed, and those above them. Standard output is that of rt.

Exit status: 0 if all is proved; 1 if a proof fails, and nothing is copied or recorded; 2 for bad arguments, or sources that changed.
"""

import argparse
import hashlib
import os
import re
import shutil
import subprocess
import sys
from collections.abc import Iterable, Mapping, Sequence

from tools.building.linked_kit import cache

TOP = os.path.dirname(os.path.dirname(os.path.dirname(os.path.realpath(__file__))))
PROGRAMS = ("vecmon", "vecmon_record")
PARTS = ("src", "specs", "proofs")
JOB_BYTES = 4_000_000_000
DEFAULT_SECONDS = 40  # of a crate that docs/MEASUREMENTS.md doesn't have


def libraries(text: str) -> dict[str, list[str]]:
    """Returns the crates that each crate of a crates.txt uses, by name, without those of the kit."""
    named = {
        name: words.split("#")[0].split() for name, words in re.findall(r"^([a-z]\w*)[^:\n]*:(.*)$", text, re.MULTILINE)
    }
    return {name: [word for word in words if word in named] for name, words in named.items()}


def crates_below(tops: Iterable[str], used: Mapping[str, Sequence[str]]) -> list[str]:
    """Returns these crates and all that they use, by the table of `libraries`."""
    found = list(dict.fromkeys(tops))
    for crate in found:
        found += [name for name in used[crate] if name not in found]
    return found


def copy_sources(crates: Sequence[str], text: str, folder: str) -> None:
    """Makes the folder a repository of only these crates. The results of rt in out/ stay there."""
    os.makedirs(f"{folder}/crates", exist_ok=True)
    for name in set(os.listdir(f"{folder}/crates")) - set(crates):
        shutil.rmtree(f"{folder}/crates/{name}")
    for name in crates:
        for part in PARTS:
            shutil.rmtree(f"{folder}/crates/{name}/{part}", ignore_errors=True)
            if os.path.isdir(f"{TOP}/crates/{name}/{part}"):
                shutil.copytree(f"{TOP}/crates/{name}/{part}", f"{folder}/crates/{name}/{part}")
    shutil.copy(f"{TOP}/HANDLES", folder)
    lines = [line for line in text.splitlines() if re.split(r"[ :]", line)[0] in crates]
    with open(f"{folder}/crates.txt", "w", encoding="utf-8") as file:
        file.write("".join(f"{line}\n" for line in lines))


def jobs_for(processors: int, memory: int) -> int:
    """Returns how many crates are proved at a time, by the processors and the bytes of memory."""
    return max(1, min(processors, memory // JOB_BYTES))


def seconds_of_proofs() -> dict[str, int]:
    """Returns the seconds of each crate's proof in docs/MEASUREMENTS.md."""
    with open(f"{TOP}/docs/MEASUREMENTS.md", encoding="utf-8") as file:
        rows = re.findall(r"^\| \d+ to \d+ \| (`.*) \|$", file.read(), re.MULTILINE)
    return {name: int(seconds) for row in rows for name, seconds in re.findall(r"`(\w+)` (\d+)", row)}


def calculated_end(
    crates: Iterable[str], used: Mapping[str, Sequence[str]], seconds: Mapping[str, int], jobs: int
) -> int:
    """Returns the second at which the last proof ends. As in rt, a crate takes a job in the order of the crates that it uses, and waits there."""
    free, ends = [0] * jobs, dict[str, int]()
    for name in sorted(sorted(crates), key=lambda crate: len(crates_below([crate], used))):
        free.sort()
        ends[name] = max([free[0], *(ends[below] for below in crates_below([name], used)[1:])]) + seconds.get(
            name, DEFAULT_SECONDS
        )
        free[0] = ends[name]
    return max(ends.values())


def digest() -> str:
    """Returns the digest of the sources."""
    return subprocess.run(
        [f"{TOP}/tools/building/source_digest"], capture_output=True, text=True, check=True
    ).stdout.strip()


def build_programs(folder: str, sources: str) -> int:
    """Compiles the proved programs, copies them into crates/NAME/out, and records their sources. Returns the exit status."""
    for name in PROGRAMS:
        ran = subprocess.run(["rt", "run", "--", "--help"], cwd=f"{folder}/crates/{name}", stdout=subprocess.DEVNULL)
        if ran.returncode:
            return 1
    for name in PROGRAMS:
        out = f"{TOP}/crates/{name}/out"
        os.makedirs(out, exist_ok=True)
        shutil.copy(f"{folder}/crates/{name}/out/{name}", f"{out}/{name}.new")
        os.replace(f"{out}/{name}.new", f"{out}/{name}")
    return subprocess.run([f"{TOP}/tools/building/source_digest", "record", sources]).returncode


def main(words: Sequence[str]) -> int:
    """Proves, and builds if no crate is named."""
    parser = argparse.ArgumentParser(
        prog="tools/building/proved_build",
        description="Prove and build vecmon and vecmon-record, several crates at a time.",
    )
    memory = os.sysconf("SC_PAGE_SIZE") * os.sysconf("SC_PHYS_PAGES")
    parser.add_argument(
        "--jobs",
        type=int,
        default=jobs_for(len(os.sched_getaffinity(0)), memory),
        help="crates at a time (default: %(default)s)",
    )
    parser.add_argument(
        "--calculate",
        action="store_true",
        help="only print the clock seconds that docs/MEASUREMENTS.md lets expect, with the jobs and with one",
    )
    parser.add_argument(
        "crates", metavar="CRATE", nargs="*", help="prove this crate and those below it; build no program"
    )
    arguments = parser.parse_args(words)
    with open(f"{TOP}/crates.txt", encoding="utf-8") as file:
        text = file.read()
    used = libraries(text)
    if unknown := [name for name in arguments.crates if name not in used]:
        parser.error(f"crates.txt has no crate {unknown[0]}")
    if arguments.jobs < 1:
        parser.error("--jobs takes a number above 0")
    crates = crates_below(arguments.crates or PROGRAMS, used)
    if arguments.calculate:
        print(*(calculated_end(crates, used, seconds_of_proofs(), jobs) for jobs in (arguments.jobs, 1)))
        return 0
    sources = digest()
    folder = f"{cache()}/proved/{hashlib.sha256(TOP.encode()).hexdigest()[:16]}"
    copy_sources(crates, text, folder)
    if digest() != sources:
        print("tools/building/proved_build: the sources changed while they were copied: run it again", file=sys.stderr)
        return 2
    if subprocess.run(["rt", "all", "check", "--jobs", str(arguments.jobs)], cwd=f"{folder}/crates").returncode:
        return 1
    return 0 if arguments.crates else build_programs(folder, sources)


if __name__ == "__main__":
    sys.exit(main(sys.argv[1:]))

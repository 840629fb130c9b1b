"""Measures each kind of instruction compared with QEMU, and draws the results. At the top of the repository:

    tools/building/debian_packages measurements
    tools/measuring/kinds time VECMON FILE                  nanoseconds of processor an instruction, of QEMU and of VECMON in turn
    tools/measuring/kinds count VECMON FILE                 machine instructions an instruction, of QEMU and of VECMON
    tools/measuring/kinds draw FILE PICTURE                 the figures of FILE as an SVG
    tools/measuring/kinds table FILE                        the times of FILE as a table of Markdown, and the means of the ratios

FILE is a CSV such as `docs/kinds.csv`, with a line for each kind: an instruction, SEW and LMUL. `time` and `count` replace the figures in
FILE; with `--before` they replace those of an earlier program. `--only TEXT` measures only the kinds whose instruction has that text.

A kind is a loop of 16 equal instructions, an addi and a branch, in an image that both programs run; the time of one turn is taken
off, and the figure is the least of the rounds. Times are those of the processor, so other work on the machine makes them longer only by
sharing caches and cores: take more rounds there (`--rounds`). Counts don't vary.
"""

import argparse
import csv
import os
import pathlib
import re
import resource
import statistics
import subprocess
import tempfile
from collections.abc import Callable, Iterator

ALL = [(8, "m1"), (8, "m8"), (32, "m1"), (32, "m8")]
HALF = [(8, "m1"), (8, "m4"), (32, "m1"), (32, "m4")]  # operands of twice the width, or two fields
QUARTER = [(8, "m1"), (8, "m2"), (32, "m1"), (32, "m2")]  # four fields
ONE = [(8, "m1")]

KINDS = {
    "add t1, t2, t3": ONE,
    "addi t1, t2, 3": ONE,
    "slli t1, t2, 3": ONE,
    "mul t1, t2, t3": ONE,
    "div t1, t2, t3": ONE,
    "jal t1, . + 4": ONE,
    "bne t2, t3, . + 4": ONE,
    "ld t1, 0(s2)": ONE,
    "lw t1, 0(s2)": ONE,
    "lbu t1, 0(s2)": ONE,
    "sd t1, 0(s2)": ONE,
    "sw t1, 0(s2)": ONE,
    "vsetvli t1, a0, e{sew}, {lmul}, ta, ma": ALL,
    "vadd.vv v8, v16, v24": ALL,
    "vadd.vv v8, v16, v24, v0.t": ALL,
    "vmul.vv v8, v16, v24": ALL,
    "vmulh.vv v8, v16, v24": ALL,
    "vmacc.vv v8, v16, v24": ALL,
    "vdivu.vv v8, v16, v24": ALL,
    "vsll.vi v8, v16, 3": ALL,
    "vmseq.vv v8, v16, v24": ALL,
    "vmerge.vvm v8, v16, v24, v0": ALL,
    "vmv.v.v v8, v16": ALL,
    "vmv.v.i v8, 3": ALL,
    "vwaddu.vv v8, v16, v24": HALF,
    "vnsrl.wi v8, v16, 3": HALF,
    "vsadd.vv v8, v16, v24": ALL,
    "vaadd.vv v8, v16, v24": ALL,
    "vsmul.vv v8, v16, v24": ALL,
    "vnclip.wi v8, v16, 3": HALF,
    "vredsum.vs v8, v16, v24": ALL,
    "vmand.mm v8, v16, v24": ALL,
    "vcpop.m t1, v16": ALL,
    "vfirst.m t1, v16": ALL,
    "viota.m v8, v16": ALL,
    "vid.v v8": ALL,
    "vslideup.vi v8, v16, 3": ALL,
    "vslide1down.vx v8, v16, t1": ALL,
    "vrgather.vv v8, v16, v24": ALL,
    "vcompress.vm v8, v16, v24": ALL,
    "vmv.x.s t1, v16": ALL,
    "vmv.s.x v16, t1": ALL,
    "vle{sew}.v v8, (s2)": ALL,
    "vle{sew}.v v8, (s2), v0.t": ALL,
    "vse{sew}.v v8, (s2)": ALL,
    "vse{sew}.v v8, (s2), v0.t": ALL,
    "vlse{sew}.v v8, (s2), s3": ALL,
    "vsse{sew}.v v8, (s2), s3": ALL,
    "vluxei{sew}.v v8, (s2), v16": ALL,
    "vlseg2e{sew}.v v8, (s2)": HALF,
    "vsseg4e{sew}.v v8, (s2)": QUARTER,
    "vl8re8.v v8, (s2)": ONE,
    "vmv8r.v v8, v16": ONE,
}
SOURCE = """.text
.globl _start
_start:
    la s2, area
    li s3, 8
    li a0, -1
    vsetvli x0, a0, e8, m8, ta, ma
    li t1, 0x55
    vmv.v.x v0, t1
    li t2, 1000003
    li t3, 7
    vid.v v16
    vmv.v.i v24, 3
    vmv.v.i v8, 1
    vsetvli x0, a0, e{sew}, {lmul}, ta, ma
    vid.v v16
    la t0, turns
    ld s0, 0(t0)
    .balign 64
1:  .rept 16
    {text}
    .endr
    addi s0, s0, -1
    bnez s0, 1b
    li a0, 0
    li a7, 93
    ecall
    .data
    .balign 8
turns: .dword 0x{turns:x}
    .bss
    .balign 4096
area: .space 16384
"""
TURNS = 0x7475726E732121  # in the place of the number of iterations
COMPILER = (
    "clang-19 --target=riscv64-linux-gnu -march=rv64im_zicsr_zve64x -mabi=lp64 -nostdlib -static -fuse-ld=lld-19 "
    "-Wl,--no-relax,--build-id=none,-z,norelro,--image-base=0x10000"
).split()
CPU = "rv64,Zve64f=true,vlen=256,elen=64,c=false,Zifencei=false"  # as Debian 12's QEMU 7.2 names it
IN_A_TURN = 18  # instructions
TICKS = 256  # at most, of an instruction
SECONDS = 0.05  # at least, of the turns that are timed: the least of many short rounds varies less than that of a few long ones
COLUMNS = ["instruction", "sew", "lmul", "qemu_ns", "ns", "ns_before", "qemu_count", "count", "count_before"]
RATIOS_OF = [("qemu_ns", "ns_before"), ("qemu_ns", "ns"), ("qemu_count", "count_before"), ("qemu_count", "count")]
RATIOS = [0.25, 0.5, 1, 2, 4, 8, 16, 32]  # marked in the picture
Run = Callable[[int], float]  # the time of a number of iterations


class Kind:
    """A kind of instruction, in a folder for its images and scripts."""

    def __init__(self, text: str, sew: int, lmul: str, room: str) -> None:
        self.text, self.sew, self.lmul, self.room = text.format(sew=sew, lmul=lmul), sew, lmul, room

    def image(self, turns: int) -> str:
        """The path of an image with a loop of this many iterations."""
        path = f"{self.room}/{turns}"
        if not os.path.exists(path):
            with open(path, "wb") as file:
                file.write(self.image_for_any().replace(TURNS.to_bytes(8, "little"), turns.to_bytes(8, "little")))
            os.chmod(path, 0o755)
        return path

    def image_for_any(self) -> bytes:
        """An image with TURNS in the place of the number of iterations, which is compiled once."""
        path = f"{self.room}/any"
        if not os.path.exists(path):
            source = SOURCE.format(sew=self.sew, lmul=self.lmul, turns=TURNS, text=self.text)
            subprocess.run([*COMPILER, "-x", "assembler", "-o", path, "-"], input=source.encode(), check=True)
        with open(path, "rb") as file:
            return file.read()

    def script(self, turns: int) -> str:
        """The path of a script that runs that image, with slices enough for each instruction's ticks."""
        slices = turns * IN_A_TURN * TICKS // 1_000_000 + 2
        path = f"{self.room}/script"
        with open(path, "w", encoding="ascii") as file:
            file.write("1 enter\n1 load image\n1 go\n" + "* slices 1000\n" * slices)
        return path

    def on_qemu(self, turns: int) -> list[str]:
        """The command of a run on QEMU."""
        return ["qemu-riscv64", "-cpu", CPU, self.image(turns)]

    def on_vecmon(self, program: str, turns: int) -> list[str]:
        """The command of a run on vecmon."""
        return [program, "--quantum", "1000", self.script(turns), f"image={self.image(turns)}"]


def processor_seconds() -> float:
    """The seconds of processor that all ended child processes took, in user mode and in the system."""
    used = resource.getrusage(resource.RUSAGE_CHILDREN)
    return used.ru_utime + used.ru_stime


def run(words: list[str]) -> tuple[float, str]:
    """The seconds of processor of a program, and its standard error. Raises ValueError where it doesn't come to its end."""
    start = processor_seconds()
    ended = subprocess.run(words, capture_output=True, text=True, check=True)
    taken = processor_seconds() - start
    if "--quantum" in words and "\n1 exit 0 " not in ended.stdout:
        raise ValueError(f"{' '.join(words)} doesn't come to its end: {ended.stdout[-300:]}")
    return taken, ended.stderr


def nanoseconds(taken: Run, turns: int) -> tuple[float, int]:
    """The nanoseconds of an instruction, and the number of iterations measured, at least the given one."""
    taken(1)
    while True:
        seconds = taken(turns) - taken(1)
        if seconds > SECONDS or turns > 3_000_000:
            return seconds * 1e9 / (turns * IN_A_TURN), turns
        turns *= 4


def times(kind: Kind, program: str, rounds: int) -> tuple[float, float]:
    """The nanoseconds of an instruction of a kind by QEMU and by vecmon, each the least of the rounds."""
    both: list[tuple[Run, list[float]]] = [
        (lambda turns: run(kind.on_qemu(turns))[0], []),
        (lambda turns: run(kind.on_vecmon(program, turns))[0], []),
    ]
    turns = [1_000, 1_000]
    for _ in range(rounds):
        for which, (taken, found) in enumerate(both):
            value, turns[which] = nanoseconds(taken, turns[which])
            found.append(value)
    return min(both[0][1]), min(both[1][1])


def count(kind: Kind, command: Callable[[int], list[str]]) -> int:
    """The machine instructions of an instruction of a kind, by a program whose command for a number of iterations is given."""

    def counted(turns: int) -> int:
        # QEMU writes the code that it runs, so valgrind must notice new code at an old address.
        words = ["valgrind", "--tool=callgrind", f"--callgrind-out-file={kind.room}/counts", "--smc-check=all"]
        found = re.search(r"Collected : (\d+)", run([*words, *command(turns)])[1])
        assert found
        return int(found[1])

    return round((counted(101) - counted(1)) / (100 * IN_A_TURN))


def kinds(only: str) -> Iterator[tuple[str, int, str]]:
    """Yield the text, SEW and LMUL of each kind whose instruction contains `only`."""
    return ((text, sew, lmul) for text, types in KINDS.items() for sew, lmul in types if only in text)


def read(path: pathlib.Path) -> dict[tuple[str, str, str], dict[str, str]]:
    """The lines of a CSV, by their kind."""
    if not path.exists():
        return {}
    with open(path, encoding="ascii", newline="") as file:
        return {(it["instruction"], it["sew"], it["lmul"]): it for it in csv.DictReader(file)}


def write(path: pathlib.Path, lines: dict[tuple[str, str, str], dict[str, str]]) -> None:
    """Writes the lines in the order of the kinds."""
    with open(path, "w", encoding="ascii", newline="") as file:
        table = csv.DictWriter(file, COLUMNS, restval="", lineterminator="\n")
        table.writeheader()
        for text, sew, lmul in kinds(""):
            if line := lines.get((text, str(sew), lmul)):
                table.writerow(line)


def measure(words: argparse.Namespace) -> None:
    """Measures the kinds, and writes each figure when it is there."""
    lines = read(words.file)
    after = "_before" if words.before else ""
    for text, sew, lmul in kinds(words.only):
        line = lines.setdefault((text, str(sew), lmul), {"instruction": text, "sew": str(sew), "lmul": lmul})
        with tempfile.TemporaryDirectory() as room:
            kind = Kind(text, sew, lmul, room)
            if words.what == "count":
                line["qemu_count"] = str(count(kind, kind.on_qemu))
                line["count" + after] = str(count(kind, lambda turns: kind.on_vecmon(words.vecmon, turns)))
            else:
                qemu, ours = times(kind, words.vecmon, words.rounds)
                line["qemu_ns"], line["ns" + after] = f"{qemu:.1f}", f"{ours:.1f}"
        print(",".join(line.get(name, "") for name in COLUMNS), flush=True)
        write(words.file, lines)


def table(file: pathlib.Path) -> Iterator[str]:
    """The lines of a table with a row an instruction: for each type QEMU's nanoseconds, those before and those now."""
    lines = read(file)
    types = ["e8, m1", "e8, m8", "e32, m1", "e32, m8"]
    yield "| | " + " | | | ".join(types) + " | | |"
    yield "|---" * 13 + "|"
    yield "| |" + " QEMU | before | now |" * 4
    for text, of_it in KINDS.items():
        cells = [""] * 12
        for (sew, lmul), line in ((it, lines.get((text, str(it[0]), it[1]))) for it in of_it):
            at = 6 * (sew == 32) + 3 * (lmul != "m1")
            if line:
                cells[at : at + 3] = [line[name] for name in ("qemu_ns", "ns_before", "ns")]
        yield f"| `{text.format(sew='N', lmul='..')}` | " + " | ".join(cells) + " |"


def ratios(file: pathlib.Path, qemu: str, ours: str) -> dict[str, float]:
    """A column of QEMU's over one of vecmon's, of the kinds that take QEMU more than 5 ns, such as those it executes by a call."""
    lines = [it for it in read(file).values() if it.get(qemu) and it.get(ours) and float(it["qemu_ns"]) > 5]
    name = "{instruction}, e{sew}, {lmul}"
    return {name.format(**it): float(it[qemu]) / float(it[ours]) for it in lines}


def summary(file: pathlib.Path) -> Iterator[str]:
    """The geometric mean of these ratios, before and now, by times and by machine instructions, and the slow kinds."""
    for qemu, ours in RATIOS_OF:
        if found := ratios(file, qemu, ours):
            mean, slow = statistics.geometric_mean(found.values()), sorted(it for it in found if found[it] < 0.5)
            yield f"{ours}: {len(found)} kinds, geometric mean {mean:.2f}, {len(slow)} below 0.5: " + "; ".join(slow)


def draw(file: pathlib.Path, picture: pathlib.Path) -> None:
    """Draws QEMU's time over ours by kind, sorted, and the machine instructions before and after."""
    import matplotlib

    matplotlib.use("svg")
    import matplotlib.pyplot as plt

    grey = "#767676"  # legible on white and on black
    plt.rcParams.update(
        {"svg.hashsalt": "kinds", "svg.fonttype": "none", "font.size": 8, "text.color": grey, "axes.labelcolor": grey}
    )
    plt.rcParams.update({"axes.edgecolor": grey, "xtick.color": grey, "ytick.color": grey})
    lines = [it for it in read(file).values() if it.get("qemu_ns") and float(it["qemu_ns"]) > 5]
    lines.sort(key=lambda it: float(it["qemu_ns"]) / float(it["ns"]))
    names = [f"{it['instruction'].format(sew=it['sew'], lmul=it['lmul'])}  e{it['sew']} {it['lmul']}" for it in lines]
    figure, (left, right) = plt.subplots(1, 2, sharey=True, figsize=(10, 0.13 * len(lines) + 1), layout="constrained")
    places = range(len(lines))
    left.scatter([float(it["qemu_ns"]) / float(it["ns"]) for it in lines], places, s=9, color="#1f77b4")
    left.axvline(1, color=grey, linewidth=0.8)
    left.set(
        xscale="log",
        xlabel="QEMU's time over vecmon's: right of the line vecmon is faster",
        yticks=places,
        yticklabels=names,
    )
    left.set_xticks(RATIOS, [f"{it:g}" for it in RATIOS])
    left.minorticks_off()
    left.set_ylim(-1, len(lines))
    left.tick_params(axis="y", labelsize=6, length=0)
    for name, colour, label in (
        ("qemu_count", "#b0b0b0", "QEMU"),
        ("count_before", "#ff7f0e", "vecmon before"),
        ("count", "#1f77b4", "vecmon now"),
    ):
        found = [(float(it[name]), place) for place, it in zip(places, lines) if it.get(name)]
        right.scatter([it[0] for it in found], [it[1] for it in found], s=9, color=colour, label=label)
    right.set(xscale="log", xlabel="machine instructions an instruction")
    right.legend(frameon=False, labelcolor=grey, loc="lower right")
    for axes in (left, right):
        axes.grid(axis="x", color=grey, alpha=0.25)
        axes.spines[["top", "right"]].set_visible(False)
    figure.savefig(picture, transparent=True, metadata={"Date": None})


def main() -> None:
    """Does what the words ask for."""
    words = argparse.ArgumentParser(description=__doc__, formatter_class=argparse.RawDescriptionHelpFormatter)
    verbs = words.add_subparsers(dest="what", required=True)
    for what in ("time", "count"):
        verb = verbs.add_parser(what)
        verb.add_argument("vecmon")
        verb.add_argument("file", type=pathlib.Path)
        verb.add_argument("--before", action="store_true")
        verb.add_argument("--only", default="")
        verb.add_argument("--rounds", type=int, default=5)
    verb = verbs.add_parser("draw")
    verb.add_argument("file", type=pathlib.Path)
    verb.add_argument("picture", type=pathlib.Path)
    verbs.add_parser("table").add_argument("file", type=pathlib.Path)
    given = words.parse_args()
    if given.what == "table":
        print("\n".join([*table(given.file), "", *summary(given.file)]))
    elif given.what == "draw":
        draw(given.file, given.picture)
    else:
        measure(given)


if __name__ == "__main__":
    main()

"""Writes and checks the golden theorems of the crate `test_definitions`, at the top of the repository.

    tools/golden/golden_theorems                  write the generated files of the crate
    tools/golden/golden_theorems --check          exit with status 1 if a generated file isn't current, a vector was changed, or
                                                  docs/CONTRACTS.md lacks a kind that has no clean vector
    tools/golden/golden_theorems --all [BATCH..]  check all clean golden vectors, in batches of 150, or these batches, from 1 on
    tools/golden/golden_theorems --count          print the number of clean vectors and of those left out, by reason, and kinds without a
                                                  clean one

`--all` writes each batch as a crate in build/golden_theorems, a copy of the crates below it, and checks it with `rt check`. It notes each
batch that is proved in build/golden_theorems/proved, and skips it in the next run while the vectors and the crates are the same. A batch
takes less than 5 GB. The Python of .venv has the lab (`sh lab/setup`).
"""

import hashlib
import re
import shutil
import subprocess
import sys
import textwrap
from collections import Counter, defaultdict
from collections.abc import Iterator, Mapping, Sequence
from pathlib import Path

from tools.golden.golden_cases import Vector, changed_files, gate_cases, golden_vectors, rows_without_case
from tools.golden.golden_texts import compared_size, proof_text, source_text, specs_text

ROOT = Path(__file__).resolve().parents[2]

CRATE, BATCH_CRATE = "test_definitions", "golden_batch"
FOLDER = Path("crates", CRATE)
CONTRACTS = Path("docs/CONTRACTS.md")
BUILD = Path("build/golden_theorems")
BATCH, MODULE = 150, 30  # cases of a batch, and of a module of it at most
MODULE_SIZE = 200_000  # `compared_size` of a module; one of 420,000 meets the checker's step limit
FOLDERS = {
    "memory": ("faults", "loads", "scalar_accesses", "stores"),
    "scalar": ("branches", "control_registers", "scalars"),
    "vector": ("fixed_point", "masks", "one_width", "permutations", "reductions", "two_widths", "vector_types"),
}
"""The folders of the crate and the modules of cases in them; other modules are in no folder."""
FOLDER_TITLES = {
    "memory": "Cases of scalar and vector loads and stores.",
    "scalar": "Cases of scalar instructions.",
    "vector": "Cases of vector operations and of the instructions that set the vector length and type.",
}
LAWS = {
    "list_laws": "lists_by_index",
    "memories": "memories_exist",
    "slice_bounds": "slices_are_bounded",
    "step_laws": "vector_steps_by_legality",
}
"""The modules of `src` that aren't generated, and the function of each."""
TITLES = {
    "branches": "Branches, jumps, `auipc`, `fence` and `ebreak`.",
    "control_registers": "Accesses to control registers.",
    "faults": "Loads and stores that fault.",
    "fixed_point": "Fixed-point arithmetic.",
    "legality": "Illegal instructions, for each rule of legality and major opcode.",
    "loads": "Vector loads.",
    "masks": "Operations on masks, comparisons and carries.",
    "one_width": "Vector integer arithmetic with operands of one width.",
    "permutations": "Permutations and moves.",
    "reductions": "Reductions.",
    "scalar_accesses": "Scalar loads and stores.",
    "scalars": "Scalar arithmetic.",
    "stores": "Vector stores.",
    "two_widths": "Vector integer arithmetic with operands of two widths.",
    "vector_types": "Instructions that set the vector length and type.",
}
HEAD = "tools/golden/golden_theorems writes this file from lab/tests/data/golden_vectors."


def folder_of(module: str) -> tuple[str, ...]:
    """The folder of a module of cases; empty if it is in none."""
    return tuple(folder for folder, modules in FOLDERS.items() if module in modules)


def file_name(module: str) -> str:
    return "".join(map(str.capitalize, module.split("_")))


def module_files(crate: str, module: str, title: str, vectors: Sequence[Vector]) -> dict[Path, str]:
    """The files of one module of cases, by their places in the crate's folder."""
    folder, title = folder_of(module), f"{title} {HEAD}"
    file, path = (".".join([*folder, name]) for name in (file_name(module), module))
    return {
        Path("specs", *folder, f"{file_name(module)}.antt"): specs_text(title, vectors),
        Path("src", *folder, f"{module}.rt"): source_text(title, crate, path, file, vectors),
        Path("proofs", *folder, module, f"{module}_agree", "Answers.antt"): proof_text(crate, path, file, vectors),
    }


def folder_files(folder: str) -> dict[Path, str]:
    """The files that list the modules of a folder."""
    title, modules = f"{FOLDER_TITLES[folder]} {HEAD}", FOLDERS[folder]
    mods = "".join(f"mod {module};\n" for module in modules)
    uses = "".join(f"pub use {module}::{module}_agree;\n" for module in modules)
    return {
        Path("specs", f"{folder}.antt"): f"-- {title}\n" + "".join(f"pub mod {file_name(it)}\n" for it in modules),
        Path("src", f"{folder}.rt"): f"//! {title}\n{mods}\n{uses}",
    }


def exports(module: str, functions: Sequence[str]) -> str:
    """The line that exports these functions of a module, in the layout of `rt fmt`."""
    if len(functions) == 1:
        return f"pub use {module}::{functions[0]};\n"
    line = f"pub use {module}::{{{', '.join(functions)}}};\n"
    if len(line) <= 100:
        return line
    indent = " " * 4
    names = textwrap.fill(", ".join(functions) + ",", 100, initial_indent=indent, subsequent_indent=indent)
    return f"pub use {module}::{{\n{names}\n}};\n"


def crate_files(
    crate: str, title: str, modules: Mapping[str, tuple[str, Sequence[Vector]]], specs: str, laws: dict[str, str]
) -> dict[Path, str]:
    """The generated files of a crate of these modules; specs: the first lines of its list of `specs`; laws: its modules of `src` that
    aren't generated, and the function of each."""
    files = dict[Path, str]()
    functions: defaultdict[str, list[str]] = defaultdict(list, {module: [name] for module, name in laws.items()})
    for module, (about, vectors) in modules.items():
        files |= module_files(crate, module, about, vectors)
        functions["".join(folder_of(module)) or module].append(f"{module}_agree")
    for folder in sorted({it for module in modules for it in folder_of(module)}):
        files |= folder_files(folder)
    named = "".join(f"pub mod {path.stem}\n" for path in files if path.parts[0] == "specs" and len(path.parts) == 2)
    files[Path("specs/Lib.antt")] = specs + named
    mods = "".join(f"mod {module};\n" for module in sorted(functions))
    uses = "".join(exports(module, functions[module]) for module in sorted(functions))
    files[Path("src/lib.rt")] = f"//! {title}\n#![tactic(auto)]\n\n{mods}\n{uses}"
    return files


def gate_files() -> dict[Path, str]:
    """The generated files of `test_definitions`."""
    modules = {module: (TITLES[module], vectors) for module, vectors in gate_cases(golden_vectors()).items()}
    title = "Laws of the definitions: on states of the golden vectors, the definition of a step leaves what QEMU left."
    specs = (
        "-- `ListLaws`: functions of the kit by index. `SliceBounds`: the instructions and ticks of slices and lines. `StepLaws`: steps of vector\n"
        "-- instructions by their legality.\n"
        "-- `States`: states, results, and when a case agrees. `Memories`: the memory of loads and stores. The others: the cases.\n"
        "pub mod ListLaws\npub mod SliceBounds\npub mod StepLaws\npub mod States\npub mod Memories\n"
    )
    return crate_files(CRATE, title, modules, specs, LAWS)


# ---- the gate's cases


def outdated() -> Iterator[Path]:
    """The files of the crate that aren't as they would be written, and generated ones that are no longer."""
    files = gate_files()
    for path, text in files.items():
        if not (FOLDER / path).exists() or (FOLDER / path).read_text(encoding="utf-8") != text:
            yield FOLDER / path
    for path in sorted(
        it for form in ("specs/**/*.antt", "src/**/*.rt", "proofs/**/*_agree/*.antt") for it in FOLDER.glob(form)
    ):
        is_generated = path.parts[2] == "proofs" or HEAD in path.read_text(encoding="utf-8")
        if is_generated and path.relative_to(FOLDER) not in files:
            yield path


def write() -> None:
    for path in outdated():
        path.unlink(missing_ok=True)
    for place, text in gate_files().items():
        (FOLDER / place).parent.mkdir(parents=True, exist_ok=True)
        (FOLDER / place).write_text(text, encoding="utf-8")


def check() -> int:
    changed = changed_files()
    for path in changed:
        print(
            f"{path} has other lines than its README.md says: restore it, or derive the vectors again and change the SHA-256"
        )
    if changed:
        return 1
    found = list(outdated())
    for path in found:
        print(f"{path} isn't current: run tools/golden/golden_theorems")
    page = CONTRACTS.read_text(encoding="utf-8")
    unsaid = [row for row in rows_without_case(golden_vectors()) if row not in page.splitlines()]
    for row in unsaid:
        print(f"{CONTRACTS} lacks this row of results without a case: {row}")
    cases = sum(map(len, gate_cases(golden_vectors()).values()))
    print(f"{cases} golden theorems, {len(found)} files that aren't current")
    return 1 if found or unsaid else 0


def count() -> None:
    """Print how many vectors are clean, and why the others aren't."""
    reasons = Counter[str]()
    for vector in golden_vectors():
        if corrected := vector.keys.get("corrected"):
            reasons[f"corrected: {corrected[0]}"] += 1
        elif "versions" in vector.keys:
            reasons["versions of QEMU differ"] += 1
        elif "qemu_value" in vector.keys:
            reasons["address of a fault by rule"] += 1
        else:
            reasons["clean"] += 1
    for reason, number in sorted(reasons.items()):
        print(f"{number:6,}  {reason}")
    print(f"{reasons.total():6,}  in all")
    print("\nwithout a clean vector:")
    print("\n".join(rows_without_case(golden_vectors())))


# ---- all vectors, in batches


def batches() -> list[list[Vector]]:
    clean = [it for it in golden_vectors() if it.is_clean]
    return [clean[at : at + BATCH] for at in range(0, len(clean), BATCH)]


def parts_of(vectors: Sequence[Vector]) -> list[list[Vector]]:
    """The modules of a batch: MODULE cases each, or fewer where stores of many bytes are among them."""
    parts, room = list[list[Vector]](), 0
    for vector in vectors:
        size = compared_size(vector)
        if not parts or len(parts[-1]) == MODULE or size > room:
            parts.append([])
            room = MODULE_SIZE
        parts[-1].append(vector)
        room -= size
    return parts


def batch_files(number: int, vectors: Sequence[Vector]) -> dict[Path, str]:
    """The crate of a batch."""
    modules, first = dict[str, tuple[str, Sequence[Vector]]](), 1
    for place, part in enumerate(parts_of(vectors), 1):
        modules[f"cases_{place}"] = f"Cases {first} and on of batch {number}.", part
        first += len(part)
    return crate_files(
        BATCH_CRATE, f"Batch {number} of the golden theorems.", modules, "-- The cases of a batch.\n", {}
    )


def prepare() -> None:
    """Copy the crates below a batch."""
    for crate in ("rv_model", CRATE):
        source, copy = Path("crates", crate), BUILD / "crates" / crate
        for folder in ("src", "specs", "proofs"):
            shutil.rmtree(copy / folder, ignore_errors=True)
            shutil.copytree(source / folder, copy / folder)
    lines = Path("crates.txt").read_text(encoding="utf-8").splitlines()
    below = [line for line in lines if re.match(rf"(rv_model|{CRATE}):", line)]
    (BUILD / "crates.txt").write_text("\n".join([*below, f"{BATCH_CRATE}: rv_model {CRATE}", ""]), encoding="utf-8")
    shutil.copy("HANDLES", BUILD)


def digest(files: dict[Path, str]) -> str:
    """A checksum of a batch and of the definitions below it."""
    found = hashlib.sha256(repr(sorted((str(path), text) for path, text in files.items())).encode())
    for crate in ("rv_model", CRATE):
        for path in sorted(Path("crates", crate, "specs").rglob("*.antt")):
            found.update(path.read_bytes())
    return found.hexdigest()


def prove_batch(number: int, files: dict[Path, str]) -> bool:
    """Whether a batch is proved. What `rt check` prints is in a log next to the crates."""
    folder = BUILD / "crates" / BATCH_CRATE
    for part in ("src", "specs", "proofs"):
        shutil.rmtree(folder / part, ignore_errors=True)
    for path, text in files.items():
        (folder / path).parent.mkdir(parents=True, exist_ok=True)
        (folder / path).write_text(text, encoding="utf-8")
    (folder / "proofs/Lib.antt").write_text("", encoding="utf-8")
    with (BUILD / f"batch_{number}.log").open("w") as log:
        return subprocess.run(["rt", "check", "--jobs", "1"], cwd=folder, stdout=log, stderr=log).returncode == 0


def prove(asked: Sequence[int]) -> int:
    all_batches = batches()
    prepare()
    proved = BUILD / "proved"
    proved.touch()
    failed = list[int]()
    for number in asked or range(1, len(all_batches) + 1):
        files = batch_files(number, all_batches[number - 1])
        if digest(files) in proved.read_text().split():
            print(f"batch {number} of {len(all_batches)}: proved before", flush=True)
        elif prove_batch(number, files):
            with proved.open("a") as file:
                file.write(f"{digest(files)}\n")
            print(f"batch {number} of {len(all_batches)}: {len(all_batches[number - 1])} cases proved", flush=True)
        else:
            failed.append(number)
            print(f"batch {number} of {len(all_batches)}: not proved, see {BUILD}/batch_{number}.log", flush=True)
    return 1 if failed else 0


def main(arguments: Sequence[str]) -> int:
    if not arguments:
        write()
        return 0
    if arguments == ["--check"]:
        return check()
    if arguments == ["--count"]:
        count()
        return 0
    if arguments[0] == "--all" and all(it.isdigit() and 1 <= int(it) <= len(batches()) for it in arguments[1:]):
        return prove([*map(int, arguments[1:])])
    print(__doc__, file=sys.stderr)
    return 2


if __name__ == "__main__":
    sys.exit(main(sys.argv[1:]))

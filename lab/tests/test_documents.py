"""The commands of the documents: each block has a marker, and runs in a clean folder as it is in the page."""

import os
import pathlib
import shutil
import subprocess
import sys
from itertools import takewhile

import pytest

from support.commands import Lab
from support.documents import Block, Chain, blocks_of, chains_of, misplaced
from support.skips import NO_TOOL, leave_out
from support.places import SUM, TOP
from vecmon_lab.machine.program import find_recorder
from vecmon_lab.page.build.pages import PAGES as PAGE_FILES, page_file

PAGES = [TOP / "README.md", TOP / "CONTRIBUTING.md", *sorted((TOP / "docs").glob("*.md"))]
OPTIONAL = {"parallel", "riscv64-linux-gnu-gcc", "riscv64-unknown-elf-gcc"}
"""Programs that lab/setup doesn't install: without them their blocks are left out, in CI as well."""

MADE = {"REFUSALS.md"}  # by tests/command_lines, which runs its commands and compares what they print


def blocks() -> list[Block]:
    """The blocks of all pages that are marked."""
    return [it for path in PAGES if path.name not in MADE for it in blocks_of(path.name, path.read_text("utf-8"))]


def chains() -> list[Chain]:
    """The chains of all pages."""
    return [chain for path in PAGES for chain in chains_of([block for block in blocks() if block.page == path.name])]


def variables_for(folder: pathlib.Path, program: pathlib.Path) -> dict[str, str]:
    """The environment after a set-up, in which the programs of the tests are on PATH."""
    programs, temporary = folder / "bin", folder / "temporary"
    programs.mkdir()
    temporary.mkdir()
    (programs / "vecmon").symlink_to(program)
    (programs / "vecmon-record").symlink_to(find_recorder())
    path = f"{programs}:{pathlib.Path(sys.executable).parent}:{os.environ['PATH']}"
    return {
        **os.environ,
        "PATH": path,
        "VECMON": str(program),
        "VECMON_RECORD": str(find_recorder()),
        "PWD": str(folder),
        "TMPDIR": str(temporary),  # of mktemp, so that pytest removes it
    }


@pytest.mark.parametrize("chain", chains(), ids=str)
def test_document_blocks_run(chain: Chain, program: pathlib.Path, tmp_path: pathlib.Path) -> None:
    missing = [name for name in chain.needs if not shutil.which(name)]
    for name in set(missing) - OPTIONAL:
        leave_out(f"{NO_TOOL} {name}")
    chain = Chain(list(takewhile(lambda block: not set(block.needs) & set(missing), chain.blocks)))
    if not chain.blocks:
        pytest.skip(f"{NO_TOOL} {' and '.join(missing)}")
    variables = variables_for(tmp_path, program)
    if chain.blocks[0].place == "in the examples":
        subprocess.run(["vecmon-lab", "examples", "work"], cwd=tmp_path, env=variables, check=True)
    else:
        (tmp_path / "work").mkdir()
    assert "\n".join(chain.faults(tmp_path, variables)) == ""


def test_every_block_has_marker() -> None:
    """A new block without one fails here: lab/support/documents.py has the markers."""
    expected = [f"{it.page}:{it.number}: {why}" for it in blocks() if (why := misplaced(it, TOP))]
    assert "\n".join(expected) == ""
    assert len(chains()) > 15 and len(blocks()) > 80


PAGE = """\
<!-- run: in a new folder -->
```sh
name=world
echo hello > file
```

<!-- run: goes on -->
```text
$ cat file; echo $name
hello
world
$ false
$ echo $?
1
```
"""


def faults(page: str, folder: pathlib.Path) -> list[str]:
    """What is wrong with the only chain of a page."""
    (folder / "work").mkdir()
    (chain,) = chains_of(blocks_of("PAGE.md", page))
    return list(chain.faults(folder, {"PATH": os.environ["PATH"]}))


def test_correct_page_has_no_fault(tmp_path: pathlib.Path) -> None:
    assert [misplaced(block, TOP) for block in blocks_of("PAGE.md", PAGE)] == ["", ""]
    assert faults(PAGE, tmp_path) == []


@pytest.mark.parametrize(
    "old, new, fault",
    [
        ("$ cat file;", "$ cat files;", "PAGE.md:8: $ cat files; echo $name\nprints\n"),
        ("hello\nworld", "hello\nword", "PAGE.md:8: $ cat file; echo $name\nprints\nhello\nworld\nin place of\n"),
        ("$?\n1\n", "$?\n0\n", "PAGE.md:8: $ echo $?\nprints\n1\n"),
        ("echo hello >", "false\necho hello >", "PAGE.md:2: it fails with status 1: name=world\nfalse\n"),
        ("$ false", "$ exit 3", "PAGE.md:8: it fails with status 3: exit 3\n"),
    ],
)
def test_wrong_page_is_reported(tmp_path: pathlib.Path, old: str, new: str, fault: str) -> None:
    assert PAGE.count(old) == 1
    shown = faults(PAGE.replace(old, new), tmp_path)
    assert shown and shown[0].startswith(fault)


@pytest.mark.parametrize(
    "marker, why",
    [
        ("Then:", "the line above the block is no marker, but 'Then:'"),
        ("", "the line above the block is no marker, but ''"),
        ("<!-- run: somewhere -->", "the line above the block is no marker, but "),
        ("<!-- not run: laziness -->", "laziness is no reason: synopsis, "),
        ("<!-- tested by lab/tests/conftest.py -->", f"{TOP}/lab/tests/conftest.py doesn't name PAGE.md"),
    ],
)
def test_wrong_marker_is_reported(marker: str, why: str) -> None:
    for fence, line in (("sh", "true"), ("text", "$ true"), ("console", "$ true")):
        (block,) = blocks_of("PAGE.md", f"Text.\n\n{marker}\n```{fence}\n{line}\n```\n")
        assert misplaced(block, TOP).startswith(why)
    assert blocks_of("PAGE.md", f"{marker}\n```text\nno command\n```\n") == []


@pytest.mark.by_command("examples")
def test_examples_command_copies_examples(lab: Lab, tmp_path: pathlib.Path) -> None:
    folder = tmp_path / "try"
    expected = f"{folder}: the examples, in which the documents' commands run\n"
    assert lab("examples", folder) == (0, expected.encode(), "")
    copied = {str(path.relative_to(folder)) for path in folder.rglob("*") if path.is_file()}
    of_pages = {"sum", "sum.c", "squares", "above.c", "answers/vectors.s", "kernels/grey.c", "searches/letters.c"}
    assert of_pages | {"tested/add_scaled.c", "tour/masks_and_tails"} <= copied
    assert not [name for name in copied if "__pycache__" in name or "/." in name]
    assert (folder / "sum").read_bytes() == SUM.read_bytes()
    assert lab("examples", folder) == (2, b"", f"vecmon-lab: {folder} exists: name a new folder\n")


def test_sources_page_has_the_functions_that_print_numbers() -> None:
    """*File …*, *Print numbers* adds the same text."""
    assert f"```text\n{page_file(PAGE_FILES / 'number_output.s')}```\n" in (TOP / "docs" / "SOURCES.md").read_text(
        "utf-8"
    )

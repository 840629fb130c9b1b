"""Writes the page of a release, which says what each file is for: tools/releasing/release_page [--signed] FOLDER VERSION

FOLDER has the files of the release; index.html is written there. With --signed it also says how to check the signature of SHA256SUMS. If
VERSION ends with ~unproved, as tools/package writes it, the page calls no program proved. Exit status, with one line: 1 if the page has no
use of a file, or a file is missing; 2 for wrong arguments, or if FOLDER isn't a folder.
"""

import fnmatch
import html
import sys
from collections.abc import Mapping, Sequence
from pathlib import Path

USAGE = "usage: tools/releasing/release_page [--signed] FOLDER VERSION"
UNPROVED = "~unproved"  # the end of the version of a trial
ADDRESS = ""  # of the folder of releases; empty as long as there is none
USES = (
    (
        "playground.html",
        "A browser",
        "The playground: open the file. It needs no installation, no server and no network.",
    ),
    (
        "*-site.zip",
        "A school's web server",
        "The playground, the tour, the course and the book: unpack it, and serve the folder or open index.html.",
    ),
    ("*-book.zip", "A reader", "All documents as HTML: unpack it, and open index.html."),
    (
        "vecmon_*_amd64.deb",
        "Debian 12 or later on amd64",
        "The proved programs. With the two packages for all processors: sudo apt install ./vecmon*_amd64.deb ./vecmon*_all.deb",
    ),
    (
        "vecmon_*_arm64.deb",
        "Debian 12 or later on arm64",
        "The programs: sudo apt install ./vecmon*_arm64.deb ./vecmon*_all.deb",
    ),
    (
        "vecmon_*_riscv64.deb",
        "Debian 13 or later on riscv64",
        "The programs: sudo apt install ./vecmon*_riscv64.deb ./vecmon*_all.deb",
    ),
    ("vecmon-lab_*_all.deb", "Debian, any processor", "Lessons, classes, the playground and tools."),
    ("vecmon-doc_*_all.deb", "Debian, any processor", "The documents and the book."),
    (
        "vecmon_lab-*-manylinux_2_34_x86_64.whl",
        "Python 3.11 or later on amd64, glibc 2.34 or later",
        "The lab with the proved programs: pip install FILE",
    ),
    (
        "vecmon_lab-*-manylinux_2_17_x86_64*.whl",
        "Python 3.11 or later on amd64, any Linux",
        "The lab with programs: pip install FILE",
    ),
    ("vecmon_lab-*_aarch64.whl", "Python 3.11 or later on arm64, any Linux", "The lab with programs: pip install FILE"),
    (
        "vecmon_lab-*_riscv64.whl",
        "Python 3.11 or later on riscv64, glibc 2.31 or later",
        "The lab with programs: pip install FILE",
    ),
    (
        "vecmon_lab-*-any.whl",
        "Python 3.11 or later, other processors",
        "The lab with programs that node 18 or later runs: pip install FILE",
    ),
    (
        "vecmon-*-linux-amd64.tar.gz",
        "Linux on amd64, glibc 2.34 or later",
        "The proved programs, the lab and the documents, to unpack in any folder.",
    ),
    ("vecmon-*-linux-amd64-static.tar.gz", "Linux on amd64", "The same with programs that need no library."),
    ("vecmon-*-linux-arm64.tar.gz", "Linux on arm64", "The same for arm64."),
    ("vecmon-*-linux-riscv64.tar.gz", "Linux on riscv64", "The same for riscv64."),
    ("*-windows-amd64.zip", "Windows on amd64", "vecmon.exe and vecmon-record.exe, without the lab."),
    (
        "vecmon_*.tar.xz",
        "A developer or packager",
        "All sources with the programs: tools/run and tools/site need no compiler of Rattle, and dpkg-buildpackage makes the packages.",
    ),
    ("vecmon_*.dsc", "A packager", "The description of the sources for dpkg-source."),
    ("PROVENANCE", "A reader of proofs", "Commit, compiler, digests, and which programs are proved."),
)
"""The files by their patterns: who needs them, and how."""

PAGE = """\
<!DOCTYPE html>
<html lang="en">
<meta charset="utf-8">
<meta name="viewport" content="width=device-width">
<title>vecmon {version}</title>
<style>
body {{ margin: 2em auto; max-width: 70em; padding: 0 1em; font: 16px/1.5 sans-serif; color-scheme: light dark; }}
td, th {{ padding: 0.4em 1em 0.4em 0; text-align: left; vertical-align: top; border-bottom: 1px solid #8888; }}
td:first-child {{ overflow-wrap: anywhere; }}
td:nth-child(3) {{ white-space: nowrap; text-align: right; }}
</style>
<h1>vecmon {version}</h1>
<p>A trainer machine for the RISC-V vector extension. <a href="playground.html">Open the playground</a>, or take a file for your system.{address}</p>
{trial}<p>Check files in their folder: <code>sha256sum -c --ignore-missing SHA256SUMS</code>{signature}</p>
<table>
<tr><th>File<th>For<th>Bytes<th>Use
{rows}
</table>
</html>
"""
TRIAL = "<p><strong>These programs are UNPROVED: the files are a trial.</strong></p>\n"
SIGNATURE = ", and its signature: <code>gpg --verify SHA256SUMS.asc SHA256SUMS</code>"
ROW = '<tr><td><a href="{name}">{name}</a><td>{reader}<td>{size:,}<td>{use}'


class Refusal(Exception):
    """The reason why no page is written: one line."""


def row(name: str, size: int, reader: str, use: str) -> str:
    """Return the row of a file."""
    return ROW.format(name=html.escape(name), reader=html.escape(reader), size=size, use=html.escape(use))


def without_proofs(use: str) -> str:
    """Return the use of a file in a trial, whose programs aren't proved."""
    return use.replace(" proved programs", " programs").replace(", and which programs are proved", "")


def rows_of(files: Mapping[str, int], is_proved: bool) -> list[str]:
    """Return the rows of all files, whose sizes are by their names. Raises Refusal if the names aren't those of USES."""
    rows, unnamed = list[str](), set(files)
    for pattern, reader, use in USES:
        names = fnmatch.filter(files, pattern)
        if len(names) != 1:
            raise Refusal(f"there is no {pattern}" if not names else f"{' and '.join(names)} have the same use")
        rows.append(row(names[0], files[names[0]], reader, use if is_proved else without_proofs(use)))
        unnamed -= {*names}
    if unnamed:
        raise Refusal(f"no use of {min(unnamed)} is known")
    return rows


def main(arguments: Sequence[str]) -> int:
    """Write the page; return the exit status."""
    is_signed = list(arguments[:1]) == ["--signed"]
    arguments = arguments[is_signed:]
    if len(arguments) != 2 or arguments[0].startswith("-"):
        print(f"tools/releasing/release_page: {USAGE}", file=sys.stderr)
        return 2
    folder, version = Path(arguments[0]), arguments[1]
    is_proved = not version.endswith(UNPROVED)
    if not folder.is_dir():
        print(f"tools/releasing/release_page: {folder} isn't a folder; {USAGE}", file=sys.stderr)
        return 2
    try:
        rows = rows_of({path.name: path.stat().st_size for path in folder.iterdir()}, is_proved)
    except Refusal as refusal:
        print(refusal, file=sys.stderr)
        return 1
    address = f' All releases: <a href="{ADDRESS}">{ADDRESS}</a>.' if ADDRESS else ""
    page = PAGE.format(
        version=html.escape(version),
        rows="\n".join(rows),
        address=address,
        trial="" if is_proved else TRIAL,
        signature=SIGNATURE if is_signed else "",
    )
    (folder / "index.html").write_text(page, "utf-8")
    return 0


if __name__ == "__main__":
    sys.exit(main(sys.argv[1:]))

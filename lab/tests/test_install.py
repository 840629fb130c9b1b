"""`make install` takes each file of the lab, and the book of the site if there is one."""

import pathlib
import subprocess

from support.lab_files import packaged_files
from support.places import TOP


def make(*words: str) -> subprocess.CompletedProcess[str]:
    """Runs make at the top of the repository."""
    command = ["make", "--silent", *words]
    return subprocess.run(command, cwd=TOP, stdin=subprocess.DEVNULL, capture_output=True, text=True)


def test_each_file_of_the_lab_is_installed() -> None:
    ran = make("--eval", "show: ; @printf '%s\\n' $(lab_files)", "show")
    assert (ran.returncode, ran.stderr) == (0, "")
    assert not packaged_files("lab/vecmon_lab", "lab/examples") - {*ran.stdout.split()}


def test_book_of_the_site_is_installed(tmp_path: pathlib.Path) -> None:
    """An earlier book is replaced."""
    (tmp_path / "site/book").mkdir(parents=True)
    (tmp_path / "site/book/index.html").write_text("the book of this site")
    book = tmp_path / "root/usr/share/doc/vecmon/html"
    book.mkdir(parents=True)
    (book / "old.html").write_text("old")
    ran = make("install-documents", "prefix=/usr", f"DESTDIR={tmp_path}/root", f"site={tmp_path}/site")
    assert ran.returncode == 0, ran.stderr
    assert {path.name: path.read_text() for path in book.iterdir()} == {"index.html": "the book of this site"}

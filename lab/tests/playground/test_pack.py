"""The modules that a page's Python has: those of a folder that Python imports, and not what happens to be installed next to them."""

import pathlib

from vecmon_lab.playground.pack import modules


def test_files_that_no_import_can_name_are_left_out(tmp_path: pathlib.Path) -> None:
    """Debian's libpython3.11-dev adds config-3.11-x86_64-linux-gnu/python-config.py to the standard library."""
    present = ["os.py", "_sysconfigdata__x86_64-linux-gnu.py", "json/__init__.py"]
    absent = ["config-3.11-x86_64-linux-gnu/python-config.py", "test/test_os.py", "json/README"]
    for name in (*present, *absent):
        (tmp_path / name).parent.mkdir(exist_ok=True)
        (tmp_path / name).write_text("")
    assert [name for name, _ in modules(tmp_path)] == sorted(present)

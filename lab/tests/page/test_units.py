"""Functions of the pages' modules that need no page, tested by node: those of `units/`, with texts in place of keys."""

import pathlib
import shutil
import subprocess

from support.busy_host import PATIENCE
from support.places import TOP
from vecmon_lab.page.build.pages import WEB
from vecmon_lab.page.build.texts import fill

UNITS = pathlib.Path(__file__).with_name("units")
LAB = WEB.parents[1]


def test_functions_without_page(tmp_path: pathlib.Path) -> None:
    for folder in (WEB, LAB / "playground" / "web", UNITS):
        shutil.copytree(folder, tmp_path / folder.relative_to(TOP))
    shutil.copy(LAB / "package.json", tmp_path / LAB.relative_to(TOP))
    for path in tmp_path.glob("lab/vecmon_lab/**/*.js"):
        path.write_text(fill(path.name, path.read_text("utf-8")), "utf-8")
    units = sorted(tmp_path.glob("lab/tests/**/*.test.mjs"))
    node = subprocess.run(["node", "--test", *map(str, units)], capture_output=True, encoding="utf-8", timeout=PATIENCE)
    assert units and node.returncode == 0, node.stdout

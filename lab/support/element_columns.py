"""The pure part of the pane of elements under node: the columns, the card and the detail lines of states."""

import json
import pathlib
import subprocess
from collections.abc import Sequence
from typing import Any

from vecmon_lab.page.build.modules import join_modules
from vecmon_lab.page.build.pages import WEB, page_file

NAMES = {
    "columns": "columnsOf, fit, stripsOf",
    "lane_rows": "headOf",
    "card": "cardOf",
    "equations": "equationText",
    "detail": "detailOf",
    "wires": "curvesOf",
}
IMPORTS = "".join(f'import {{ {names} }} from "./{module}.js";\n' for module, names in NAMES.items())
SHOWN = """
const views = JSON.parse(require("fs").readFileSync(0, "utf-8"));
const forms = ["signed", "unsigned", "hexadecimal"];
const shown = views.map((given) => {
  const view = { form: "signed", hasAbiNames: true, before: given.state, ...given, used: new Set(given.used ?? []) };
  const columns = columnsOf(view);
  const { rows, elements, outcomes, pairs, executed } = columns;
  const head = (row) => `${headOf(row, 0, row.cells.length - 1)} ${row.words}`.trim();
  return {
    rows: rows.map((row) => ({ head: head(row), kind: row.kind, register: row.register, width: row.width, cells: row.cells })),
    ...{ elements, outcomes, pairs, card: cardOf(view, columns) },
    results: executed?.destination ? executed.results : [],
    strips: [16, 8, 4, 2].map((width) => stripsOf(columns, width)).map(({ strips, folded }) => [strips.length, folded]),
    calculations: (given.elements ?? []).map((each) => equationText(view, executed, each)),
    equations: forms.map((form) => (given.elements ?? []).map((each) => equationText({ ...view, form }, executed, each))),
    details: (given.elements ?? []).map((each) => detailOf(view, columns, each)),
    fits: (given.rooms ?? []).map((width) => fit(columns, { width, unit: 1, letter: 0.602 })),
    curves: curvesOf(pairs, 0, 8).map(({ path }) => path),
  };
});
process.stdout.write(JSON.stringify(shown));
"""


def shown_columns(views: Sequence[Any], folder: pathlib.Path) -> list[dict[str, Any]]:
    """Columns that the page's modules make from views: a state, the one before it, if any, the form of numbers, and elements to explain.

    folder: for the script
    """
    script = folder / "shown.js"
    entry = str(WEB / "elements" / script.name)
    script.write_text(join_modules(entry, lambda path: IMPORTS + SHOWN if path == entry else page_file(path)), "utf-8")
    done = subprocess.run(["node", str(script)], input=json.dumps(views), stdout=subprocess.PIPE, text=True, check=True)
    found: list[dict[str, Any]] = json.loads(done.stdout)
    return found

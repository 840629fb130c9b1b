"""The files of Debian's theme, so that they work in a browser without a build step, a server or another folder.

Debian has Furo's sources: a module, which a page from a disk can't load; an import of a stylesheet by an absolute path; and styles
for dark colours without the rule for systems that are dark.
"""

import re
from pathlib import Path

IMPORT = re.compile(r'^import Gumshoe from "\./gumshoe-patched\.js";\n', re.MULTILINE)
STYLESHEET = re.compile(r"@import url\(/javascript/([\w./-]+)\);")
DARK = re.compile(r'body\[data-theme="dark"\] \{(\s*--[^}]*)\}')
DEBIAN_JAVASCRIPT = Path("/usr/share/javascript")  # which a web server of Debian has as /javascript


def finish_theme(static: Path) -> None:
    """Rewrites the theme's script and styles in the folder `_static` of a book."""
    join_scripts(static / "scripts")
    styles = static / "styles" / "furo.css"
    styles.write_text(finished_styles(styles.read_text("utf-8")), "utf-8")


def join_scripts(scripts: Path) -> None:
    """Makes furo.js one classic script with the script that it imports, which defines the global variable Gumshoe."""
    furo, gumshoe = scripts / "furo.js", scripts / "gumshoe-patched.js"
    own, imports = IMPORT.subn("", furo.read_text("utf-8"))
    if imports:
        furo.write_text(f"{gumshoe.read_text('utf-8')}\n{own}", "utf-8")
        gumshoe.unlink()


def finished_styles(styles: str, folder: Path = DEBIAN_JAVASCRIPT) -> str:
    """Returns the styles with imported ones in place of their imports, and with dark colours on screens of a dark system."""
    whole = STYLESHEET.sub(lambda found: (folder / found[1]).read_text("utf-8"), styles)
    if dark := DARK.search(whole):
        rule = f'body:not([data-theme="light"]) {{{dark[1]}}}'
        whole += f"\n@media screen and (prefers-color-scheme: dark) {{\n{rule}\n}}\n"
    return whole

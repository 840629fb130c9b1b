"""Write the declaration of the keys of pages' texts: `python -m support.text_keys`."""

from vecmon_lab.page.build.pages import WEB
from vecmon_lab.page.build.texts import declarations

DECLARATIONS = WEB / "text_keys.d.ts"

if __name__ == "__main__":
    DECLARATIONS.write_text(declarations(), "utf-8")

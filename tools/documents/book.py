"""Builds the book, all pages of the repository as HTML: `tools/documents/book OUT`, from any folder.

The book needs no server and no network; its search works on files too. docs/book.toml lists the pages by reader. A page that it doesn't
list, a broken link, or another warning of Sphinx is an error, and then OUT isn't written. The same pages give the same bytes. OUT is
a new or empty folder, or an earlier book, which is replaced.

Exit status: 0 if the book was written, 1 for an error in the pages, 2 for wrong arguments or missing packages.
"""

import sys

from tools.documents.book_html.build import main

if __name__ == "__main__":
    sys.exit(main(sys.argv[1:], __doc__))

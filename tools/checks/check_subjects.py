"""Check the subjects of the commits after BASE: `tools/checks/check_subjects`, at the top of the repository.

A subject has at most 72 characters. Its first word, after an area such as `lab: `, is a verb in the imperative: no article, and no word
that ends in -s, -ed or -ing, except those of VERBS. A line is printed for each commit that breaks a rule. The exit status is then 1.
Without git, and in a clone without BASE, the check is left out with a note, and the status is 0. Merge commits have no rule.
"""

import re
import subprocess
import sys
from collections.abc import Iterator
from pathlib import Path

BASE = "4fb5ee49390a4d1c7782d579a2439b906e32b8ae"  # commits up to this one are older than the rule
MOST = 72  # characters of a subject
ARTICLES = {"a", "an", "the"}
VERBS = set(
    """
    access address alias bias bless bypass canvas compress cross discuss dismiss dress express focus guess harness impress miss pass press
    process progress stress suppress toss
    bleed breed embed exceed feed heed need proceed seed shed shred speed succeed weed
    bring cling ping ring sing sling spring sting string swing wing
    """.split()
)
AREA = re.compile(r"[^\s:]+(?:, [^\s:]+)*: ")


def fault(subject: str) -> str:
    """Return what is wrong with a subject, or no text."""
    if len(subject) > MOST:
        return f"{len(subject)} characters, at most {MOST}"
    area = AREA.match(subject)
    first = (subject[area.end() :] if area else subject).split(" ")[0]
    word = first.lower()
    if word in ARTICLES:
        return f"begins with the article '{first}'; begin with a verb, as in 'lab: add a test'"
    if word.endswith(("s", "ed", "ing")) and word not in VERBS:
        return f"begins with '{first}'; begin with a verb in the imperative, as in 'lab: add a test'"
    return ""


def git(top: Path, *arguments: str) -> str:
    """Return the output of a git command in a folder. Raises OSError without git, and CalledProcessError if the command fails."""
    command = ["git", "-C", str(top), *arguments]
    return subprocess.run(command, capture_output=True, text=True, check=True).stdout


def faults(top: Path, base: str) -> Iterator[str]:
    """Return a line for each commit after `base` whose subject breaks a rule. Raises as `git` does."""
    git(top, "merge-base", "--is-ancestor", base, "HEAD")
    for line in git(top, "log", "--no-merges", "--format=%h %s", f"{base}..HEAD").splitlines():
        commit, _, subject = line.partition(" ")
        if found := fault(subject):
            yield f"commit {commit}: {subject}: {found}"


def main(top: Path, base: str) -> int:
    """Print the faults, or why the check is left out; return the exit status."""
    try:
        found = list(faults(top, base))
    except (OSError, subprocess.CalledProcessError):
        print(f"note: commit subjects aren't checked: no git, no history, or no commit {base} before this one")
        return 0
    print("\n".join(found), end="\n" if found else "")
    return 1 if found else 0


if __name__ == "__main__":
    sys.exit(main(Path(), BASE))

"""Reads files of functions of whole chunks, and fails if one has a loop, an index or an array: `tools/checks/check_chunks [FILE]`,
at the top of the repository; without FILE, `src/chunk.rt` of each crate of kernels that has lanes.

A function that has none of these works only on vectors if the functions that it calls do; the tool doesn't read these. It skips comments,
attributes, texts and characters. It prints each place as `FILE: line NUMBER has WORD`; the exit status is then 1.
"""

import pathlib
import re
import sys

FILES = [f"crates/{crate}/src/chunk.rt" for crate in ("lane_arith", "lane_fixed", "lane_reduce", "mask_unit")]
BANNED = re.compile(r"\[|\b(?:for|while|loop|to_array|as_array|as_mut_array|from_fn)\b")
LITERAL = re.compile(
    r"""(?<!\w)(?:b?r(?P<hashes>\#*)".*?"(?P=hashes)   # a raw text
      | b?"(?:\\.|[^"\\])*"                            # a text
      | b?'(?:\\[^']+|\\'|[^\\'])')                    # a character, which a lifetime isn't""",
    re.DOTALL | re.VERBOSE,
)


def comment_end(text: str, start: int) -> int:
    """Where the comment ends that begins with `/*` at an index; comments nest."""
    depth = 0
    for mark in re.compile(r"/\*|\*/").finditer(text, start):
        depth += 1 if mark[0] == "/*" else -1
        if depth == 0:
            return mark.end()
    raise ValueError("a comment has no end")


def attribute_end(text: str, start: int) -> int:
    """The end of the attribute whose first bracket is at an index."""
    depth, at = 0, start
    while at < len(text):
        end = unread_end(text, at)
        depth += (text[at] == "[") - (text[at] == "]") if end == at else 0
        at = max(end, at + 1)
        if depth == 0:
            return at
    raise ValueError("an attribute has no end")


def unread_end(text: str, start: int) -> int:
    """Where the comment, attribute, text or character ends that begins at an index; that index where none does."""
    if text.startswith("//", start):
        return (text + "\n").index("\n", start)
    if text.startswith("/*", start):
        return comment_end(text, start)
    if attribute := re.compile(r"#!?\s*(?=\[)").match(text, start):
        return attribute_end(text, attribute.end())
    literal = LITERAL.match(text, start)
    return literal.end() if literal else start


def code_of(text: str) -> str:
    """The text with spaces for all that isn't code; each line keeps its number."""
    code, at = "", 0
    while at < len(text):
        end = unread_end(text, at)
        code += re.sub(r"[^\n]", " ", text[at:end]) or text[at]
        at = max(end, at + 1)
    return code


def places(file: str) -> list[str]:
    """A line for each loop, index and array of a file."""
    try:
        lines = code_of(pathlib.Path(file).read_text(encoding="utf-8")).split("\n")
    except ValueError as fault:
        return [f"{file}: {fault}"]
    found = ((number, banned[0]) for number, line in enumerate(lines, 1) for banned in BANNED.finditer(line))
    return [f"{file}: line {number} has {word}" for number, word in found]


if __name__ == "__main__":
    sys.exit("\n".join(place for file in sys.argv[1:] or FILES for place in places(file)) or None)

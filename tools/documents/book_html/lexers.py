"""Highlighting of code blocks: scripts, transcripts and sessions in `text`, and Rattle's contracts in `rust`."""

import re

from pygments.lexer import RegexLexer, bygroups, inherit, using, words
from pygments.lexers.rust import RustLexer
from pygments.lexers.shell import BashLexer
from pygments.token import Comment, Generic, Keyword, Name, Number, Operator, Text, Whitespace


class TranscriptLexer(RegexLexer):
    """Scripts and transcripts of `vecmon`, and sessions of a shell, of gdb and of the lab's console, by the start of each line.

    A line of a script or a transcript begins with a user's digit or `*`; where both are in one block, `> ` precedes lines of the script.
    All other lines are plain.
    """

    name = "vecmon"
    aliases = ["vecmon", "text"]
    flags = re.MULTILINE
    tokens = {
        "root": [
            (r"^(\$ )((?:.*\\\n)*.*)$", bygroups(Generic.Prompt, using(BashLexer))),
            (r"^(\(gdb\) |vecmon> )(.*)$", bygroups(Generic.Prompt, Keyword)),
            (r"^([1-8*])( )(E\d\d)$", bygroups(Name.Tag, Whitespace, Generic.Error)),
            (
                r"^(> )?([1-8])( )(asm)( )([0-9A-Fa-f]+)( +)([a-z.][\w.]*)",
                bygroups(
                    Generic.Prompt, Name.Tag, Whitespace, Keyword, Whitespace, Number.Hex, Whitespace, Name.Function
                ),
                "operands",
            ),
            (
                r"^([1-8])( )([0-9a-f]{16})( )([0-9a-f]{8})( )([a-z.][\w.]*)",
                bygroups(Name.Tag, Whitespace, Number.Hex, Whitespace, Number.Hex, Whitespace, Name.Function),
                "operands",
            ),
            (r"^(> )?([1-8*])( )([a-z]+)\b", bygroups(Generic.Prompt, Name.Tag, Whitespace, Keyword), "operands"),
            (r"^([1-8*])( )(?=[0-9a-f]{16}\b)", bygroups(Name.Tag, Whitespace), "operands"),
            (r"^(> )(.*)$", bygroups(Generic.Prompt, Text)),
            (r"\n", Whitespace),
            (r".+", Text),
        ],
        "operands": [
            (r"\n", Whitespace, "#pop"),
            (r"[^\S\n]+", Whitespace),
            (r"\b(?:[xv](?:[12]?\d|3[01])|pc|vl|vtype|vstart|vxrm|vxsat|vcsr)\b", Name.Variable),
            (r"\b(?:-?0x)?[0-9A-Fa-f]+\b", Number.Hex),
            (r"\b(?:e(?:8|16|32|64)|mf?[1248]|t[au]|m[au])\b", Name.Constant),
            (r"\w+|.", Text),
        ],
    }


class RattleLexer(RustLexer):
    """Rust with Rattle's contracts: the words of clauses, their names, and the symbols of their logic."""

    name = "Rattle"
    aliases = ["rattle", "rust"]
    tokens = {
        "base": [
            (r"\b(requires|ensures)(\s+)([a-z_]\w*)(?=\s*\{)", bygroups(Keyword.Declaration, Whitespace, Name.Label)),
            (words(("requires", "ensures", "invariant", "ghost"), r"\b", r"\b"), Keyword.Declaration),
            (r"--.*$", Comment.Single),
            (r"[ℕℤλ]", Keyword.Type),
            (r"[^\x00-\x7f]", Operator),
            inherit,
        ]
    }

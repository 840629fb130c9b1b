"""Scripts with each instruction as its word instead of by name."""

import json
import pathlib

from tests.command_lines.pages import DATA, read
from tests.command_lines.stored import scripts_of
from tests.program import answers, lines_of


def has_names(line: str) -> bool:
    """Whether a command line has a script with instructions by name."""
    return any("asm" in read(name).split() for name in scripts_of(line))


def by_names_and_words(program: pathlib.Path, line: str) -> tuple[list[list[str]], list[list[str]]]:
    """What is answered where instructions are poked by their words, and what should be: all as it is by name, but for `ok`
    behind the pokes. The words are those that `asm` answers, least byte first."""
    name = scripts_of(line)[0]
    words = [it for it in json.loads(line) if it != name]
    script = lines_of(read(name))
    named = answers(program, words, script, DATA)
    pokes = [_poke(asked, answer) for asked, answer in zip(script, named)]
    poked = answers(program, words, [poke or asked for asked, poke in zip(script, pokes)], DATA)
    return poked, [[f"{poke[:1]} ok"] if poke else answer for answer, poke in zip(named, pokes)]


def _poke(asked: str, answers: list[str]) -> str:
    """The `poke` of the word that an `asm` was answered by; no text for any other line."""
    match asked.split(), answers:
        case [user, "asm", *_], [answer] if len(answer.split()) == 3 and not answer.startswith(f"{user} E"):
            _, address, word = answer.split()
            return f"{user} poke {address} {bytes.fromhex(word)[::-1].hex()}"
    return ""

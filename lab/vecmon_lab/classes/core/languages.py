"""The languages of sources, by number: the lab's assembler, C with each choice of a compiler's options, and a stock assembler."""

from dataclasses import dataclass

from ...compilers.compiler import C_SOURCE, CHOICES


@dataclass(frozen=True)
class Language:
    """The language of a source.

    name: the name that pages show; suffix: the suffix of its files, without the first dot
    choice: the number of the compiler's options in CHOICES; None for the lab's assembler
    """

    name: str
    suffix: str
    choice: int | None = None


LANGUAGES = [
    Language("assembler", "s"),
    *(
        Language(f"{'C' if it.source == C_SOURCE else 'assembler'}, {it.name}", f"{it.name}.{it.source[-1]}", number)
        for number, it in enumerate(CHOICES)
    ),
]
NUMBERS = {language.suffix: number for number, language in enumerate(LANGUAGES)}
C = NUMBERS[f"{CHOICES[0].name}.c"]
"""The number of C with the default options."""


@dataclass(frozen=True)
class SourceText:
    """A source: its text, and the number of its language."""

    text: str = ""
    language: int = 0

    @property
    def suffix(self) -> str:
        """The suffix of the source's file."""
        return LANGUAGES[self.language].suffix

    @property
    def choice(self) -> int | None:
        """The number of the compiler's options; None for a source in the lab's assembler."""
        return LANGUAGES[self.language].choice
